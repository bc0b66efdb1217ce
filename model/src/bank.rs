use crate::memory::{Fault, MAX_SIZE, Memory};
use crate::message::{Op, Reply, Request};
use crate::net::LANES;
use crate::policy::{Event, Policy};
use crate::{Refusal, runs};

const LINES: usize = 256;
const KEPT: usize = 128;

#[derive(Clone, Copy, PartialEq, Eq, Debug)]
struct Line {
    address: u32,
    value: u32,
    stamp: u32,
    changed: bool,
}

#[derive(Clone, Copy, PartialEq, Eq, Debug)]
struct Kept {
    address: u32,
    stamp: u32,
}

/// Where the bank has something about an address.
#[derive(Clone, Copy, PartialEq, Eq, Debug)]
enum At {
    Nowhere,
    Line(u16),
    Kept(u16),
}

#[derive(Clone, PartialEq, Eq, Debug)]
pub struct Bank {
    lines: Vec<Line>,
    /// May hold stamps that are over; they count as gone.
    kept: Vec<Kept>,
    at: Box<[At]>,
    /// The address on which each lane waits.
    waits: [u32; LANES],
    /// One bit for each lane that waits.
    waiting: u16,
}

impl Bank {
    pub fn new() -> Self {
        Bank {
            lines: Vec::with_capacity(LINES),
            kept: Vec::with_capacity(KEPT),
            at: vec![At::Nowhere; MAX_SIZE as usize].into_boxed_slice(),
            waits: [0; LANES],
            waiting: 0,
        }
    }

    pub fn lines(&self) -> usize {
        self.lines.len()
    }

    /// The stamp of an address: its line's, else a running kept one, else 0.
    #[inline]
    pub fn stamp(&self, address: u32, clock: u32) -> u32 {
        match self.at[address as usize] {
            At::Nowhere => 0,
            At::Line(i) => self.lines[i as usize].stamp,
            At::Kept(i) => {
                let stamp = self.kept[i as usize].stamp;
                if runs(stamp, clock) { stamp } else { 0 }
            }
        }
    }

    #[inline]
    fn some_lane_waits(&self, address: u32) -> bool {
        let mut rest = self.waiting;
        while rest != 0 {
            if self.waits[rest.trailing_zeros() as usize] == address {
                return true;
            }
            rest &= rest - 1;
        }
        false
    }

    fn drop_kept(&mut self, index: usize) {
        let gone = self.kept.swap_remove(index);
        self.at[gone.address as usize] = At::Nowhere;
        if let Some(moved) = self.kept.get(index) {
            self.at[moved.address as usize] = At::Kept(index as u16);
        }
    }

    /// A line for an address that has none. The kept stamp goes.
    fn make_line(&mut self, address: u32, value: u32, clock: u32) -> usize {
        let stamp = self.stamp(address, clock);
        if let At::Kept(i) = self.at[address as usize] {
            self.drop_kept(i as usize);
        }
        let index = self.lines.len();
        self.lines.push(Line { address, value, stamp, changed: false });
        self.at[address as usize] = At::Line(index as u16);
        index
    }

    /// Serves one request of a lane, or refuses it with 7 or 8.
    #[inline]
    pub fn serve<M: Memory, P: Policy>(
        &mut self,
        lane: usize,
        request: &Request,
        strong: bool,
        clock: u32,
        memory: &M,
        policy: &mut P,
    ) -> Result<Reply, Refusal> {
        let address = request.address;
        if strong && request.op.writes() && runs(self.stamp(address, clock), clock) {
            self.waits[lane] = address;
            self.waiting |= 1 << lane;
            return Err(Refusal::LeaseRuns);
        }
        let found = match self.at[address as usize] {
            At::Line(i) => Some(i as usize),
            _ if self.lines.len() == LINES => return Err(Refusal::BankFull),
            _ => None,
        };
        self.waiting &= !(1 << lane);
        let index = match found {
            Some(i) => i,
            None => {
                let value = match request.op {
                    Op::Store(_) => 0,
                    _ => match memory.read(address) {
                        Ok(word) => word,
                        Err(Fault::Unreadable { block }) => return Ok(Reply::Fault { block }),
                        Err(Fault::UnknownAddress) => unreachable!("issuing checks the address"),
                    },
                };
                self.make_line(address, value, clock)
            }
        };
        let line = self.lines[index];
        let met_running = runs(line.stamp, clock);
        let (value, reply) = match request.op {
            Op::Load => {
                let mut stamp = line.stamp;
                if !self.some_lane_waits(address) {
                    stamp = stamp.max(clock + policy.lifetime());
                    self.lines[index].stamp = stamp;
                }
                if found.is_some() && !met_running {
                    policy.tell(Event::LoadMetOver);
                }
                return Ok(Reply::Load { value: line.value, stamp });
            }
            Op::Store(v) => (v, None),
            Op::Add(v) => (line.value.wrapping_add(v), Some(line.value)),
            Op::Exchange(v) => (v, Some(line.value)),
        };
        let l = &mut self.lines[index];
        l.value = value;
        l.changed = true;
        if met_running {
            policy.tell(Event::WriteMetRunning);
        }
        let stamp = if met_running { line.stamp } else { 0 };
        Ok(match reply {
            None => Reply::Store { stamp },
            Some(value) => Reply::Atomic { value, stamp },
        })
    }

    pub fn evict<M: Memory, P: Policy>(
        &mut self,
        address: u32,
        clock: u32,
        memory: &mut M,
        policy: &mut P,
    ) -> Result<(), Refusal> {
        if address >= memory.size() {
            return Err(Refusal::UnknownAddress);
        }
        let At::Line(index) = self.at[address as usize] else {
            return Err(Refusal::NoLine);
        };
        let index = index as usize;
        let line = self.lines[index];
        let running = runs(line.stamp, clock);
        let full = self.kept.len() == KEPT;
        if running && full && self.kept.iter().all(|k| runs(k.stamp, clock)) {
            return Err(Refusal::KeptFull);
        }
        if line.changed
            && let Err(fault) = memory.write(address, line.value)
        {
            return Err(match fault {
                Fault::Unreadable { block } => Refusal::Unreadable { block, address },
                Fault::UnknownAddress => Refusal::UnknownAddress,
            });
        }
        self.lines.swap_remove(index);
        if let Some(moved) = self.lines.get(index) {
            self.at[moved.address as usize] = At::Line(index as u16);
        }
        self.at[address as usize] = At::Nowhere;
        if running {
            if full {
                self.drop_over(clock);
            }
            self.at[address as usize] = At::Kept(self.kept.len() as u16);
            self.kept.push(Kept { address, stamp: line.stamp });
            policy.tell(Event::LeftRunning);
        }
        Ok(())
    }

    /// Frees the places of kept stamps that are over.
    fn drop_over(&mut self, clock: u32) {
        let mut i = 0;
        while i < self.kept.len() {
            if runs(self.kept[i].stamp, clock) {
                i += 1;
            } else {
                self.drop_kept(i);
            }
        }
    }
}
