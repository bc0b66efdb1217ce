use crate::bank::Bank;
use crate::core::{Core, Pending, WAVES};
use crate::memory::Memory;
use crate::message::{Answer, Op, Reply, Request};
use crate::net::{LANES, Net};
use crate::policy::Policy;
use crate::{CLOCK_END, Refusal};

#[derive(Clone, Copy, PartialEq, Eq, Debug)]
pub enum Protocol {
    Strong,
    Weak,
}

/// What came of a load.
#[derive(Clone, Copy, PartialEq, Eq, Debug)]
pub enum Issued {
    Sent,
    Hit(u32),
}

/// What a delivery hands to the core.
#[derive(Clone, Copy, PartialEq, Eq, Debug)]
pub enum Delivered {
    Load { address: u32, value: u32 },
    Store { address: u32 },
    Atomic { address: u32, value: u32 },
    Fault { address: u32, block: u32 },
}

/// An open fence of a core and wave. It is to be ended or withdrawn.
#[must_use]
#[derive(PartialEq, Eq, Debug)]
pub struct Ticket {
    core: u32,
    wave: u32,
}

#[derive(Clone, PartialEq, Eq, Debug)]
pub struct Machine<M, P> {
    cores: Vec<Core>,
    bank: Bank,
    requests: Net<Request>,
    answers: Net<Answer>,
    memory: M,
    policy: P,
    clock: u32,
    protocol: Protocol,
}

impl<M: Memory, P: Policy> Machine<M, P> {
    pub fn new(requests: Net<Request>, answers: Net<Answer>, memory: M, policy: P) -> Self {
        Machine {
            cores: Vec::new(),
            bank: Bank::new(),
            requests,
            answers,
            memory,
            policy,
            clock: 1,
            protocol: Protocol::Strong,
        }
    }

    pub fn clock(&self) -> u32 {
        self.clock
    }

    pub fn memory(&self) -> &M {
        &self.memory
    }

    pub fn policy(&self) -> &P {
        &self.policy
    }

    pub fn requests(&self) -> &Net<Request> {
        &self.requests
    }

    pub fn answers(&self) -> &Net<Answer> {
        &self.answers
    }

    /// How many lines the bank has.
    pub fn lines(&self) -> usize {
        self.bank.lines()
    }

    /// The stamp of an address below 4,096, as the bank has it.
    pub fn stamp(&self, address: u32) -> u32 {
        self.bank.stamp(address, self.clock)
    }

    /// Sets the clock, so that tests reach its end.
    pub fn set_clock(&mut self, clock: u32) {
        assert!((1..=CLOCK_END).contains(&clock));
        self.clock = clock;
    }

    pub fn start(&mut self, cores: u32, protocol: Protocol) -> Result<(), Refusal> {
        let ready = self.requests.is_empty()
            && self.answers.is_empty()
            && self.requests.depth() > 0
            && self.answers.depth() > 0;
        if !(1..=LANES as u32).contains(&cores) || !self.cores.is_empty() || !ready {
            return Err(Refusal::CannotStart);
        }
        self.cores = vec![Core::new(); cores as usize];
        self.protocol = protocol;
        self.clock = 1;
        Ok(())
    }

    /// Checks 1, 2 and 3 of an issue.
    #[inline]
    fn issuer(&mut self, core: u32, wave: u32, address: u32) -> Result<&mut Core, Refusal> {
        let size = self.memory.size();
        let Some(c) = self.cores.get_mut(core as usize) else {
            return Err(Refusal::UnknownCore);
        };
        if wave >= WAVES {
            return Err(Refusal::UnknownCore);
        }
        if address >= size {
            return Err(Refusal::UnknownAddress);
        }
        if c.fence_open(wave) {
            return Err(Refusal::FenceOpen);
        }
        Ok(c)
    }

    /// Checks 4 and 5, then puts and notes a request.
    #[inline]
    fn send(&mut self, core: u32, request: Request) -> Result<(), Refusal> {
        let c = &mut self.cores[core as usize];
        if c.pending_full() {
            return Err(Refusal::PendingFull);
        }
        self.requests.put(core as usize, request)?;
        let Request { op, wave, address } = request;
        if op.writes() {
            c.drop_copy(address);
        }
        c.note(Pending { address, wave, writes: op.writes() });
        Ok(())
    }

    #[inline]
    pub fn load(&mut self, core: u32, wave: u32, address: u32) -> Result<Issued, Refusal> {
        let clock = self.clock;
        let c = self.issuer(core, wave, address)?;
        if let Some(value) = c.hit(address, clock) {
            return Ok(Issued::Hit(value));
        }
        self.send(core, Request { op: Op::Load, wave: wave as u8, address })?;
        Ok(Issued::Sent)
    }

    #[inline]
    fn write(&mut self, core: u32, wave: u32, address: u32, op: Op) -> Result<(), Refusal> {
        self.issuer(core, wave, address)?;
        self.send(core, Request { op, wave: wave as u8, address })
    }

    #[inline]
    pub fn store(&mut self, core: u32, wave: u32, address: u32, v: u32) -> Result<(), Refusal> {
        self.write(core, wave, address, Op::Store(v))
    }

    #[inline]
    pub fn add(&mut self, core: u32, wave: u32, address: u32, v: u32) -> Result<(), Refusal> {
        self.write(core, wave, address, Op::Add(v))
    }

    #[inline]
    pub fn exchange(&mut self, core: u32, wave: u32, address: u32, v: u32) -> Result<(), Refusal> {
        self.write(core, wave, address, Op::Exchange(v))
    }

    #[inline]
    pub fn serve(&mut self, core: u32) -> Result<(), Refusal> {
        if core as usize >= self.cores.len() {
            return Err(Refusal::UnknownCore);
        }
        let lane = core as usize;
        let Some(&request) = self.requests.oldest(lane) else {
            return Err(Refusal::NothingWaits);
        };
        if self.answers.is_full(lane) {
            return Err(Refusal::LaneFull);
        }
        let strong = self.protocol == Protocol::Strong;
        let reply = self.bank.serve(
            lane,
            &request,
            strong,
            self.clock,
            &self.memory,
            &mut self.policy,
        )?;
        self.requests.take(lane);
        self.answers.put(lane, Answer { reply, wave: request.wave, address: request.address })
    }

    #[inline]
    pub fn deliver(&mut self, core: u32) -> Result<Delivered, Refusal> {
        let clock = self.clock;
        let Some(c) = self.cores.get_mut(core as usize) else {
            return Err(Refusal::UnknownCore);
        };
        if !c.has_pending() {
            return Err(Refusal::NothingWaits);
        }
        let Some(answer) = self.answers.take(core as usize) else {
            return Err(Refusal::NothingWaits);
        };
        let Some(Pending { address, wave, .. }) = c.take_pending() else {
            return Err(Refusal::NothingWaits);
        };
        Ok(match answer.reply {
            Reply::Load { value, stamp } => {
                c.fill(address, value, stamp, clock);
                Delivered::Load { address, value }
            }
            Reply::Store { stamp } => {
                c.raise_visible_by(wave, stamp);
                Delivered::Store { address }
            }
            Reply::Atomic { value, stamp } => {
                c.raise_visible_by(wave, stamp);
                Delivered::Atomic { address, value }
            }
            Reply::Fault { block } => Delivered::Fault { address, block },
        })
    }

    #[inline]
    pub fn tick(&mut self) -> Result<u32, Refusal> {
        if self.clock >= CLOCK_END {
            return Err(Refusal::ClockAtEnd);
        }
        self.clock += 1;
        Ok(self.clock)
    }

    pub fn evict(&mut self, address: u32) -> Result<(), Refusal> {
        self.bank.evict(address, self.clock, &mut self.memory, &mut self.policy)
    }

    /// Says whether there was a copy.
    pub fn forget(&mut self, core: u32, address: u32) -> Result<bool, Refusal> {
        let Some(c) = self.cores.get_mut(core as usize) else {
            return Err(Refusal::UnknownCore);
        };
        if address >= self.memory.size() {
            return Err(Refusal::UnknownAddress);
        }
        Ok(c.drop_copy(address))
    }

    pub fn open(&mut self, core: u32, wave: u32) -> Result<Ticket, Refusal> {
        let Some(c) = self.cores.get_mut(core as usize) else {
            return Err(Refusal::UnknownCore);
        };
        if wave >= WAVES {
            return Err(Refusal::UnknownCore);
        }
        if c.fence_open(wave) {
            return Err(Refusal::FenceOpen);
        }
        c.set_fence(wave);
        Ok(Ticket { core, wave })
    }

    /// The core of a ticket whose fence is open here.
    fn fenced(&mut self, ticket: &Ticket) -> Option<&mut Core> {
        let c = self.cores.get_mut(ticket.core as usize)?;
        c.fence_open(ticket.wave).then_some(c)
    }

    /// A refusal gives the ticket back.
    pub fn end(&mut self, ticket: Ticket) -> Result<(), (Refusal, Ticket)> {
        let clock = self.clock;
        let Some(c) = self.fenced(&ticket) else {
            return Err((Refusal::NoFence, ticket));
        };
        if !c.fence_over(ticket.wave, clock) {
            return Err((Refusal::FenceNotOver, ticket));
        }
        c.clear_fence(ticket.wave);
        Ok(())
    }

    pub fn withdraw(&mut self, ticket: Ticket) -> Result<(), Refusal> {
        let Some(c) = self.fenced(&ticket) else {
            return Err(Refusal::NoFence);
        };
        c.clear_fence(ticket.wave);
        Ok(())
    }
}
