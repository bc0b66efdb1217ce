use crate::machine::{Delivered, Issued, Machine, Protocol};
use crate::memory::Words;
use crate::net::Net;
use crate::policy::Fixed;
use crate::refusal::Refusal;

/// How much of the input is read.
pub const INPUT_MAX: usize = 65_536;

/// The letters that make calls. A line with another letter is no call.
#[derive(Clone, Copy, PartialEq, Eq, Debug)]
pub struct Letters(u32);

impl Letters {
    pub const ALL: Letters = Letters::of(b"NLSAXVDTEKF");

    /// Only capital letters count.
    pub const fn of(letters: &[u8]) -> Letters {
        let mut bits = 0;
        let mut i = 0;
        while i < letters.len() {
            if letters[i].is_ascii_uppercase() {
                bits |= 1 << (letters[i] - b'A');
            }
            i += 1;
        }
        Letters(bits)
    }

    #[inline]
    pub fn has(self, letter: u8) -> bool {
        letter.is_ascii_uppercase() && self.0 >> (letter - b'A') & 1 != 0
    }
}

#[derive(Clone, Copy, PartialEq, Eq, Debug)]
enum Call {
    Start { cores: u32, protocol: Protocol },
    Load { core: u32, wave: u32, address: u32 },
    Store { core: u32, wave: u32, address: u32, value: u32 },
    Add { core: u32, wave: u32, address: u32, value: u32 },
    Exchange { core: u32, wave: u32, address: u32, value: u32 },
    Serve { core: u32 },
    Deliver { core: u32 },
    Tick,
    Evict { address: u32 },
    Forget { core: u32, address: u32 },
    Fence { core: u32, wave: u32 },
}

#[derive(Clone, Copy, PartialEq, Eq, Debug)]
enum Said {
    Started,
    Sent,
    Served,
    Load { address: u32, value: u32 },
    Store { address: u32 },
    Atomic { address: u32, value: u32 },
    Fault { address: u32, block: u32 },
    Tick { clock: u32 },
    Evicted,
    Forgotten,
    NoCopy,
    Fenced,
}

/// A blank and a number of 1 to 10 digits. Answers what follows, too.
#[inline]
fn field(line: &[u8]) -> Option<(u32, &[u8])> {
    let rest = line.strip_prefix(b" ")?;
    let mut n = 0u64;
    let mut digits = 0;
    while let Some(d) = rest.get(digits).map(|b| b.wrapping_sub(b'0'))
        && d <= 9
    {
        if digits == 10 {
            return None;
        }
        n = n * 10 + u64::from(d);
        digits += 1;
    }
    if digits == 0 {
        return None;
    }
    Some((u32::try_from(n).ok()?, &rest[digits..]))
}

/// Exactly so many fields, and nothing more.
#[inline]
fn fields<const N: usize>(line: &[u8]) -> Option<[u32; N]> {
    let mut all = [0; N];
    let mut rest = line;
    for f in &mut all {
        (*f, rest) = field(rest)?;
    }
    rest.is_empty().then_some(all)
}

/// The call of a line without its byte 10.
#[inline]
fn read(line: &[u8], letters: Letters) -> Option<Call> {
    let (&letter, rest) = line.split_first()?;
    if !letters.has(letter) {
        return None;
    }
    Some(match letter {
        b'N' => {
            let (cores, rest) = field(rest)?;
            let protocol = match rest {
                b" S" => Protocol::Strong,
                b" W" => Protocol::Weak,
                _ => return None,
            };
            Call::Start { cores, protocol }
        }
        b'L' => {
            let [core, wave, address] = fields(rest)?;
            Call::Load { core, wave, address }
        }
        b'S' => {
            let [core, wave, address, value] = fields(rest)?;
            Call::Store { core, wave, address, value }
        }
        b'A' => {
            let [core, wave, address, value] = fields(rest)?;
            Call::Add { core, wave, address, value }
        }
        b'X' => {
            let [core, wave, address, value] = fields(rest)?;
            Call::Exchange { core, wave, address, value }
        }
        b'V' => {
            let [core] = fields(rest)?;
            Call::Serve { core }
        }
        b'D' => {
            let [core] = fields(rest)?;
            Call::Deliver { core }
        }
        b'T' => {
            let [] = fields(rest)?;
            Call::Tick
        }
        b'E' => {
            let [address] = fields(rest)?;
            Call::Evict { address }
        }
        b'K' => {
            let [core, address] = fields(rest)?;
            Call::Forget { core, address }
        }
        b'F' => {
            let [core, wave] = fields(rest)?;
            Call::Fence { core, wave }
        }
        _ => return None,
    })
}

type PlayerMachine = Machine<Words, Fixed>;

#[inline]
fn make(machine: &mut PlayerMachine, call: Call) -> Result<Said, Refusal> {
    Ok(match call {
        Call::Start { cores, protocol } => {
            machine.start(cores, protocol)?;
            Said::Started
        }
        Call::Load { core, wave, address } => match machine.load(core, wave, address)? {
            Issued::Sent => Said::Sent,
            Issued::Hit(value) => Said::Load { address, value },
        },
        Call::Store { core, wave, address, value } => {
            machine.store(core, wave, address, value)?;
            Said::Sent
        }
        Call::Add { core, wave, address, value } => {
            machine.add(core, wave, address, value)?;
            Said::Sent
        }
        Call::Exchange { core, wave, address, value } => {
            machine.exchange(core, wave, address, value)?;
            Said::Sent
        }
        Call::Serve { core } => {
            machine.serve(core)?;
            Said::Served
        }
        Call::Deliver { core } => match machine.deliver(core)? {
            Delivered::Load { address, value } => Said::Load { address, value },
            Delivered::Store { address } => Said::Store { address },
            Delivered::Atomic { address, value } => Said::Atomic { address, value },
            Delivered::Fault { address, block } => Said::Fault { address, block },
        },
        Call::Tick => Said::Tick { clock: machine.tick()? },
        Call::Evict { address } => {
            machine.evict(address)?;
            Said::Evicted
        }
        Call::Forget { core, address } => {
            if machine.forget(core, address)? { Said::Forgotten } else { Said::NoCopy }
        }
        Call::Fence { core, wave } => {
            let ticket = machine.open(core, wave)?;
            if let Err((refusal, ticket)) = machine.end(ticket) {
                // The line tells what End answered.
                let _ = machine.withdraw(ticket);
                return Err(refusal);
            }
            Said::Fenced
        }
    })
}

#[inline]
fn number(out: &mut Vec<u8>, mut n: u32) {
    let mut digits = [0; 10];
    let mut at = digits.len();
    loop {
        at -= 1;
        digits[at] = b'0' + (n % 10) as u8;
        n /= 10;
        if n == 0 {
            break;
        }
    }
    out.extend_from_slice(&digits[at..]);
}

#[inline]
fn word_and(out: &mut Vec<u8>, word: &[u8], a: u32) {
    out.extend_from_slice(word);
    number(out, a);
}

#[inline]
fn write(out: &mut Vec<u8>, line: u32, said: Result<Said, Refusal>) {
    number(out, line);
    match said {
        Ok(Said::Started) => out.extend_from_slice(b" started"),
        Ok(Said::Sent) => out.extend_from_slice(b" sent"),
        Ok(Said::Served) => out.extend_from_slice(b" served"),
        Ok(Said::Load { address, value }) => {
            word_and(out, b" load ", address);
            word_and(out, b" ", value);
        }
        Ok(Said::Store { address }) => word_and(out, b" store ", address),
        Ok(Said::Atomic { address, value }) => {
            word_and(out, b" atomic ", address);
            word_and(out, b" ", value);
        }
        Ok(Said::Fault { address, block }) => {
            word_and(out, b" fault ", address);
            word_and(out, b" ", block);
        }
        Ok(Said::Tick { clock }) => word_and(out, b" tick ", clock),
        Ok(Said::Evicted) => out.extend_from_slice(b" evicted"),
        Ok(Said::Forgotten) => out.extend_from_slice(b" forgotten"),
        Ok(Said::NoCopy) => out.extend_from_slice(b" no copy"),
        Ok(Said::Fenced) => out.extend_from_slice(b" fenced"),
        Err(refusal) => {
            word_and(out, b" refused ", refusal.number());
            out.push(b' ');
            out.extend_from_slice(refusal.text().as_bytes());
        }
    }
    out.push(b'\n');
}

/// Plays a script and adds what is printed to `out`.
pub fn play(input: &[u8], letters: Letters, out: &mut Vec<u8>) {
    let mut rest = &input[..input.len().min(INPUT_MAX)];
    let mut machine = Machine::new(Net::new(32), Net::new(32), Words::zero(4096), Fixed::new(10));
    let mut line = 0;
    while !rest.is_empty() {
        line += 1;
        let said = match rest.iter().position(|&b| b == b'\n') {
            Some(end) => {
                let call = read(&rest[..end], letters);
                rest = &rest[end + 1..];
                match call {
                    Some(call) => make(&mut machine, call),
                    None => Err(Refusal::NotACall),
                }
            }
            None => {
                rest = &[];
                Err(Refusal::NotACall)
            }
        };
        write(out, line, said);
    }
}

#[cfg(test)]
mod tests {
    use super::*;

    fn played(input: &[u8]) -> String {
        let mut out = Vec::new();
        play(input, Letters::ALL, &mut out);
        String::from_utf8(out).unwrap()
    }

    #[test]
    fn the_example() {
        let input = b"N 2 S\nL 0 0 5\nV 0\nD 0\nS 1 0 5 9\nV 1\nF 1 0\n";
        let output = "1 started\n2 sent\n3 served\n4 load 5 0\n5 sent\n\
                      6 refused 7 lease still runs\n7 refused 14 fence not over\n";
        assert_eq!(played(input), output);
    }

    #[test]
    fn every_answer_of_the_player() {
        let input = b"N 2 W\nX 0 3 7 4294967295\nA 0 3 7 2\nV 0\nV 0\nD 0\nD 0\nL 0 0 7\nV 0\nD 0\n\
                      L 0 0 7\nK 0 7\nK 0 7\nE 7\nE 7\nS 1 0 7 5\nV 1\nD 1\nF 1 0\nF 1 1\nT\nE 7\n";
        let output = "1 started\n2 sent\n3 sent\n4 served\n5 served\n6 atomic 7 0\n\
                      7 atomic 7 4294967295\n8 sent\n9 served\n10 load 7 1\n11 load 7 1\n\
                      12 forgotten\n13 no copy\n14 evicted\n15 refused 9 no line there\n16 sent\n\
                      17 served\n18 store 7\n19 refused 14 fence not over\n20 fenced\n21 tick 2\n\
                      22 evicted\n";
        assert_eq!(played(input), output);
    }

    #[test]
    fn lines_that_are_no_calls() {
        let no: &[&[u8]] = &[
            b"", b" ", b"t", b"T ", b" T", b"T 1", b"T\r", b"T\t", b"T\0", b"\0", b"Z 1", b"V", b"V ",
            b"V  0", b"V 0 ", b"V 0 0", b"V -1", b"V +1", b"V 0x1", b"V\t0", b"V 4294967296",
            b"V 00000000000", b"V 99999999999", b"N 1", b"N 1 s", b"N 1 X", b"N 1 S ", b"N S",
            b"N 1 SS", b"N  1 S", b"N 1  S", b"N 1 S 1", b"L 0 0", b"L 0 0 0 0", b"S 0 0 0",
            b"S 0 0 0 0 0", b"A 0 0 0", b"X 0 0 0", b"D", b"E", b"E 1 1", b"K 0", b"K 0 0 0", b"F 0",
            b"F 0 0 0", b"\xff", b"V \xb0",
        ];
        for line in no {
            assert_eq!(read(line, Letters::ALL), None, "{line:?}");
        }
        assert_eq!(read(b"V 4294967295", Letters::ALL), Some(Call::Serve { core: u32::MAX }));
        assert_eq!(read(b"V 0000000005", Letters::ALL), Some(Call::Serve { core: 5 }));
        assert_eq!(read(b"V 0", Letters::of(b"NLST")), None);
        let start = Call::Start { cores: 1, protocol: Protocol::Strong };
        assert_eq!(read(b"N 1 S", Letters::of(b"N")), Some(start));
    }

    #[test]
    fn rests() {
        assert_eq!(played(b""), "");
        assert_eq!(played(b"T"), "1 refused 16 not a call\n");
        assert_eq!(played(b"\n"), "1 refused 16 not a call\n");
        assert_eq!(played(b"T\nT"), "1 tick 2\n2 refused 16 not a call\n");
    }

    #[test]
    fn only_the_first_64_kib() {
        let ticks = b"T\n".repeat(INPUT_MAX / 2);
        let all = played(&ticks);
        assert!(all.ends_with("\n32768 tick 32769\n"));
        let mut more = ticks.clone();
        more.extend_from_slice(b"T\nT\n");
        assert_eq!(played(&more), all);
        // A line cut there is a rest.
        let mut cut = b"\n".to_vec();
        cut.extend_from_slice(&ticks);
        assert!(played(&cut).ends_with("\n32768 tick 32768\n32769 refused 16 not a call\n"));
    }

    #[test]
    fn before_start() {
        let input = b"L 0 0 5\nS 0 0 5 1\nA 0 0 5 1\nX 0 0 5 1\nV 0\nD 0\nK 0 5\nF 0 0\nE 5\nE 4096\nT\n\
                      N 0 S\nN 17 W\nN 16 W\nT\nN 1 S\n";
        let one = "refused 1 unknown core or wave";
        let mut output = String::new();
        for n in 1..=8 {
            output += &format!("{n} {one}\n");
        }
        output += "9 refused 9 no line there\n10 refused 2 unknown address\n11 tick 2\n\
                   12 refused 15 cannot start\n13 refused 15 cannot start\n14 started\n15 tick 2\n\
                   16 refused 15 cannot start\n";
        assert_eq!(played(input), output);
    }
}
