//! Scripts from a seed, by profile.

use crate::Letters;
use crate::player::INPUT_MAX;

/// A small generator (splitmix64).
pub struct Rng(u64);

impl Rng {
    pub fn new(seed: u64) -> Self {
        Rng(seed.wrapping_mul(0x9e37_79b9_7f4a_7c15) ^ 0x5bf0_3635)
    }

    pub fn next(&mut self) -> u64 {
        self.0 = self.0.wrapping_add(0x9e37_79b9_7f4a_7c15);
        let mut z = self.0;
        z = (z ^ (z >> 30)).wrapping_mul(0xbf58_476d_1ce4_e5b9);
        z = (z ^ (z >> 27)).wrapping_mul(0x94d0_49bb_1331_11eb);
        z ^ (z >> 31)
    }

    /// Below n, which is not 0.
    pub fn below(&mut self, n: u64) -> u64 {
        self.next() % n
    }

    /// Once in n.
    fn one_in(&mut self, n: u64) -> bool {
        self.below(n) == 0
    }

    fn pick<T: Copy>(&mut self, all: &[T]) -> T {
        all[self.below(all.len() as u64) as usize]
    }
}

#[derive(Clone, Copy, PartialEq, Eq, Debug)]
pub enum Profile {
    /// Few addresses and many cores.
    Hot,
    /// Leases that expire between one call and the next.
    Expire,
    /// Bursts that fill the pending requests and the lanes.
    Bursts,
    /// More addresses than the bank has lines.
    Lines,
    /// More running stamps than can be kept.
    Kept,
    /// Stores, atomics and fences of a few waves.
    Fences,
    /// Addresses that share a place at the core.
    Places,
    /// Cores, waves and addresses at and past their bounds; calls before start.
    Bounds,
    /// Calls with errors in their lines.
    Damaged,
    /// Arbitrary bytes.
    Bytes,
    /// Input at and past 64 KiB.
    Long,
    /// A few lines, some without an end.
    Short,
}

pub const PROFILES: [Profile; 12] = [
    Profile::Hot,
    Profile::Expire,
    Profile::Bursts,
    Profile::Lines,
    Profile::Kept,
    Profile::Fences,
    Profile::Places,
    Profile::Bounds,
    Profile::Damaged,
    Profile::Bytes,
    Profile::Long,
    Profile::Short,
];

/// The profile of a seed. Profiles take turns.
pub fn profile_of(seed: u64) -> Profile {
    PROFILES[(seed % PROFILES.len() as u64) as usize]
}

/// The lines of a script, each with its byte 10; the last one may have none.
pub fn make(profile: Profile, seed: u64, letters: Letters) -> Vec<Vec<u8>> {
    let mut m = Maker { rng: Rng::new(seed), lines: Vec::new(), letters, cores: 1 };
    match profile {
        Profile::Hot => m.hot(),
        Profile::Expire => m.expire(),
        Profile::Bursts => m.bursts(),
        Profile::Lines => m.bank_lines(),
        Profile::Kept => m.kept(),
        Profile::Fences => m.fences(),
        Profile::Places => m.places(),
        Profile::Bounds => m.bounds(),
        Profile::Damaged => m.damaged(),
        Profile::Bytes => m.bytes(),
        Profile::Long => m.long(),
        Profile::Short => m.short(),
    }
    m.lines
}

/// A script of 64 KiB for measuring: lines that are played once, then others again and again. It is
/// filled up with ticks.
pub fn full(once: &[Vec<u8>], again: &[Vec<u8>]) -> Vec<u8> {
    let mut all = Vec::with_capacity(INPUT_MAX);
    for line in once.iter().chain(again.iter().cycle()) {
        if all.len() + line.len() > INPUT_MAX {
            break;
        }
        all.extend_from_slice(line);
    }
    while all.len() + 2 <= INPUT_MAX {
        all.extend_from_slice(b"T\n");
    }
    all
}

/// Weights of the calls in a random mixture.
struct Mix {
    load: u64,
    store: u64,
    atomic: u64,
    serve: u64,
    deliver: u64,
    tick: u64,
    evict: u64,
    forget: u64,
    fence: u64,
}

const EVEN: Mix = Mix {
    load: 6,
    store: 3,
    atomic: 3,
    serve: 13,
    deliver: 13,
    tick: 2,
    evict: 1,
    forget: 1,
    fence: 1,
};

struct Maker {
    rng: Rng,
    lines: Vec<Vec<u8>>,
    letters: Letters,
    cores: u64,
}

impl Maker {
    /// Adds a call, if its letter is one of the letters.
    fn call(&mut self, letter: u8, fields: &[u64]) {
        if !self.letters.has(letter) {
            return;
        }
        let mut line = vec![letter];
        for f in fields {
            line.extend_from_slice(format!(" {f}").as_bytes());
        }
        line.push(b'\n');
        self.lines.push(line);
    }

    fn start(&mut self, cores: u64, protocol: u8) {
        self.cores = cores.clamp(1, 16);
        if self.letters.has(b'N') {
            self.lines.push(format!("N {cores} {}\n", protocol as char).into_bytes());
        }
    }

    fn start_any(&mut self, cores: &[u64]) {
        let cores = self.rng.pick(cores);
        let protocol = self.rng.pick(b"SW");
        self.start(cores, protocol);
    }

    fn core(&mut self) -> u64 {
        self.rng.below(self.cores)
    }

    fn value(&mut self) -> u64 {
        match self.rng.below(8) {
            0 => u32::MAX as u64,
            1 => self.rng.below(1 << 32),
            _ => self.rng.below(100),
        }
    }

    fn ticks(&mut self, n: u64) {
        for _ in 0..n {
            self.call(b'T', &[]);
        }
    }

    /// A load, store, add or exchange; a store if that letter makes no call.
    fn write(&mut self, letter: u8, core: u64, wave: u64, address: u64) {
        let letter = if self.letters.has(letter) { letter } else { b'S' };
        if letter == b'L' {
            self.call(b'L', &[core, wave, address]);
        } else {
            let value = self.value();
            self.call(letter, &[core, wave, address, value]);
        }
    }

    /// One call of a mixture.
    fn one(&mut self, mix: &Mix, addresses: &[u64], waves: &[u64]) {
        let core = self.core();
        let wave = self.rng.pick(waves);
        let address = self.rng.pick(addresses);
        let parts = [
            mix.load, mix.store, mix.atomic, mix.serve, mix.deliver, mix.tick, mix.evict, mix.forget,
            mix.fence,
        ];
        let mut n = self.rng.below(parts.iter().sum());
        let mut part = 0;
        while n >= parts[part] {
            n -= parts[part];
            part += 1;
        }
        match part {
            0 => self.call(b'L', &[core, wave, address]),
            1 => self.write(b'S', core, wave, address),
            2 => {
                let letter = self.rng.pick(b"AX");
                self.write(letter, core, wave, address);
            }
            3 => self.call(b'V', &[core]),
            4 => self.call(b'D', &[core]),
            5 => self.call(b'T', &[]),
            6 => self.call(b'E', &[address]),
            7 => self.call(b'K', &[core, address]),
            _ => self.call(b'F', &[core, wave]),
        }
    }

    fn mixture(&mut self, n: u64, mix: &Mix, addresses: &[u64], waves: &[u64]) {
        for _ in 0..n {
            self.one(mix, addresses, waves);
        }
    }

    /// So many different addresses of the memory.
    fn some_addresses(&mut self, n: u64) -> Vec<u64> {
        let first = self.rng.below(4096);
        let step = self.rng.pick(&[1, 1, 3, 64, 127]);
        (0..n).map(|i| (first + i * step) % 4096).collect()
    }

    fn hot(&mut self) {
        self.start_any(&[2, 3, 4, 8, 15, 16]);
        let n = 1 + self.rng.below(5);
        let addresses = self.some_addresses(n);
        let n = 300 + self.rng.below(900);
        self.mixture(n, &EVEN, &addresses, &[0, 1, 47]);
    }

    fn expire(&mut self) {
        self.start_any(&[1, 2, 3, 4]);
        let n = 1 + self.rng.below(4);
        let addresses = self.some_addresses(n);
        let mix = Mix { tick: 0, ..EVEN };
        for _ in 0..30 + self.rng.below(40) {
            let n = 3 + self.rng.below(15);
            self.mixture(n, &mix, &addresses, &[0, 1]);
            let n = self.rng.pick(&[1, 1, 2, 5, 9, 10, 11, 12, 20]);
            self.ticks(n);
            if self.rng.one_in(2) {
                self.at_the_end_of_a_lease(&addresses);
            }
        }
    }

    /// A lease, and what is made of it at its last tick or one beside that.
    fn at_the_end_of_a_lease(&mut self, addresses: &[u64]) {
        let (core, other) = (self.core(), self.core());
        let address = self.rng.pick(addresses);
        self.call(b'K', &[core, address]);
        self.write(b'L', core, 0, address);
        self.call(b'V', &[core]);
        self.call(b'D', &[core]);
        if self.rng.one_in(3) {
            self.call(b'E', &[address]);
        }
        let letter = self.rng.pick(b"SAX");
        if self.rng.one_in(2) {
            self.write(letter, other, 1, address);
            self.call(b'V', &[other]);
            self.call(b'D', &[other]);
        }
        let n = self.rng.pick(&[9, 10, 10, 11]);
        self.ticks(n);
        for _ in 0..3 {
            match self.rng.below(4) {
                0 => self.call(b'L', &[core, 0, address]),
                1 => self.call(b'F', &[other, 1]),
                2 => self.write(letter, other, 1, address),
                _ => self.call(b'E', &[address]),
            }
            self.call(b'V', &[other]);
            self.call(b'D', &[other]);
        }
    }

    fn bursts(&mut self) {
        self.start_any(&[1, 2, 3]);
        let n = 1 + self.rng.below(8);
        let addresses = self.some_addresses(n);
        for _ in 0..4 + self.rng.below(6) {
            let core = self.core();
            for _ in 0..self.rng.below(45) {
                let letter = self.rng.pick(b"LLLSAX");
                let address = self.rng.pick(&addresses);
                let wave = self.rng.below(3);
                self.write(letter, core, wave, address);
            }
            for _ in 0..self.rng.below(45) {
                self.call(b'V', &[core]);
                if self.rng.one_in(6) {
                    self.call(b'T', &[]);
                }
            }
            for _ in 0..self.rng.below(45) {
                self.call(b'D', &[core]);
                if self.rng.one_in(6) {
                    let address = self.rng.pick(&addresses);
                    self.call(b'L', &[core, 0, address]);
                }
            }
            let n = self.rng.below(13);
            self.ticks(n);
        }
    }

    /// A request that is served and delivered at once, or not quite.
    fn round(&mut self, letter: u8, core: u64, wave: u64, address: u64) {
        self.write(letter, core, wave, address);
        self.call(b'V', &[core]);
        if !self.rng.one_in(12) {
            self.call(b'D', &[core]);
        }
    }

    fn bank_lines(&mut self) {
        self.start_any(&[1, 2, 5]);
        let addresses = self.some_addresses(300);
        let n = 250 + self.rng.below(20);
        for &address in &addresses[..n as usize] {
            let core = self.core();
            let letter = self.rng.pick(b"LLSAX");
            self.round(letter, core, 0, address);
            if self.rng.one_in(40) {
                self.call(b'T', &[]);
            }
        }
        for _ in 0..60 + self.rng.below(60) {
            let address = self.rng.pick(&addresses);
            let core = self.core();
            match self.rng.below(5) {
                0 => self.call(b'E', &[address]),
                1 => self.call(b'T', &[]),
                2 => self.call(b'D', &[core]),
                _ => {
                    let letter = self.rng.pick(b"LLSAX");
                    self.round(letter, core, 0, address);
                }
            }
        }
    }

    fn kept(&mut self) {
        self.start_any(&[1, 2, 3]);
        let addresses = self.some_addresses(200);
        for _ in 0..1 + self.rng.below(2) {
            for &address in &addresses[..120 + self.rng.below(80) as usize] {
                let core = self.core();
                let letter = if self.rng.one_in(15) { self.rng.pick(b"SAX") } else { b'L' };
                self.write(letter, core, 0, address);
                self.call(b'V', &[core]);
                self.call(b'D', &[core]);
                if !self.rng.one_in(15) {
                    self.call(b'E', &[address]);
                }
                if self.rng.one_in(25) {
                    self.call(b'T', &[]);
                }
            }
            for _ in 0..60 {
                let address = self.rng.pick(&addresses);
                let core = self.core();
                match self.rng.below(4) {
                    0 => self.call(b'T', &[]),
                    1 => self.call(b'E', &[address]),
                    _ => {
                        let letter = self.rng.pick(b"LSAX");
                        self.round(letter, core, 0, address);
                    }
                }
            }
        }
    }

    fn fences(&mut self) {
        let protocol = self.rng.pick(b"WWWS");
        let cores = self.rng.pick(&[1, 2, 4]);
        self.start(cores, protocol);
        let n = 1 + self.rng.below(3);
        let addresses = self.some_addresses(n);
        let mix = Mix { fence: 8, tick: 4, ..EVEN };
        for _ in 0..20 + self.rng.below(20) {
            self.mixture(20, &mix, &addresses, &[0, 0, 1, 47, 48]);
            if self.rng.one_in(4) {
                let n = self.rng.below(12);
                self.ticks(n);
            }
        }
    }

    fn places(&mut self) {
        self.start_any(&[1, 1, 2, 3]);
        let first = self.rng.below(64);
        let addresses: Vec<u64> = (0..2 + self.rng.below(3)).map(|i| first + 64 * i).collect();
        let mix = Mix { store: 1, atomic: 1, tick: 1, forget: 3, load: 10, ..EVEN };
        let n = 300 + self.rng.below(500);
        self.mixture(n, &mix, &addresses, &[0]);
    }

    fn bounds(&mut self) {
        let cores = [0, 1, 2, 15, 16, 17, 255, 256, 257, 65_536, 65_537, u32::MAX as u64];
        let waves = [0, 1, 46, 47, 48, 49, 255, 256, 303, 65_536, u32::MAX as u64];
        let addresses = [
            0, 1, 63, 64, 4_094, 4_095, 4_096, 4_097, 8_191, 65_536, 69_631, u32::MAX as u64,
        ];
        for _ in 0..100 + self.rng.below(300) {
            if self.rng.one_in(12) {
                let n = self.rng.pick(&cores);
                let protocol = self.rng.pick(b"SW");
                if self.letters.has(b'N') {
                    self.lines.push(format!("N {n} {}\n", protocol as char).into_bytes());
                }
                continue;
            }
            let core = if self.rng.one_in(3) { self.rng.pick(&cores) } else { self.rng.below(2) };
            let wave = if self.rng.one_in(3) { self.rng.pick(&waves) } else { 0 };
            let address = self.rng.pick(&addresses);
            match self.rng.below(10) {
                0 => self.call(b'E', &[address]),
                1 => self.call(b'K', &[core, address]),
                2 => self.call(b'F', &[core, wave]),
                3 => self.call(b'T', &[]),
                4 | 5 => self.call(b'V', &[core]),
                6 | 7 => self.call(b'D', &[core]),
                _ => {
                    let letter = self.rng.pick(b"LLSAX");
                    self.write(letter, core, wave, address);
                }
            }
        }
    }

    /// A few lines of a well-formed script.
    fn well_formed(&mut self, n: u64) {
        self.start_any(&[1, 2, 16]);
        let k = 1 + self.rng.below(4);
        let addresses = self.some_addresses(k);
        self.mixture(n, &EVEN, &addresses, &[0, 47]);
    }

    /// One error in a line, which includes its byte 10.
    fn damage(&mut self, line: &mut Vec<u8>) {
        const ODD: &[u8] = b" \t\r\0\n0/:9;-+.,_~\x0b\x0c\x1f!\x7f\x80\xa0\xb0\xff";
        let end = line.len() - 1;
        let at = self.rng.below(line.len() as u64) as usize;
        match self.rng.below(18) {
            0 => line.insert(at, self.rng.pick(ODD)),
            1 => line[at] = self.rng.pick(ODD),
            2 => _ = line.remove(at),
            3 => line[at] = self.rng.below(256) as u8,
            4 => line[at] ^= 1 << self.rng.below(8),
            5 => line[0] = line[0].to_ascii_lowercase(),
            6 => line[0] = b'A' + self.rng.below(26) as u8,
            7 => line.insert(end, b' '),
            8 => line.insert(0, b' '),
            9 => line.insert(end, b'\r'),
            // A further field.
            10 => _ = line.splice(end..end, b" 0".iter().copied()),
            // The last field gone.
            11 => {
                if let Some(blank) = line.iter().rposition(|&b| b == b' ') {
                    line.drain(blank..end);
                }
            }
            // A blank doubled.
            12 => {
                if let Some(blank) = line.iter().rposition(|&b| b == b' ') {
                    line.insert(blank, b' ');
                }
            }
            // A field of another number.
            13..16 => {
                let blanks: Vec<usize> = (0..end).filter(|&i| line[i] == b' ').collect();
                if let Some(&blank) = blanks.get(self.rng.below(5) as usize) {
                    let from = blank + 1;
                    let to = (from..=end).find(|&i| !line[i].is_ascii_digit()).unwrap_or(end);
                    let other = self.rng.pick(&[
                        "", "00", "0000000000", "00000000000", "0000000005", "00000000005",
                        "4294967295", "4294967296", "4294967297", "9999999999", "10000000000",
                        "04294967295", "4294967295 ", "18446744073709551616", "18446744073709551621",
                        "340282366920938463463374607431768211456", "-1", "+1", "0x1", "1e1", "1.0",
                        "4096", "4095", "48", "16",
                    ]);
                    line.splice(from..to, other.bytes());
                }
            }
            // A very long number.
            16 => {
                let n = self.rng.pick(&[12, 100, 300, 5000]);
                let digit = self.rng.pick(b"0019");
                let long = vec![digit; n];
                line.splice(end..end, long);
            }
            // The protocol letter.
            _ => {
                if let Some(b) = line[..end].last_mut() {
                    *b = self.rng.pick(b"swXNT S");
                }
            }
        }
    }

    fn damaged(&mut self) {
        let n = 100 + self.rng.below(400);
        self.well_formed(n);
        let each = 1 + self.rng.below(6);
        let mut lines = std::mem::take(&mut self.lines);
        for (i, line) in lines.iter_mut().enumerate() {
            // The start is left whole more often, so that the rest means something.
            if self.rng.one_in(if i == 0 { 8 } else { each }) {
                self.damage(line);
                if self.rng.one_in(8) && line.len() > 1 {
                    self.damage(line);
                }
            }
        }
        self.lines = lines;
        self.join_unended();
        if self.rng.one_in(3) {
            self.cut_end();
        }
    }

    /// Damage may have taken or made a byte 10; lines are then split anew.
    fn join_unended(&mut self) {
        let all = self.lines.concat();
        self.lines = all.split_inclusive(|&b| b == b'\n').map(<[u8]>::to_vec).collect();
    }

    /// Takes the last byte 10 away.
    fn cut_end(&mut self) {
        if let Some(line) = self.lines.last_mut() {
            line.pop();
            if line.is_empty() {
                self.lines.pop();
            }
        }
    }

    fn bytes(&mut self) {
        let alphabets: [&[u8]; 4] =
            [b"NLSAXVDTEKF 0123456789\n", b"T\n", b"VD 01\n\n", b"\n \t\r\0T4S\xff"];
        let which = self.rng.below(5) as usize;
        let n = self.rng.pick(&[1u64, 10, 300, 3000]);
        if self.rng.one_in(2) {
            self.start(2, b'W');
        }
        let mut bytes = Vec::new();
        for _ in 0..self.rng.below(n) + 1 {
            bytes.push(match alphabets.get(which) {
                Some(a) => self.rng.pick(a),
                None => self.rng.below(256) as u8,
            });
        }
        self.lines.push(bytes);
        self.join_unended();
    }

    fn long(&mut self) {
        match self.rng.below(5) {
            // Many short lines.
            0 => {
                let line = self.rng.pick(&[&b"\n"[..], b"T\n", b"V 0\n"]);
                if self.rng.one_in(2) {
                    self.start(1, b'S');
                }
                self.lines.resize(self.lines.len() + INPUT_MAX / line.len() + 3, line.to_vec());
            }
            // One line that is too long for anything.
            1 => {
                self.well_formed(20);
                let digit = self.rng.pick(b"0 1T");
                self.lines.push(vec![digit; INPUT_MAX]);
            }
            _ => {
                self.start_any(&[2, 16]);
                let n = 1 + self.rng.below(40);
                let addresses = self.some_addresses(n);
                let mut size = 0;
                let mut counted = 0;
                while size < INPUT_MAX + 40 {
                    self.one(&EVEN, &addresses, &[0, 1]);
                    for line in &self.lines[counted..] {
                        size += line.len();
                    }
                    counted = self.lines.len();
                }
            }
        }
        // Cut near the bound, or leave more behind it.
        let all = self.lines.concat();
        let near = (INPUT_MAX - 8) as u64 + self.rng.below(17);
        let size = if self.rng.one_in(4) { all.len() } else { (near as usize).min(all.len()) };
        self.lines = all[..size].split_inclusive(|&b| b == b'\n').map(<[u8]>::to_vec).collect();
    }

    fn short(&mut self) {
        let n = self.rng.below(12);
        self.well_formed(n);
        if self.rng.one_in(4) {
            self.lines.clear();
        }
        if self.rng.one_in(3) {
            self.lines.insert(0, b"T\n".to_vec());
        }
        if self.rng.one_in(2) {
            self.cut_end();
        }
    }
}

/// How often each answer was printed: by its first word, and refusals by number.
#[derive(Clone, Default, PartialEq, Eq, Debug)]
pub struct Met(std::collections::BTreeMap<String, u64>);

impl Met {
    pub fn add(&mut self, output: &[u8]) {
        for line in output.split(|&b| b == b'\n').filter(|l| !l.is_empty()) {
            let text = String::from_utf8_lossy(line);
            let mut words = text.split(' ').skip(1);
            let mut key = words.next().unwrap_or("").to_string();
            if key == "refused" {
                key = format!("refused {:>2}", words.next().unwrap_or(""));
            }
            *self.0.entry(key).or_default() += 1;
        }
    }

    pub fn join(&mut self, other: &Met) {
        for (k, n) in &other.0 {
            *self.0.entry(k.clone()).or_default() += n;
        }
    }

    pub fn count(&self, key: &str) -> u64 {
        self.0.get(key).copied().unwrap_or(0)
    }

    pub fn iter(&self) -> impl Iterator<Item = (&str, u64)> {
        self.0.iter().map(|(k, &n)| (k.as_str(), n))
    }
}

#[cfg(test)]
mod tests {
    use super::*;
    use crate::play;

    fn met(seeds: u64, letters: Letters) -> Met {
        let mut met = Met::default();
        for seed in 0..seeds {
            let script = make(profile_of(seed), seed, letters).concat();
            let mut out = Vec::new();
            play(&script, letters, &mut out);
            met.add(&out);
        }
        met
    }

    #[test]
    fn the_scripts_reach_every_answer_that_a_script_can() {
        let met = met(240, Letters::ALL);
        for key in [
            "started", "sent", "served", "load", "store", "atomic", "tick", "evicted", "forgotten",
            "no", "fenced", "refused  1", "refused  2", "refused  4", "refused  6", "refused  7",
            "refused  8", "refused  9", "refused 10", "refused 14", "refused 15", "refused 16",
        ] {
            assert!(met.count(key) >= 20, "{key}: {}", met.count(key));
        }
        for key in ["fault", "refused  3", "refused  5", "refused 11", "refused 12", "refused 13"] {
            assert_eq!(met.count(key), 0, "{key}");
        }
    }

    #[test]
    fn and_with_fewer_letters() {
        let met = met(240, Letters::of(b"NLSVDT"));
        for key in ["sent", "load", "store", "refused  4", "refused  7", "refused  8", "refused 16"] {
            assert!(met.count(key) >= 20, "{key}: {}", met.count(key));
        }
        for key in ["atomic", "evicted", "forgotten", "fenced"] {
            assert_eq!(met.count(key), 0, "{key}");
        }
    }

    #[test]
    fn full_scripts_are_full() {
        for profile in [Profile::Hot, Profile::Expire, Profile::Lines, Profile::Bounds] {
            let lines = make(profile, 1, Letters::ALL);
            let size = full(&lines, &lines[1..]).len();
            assert!(size == INPUT_MAX || size == INPUT_MAX - 1, "{size}");
        }
    }
}
