//! Random calls: laws that hold whatever the calls are.

use std::collections::VecDeque;
use tcmodel::scripts::Rng;
use tcmodel::*;

const CORES: u32 = 3;
const SIZE: u32 = 6;

/// One operation on the plain memory: the value that it answers.
fn plain(words: &mut [Option<u32>], op: Op, address: u32) -> Option<u32> {
    let word = &mut words[address as usize];
    let old = *word;
    match op {
        Op::Load => {}
        Op::Store(v) => {
            *word = Some(v);
            return None;
        }
        Op::Add(v) => *word = old.map(|w| w.wrapping_add(v)),
        Op::Exchange(v) => *word = old.map(|_| v),
    }
    old
}

/// Under TC-Strong every load and atomic answers as one plain memory does that is fed each hit
/// when it is made and each request when it is served. And a refused call alters nothing, save
/// that 7 marks the lane.
#[test]
fn strong_is_a_plain_memory() {
    let (mut hits, mut waits, mut faults, mut values) = (0, 0, 0, 0);
    for seed in 0..300 {
        let mut rng = Rng::new(seed);
        let mut words: Vec<u32> = (0..SIZE).map(|_| rng.below(100) as u32).collect();
        let memory = Words::new(words.clone()).mark(2, 9);
        let depth = 1 + rng.below(6) as usize;
        let policy = Learner::new(rng.below(20) as u32, 24);
        let mut m = Machine::new(Net::new(depth), Net::new(depth), memory, policy);
        m.start(CORES, Protocol::Strong).unwrap();
        let mut truth: Vec<Option<u32>> = words.drain(..).map(Some).collect();
        truth[2] = None;
        let mut sent: Vec<VecDeque<(Op, u32)>> = vec![VecDeque::new(); CORES as usize];
        let mut expected: Vec<VecDeque<Delivered>> = vec![VecDeque::new(); CORES as usize];
        for _ in 0..600 {
            let core = rng.below(CORES as u64) as u32;
            let c = core as usize;
            let address = rng.below(SIZE as u64) as u32;
            let v = rng.below(1000) as u32;
            let before = m.clone();
            let refused = match rng.below(12) {
                0..3 => match m.load(core, 0, address) {
                    Ok(Issued::Hit(value)) => {
                        hits += 1;
                        assert_eq!(plain(&mut truth, Op::Load, address), Some(value), "seed {seed}");
                        None
                    }
                    Ok(Issued::Sent) => {
                        sent[c].push_back((Op::Load, address));
                        None
                    }
                    Err(e) => Some(e),
                },
                3 | 4 => {
                    let (op, r) = match rng.below(3) {
                        0 => (Op::Store(v), m.store(core, 0, address, v)),
                        1 => (Op::Add(v), m.add(core, 0, address, v)),
                        _ => (Op::Exchange(v), m.exchange(core, 0, address, v)),
                    };
                    if r.is_ok() {
                        sent[c].push_back((op, address));
                    }
                    r.err()
                }
                5..8 => match m.serve(core) {
                    Ok(()) => {
                        let (op, address) = sent[c].pop_front().unwrap();
                        let word = plain(&mut truth, op, address);
                        expected[c].push_back(match (op, word) {
                            (Op::Store(_), _) => Delivered::Store { address },
                            (_, None) => Delivered::Fault { address, block: 9 },
                            (Op::Load, Some(value)) => Delivered::Load { address, value },
                            (_, Some(value)) => Delivered::Atomic { address, value },
                        });
                        None
                    }
                    Err(Refusal::LeaseRuns) => {
                        waits += 1;
                        None
                    }
                    Err(e) => Some(e),
                },
                8..10 => match m.deliver(core) {
                    Ok(got) => {
                        assert_eq!(Some(got), expected[c].pop_front(), "seed {seed}");
                        match got {
                            Delivered::Fault { .. } => faults += 1,
                            _ => values += 1,
                        }
                        None
                    }
                    Err(e) => Some(e),
                },
                10 => m.tick().err(),
                _ => match rng.below(2) {
                    0 => m.evict(address).err(),
                    _ => m.forget(core, address).err(),
                },
            };
            if refused.is_some() {
                assert_eq!(m, before, "seed {seed}: a refusal altered something");
            }
        }
    }
    assert!(hits > 500 && waits > 500 && faults > 500 && values > 5000, "{hits} {waits} {faults} {values}");
}
