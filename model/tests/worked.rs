//! The worked cases: two cores, lifetime 10, word 5 holds 7.

use tcmodel::*;

type Small = Machine<Words, Fixed>;

fn over<P: Policy>(policy: P) -> Machine<Words, P> {
    let mut words = vec![0; 64];
    words[5] = 7;
    Machine::new(Net::new(8), Net::new(8), Words::new(words), policy)
}

fn two_cores(protocol: Protocol) -> Small {
    let mut m = over(Fixed::new(10));
    m.start(2, protocol).unwrap();
    m
}

fn tick_to<P: Policy>(m: &mut Machine<Words, P>, clock: u32) {
    while m.clock() < clock {
        m.tick().unwrap();
    }
}

/// Core 0's load of address 5, served and delivered at tick 1.
fn leased(protocol: Protocol) -> Small {
    let mut m = two_cores(protocol);
    assert_eq!(m.load(0, 0, 5), Ok(Issued::Sent));
    assert_eq!(m.serve(0), Ok(()));
    let answer = m.answers().oldest(0).unwrap();
    assert_eq!(answer.reply, Reply::Load { value: 7, stamp: 11 });
    assert_eq!(m.deliver(0), Ok(Delivered::Load { address: 5, value: 7 }));
    m
}

#[test]
fn a_load_served_at_1_gets_stamp_11() {
    let m = leased(Protocol::Strong);
    assert_eq!(m.stamp(5), 11);
}

#[test]
fn a_strong_store_waits_at_1_and_11_and_is_served_at_12() {
    let mut m = leased(Protocol::Strong);
    m.store(1, 0, 5, 9).unwrap();
    assert_eq!(m.serve(1), Err(Refusal::LeaseRuns));
    tick_to(&mut m, 11);
    assert_eq!(m.serve(1), Err(Refusal::LeaseRuns));
    tick_to(&mut m, 12);
    assert_eq!(m.serve(1), Ok(()));
    assert_eq!(m.answers().oldest(1).unwrap().reply, Reply::Store { stamp: 0 });
    assert_eq!(m.deliver(1), Ok(Delivered::Store { address: 5 }));
}

#[test]
fn a_copy_hits_at_11_and_misses_at_12() {
    let mut m = leased(Protocol::Strong);
    tick_to(&mut m, 11);
    assert_eq!(m.load(0, 0, 5), Ok(Issued::Hit(7)));
    tick_to(&mut m, 12);
    assert_eq!(m.load(0, 0, 5), Ok(Issued::Sent));
}

#[test]
fn no_raise_while_a_store_waits() {
    for waits in [false, true] {
        let mut m = leased(Protocol::Strong);
        m.store(1, 0, 5, 9).unwrap();
        if waits {
            assert_eq!(m.serve(1), Err(Refusal::LeaseRuns));
        }
        assert_eq!(m.forget(0, 5), Ok(true));
        tick_to(&mut m, 5);
        m.load(0, 0, 5).unwrap();
        m.serve(0).unwrap();
        let stamp = if waits { 11 } else { 15 };
        assert_eq!(m.answers().oldest(0).unwrap().reply, Reply::Load { value: 7, stamp });
    }
}

#[test]
fn a_waiting_lane_holds_the_stamp_even_after_it_is_over() {
    let mut m = leased(Protocol::Strong);
    m.store(1, 0, 5, 9).unwrap();
    assert_eq!(m.serve(1), Err(Refusal::LeaseRuns));
    tick_to(&mut m, 20);
    assert_eq!(m.load(0, 0, 5), Ok(Issued::Sent));
    m.serve(0).unwrap();
    assert_eq!(m.answers().oldest(0).unwrap().reply, Reply::Load { value: 7, stamp: 11 });
    m.deliver(0).unwrap();
    assert_eq!(m.forget(0, 5), Ok(true), "the copy of tick 1 is still there, and over");
    assert_eq!(m.forget(0, 5), Ok(false), "the answer left no copy");
    m.serve(1).unwrap();
    m.load(0, 0, 5).unwrap();
    m.serve(0).unwrap();
    assert_eq!(m.answers().oldest(0).unwrap().reply, Reply::Load { value: 9, stamp: 30 });
}

#[test]
fn a_weak_store_answers_11_and_its_fence_ends_at_12() {
    let mut m = leased(Protocol::Weak);
    m.store(1, 3, 5, 9).unwrap();
    m.serve(1).unwrap();
    assert_eq!(m.answers().oldest(1).unwrap().reply, Reply::Store { stamp: 11 });
    m.deliver(1).unwrap();
    let ticket = m.open(1, 3).unwrap();
    tick_to(&mut m, 11);
    let (refusal, ticket) = m.end(ticket).unwrap_err();
    assert_eq!(refusal, Refusal::FenceNotOver);
    assert_eq!(m.load(1, 3, 0), Err(Refusal::FenceOpen));
    assert_eq!(m.store(1, 3, 0, 1), Err(Refusal::FenceOpen));
    assert_eq!(m.load(1, 2, 0), Ok(Issued::Sent));
    tick_to(&mut m, 12);
    assert_eq!(m.end(ticket), Ok(()));
    assert_eq!(m.load(1, 3, 0), Ok(Issued::Sent));
}

#[test]
fn an_evicted_line_keeps_11() {
    let mut m = leased(Protocol::Strong);
    assert_eq!(m.evict(5), Ok(()));
    assert_eq!((m.lines(), m.stamp(5)), (0, 11));
    m.store(1, 0, 5, 9).unwrap();
    tick_to(&mut m, 11);
    assert_eq!(m.serve(1), Err(Refusal::LeaseRuns));
    tick_to(&mut m, 12);
    assert_eq!(m.serve(1), Ok(()));
    assert_eq!(m.stamp(5), 0);
}

#[test]
fn a_learner_at_3_told_of_a_write_stands_at_0() {
    let mut p = Learner::new(3, 100);
    p.tell(Event::WriteMetRunning);
    assert_eq!(p.lifetime(), 0);
    p.tell(Event::LoadMetOver);
    assert_eq!(p.lifetime(), 4);
    p.tell(Event::LeftRunning);
    assert_eq!(p.lifetime(), 0);
    let mut p = Learner::new(5000, 5000);
    assert_eq!((p.lifetime(), p.longest()), (4096, 4096));
    p.tell(Event::LoadMetOver);
    assert_eq!(p.lifetime(), 4096);
    assert_eq!(Learner::new(9, 5).lifetime(), 5);
    assert_eq!(Fixed::new(4097).lifetime(), 4096);
}

#[test]
fn the_learner_hears_of_the_three_events() {
    let mut m = over(Learner::new(20, 30));
    m.start(1, Protocol::Weak).unwrap();
    let once = |m: &mut Machine<Words, Learner>| {
        m.serve(0).unwrap();
        m.deliver(0).unwrap();
        m.policy().lifetime()
    };
    m.load(0, 0, 5).unwrap();
    assert_eq!(once(&mut m), 20, "a load that made its line tells nothing");
    m.store(0, 0, 5, 1).unwrap();
    assert_eq!(once(&mut m), 12, "a store met a running stamp");
    m.evict(5).unwrap();
    assert_eq!(m.policy().lifetime(), 4, "a line left with a running stamp");
    m.add(0, 0, 5, 1).unwrap();
    assert_eq!(once(&mut m), 0, "an atomic met a running kept stamp");
    tick_to(&mut m, 30);
    m.load(0, 0, 5).unwrap();
    m.serve(0).unwrap();
    // Asked before told: the lease is still of lifetime 0.
    assert_eq!(m.answers().oldest(0).unwrap().reply, Reply::Load { value: 2, stamp: 30 });
    assert_eq!(m.policy().lifetime(), 4, "a load met a line that is over");
    m.deliver(0).unwrap();
    m.tick().unwrap();
    m.evict(5).unwrap();
    assert_eq!(m.policy().lifetime(), 4, "a line that is over leaves silently");
    assert_eq!(m.memory().read(5), Ok(2));
}

#[test]
fn an_unreadable_word() {
    let memory = Words::zero(10).mark(5, 77);
    let mut m = Machine::new(Net::new(8), Net::new(8), memory, Learner::new(10, 10));
    m.start(1, Protocol::Weak).unwrap();
    m.load(0, 0, 5).unwrap();
    m.add(0, 0, 5, 1).unwrap();
    m.exchange(0, 0, 5, 1).unwrap();
    for _ in 0..3 {
        m.serve(0).unwrap();
        assert_eq!(m.deliver(0), Ok(Delivered::Fault { address: 5, block: 77 }));
    }
    assert_eq!(m.lines(), 0);
    // A store needs no reading, but its line cannot go.
    m.store(0, 0, 5, 3).unwrap();
    m.serve(0).unwrap();
    m.deliver(0).unwrap();
    let before = m.clone();
    assert_eq!(m.evict(5), Err(Refusal::Unreadable { block: 77, address: 5 }));
    assert_eq!(m, before);
    m.add(0, 0, 5, 1).unwrap();
    m.serve(0).unwrap();
    assert_eq!(m.deliver(0), Ok(Delivered::Atomic { address: 5, value: 3 }));
}

#[test]
fn a_full_bank_refuses_before_memory_is_read() {
    let memory = Words::zero(4096).mark(300, 2);
    let mut m = Machine::new(Net::new(8), Net::new(8), memory, Fixed::new(10));
    m.start(1, Protocol::Strong).unwrap();
    for a in 0..256 {
        m.load(0, 0, a).unwrap();
        m.serve(0).unwrap();
        m.deliver(0).unwrap();
    }
    m.load(0, 0, 300).unwrap();
    assert_eq!(m.serve(0), Err(Refusal::BankFull));
    m.evict(0).unwrap();
    assert_eq!(m.serve(0), Ok(()));
    assert_eq!(m.deliver(0), Ok(Delivered::Fault { address: 300, block: 2 }));
}

#[test]
fn kept_stamps_full() {
    let mut m = Machine::new(Net::new(8), Net::new(8), Words::zero(4096), Fixed::new(10));
    m.start(1, Protocol::Strong).unwrap();
    let lease = |m: &mut Small, a| {
        m.load(0, 0, a).unwrap();
        m.serve(0).unwrap();
        m.deliver(0).unwrap();
    };
    for a in 0..128 {
        lease(&mut m, a);
        m.evict(a).unwrap();
    }
    lease(&mut m, 200);
    m.tick().unwrap();
    lease(&mut m, 201);
    assert_eq!(m.evict(201), Err(Refusal::KeptFull));
    // A line made anew takes its kept stamp away and frees the place.
    lease(&mut m, 7);
    assert_eq!(m.evict(201), Ok(()));
    assert_eq!(m.evict(200), Err(Refusal::KeptFull));
    tick_to(&mut m, 12);
    assert_eq!(m.evict(7), Ok(()), "kept stamps that are over count as gone");
    assert_eq!((m.stamp(7), m.stamp(201), m.stamp(6)), (12, 12, 0));
    assert_eq!(m.evict(200), Ok(()), "an over stamp is not kept");
}

#[test]
fn full_pending_and_full_lanes() {
    let mut m = Machine::new(Net::new(40), Net::new(2), Words::zero(64), Fixed::new(10));
    m.start(1, Protocol::Weak).unwrap();
    for _ in 0..32 {
        m.load(0, 0, 1).unwrap();
    }
    assert_eq!(m.load(0, 0, 1), Err(Refusal::PendingFull));
    m.serve(0).unwrap();
    m.serve(0).unwrap();
    assert_eq!(m.serve(0), Err(Refusal::LaneFull));
    let mut m = Machine::new(Net::new(1), Net::new(1), Words::zero(64), Fixed::new(10));
    m.start(1, Protocol::Weak).unwrap();
    m.load(0, 0, 1).unwrap();
    m.serve(0).unwrap();
    m.deliver(0).unwrap();
    m.load(0, 0, 2).unwrap();
    assert_eq!(m.store(0, 0, 1, 9), Err(Refusal::LaneFull));
    assert_eq!(m.load(0, 0, 1), Ok(Issued::Hit(0)), "a refused store drops no copy");
}

#[test]
fn a_load_after_an_own_store_leaves_no_stale_copy() {
    let mut m = two_cores(Protocol::Weak);
    m.load(0, 0, 5).unwrap();
    m.store(0, 0, 5, 1).unwrap();
    m.serve(0).unwrap();
    m.deliver(0).unwrap();
    assert_eq!(m.forget(0, 5), Ok(false), "a store on the address was pending");
    assert_eq!(m.load(0, 0, 5), Ok(Issued::Sent));
}

#[test]
fn starting() {
    let make = |r, a| Machine::new(Net::new(r), Net::new(a), Words::zero(8), Fixed::new(1));
    assert_eq!(make(0, 1).start(1, Protocol::Weak), Err(Refusal::CannotStart));
    assert_eq!(make(1, 0).start(1, Protocol::Weak), Err(Refusal::CannotStart));
    assert_eq!(make(1, 1).start(0, Protocol::Weak), Err(Refusal::CannotStart));
    assert_eq!(make(1, 1).start(17, Protocol::Weak), Err(Refusal::CannotStart));
    let mut full = Net::new(1);
    full.put(15, Request::default()).unwrap();
    let mut m = Machine::new(full, Net::new(1), Words::zero(8), Fixed::new(1));
    assert_eq!(m.start(1, Protocol::Weak), Err(Refusal::CannotStart));
    let mut m = make(1, 1);
    m.tick().unwrap();
    assert_eq!(m.start(16, Protocol::Weak), Ok(()));
    assert_eq!(m.clock(), 1);
    assert_eq!(m.start(1, Protocol::Weak), Err(Refusal::CannotStart));
}

#[test]
fn fences_and_tickets() {
    let mut m = two_cores(Protocol::Weak);
    let mut other = two_cores(Protocol::Weak);
    assert_eq!(m.open(2, 0), Err(Refusal::UnknownCore));
    assert_eq!(m.open(0, 48), Err(Refusal::UnknownCore));
    let t = m.open(0, 47).unwrap();
    assert_eq!(m.open(0, 47), Err(Refusal::FenceOpen));
    let (refusal, t) = other.end(t).unwrap_err();
    assert_eq!(refusal, Refusal::NoFence);
    assert_eq!(m.withdraw(t), Ok(()));
    let t = m.open(0, 47).unwrap();
    assert_eq!(other.withdraw(t), Err(Refusal::NoFence));
    // A load of the wave, and a store of another, do not hold a fence.
    m.load(0, 1, 3).unwrap();
    m.store(0, 2, 3, 1).unwrap();
    let t = m.open(0, 1).unwrap();
    assert_eq!(m.end(t), Ok(()));
    let t = m.open(0, 2).unwrap();
    let (refusal, t) = m.end(t).unwrap_err();
    assert_eq!(refusal, Refusal::FenceNotOver);
    assert_eq!(m.withdraw(t), Ok(()));
}

#[test]
fn the_clock_ends() {
    let mut m = two_cores(Protocol::Strong);
    m.set_clock(CLOCK_END - 1);
    assert_eq!(m.tick(), Ok(4_294_963_199));
    assert_eq!(m.tick(), Err(Refusal::ClockAtEnd));
    m.load(0, 0, 5).unwrap();
    m.serve(0).unwrap();
    assert_eq!(m.stamp(5), CLOCK_END + 10);
}

#[test]
fn messages_as_words() {
    let r = Request { op: Op::Exchange(8), wave: 3, address: 9 };
    assert_eq!(r.words(), [4, 3, 9, 8, 0]);
    assert_eq!(Request { op: Op::Load, wave: 3, address: 9 }.words(), [1, 3, 9, 0, 0]);
    let a = |reply| Answer { reply, wave: 3, address: 9 }.words();
    assert_eq!(a(Reply::Load { value: 4, stamp: 5 }), [1, 3, 9, 4, 5]);
    assert_eq!(a(Reply::Store { stamp: 5 }), [2, 3, 9, 0, 5]);
    assert_eq!(a(Reply::Atomic { value: 4, stamp: 5 }), [3, 3, 9, 4, 5]);
    assert_eq!(a(Reply::Fault { block: 6 }), [4, 3, 9, 6, 0]);
}
