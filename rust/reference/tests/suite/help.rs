//! What several modules use.

use reference::gate;
use reference::rules;
use reference::state::{Admission, Counts, Levels, Packet, Queue, State};

pub use reference::gate::{Answer, Call};

/// The five profiles.
pub const PROFILES: [u32; 5] = [1, 2, 3, 4, 5];

/// The longest on-time of each of them.
pub const ON_TIMES: [(u32, u32); 5] = [(1, 1_000), (2, 500), (3, 4_000), (4, 4_000), (5, 1_000)];

/// The two ways that a gate is made in: a full queue drops its oldest, or it
/// refuses.
pub const WAYS: [u32; 2] = [0, 1];

/// The most offers that a state accepts.
pub const ACCEPTED_MOST: u64 = 1_000_000_000_000_000;

/// Counts, in their order, with nothing displaced.
pub fn counts(accepted: u64, sent: u64, expired: u64) -> Counts {
    Counts {
        accepted,
        sent,
        expired,
        displaced: 0,
    }
}

/// Counts with so many displaced.
pub fn displaced(displaced: u64, counts: Counts) -> Counts {
    Counts {
        displaced,
        ..counts
    }
}

/// What was counted from one state's counts to another's.
pub fn since(start: Counts, now: Counts) -> Counts {
    Counts {
        accepted: now.accepted - start.accepted,
        sent: now.sent - start.sent,
        expired: now.expired - start.expired,
        displaced: now.displaced - start.displaced,
    }
}

/// A list of four levels above level 0, each with a wait of its own.
pub fn four_levels() -> Levels {
    let listed = [
        (300_000, 200_000),
        (400_000, 400_000),
        (500_000, 500_000),
        (600_000, 1_000_000),
    ];
    Levels::of(40_000, &listed)
}

/// The list that a gate of the profile is made with in most tests.
pub fn list(profile: u32) -> Levels {
    match profile {
        5 => four_levels(),
        _ => Levels::default(),
    }
}

/// A make with that list.
pub fn made(profile: u32, oldway: u32, stamp: u32) -> (State, Answer) {
    gate::make(profile, oldway, &list(profile), stamp)
}

/// A fresh state at stamp 0, made in the new way.
pub fn fresh(profile: u32) -> State {
    let (state, answer) = made(profile, 0, 0);
    assert_eq!(answer, Answer::Ready);
    state
}

/// The state as if it had been made in the old way.
pub fn old(state: State) -> State {
    State { oldway: 1, ..state }
}

/// An admission.
pub fn admission(at: u64, ontime: u32) -> Admission {
    Admission { at, ontime }
}

/// A packet of the longest on-time that the profile allows.
pub fn packet(profile: u32, id: u32, priority: u32, lifetime: u32, arrival: u64) -> Packet {
    Packet {
        id,
        priority,
        ontime: rules::on_time_max(profile).unwrap(),
        lifetime,
        arrival,
    }
}

/// A sound state late in a run, with so many packets in each queue.
pub fn late(profile: u32, lengths: [usize; 4]) -> State {
    let time = 5_000_000_000;
    let mut state = fresh(profile);
    state.stamp = 77;
    state.time = time;
    state = state.with_admissions(&[admission(time - 10_000, 1)]);
    for (priority, length) in lengths.into_iter().enumerate() {
        let waiting: Vec<Packet> = (0..length)
            .map(|i| {
                let arrival = time - 900 + 100 * i as u64;
                packet(profile, 10 + i as u32, priority as u32, 1_000_000, arrival)
            })
            .collect();
        state.queues[priority] = Queue::of(&waiting);
    }
    state.counted(700, 40, 9)
}

/// Sixteen words with the first `busy` of 1,000 probes busy.
pub fn words(busy: u32) -> Vec<u64> {
    words_of(busy, 1_000)
}

/// Just enough words with the first `busy` of so many probes busy.
pub fn words_of(busy: u32, probes: u32) -> Vec<u64> {
    let mut words = vec![0u64; probes.div_ceil(64) as usize];
    for k in 0..busy as usize {
        words[k / 64] |= 1 << (k % 64);
    }
    words
}

/// A state after one sample of 1,000 probes by count that must be taken.
pub fn sampled(state: State, busy: u32) -> State {
    let (next, answer) = gate::sample_count(state, busy, 1_000, state.stamp);
    assert_eq!(answer, Answer::Taken);
    next
}

/// A state after an offer, on-time 1, that must be taken.
pub fn offered(state: State, id: u32, priority: u32, lifetime: u32, stamp: u32) -> State {
    let (next, answer) = gate::offer(state, id, priority, 1, lifetime, stamp);
    assert_eq!(answer, Answer::Taken);
    next
}

/// A state after a poll that must send the packet of that identifier.
pub fn sent(state: State, id: u32, stamp: u32) -> State {
    let (next, answer) = gate::poll(state, stamp);
    match answer {
        Answer::Sent(packet) => assert_eq!(packet.id, id),
        other => panic!("{other:?} in place of SENT {id}"),
    }
    next
}

/// A call must be refused with the number, the state handed back unchanged.
pub fn assert_refused(state: State, result: (State, Answer), number: u32) {
    assert_eq!(result, (state, Answer::Refused(number)));
}
