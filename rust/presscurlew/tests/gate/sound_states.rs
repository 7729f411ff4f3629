//! Sound states made field by field. Most are reached by no run: a level in profiles 3 and 4, a duty in profile 1,
//! queues of packets that expired long ago, any running time beside any stamp, any counts that add up, displaced ones in
//! a gate that refuses, a ledger that no wait of its profile leads to, a level of profile 5 that its last loads don't
//! lead to.

use crate::help::{
    calls_at, edge_or, hold, Answer, Call, ACCEPTED_MOST, EDGE_STEPS, PROFILES, TIME_END, WAYS,
};
use reference::ledgers;
use reference::lists;
use reference::rng::Rng;
use reference::rules;
use reference::state::{sound, Packet, Queue, State};

const FULL_LOAD: u32 = 1_000_000;
const EDGE_LOADS: [u32; 10] = [
    0, 1, 619_999, 620_000, 620_001, 621_000, 621_001, 680_000, 999_999, FULL_LOAD,
];

/// A time up to `most`, often near 0 or near `most`.
fn time_up_to(rng: &mut Rng, most: u64) -> u64 {
    match rng.below(6) {
        0 => 0,
        1 => most,
        2 => most.saturating_sub(rng.below(2_000_000)),
        3 => rng.below(3_000_000).min(most),
        _ => rng.below(most + 1),
    }
}

/// A queue, now and then a full one of packets that came of late: these have most of their lives before them.
fn queue(rng: &mut Rng, profile: u32, priority: u32, time: u64) -> Queue {
    let (length, earliest, lifetimes) = match rng.below(3) {
        0 => (5, time.saturating_sub(500_000), [3_000_000, 60_000_000]),
        1 => (rng.below(6), 0, [1, 1_000_000]),
        _ => (rng.below(6), 0, [59_999_999, 60_000_000]),
    };
    let mut arrivals: Vec<u64> = (0..length)
        .map(|_| earliest + time_up_to(rng, time - earliest))
        .collect();
    arrivals.sort_unstable();
    let longest = u64::from(rules::on_time_max(profile).unwrap());
    let packets: Vec<Packet> = arrivals
        .into_iter()
        .map(|arrival| Packet {
            id: rng.next_u32(),
            priority,
            ontime: 1 + rng.below(longest) as u32,
            lifetime: rng.pick(&lifetimes),
            arrival,
        })
        .collect();
    Queue::of(&packets)
}

/// Any sound state of a profile.
pub fn sound_state(rng: &mut Rng, profile: u32) -> State {
    let time = time_up_to(rng, TIME_END);
    let mut state = State {
        live: true,
        profile,
        oldway: rng.pick(&WAYS),
        stamp: rng.next_u32(),
        time,
        level: rng.below(5) as u32,
        duty: 600_000 + edge_or(rng, &[0, 1, 29_399_999, 29_400_000], 29_400_000),
        smoothed: edge_or(rng, &EDGE_LOADS, FULL_LOAD),
        ..State::default()
    };
    if profile == 3 && rng.one_in(2) {
        state.haskept = true;
        state.kept = edge_or(rng, &EDGE_LOADS, FULL_LOAD);
    }
    if profile == 4 {
        state.latest = edge_or(rng, &EDGE_LOADS, FULL_LOAD);
    }
    if profile == 5 {
        state = lists::given(state, rng);
    }
    for priority in 0..4 {
        if !rng.one_in(3) {
            state.queues[priority as usize] = queue(rng, profile, priority, time);
        }
    }
    let state = admitted(rng, state);
    counted(rng, state)
}

/// The state with admissions: none, one of any age, or so many in the last second as a ledger may hold.
fn admitted(rng: &mut Rng, state: State) -> State {
    let longest = rules::on_time_max(state.profile).unwrap();
    let ontime = 1 + rng.below(u64::from(longest)) as u32;
    let admissions = match rng.below(8) {
        0 | 1 => vec![],
        2..=4 => ledgers::row(1, 0, ontime, time_up_to(rng, state.time)),
        _ if state.time < rules::SECOND => {
            let most = 1 + state.time / rules::GAP_LEAST;
            let many = 1 + rng.below(most.min(40));
            ledgers::row(many, rules::GAP_LEAST, ontime.min(750), state.time)
        }
        _ => ledgers::good(state.profile, state.time, rng),
    };
    state.with_admissions(&admissions)
}

/// The state with counts that add up, often with few offers left or none.
fn counted(rng: &mut Rng, state: State) -> State {
    let most = ACCEPTED_MOST - state.waiting() as u64;
    let gone = match rng.below(5) {
        0 => most,
        1 => most - 1 - rng.below(3),
        2 => rng.below(3),
        _ => rng.below(most + 1),
    };
    let mut part = |whole: u64| match rng.below(4) {
        0 => 0,
        1 => whole,
        _ => rng.below(whole + 1),
    };
    let sent = part(gone);
    let expired = part(gone - sent);
    state.counted(sent, expired, gone - sent - expired)
}

#[test]
fn sound_states_are_answered_as_the_reference_answers() {
    let mut rng = Rng::new(0x50de);
    for index in 0..30_000 {
        for profile in PROFILES {
            let state = sound_state(&mut rng, profile);
            assert!(sound(&state), "{state:?}");
            let steps = [0, rng.below(2_000_000) as u32, rng.pick(&EDGE_STEPS)];
            let stamp = state.stamp.wrapping_add(rng.pick(&steps));
            for call in calls_at(profile, stamp) {
                hold(&state, &call, &format_args!("sound state {index}"));
            }
        }
    }
}

/// The state with counts at their edges, as it is and with nothing admitted.
fn with_edge_counts(state: State) -> Vec<State> {
    let unadmitted = state.with_admissions(&[]);
    let most = ACCEPTED_MOST - state.waiting() as u64;
    let mut states = Vec::new();
    for gone in [0, 1, most - 1, most] {
        for one in [0, 1.min(gone), gone] {
            let other = gone - one;
            for [sent, expired, displaced] in [[one, other, 0], [one, 0, other], [0, one, other]] {
                let counted = |state: State| state.counted(sent, expired, displaced);
                states.extend([state, unadmitted].map(counted));
            }
        }
    }
    states
}

/// Of 10^15 offers the last is taken, and none after it.
#[test]
fn counts_at_their_edges() {
    let mut rng = Rng::new(0x50de1);
    for index in 0..300 {
        for profile in PROFILES {
            let mut state = sound_state(&mut rng, profile);
            state.queues[0] = Queue::default(); // room for an offer in either way
            for state in with_edge_counts(state) {
                assert!(sound(&state), "{state:?}");
                let (stamp, origin) = (state.stamp, format!("edge counts, state {index}"));
                for call in calls_at(profile, stamp) {
                    hold(&state, &call, &origin);
                }
                let offer = Call::Offer {
                    id: 9,
                    priority: 0,
                    ontime: 1,
                    lifetime: 1,
                    stamp,
                };
                let due = match state.counts.accepted {
                    ACCEPTED_MOST => Answer::Refused(11),
                    _ => Answer::Taken,
                };
                assert_eq!(hold(&state, &offer, &origin).1, due, "{state:?}");
            }
        }
    }
}

/// From a sound state on, a run goes as the reference's, as far as it is followed.
#[test]
fn runs_from_sound_states() {
    let mut rng = Rng::new(0x50de2);
    for index in 0..3_000 {
        for profile in PROFILES {
            let mut state = sound_state(&mut rng, profile);
            for _ in 0..20 {
                let stamp = state.stamp.wrapping_add(rng.below(300_000) as u32);
                let calls = calls_at(profile, stamp);
                let call = &calls[rng.below(calls.len() as u64) as usize];
                state = hold(&state, call, &format_args!("run from sound state {index}")).0;
            }
        }
    }
}
