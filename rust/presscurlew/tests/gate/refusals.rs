//! Which refusal a call answers: the first that holds, in the order 9, 2, 3, then 4, 5, 6, 7, 8, 11. The expected
//! numbers stand here as a table, apart from the reference.

use crate::help::{
    archive, first_busy, fresh, gates, raw, raw_reply, Answer, Call, Turn, ACCEPTED_MOST, TIME_END,
};
use presscurlew::sys;
use reference::rules;
use reference::state::{Packet, Queue, State};

/// A sound state near the end of time whose queue 1 is full until the end, with so many offers accepted.
pub fn late(profile: u32, way: u32, accepted: u64) -> State {
    let time = TIME_END - 1_000;
    let packet = Packet {
        id: 5,
        priority: 1,
        ontime: 1,
        lifetime: 60_000_000,
        arrival: time,
    };
    let mut state = fresh(profile, way, u32::MAX - 10);
    state.time = time;
    state.queues[1] = Queue::of(&[packet; 5]);
    state.with_accepted(accepted)
}

/// Holds a call to a refusal, with the state as it was; 0 stands for none.
fn hold_number(state: &presscurlew::State, call: &Call, number: u32) {
    let turn = archive(*state, call);
    if number == 0 {
        assert_ne!(turn.reply.kind, sys::REFUSED, "{call:?} on {state:?}");
    } else {
        let expected = Turn {
            state: *state,
            reply: raw_reply(&Answer::Refused(number)),
        };
        assert_eq!(turn, expected, "{call:?} on {state:?}");
    }
}

/// Steps with the number of their refusal.
const STEPS: [(u32, u32); 5] = [
    (0, 0),
    (1_000, 0),
    (1_001, 3),
    ((1 << 31) - 1, 3),
    (1 << 31, 2),
];

/// A state, and two that are not sound, with the stamps of the steps from it.
fn each_place(mut hold: impl FnMut(u32, &presscurlew::State, u32, u32)) {
    for (profile, way) in gates() {
        for accepted in [5, ACCEPTED_MOST - 1, ACCEPTED_MOST] {
            let state = raw(&late(profile, way, accepted));
            let mut unsound = state;
            unsound.level = 5;
            let mut miscounted = state;
            miscounted.sent += 1;
            for (step, number) in STEPS {
                let stamp = state.stamp.wrapping_add(step);
                hold(profile, &state, stamp, number);
                hold(profile, &unsound, stamp, 9);
                hold(profile, &miscounted, stamp, 9);
            }
        }
    }
}

/// The first number that is not 0.
fn first(numbers: &[u32]) -> u32 {
    let refused = numbers.iter().find(|&&number| number != 0);
    refused.copied().unwrap_or(0)
}

#[test]
fn offers_are_refused_in_order() {
    each_place(|profile, state, stamp, early| {
        let longest = rules::on_time_max(profile).unwrap();
        let spent = state.accepted == ACCEPTED_MOST;
        let eleven = if spent { 11 } else { 0 };
        for (priority, five) in [(0, 0), (1, 0), (3, 0), (4, 5), (u32::MAX, 5)] {
            for (ontime, six) in [
                (0, 6),
                (1, 0),
                (longest, 0),
                (longest + 1, 6),
                (u32::MAX, 6),
            ] {
                for (lifetime, seven) in [(0, 7), (1, 0), (60_000_000, 0), (60_000_001, 7)] {
                    let refuses = state.when_full == sys::REFUSE_NEW;
                    let eight = if priority == 1 && refuses { 8 } else { 0 };
                    let call = Call::Offer {
                        id: 0,
                        priority,
                        ontime,
                        lifetime,
                        stamp,
                    };
                    let numbers = [early, five, six, seven, eight, eleven];
                    hold_number(state, &call, first(&numbers));
                }
            }
        }
    });
}

#[test]
fn samples_are_refused_in_order() {
    each_place(|_, state, stamp, early| {
        for (busy, probes, four) in COUNTS {
            let call = Call::SampleCount {
                busy,
                probes,
                stamp,
            };
            hold_number(state, &call, first(&[early, four]));
        }
        for (probes, words, four) in samples() {
            let call = Call::SampleWords {
                probes,
                words,
                stamp,
            };
            hold_number(state, &call, first(&[early, four]));
        }
    });
}

/// Busy and probe counts with the number of their refusal.
const COUNTS: [(u32, u32, u32); 14] = [
    (0, 1_000, 0),
    (1_000, 1_000, 0),
    (1_001, 1_000, 4),
    (u32::MAX, 1_000, 4),
    (0, 1, 0),
    (1, 1, 0),
    (2, 1, 4),
    (0, 0, 4),
    (1, 0, 4),
    (12_500, 12_500, 0),
    (12_501, 12_500, 4),
    (0, 12_501, 4),
    (1, u32::MAX, 4),
    (u32::MAX, u32::MAX, 4),
];

/// Probe counts and words with the number of their refusal.
fn samples() -> Vec<(u32, Vec<u64>, u32)> {
    let mut samples = vec![(0, vec![], 4), (0, vec![0], 4), (u32::MAX, vec![], 4)];
    // Words, and the bits of the last that are probes.
    for (probes, enough, bits) in [(1_000, 16, 40), (1, 1, 1), (64, 1, 64), (12_500, 196, 20)] {
        let lengths = (0..enough + 24).filter(|&length| length != enough);
        samples.extend(lengths.map(|length| (probes, vec![0; length], 4)));
        samples.push((probes, first_busy(probes, 0), 0));
        samples.push((probes, first_busy(probes, probes), 0));
        samples.extend((0..64).map(|bit| {
            let mut words = vec![0; enough];
            words[enough - 1] |= 1 << bit;
            (probes, words, if bit < bits { 0 } else { 4 })
        }));
    }
    // Enough words for 12,501 probes, and for 0.
    samples.extend([(12_501, vec![0; 196], 4), (12_544, vec![0; 196], 4)]);
    samples
}

#[test]
fn polls_are_refused_in_order() {
    each_place(|_, state, stamp, early| hold_number(state, &Call::Poll { stamp }, early));
}

/// Five wait, and the first expires at one moment: full one µs before it, room from it on, unless the offers are
/// spent. A refused offer removes nothing, whether it is refused with 8 or, in a gate that drops the oldest, with 11.
#[test]
fn full_until_one_expires() {
    for (profile, way) in gates() {
        let mut state = fresh(profile, way, 0);
        let packet = Packet {
            id: 5,
            priority: 2,
            ontime: 1,
            lifetime: 60_000,
            arrival: 0,
        };
        state.queues[2] = Queue::of(&[packet; 5]);
        state.queues[0] = Queue::of(&[Packet {
            priority: 0,
            lifetime: 1,
            ..packet
        }]);
        for (accepted, eleven) in [(6, 0), (ACCEPTED_MOST - 1, 0), (ACCEPTED_MOST, 11)] {
            let state = raw(&state.with_accepted(accepted));
            let full = if way == sys::REFUSE_NEW { 8 } else { eleven };
            for (stamp, number) in [(0, full), (59_999, full), (60_000, eleven)] {
                let call = Call::Offer {
                    id: 6,
                    priority: 2,
                    ontime: 1,
                    lifetime: 1,
                    stamp,
                };
                hold_number(&state, &call, number);
            }
        }
    }
}
