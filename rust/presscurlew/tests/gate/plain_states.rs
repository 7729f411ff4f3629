//! Lists as starting states. Sound ones are answered as the queues that are their parts; ones with a rule of soundness
//! broken, each rule at each place, get 9 and come back as they were.

use std::collections::BTreeMap;
use std::fmt::Display;

use crate::broken_states::{base, broken_states, TIME};
use crate::bursts::{any_records, bytes};
use crate::help::{archive, calls_at, raw, Call, BLANK, EDGE_STEPS, PROFILES};
use crate::plain::{hold_alike, hold_alike_burst, hold_no_state, lined, plain_burst};
use crate::sound_states::sound_state;
use plainhost::{Counts, Levels, Line, State, PLACES};
use presscurlew::{sys, Packet};
use reference::log::Record;
use reference::rng::Rng;
use reference::rules;
use reference::state::{rule_names, sound};

#[test]
fn sound_lists_are_answered_as_their_parts() {
    let mut rng = Rng::new(0x1157);
    let mut lengths = [0; PLACES + 1];
    for index in 0..8_000 {
        for profile in PROFILES {
            let parts = sound_state(&mut rng, profile);
            assert!(sound(&parts), "{parts:?}");
            let state = lined(&raw(&parts), &mut rng);
            assert_eq!(state.parted(), Some(raw(&parts)));
            let origin = format!("sound list {index}");
            let steps = [0, rng.below(2_000_000) as u32, rng.pick(&EDGE_STEPS)];
            let stamp = state.clock.stamp.wrapping_add(rng.pick(&steps));
            for call in calls_at(profile, stamp) {
                let turn = hold_alike(&state, &call, &origin);
                assert_ne!((turn.reply.kind, turn.reply.number), (sys::REFUSED, 9));
            }
            let many = rng.below(30) as usize;
            let records = bytes(&any_records(&mut rng, many, &parts));
            hold_alike_burst(&state, &records, many, &origin);
            lengths[state.line.len as usize] += 1;
        }
    }
    assert!(lengths.iter().all(|&count| count > 20), "{lengths:?}");
}

#[test]
fn runs_from_sound_lists() {
    let mut rng = Rng::new(0x1158);
    for index in 0..2_000 {
        for profile in PROFILES {
            let mut state = lined(&raw(&sound_state(&mut rng, profile)), &mut rng);
            for _ in 0..20 {
                let stamp = state.clock.stamp.wrapping_add(rng.below(300_000) as u32);
                let calls = calls_at(profile, stamp);
                let call = &calls[rng.below(calls.len() as u64) as usize];
                state = hold_alike(&state, call, &format_args!("from sound list {index}")).state;
            }
        }
    }
}

/// A sound state with a line of so many packets, which came at the same time: the priorities take turns, from the given
/// one on.
fn with_length(profile: u32, length: usize, first: u32) -> State {
    let parts = base(profile, 5);
    let packet = |k: usize| Packet {
        id: k as u32 + 1,
        priority: (first + k as u32) % 4,
        ontime: rules::on_time_max(profile).unwrap(),
        lifetime: 60_000_000,
        arrival: TIME,
    };
    let packets: Vec<Packet> = (0..length).map(packet).collect();
    counted(State::with_line(&raw(&parts), Line::of(&packets)))
}

/// The state with as many accepted as the other counts and the line say.
fn counted(mut state: State) -> State {
    let Counts {
        sent,
        expired,
        displaced,
        ..
    } = state.counts;
    let gone = sent + expired + displaced;
    state.counts.accepted = gone.wrapping_add(state.line.len);
    state
}

/// Every call on a state is refused with 9, and in a burst each offer is.
fn hold_all_calls(state: &State, origin: &dyn Display) {
    let profile = match state.profile {
        known if PROFILES.contains(&known) => known,
        _ => 1,
    };
    for step in [0, 1_000, 1 << 31] {
        let stamp = state.clock.stamp.wrapping_add(step);
        for call in calls_at(profile, stamp) {
            let _ = hold_no_state(state, &call, origin);
        }
        let records = [2, 3, 0, 2, 1, 255, 2].map(|kind| Record {
            kind,
            priority: 1,
            ontime: 1,
            lifetime: 1,
            id: 9,
            stamp,
        });
        let (next, number, answers) = plain_burst(*state, &bytes(&records), 8);
        assert_eq!((next, number), (*state, 0), "{origin}");
        assert_eq!(answers, [9, 10, 10, 9, 10, 10, 9, BLANK], "{origin}");
    }
}

/// Broken lists, each with the name of the rule that it breaks.
#[derive(Default)]
struct Broken {
    seen: BTreeMap<&'static str, u32>,
}

impl Broken {
    /// Bends a sound state, and holds every call on it to 9.
    fn hold(&mut self, rule: &'static str, state: State, change: impl FnOnce(&mut State)) {
        let mut state = state;
        change(&mut state);
        hold_all_calls(&state, &format_args!("{rule}: {state:?}"));
        *self.seen.entry(rule).or_default() += 1;
    }

    /// One place that is used.
    fn used(&mut self, state: State, place: usize) {
        let longest = rules::on_time_max(state.profile).unwrap();
        let length = state.line.len as usize;
        let mut bend = |rule, change: &dyn Fn(&mut Packet)| {
            self.hold(rule, state, |s| change(&mut s.line.packets[place]));
        };
        for bad in [0, longest + 1, u32::MAX] {
            bend("waiting on-time allowed", &|p| p.ontime = bad);
        }
        for bad in [0, 60_000_001, u32::MAX] {
            bend("waiting lifetime within limits", &|p| p.lifetime = bad);
        }
        for bad in [4, 5, 1 << 31, u32::MAX] {
            bend("waiting priority at most 3", &|p| p.priority = bad);
        }
        let mut later = |rule, arrival| {
            self.hold(rule, state, |s| {
                let later = &mut s.line.packets[place..length];
                later.iter_mut().for_each(|p| p.arrival = arrival);
            });
        };
        for bad in [TIME + 1, u64::MAX] {
            later("arrival not after running time", bad);
        }
        if place > 0 {
            for earlier in [TIME - 1, 0] {
                later("arrivals not decreasing over the whole", earlier);
            }
        }
    }

    /// One place that is unused.
    fn unused(&mut self, state: State, place: usize) {
        let fields: [fn(&mut Packet); 7] = [
            |p| p.id = 1,
            |p| p.id = 1 << 31,
            |p| p.priority = 1,
            |p| p.ontime = 1,
            |p| p.lifetime = 1,
            |p| p.arrival = 1,
            |p| p.arrival = 1 << 63,
        ];
        for field in fields {
            self.hold("places past the length zero", state, |s| {
                field(&mut s.line.packets[place]);
            });
        }
    }

    /// Lengths above 20, and counts that do not say how many wait. Also where the counts add up with such a length, or
    /// do so modulo 2^64.
    fn lengths(&mut self, state: State) {
        for bad in [21, 22, 255, 256, 1 << 32, (1 << 32) + 1, 1 << 63, u64::MAX] {
            let rule = "line length at most 20";
            self.hold(rule, state, |s| s.line.len = bad);
            self.hold(rule, state, |s| {
                s.line.len = bad;
                *s = counted(*s);
            });
        }
        // The gate's own lengths have 32 bits.
        for bad in [1 << 32, (1 << 32) + 1, 1 << 63, u64::MAX] {
            self.hold("ledger length at most 40", state, |s| s.ledger.len = bad);
            self.hold("loads at most 50", state, |s| s.loads.len = bad);
            self.hold("levels at most 8", state, |s| s.levels.len = bad);
        }
        let accepted = state.counts.accepted;
        for bad in [accepted + 1, accepted - 1, 0, u64::MAX] {
            self.hold("counts add up", state, |s| s.counts.accepted = bad);
        }
        for flag in [2, 3, 256, 1 << 31, u32::MAX] {
            self.hold("a flag 0 or 1", state, |s| s.live = flag);
            self.hold("a flag 0 or 1", state, |s| s.tuning.pairing = flag);
            self.hold("a flag 0 or 1", state, |s| s.last.admitted = flag);
        }
    }
}

#[test]
fn each_rule_of_the_list_broken_at_each_place() {
    let mut broken = Broken::default();
    for profile in PROFILES {
        for length in 0..=PLACES {
            let state = with_length(profile, length, length as u32 / 3);
            for call in calls_at(profile, 78) {
                let turn = hold_alike(&state, &call, &"base");
                assert_ne!((turn.reply.kind, turn.reply.number), (sys::REFUSED, 9));
            }
            broken.lengths(state);
            (0..length).for_each(|place| broken.used(state, place));
            (length..PLACES).for_each(|place| broken.unused(state, place));
        }
    }
    assert_eq!(broken.seen.len(), 12, "{:?}", broken.seen);
}

/// Five of a priority, and a sixth at every place among the others.
#[test]
fn six_of_a_priority_are_refused_with_9() {
    for profile in PROFILES {
        for length in 5..PLACES {
            for priority in 0..4 {
                let mut state = with_length(profile, length, 0);
                let many = |s: &State| {
                    let waiting = s.line.waiting().iter();
                    waiting.filter(|p| p.priority == priority).count()
                };
                for place in 0..length {
                    let before = state;
                    state.line.packets[place].priority = priority;
                    if many(&state) < 6 {
                        let _ =
                            hold_alike(&state, &calls_at(profile, 78)[0], &"five of a priority");
                        continue;
                    }
                    hold_all_calls(&state, &format_args!("six of a priority: {state:?}"));
                    state = before;
                }
                assert_eq!(many(&state), 5);
            }
        }
    }
}

/// Two packets of unlike priorities that have changed places: their queues are sound, the list is not.
#[test]
fn arrivals_that_decrease_between_priorities_are_refused_with_9() {
    for profile in PROFILES {
        for length in 2..=PLACES {
            let mut state = with_length(profile, length, 1);
            for (packet, age) in state.line.packets[..length].iter_mut().zip((0..40).rev()) {
                packet.arrival -= age;
            }
            let parts = state.parted().expect("a sound list");
            for place in 1..length {
                let mut swapped = state;
                swapped.line.packets.swap(place - 1, place);
                assert_eq!(swapped.parted(), None);
                hold_all_calls(&swapped, &format_args!("swapped: {swapped:?}"));
                // Had they come at the same time, either order would be sound.
                let same = swapped.line.packets[place - 1].arrival;
                swapped.line.packets[place].arrival = same;
                let turn = hold_alike(&swapped, &calls_at(profile, 78)[0], &"swapped");
                assert_ne!(turn.reply.number, 9);
            }
            let gate = archive(parts, &Call::Poll { stamp: 78 });
            assert_ne!((gate.reply.kind, gate.reply.number), (sys::REFUSED, 9));
        }
    }
}

/// The rules that have nothing to do with what waits, and those on the counts: the gate's states that break one, with
/// the packets in a line.
#[test]
fn each_other_rule_broken() {
    let mut rng = Rng::new(0x1159);
    let mut seen = BTreeMap::new();
    let of_queues = [
        "queue length at most 5",
        "slots past the length zero",
        "waiting in its own priority's queue",
        "arrivals not decreasing",
        "arrival not after running time",
        "waiting on-time allowed",
        "waiting lifetime within limits",
    ];
    for (rule, parts) in broken_states() {
        if of_queues.contains(&rule) {
            continue;
        }
        let state = lined(&raw(&parts), &mut rng);
        hold_all_calls(&state, &format_args!("{rule}: {state:?}"));
        *seen.entry(rule).or_insert(0) += 1;
    }
    for rule in rule_names() {
        let due = !of_queues.contains(&rule);
        assert_eq!(seen.contains_key(rule), due, "the rule: {rule}");
    }
}

/// The state of a refused make, and states of numbers that are all the same.
#[test]
fn states_of_no_sense_are_refused_with_9() {
    let refused = plainhost::presscurlew_plain_make(0, sys::DROP_OLDEST, Levels::NONE, 5);
    assert_eq!(refused.state, State::default());
    hold_all_calls(&refused.state, &"the all-zero state");
    for fill in [1, 2, 5, 20, 255, u32::MAX] {
        let wide = u64::from(fill);
        let packet = Packet {
            id: fill,
            priority: fill,
            ontime: fill,
            lifetime: fill,
            arrival: wide,
        };
        let mut state = State {
            line: Line {
                len: wide,
                packets: [packet; PLACES],
            },
            profile: fill,
            when_full: fill,
            live: fill,
            ..State::default()
        };
        state.ledger.len = wide;
        state.counts.accepted = wide;
        hold_all_calls(&state, &format_args!("a state of {fill}"));
    }
}
