//! "A state is sound if": each rule broken alone, and odd states that are sound.

use std::collections::BTreeMap;

use crate::help::{
    admission, assert_refused, four_levels, fresh, late, old, Answer, ACCEPTED_MOST, ON_TIMES,
    PROFILES,
};
use reference::gate;
use reference::ledgers::{self, row};
use reference::miscounts::{one_off, wrapping};
use reference::rng::Rng;
use reference::state::{broken_rules, rule_names, sound, Admission, Ledger, Loads, Packet, State};

/// The lengths tried; each queue is tried at 0 to 5.
const LENGTHS: [[usize; 4]; 6] = [
    [0, 1, 2, 3],
    [1, 2, 3, 4],
    [2, 3, 4, 5],
    [3, 4, 5, 0],
    [4, 5, 0, 1],
    [5, 0, 1, 2],
];

/// The sound states that the rules are broken on.
fn starts() -> Vec<State> {
    let mut starts = Vec::new();
    for profile in PROFILES {
        starts.push(fresh(profile));
        for (lengths, oldway) in LENGTHS.into_iter().zip([0, 1].into_iter().cycle()) {
            let state = late(profile, lengths);
            starts.push(State { oldway, ..state });
        }
    }
    starts
}

/// The state breaks just that rule, and every call refuses it with 9.
fn breaks_only(state: &State, rule: &str) {
    assert_eq!(broken_rules(state), [rule], "{state:?}");
    all_calls_refuse(state);
}

fn all_calls_refuse(state: &State) {
    assert!(!sound(state));
    let stamp = state.stamp;
    assert_refused(
        *state,
        gate::sample_words(*state, 1_000, &[0; 16], stamp),
        9,
    );
    assert_refused(*state, gate::sample_count(*state, 0, 1_000, stamp), 9);
    assert_refused(*state, gate::offer(*state, 1, 0, 1, 1, stamp), 9);
    assert_refused(*state, gate::poll(*state, stamp), 9);
}

fn is_sound(state: &State) {
    assert_eq!(broken_rules(state), Vec::<&str>::new());
    assert!(sound(state));
    assert!(!matches!(
        gate::poll(*state, state.stamp).1,
        Answer::Refused(_)
    ));
}

/// A change to a packet.
type Change = Box<dyn Fn(&mut Packet)>;

/// Makes each change alone to each waiting packet of each start.
fn each_waiting_packet(rule: &str, changes: &[Change]) {
    let mut tried = 0;
    for start in starts() {
        for q in 0..4 {
            for slot in 0..start.queues[q].waiting().len() {
                for change in changes {
                    let mut state = start;
                    change(&mut state.queues[q].slots[slot]);
                    breaks_only(&state, rule);
                    tried += 1;
                }
            }
        }
    }
    // Every slot of every queue, in each of the five profiles.
    assert_eq!(tried, 5 * 4 * (1 + 2 + 3 + 4 + 5) * changes.len());
}

#[test]
fn fresh_and_late_states_are_sound() {
    for start in starts() {
        is_sound(&start);
    }
    for stamp in [0, 1, u32::MAX] {
        is_sound(&State { stamp, ..fresh(2) });
    }
}

#[test]
fn the_not_live_state_is_not() {
    let zero = State::default();
    let broken = broken_rules(&zero);
    assert_eq!(broken, ["live", "profile 1 to 5", "duty within limits"]);
    all_calls_refuse(&zero);
}

#[test]
fn live() {
    for start in starts() {
        breaks_only(
            &State {
                live: false,
                ..start
            },
            "live",
        );
    }
}

#[test]
fn profile() {
    for profile in [0, 6, 7, 257, u32::MAX] {
        breaks_only(
            &State {
                profile,
                ..fresh(1)
            },
            "profile 1 to 5",
        );
        // With packets waiting it allows no on-time either.
        all_calls_refuse(&State {
            profile,
            ..late(1, [1, 0, 0, 0])
        });
    }
}

#[test]
fn level() {
    for start in starts() {
        is_sound(&State { level: 4, ..start });
        for level in [5, 256, u32::MAX] {
            let rule = match start.profile {
                5 => "level at most the list's in profile 5", // which has four
                _ => "level at most 4",
            };
            breaks_only(&State { level, ..start }, rule);
        }
    }
}

#[test]
fn duty() {
    for start in starts() {
        is_sound(&State {
            duty: 600_000,
            ..start
        });
        is_sound(&State {
            duty: 30_000_000,
            ..start
        });
        for duty in [0, 599_999, 30_000_001, u32::MAX] {
            breaks_only(&State { duty, ..start }, "duty within limits");
        }
    }
}

#[test]
fn smoothed_load() {
    for start in starts() {
        is_sound(&State {
            smoothed: 1_000_000,
            ..start
        });
        for smoothed in [1_000_001, u32::MAX] {
            let state = State { smoothed, ..start };
            breaks_only(&state, "smoothed load at most 1,000,000");
        }
    }
}

/// W-209: the latest load is kept in profile 4 alone.
#[test]
fn latest_load() {
    for start in starts() {
        if start.profile == 4 {
            for latest in [0, 1, 620_000, 1_000_000] {
                is_sound(&State { latest, ..start });
            }
            for latest in [1_000_001, u32::MAX] {
                let state = State { latest, ..start };
                breaks_only(&state, "latest load at most 1,000,000");
            }
        } else {
            for latest in [1, 620_000, 1_000_000] {
                let state = State { latest, ..start };
                breaks_only(&state, "latest load zero outside profile 4");
            }
        }
    }
}

#[test]
fn kept_sample() {
    for start in starts() {
        let keeping = State {
            haskept: true,
            ..start
        };
        if start.profile == 3 {
            is_sound(&keeping);
            is_sound(&State {
                kept: 1_000_000,
                ..keeping
            });
            for kept in [1_000_001, u32::MAX] {
                let state = State { kept, ..keeping };
                breaks_only(&state, "kept load at most 1,000,000");
            }
        } else {
            breaks_only(&keeping, "sample kept only in profile 3");
            let state = State { kept: 5, ..keeping };
            breaks_only(&state, "sample kept only in profile 3");
        }
        for kept in [1, 1_000_000] {
            let state = State { kept, ..start };
            breaks_only(&state, "kept load zero when none kept");
        }
    }
}

/// The state at another time, its ledger as it then is.
fn at_time(state: &State, time: u64) -> State {
    let last: Vec<Admission> = state.last().into_iter().collect();
    State { time, ..*state }.with_admissions(&last)
}

#[test]
fn running_time() {
    for start in starts() {
        is_sound(&at_time(&start, 1_000_000_000_000_000));
        for time in [1_000_000_000_000_001, u64::MAX] {
            breaks_only(&at_time(&start, time), "running time at most 10^15");
        }
    }
}

#[test]
fn last_admission() {
    for start in starts() {
        let admitted = |at, ontime| start.with_admissions(&[admission(at, ontime)]);
        is_sound(&admitted(start.time, 1));
        is_sound(&admitted(0, 1));
        for at in [start.time + 1, u64::MAX] {
            breaks_only(&admitted(at, 1), "admission not after running time");
        }
        let (_, most) = ON_TIMES[start.profile as usize - 1];
        is_sound(&admitted(start.time, most));
        for ontime in [0, most + 1, u32::MAX] {
            // So old that it stands in no ledger.
            let late = State {
                time: start.time + 1_000_000,
                ..start
            };
            let state = late.with_admissions(&[admission(start.time, ontime)]);
            breaks_only(&state, "admission on-time allowed");
            all_calls_refuse(&admitted(start.time, ontime));
        }
    }
}

#[test]
fn admission_fields_before_the_first() {
    for start in starts() {
        let none = start.with_admissions(&[]);
        is_sound(&none);
        for at in [1, start.time.max(1), u64::MAX] {
            let state = State { at, ..none };
            breaks_only(&state, "admission time zero before the first");
        }
        for ontime in [1, u32::MAX] {
            let state = State { ontime, ..none };
            breaks_only(&state, "admission on-time zero before the first");
        }
    }
}

/// The state with as many sent, expired and displaced as another has, and
/// accepted to suit.
fn recounted(state: State, other: &State) -> State {
    let counts = other.counts;
    state.counted(counts.sent, counts.expired, counts.displaced)
}

#[test]
fn queue_length_above_5() {
    for start in starts() {
        for q in 0..4 {
            for len in [6, 7, 256, (1 << 32) + 2, 1 << 63, u64::MAX] {
                let mut state = start;
                state.queues[q].len = len;
                // Counts that add up without that queue, of which nothing is read.
                let read = recounted(state, &start);
                breaks_only(&read, "queue length at most 5");
                // And such as would add up if so many packets were there.
                let more = len - start.queues[q].len;
                state.counts.accepted = start.counts.accepted.wrapping_add(more);
                all_calls_refuse(&state);
            }
        }
    }
}

#[test]
fn queue_length_that_is_not_the_packets() {
    for start in starts() {
        for q in 0..4 {
            let length = start.queues[q].len;
            for len in (0..=5).filter(|&len| len != length) {
                let mut state = start;
                state.queues[q].len = len;
                all_calls_refuse(&state);
                let state = recounted(state, &start);
                all_calls_refuse(&state);
                if len < length {
                    breaks_only(&state, "slots past the length zero");
                }
            }
        }
    }
}

#[test]
fn waiting_on_time() {
    let zero: Change = Box::new(|packet| packet.ontime = 0);
    let more: Change = Box::new(|packet| packet.ontime += 1); // they hold the most
    let most: Change = Box::new(|packet| packet.ontime = u32::MAX);
    each_waiting_packet("waiting on-time allowed", &[zero, more, most]);
}

#[test]
fn waiting_lifetime() {
    let zero: Change = Box::new(|packet| packet.lifetime = 0);
    let more: Change = Box::new(|packet| packet.lifetime = 60_000_001);
    let most: Change = Box::new(|packet| packet.lifetime = u32::MAX);
    each_waiting_packet("waiting lifetime within limits", &[zero, more, most]);
}

#[test]
fn waiting_priority() {
    let up: Change = Box::new(|packet| packet.priority += 1);
    let round: Change = Box::new(|packet| packet.priority = (packet.priority + 3) % 4);
    let past: Change = Box::new(|packet| packet.priority = 4);
    let wide: Change = Box::new(|packet| packet.priority += 256);
    let most: Change = Box::new(|packet| packet.priority = u32::MAX);
    let changes = [up, round, past, wide, most];
    each_waiting_packet("waiting in its own priority's queue", &changes);
}

#[test]
fn waiting_arrival_after_the_running_time() {
    for start in starts() {
        for q in 0..4 {
            let length = start.queues[q].waiting().len();
            for slot in 0..length {
                for late in [start.time + 1, u64::MAX] {
                    let mut state = start;
                    // Those behind it too, so that their order is kept.
                    for packet in &mut state.queues[q].slots[slot..length] {
                        packet.arrival = late;
                    }
                    breaks_only(&state, "arrival not after running time");
                }
            }
        }
    }
}

#[test]
fn waiting_arrivals_out_of_order() {
    for start in starts() {
        for q in 0..4 {
            for slot in 1..start.queues[q].waiting().len() {
                let mut state = start;
                let before = state.queues[q].slots[slot - 1].arrival;
                state.queues[q].slots[slot].arrival = before;
                is_sound(&state);
                state.queues[q].slots[slot].arrival = before - 1;
                breaks_only(&state, "arrivals not decreasing");
            }
        }
    }
}

#[test]
fn unused_slots_not_zero() {
    let fields: [fn(&mut Packet); 5] = [
        |slot| slot.id = 1,
        |slot| slot.priority = 1,
        |slot| slot.ontime = 1,
        |slot| slot.lifetime = 1,
        |slot| slot.arrival = 1,
    ];
    for start in starts() {
        for q in 0..4 {
            for slot in start.queues[q].waiting().len()..5 {
                for field in fields {
                    let mut state = start;
                    field(&mut state.queues[q].slots[slot]);
                    breaks_only(&state, "slots past the length zero");
                }
            }
        }
    }
}

#[test]
fn counts_one_off() {
    for start in starts() {
        for counts in one_off(&start) {
            breaks_only(&State { counts, ..start }, "counts add up");
        }
    }
}

#[test]
fn counts_that_add_up_only_by_wrapping() {
    let mut rng = Rng::new(201);
    for start in starts() {
        let waiting = start.waiting() as u64;
        for counts in wrapping(&start, &mut rng) {
            let parts = [counts.sent, counts.expired, counts.displaced];
            let sum = parts.into_iter().fold(waiting, u64::wrapping_add);
            assert_eq!(counts.accepted, sum, "seed 201");
            breaks_only(&State { counts, ..start }, "counts add up");
        }
    }
}

#[test]
fn accepted_above_10_to_15() {
    for start in starts() {
        for most in [ACCEPTED_MOST, ACCEPTED_MOST - 1] {
            is_sound(&start.with_accepted(most));
        }
        for more in [ACCEPTED_MOST + 1, 1 << 63, u64::MAX] {
            // With a true sum, and without.
            breaks_only(&start.with_accepted(more), "accepted at most 10^15");
            let mut state = start;
            state.counts.accepted = more;
            all_calls_refuse(&state);
        }
    }
}

#[test]
fn any_counts_that_add_up_are_sound() {
    let mut rng = Rng::new(202);
    for start in starts() {
        let most = ACCEPTED_MOST - start.waiting() as u64;
        for _ in 0..100 {
            let gone = rng.below(most + 1);
            let sent = rng.below(gone + 1);
            let expired = rng.below(gone - sent + 1);
            is_sound(&start.counted(sent, expired, gone - sent - expired));
        }
        is_sound(&start.counted(0, 0, 0));
        for many in [1, most] {
            is_sound(&start.counted(many, 0, 0));
            is_sound(&start.counted(0, many, 0));
            is_sound(&start.counted(0, 0, many));
        }
    }
}

#[test]
fn old_way() {
    for start in starts() {
        for oldway in [0, 1] {
            is_sound(&State { oldway, ..start });
        }
        for oldway in [2, 3, 256, 1 << 31, u32::MAX] {
            breaks_only(&State { oldway, ..start }, "old way 0 or 1");
        }
    }
}

/// States of a profile whose ledgers are the row of each kind that it allows.
fn with_ledgers(profile: u32) -> Vec<State> {
    let state = late(profile, [1, 0, 2, 0]);
    let (_, most) = ON_TIMES[profile as usize - 1];
    let mut rows = vec![
        vec![],
        row(1, 0, 1, state.time),
        row(1, 0, most, state.time - 999_999),
        row(2, 25_000, most, state.time - 974_999),
        row(40, 25_000, most.min(750), state.time),
        row(40, 25_000, most.min(750), state.time - 24_999),
        row(40, 25_000, 1, state.time - 7),
    ];
    if profile != 2 {
        let many = u64::from(30_000 / most);
        rows.push(row(many, 30_000, most, state.time - 3));
    }
    let states = rows.iter().map(|row| state.with_admissions(row));
    states.collect()
}

#[test]
fn ledgers_that_are_good() {
    let mut rng = Rng::new(208);
    for profile in PROFILES {
        for state in with_ledgers(profile) {
            is_sound(&state);
        }
        for _ in 0..500 {
            let state = late(profile, [1, 0, 2, 0]);
            let held = ledgers::good(profile, state.time, &mut rng);
            let state = state.with_admissions(&held);
            assert_eq!(state.ledger.held(), held);
            is_sound(&state);
        }
    }
}

/// Each rule of the ledger broken alone, in every place.
#[test]
fn ledgers_that_are_broken() {
    let mut rng = Rng::new(209);
    let mut tried = BTreeMap::new();
    for profile in PROFILES {
        let mut states = with_ledgers(profile);
        states.push(fresh(profile));
        for _ in 0..30 {
            let state = late(profile, [0, 1, 0, 0]);
            let held = ledgers::good(profile, state.time, &mut rng);
            states.push(state.with_admissions(&held));
        }
        for state in states {
            for (rule, bent) in ledgers::broken(&state) {
                breaks_only(&bent, rule);
                *tried.entry(rule).or_insert(0) += 1;
            }
        }
    }
    let rules = rule_names();
    for rule in rules.iter().filter(|rule| rule.starts_with("ledger")) {
        assert!(tried.get(rule) > Some(&100), "{rule}: {tried:?}");
    }
}

/// The request's numbers, each a µs to both sides.
#[test]
fn the_numbers_of_the_ledger() {
    for profile in PROFILES {
        let state = late(profile, [1, 0, 0, 0]);
        let with = |held: &[Admission]| {
            let mut state = state.with_admissions(held);
            state.ledger = Ledger::of(held);
            state
        };
        let time = state.time;
        is_sound(&with(&row(2, 25_000, 1, time)));
        let near = with(&row(2, 24_999, 1, time));
        breaks_only(&near, "ledger in order, gaps at least 25,000");
        is_sound(&with(&row(2, 999_999, 1, time)));
        let aged = with(&row(2, 1_000_000, 1, time));
        breaks_only(&aged, "ledger younger than 1,000,000");
        is_sound(&with(&[]));
        is_sound(&with(&row(40, 25_000, 1, time)));
    }
    for (profile, many, ontime) in [(1, 30, 1_000), (3, 10, 3_000)] {
        let state = late(profile, [1, 0, 0, 0]);
        let mut held = row(many, 30_000, ontime, state.time);
        is_sound(&state.with_admissions(&held));
        held[1].ontime -= 1;
        is_sound(&state.with_admissions(&held));
        held.insert(0, admission(state.time - 930_000, 1));
        is_sound(&state.with_admissions(&held));
        held[0].ontime = 2;
        breaks_only(&state.with_admissions(&held), "ledger sum at most 30,000");
    }
}

/// An admission of the last second that is not in the ledger, or one that is in
/// it and was never the last, can't be seen; a ledger with a hole is sound.
#[test]
fn a_ledger_with_a_hole_is_sound() {
    for profile in PROFILES {
        let state = late(profile, [1, 0, 0, 0]);
        let mut held = row(10, 60_000, 1, state.time);
        held.remove(4);
        is_sound(&state.with_admissions(&held));
    }
}

#[test]
fn odd_but_sound() {
    for profile in [1, 2] {
        let odd = State {
            duty: 7_654_321,
            smoothed: 1_000_000,
            ..fresh(profile)
        };
        is_sound(&odd);
    }
    for level in 1..=4 {
        is_sound(&State { level, ..fresh(3) });
    }
    for profile in PROFILES {
        // Packets were sent, and nothing was admitted; or the other way round.
        is_sound(&fresh(profile).counted(1, 0, 0));
        is_sound(&late(profile, [0; 4]).counted(0, 0, 0));
        // A gate of the old way displaces nothing, and may say that it has.
        is_sound(&old(fresh(profile)).counted(0, 0, 7));
        // Expired packets still wait, as a sample leaves them.
        let mut state = late(profile, [5, 5, 5, 5]);
        state = at_time(&state, state.time + 60_000_000);
        is_sound(&state);
        // An admission at time 0, and one younger than no packet.
        is_sound(&State { at: 0, ..state });
        // Any identifier, repeats too, and arrivals all alike.
        for slot in &mut state.queues[2].slots {
            slot.id = u32::MAX;
            slot.arrival = state.time;
        }
        is_sound(&state);
        // Admissions closer than the wait, as long as they are 25,000 µs apart.
        is_sound(&state.with_admissions(&row(2, 25_000, 1, state.time)));
    }
}

#[test]
fn several_rules_at_once_are_all_named() {
    let mut state = State {
        oldway: 9,
        level: 9,
        smoothed: u32::MAX,
        kept: u32::MAX,
        latest: u32::MAX,
        time: u64::MAX,
        at: 1,
        ontime: 1,
        ..State::default()
    };
    state.queues[0].len = 2;
    state.queues[0].slots[0].arrival = 1;
    state.queues[1].len = u64::MAX;
    state.queues[2].slots[0].id = 1;
    state.counts.accepted = u64::MAX;
    let [far, near] = [u64::MAX, 1].map(|at| admission(at, 0));
    state.ledger = Ledger::of(&[far, near]);
    state.ledger.slots[9] = far;
    // A good list, and loads: profile 5's, not this one's.
    state.levels = four_levels();
    state.loads = Loads::of(&[u32::MAX]);
    let broken = broken_rules(&state);
    let unbroken = [
        "list good in profile 5",
        "list room past the length zero",
        "level at most the list's in profile 5",
        "last loads at most 50",
        "last loads at most 1,000,000",
        "last loads' room past the length zero",
        "sample kept only in profile 3",
        "admission not after running time",
        "admission on-time allowed",
        "waiting in its own priority's queue",
        "arrival not after running time",
        "ledger length at most 40",
        "ledger sum at most 30,000",
    ];
    let mut expected = rule_names();
    expected.retain(|name| !unbroken.contains(name));
    assert_eq!(broken, expected);
}

#[test]
fn several_rules_of_profile_5_at_once_are_all_named() {
    let mut state = fresh(5);
    state.level = 9;
    state.levels.len = 2; // and more is listed
    state.levels.wait = 0;
    state.loads = Loads::of(&[u32::MAX]);
    state.loads.slots[49] = 1;
    state.latest = 1;
    let expected = [
        "latest load zero outside profile 4",
        "list good in profile 5",
        "list room past the length zero",
        "level at most the list's in profile 5",
        "last loads at most 1,000,000",
        "last loads' room past the length zero",
    ];
    assert_eq!(broken_rules(&state), expected);
    all_calls_refuse(&state);
}
