//! "Refusal numbers": each number at its boundary, and the order of checks.

use crate::help::{assert_refused, fresh, late, made, old, Answer, ON_TIMES, PROFILES, WAYS};
use reference::state::State;
use reference::{calls, gate};

const BACK: u32 = 2_147_483_648;

/// Those that need no list; the fifth is made with one (`first_edition`).
#[test]
fn make_takes_four_profiles() {
    for profile in [1, 2, 3, 4] {
        for (oldway, stamp) in [(0, 0), (0, 1), (0, u32::MAX), (1, 0), (1, 7)] {
            let (state, answer) = made(profile, oldway, stamp);
            assert_eq!(answer, Answer::Ready);
            let expected = State {
                live: true,
                profile,
                oldway,
                stamp,
                duty: 600_000,
                ..State::default()
            };
            assert_eq!(state, expected);
        }
    }
    for profile in [0, 6, 7, 255, 256, u32::MAX] {
        for oldway in [0, 1, 2] {
            let none = State::default();
            assert_refused(none, made(profile, oldway, 7), 1);
            assert!(!none.live);
        }
    }
}

#[test]
fn each_number_has_its_name() {
    for (number, name) in [
        (calls::BAD_PROFILE, "BAD-PROFILE"),
        (calls::CLOCK_BACK, "CLOCK-BACK"),
        (calls::CLOCK_END, "CLOCK-END"),
        (calls::BAD_SAMPLE, "BAD-SAMPLE"),
        (calls::BAD_PRIORITY, "BAD-PRIORITY"),
        (calls::BAD_ON_TIME, "BAD-ON-TIME"),
        (calls::BAD_LIFETIME, "BAD-LIFETIME"),
        (calls::QUEUE_FULL, "QUEUE-FULL"),
        (calls::NO_STATE, "NO-STATE"),
        (calls::BAD_KIND, "BAD-KIND"),
        (calls::SPENT, "SPENT"),
        (calls::NO_ROOM, "NO-ROOM"),
        (calls::TORN_LOG, "TORN-LOG"),
        (calls::BAD_FLOAT, "BAD-FLOAT"),
        (calls::BAD_LIST, "BAD-LIST"),
    ] {
        assert_eq!(calls::refusal_name(number), Some(name));
    }
    for none in [0, 16, u32::MAX] {
        assert_eq!(calls::refusal_name(none), None);
    }
}

#[test]
fn make_takes_a_yes_or_a_no() {
    for profile in PROFILES {
        for oldway in WAYS {
            assert_eq!(made(profile, oldway, 7).1, Answer::Ready);
        }
        for oldway in [2, 3, 256, 1 << 31, u32::MAX] {
            assert_refused(State::default(), made(profile, oldway, 7), 1);
        }
    }
}

#[test]
fn number_4_by_count() {
    for profile in PROFILES {
        let state = fresh(profile);
        assert_eq!(gate::sample_count(state, 1_000, 1_000, 0).1, Answer::Taken);
        for busy in [1_001, 65_536, u32::MAX] {
            assert_refused(state, gate::sample_count(state, busy, 1_000, 5), 4);
        }
        for probes in [1, 2, 63, 64, 65, 999, 1_001, 12_499, 12_500] {
            for busy in [0, 1, probes] {
                let (_, answer) = gate::sample_count(state, busy, probes, 0);
                assert_eq!(answer, Answer::Taken, "{busy} of {probes}");
            }
            let above = gate::sample_count(state, probes + 1, probes, 5);
            assert_refused(state, above, 4);
        }
        // In a record 0 means 1,000; here it means 0.
        for probes in [0, 12_501, 65_536 + 1_000, u32::MAX] {
            for busy in [0, 1, probes] {
                assert_refused(state, gate::sample_count(state, busy, probes, 5), 4);
            }
        }
    }
}

#[test]
fn number_4_by_words() {
    for profile in PROFILES {
        let state = fresh(profile);
        let mut last = [0u64; 16];
        last[15] = 1 << 39;
        assert_eq!(gate::sample_words(state, 1_000, &last, 0).1, Answer::Taken);
        last[15] = 1 << 40;
        assert_refused(state, gate::sample_words(state, 1_000, &last, 5), 4);
        assert_refused(state, gate::sample_words(state, 1_000, &[0; 15], 5), 4);
        assert_refused(state, gate::sample_words(state, 1_000, &[0; 17], 5), 4);
        for (probes, length) in [(0, 0), (0, 1), (0, 16), (12_501, 196), (u32::MAX, 16)] {
            let quiet = vec![0; length];
            assert_refused(state, gate::sample_words(state, probes, &quiet, 5), 4);
        }
    }
}

#[test]
fn number_5_priority() {
    for profile in PROFILES {
        let state = fresh(profile);
        for priority in 0..=3 {
            assert_eq!(gate::offer(state, 1, priority, 1, 1, 0).1, Answer::Taken);
        }
        for priority in [4, 5, 256, u32::MAX] {
            assert_refused(state, gate::offer(state, 1, priority, 1, 1, 5), 5);
        }
    }
}

#[test]
fn number_6_on_time() {
    for (profile, most) in ON_TIMES {
        let state = fresh(profile);
        for ontime in [1, most] {
            assert_eq!(gate::offer(state, 1, 0, ontime, 1, 0).1, Answer::Taken);
        }
        for ontime in [0, most + 1, u32::MAX] {
            assert_refused(state, gate::offer(state, 1, 0, ontime, 1, 5), 6);
        }
    }
}

#[test]
fn number_7_lifetime() {
    for profile in PROFILES {
        let state = fresh(profile);
        for lifetime in [1, 60_000_000] {
            assert_eq!(gate::offer(state, 1, 0, 1, lifetime, 0).1, Answer::Taken);
        }
        for lifetime in [0, 60_000_001, u32::MAX] {
            assert_refused(state, gate::offer(state, 1, 0, 1, lifetime, 5), 7);
        }
    }
}

#[test]
fn number_8_queue_full() {
    for profile in PROFILES {
        for priority in 0..4 {
            let mut lengths = [0; 4];
            lengths[priority as usize] = 4;
            let state = old(late(profile, lengths));
            let (full, answer) = gate::offer(state, 1, priority, 1, 1_000, state.stamp);
            assert_eq!(answer, Answer::Taken);
            let again = gate::offer(full, 1, priority, 1, 1, full.stamp + 5);
            assert_refused(full, again, 8);
            for other in (0..4).filter(|&other| other != priority) {
                let (_, answer) = gate::offer(full, 1, other, 1, 1, full.stamp);
                assert_eq!(answer, Answer::Taken);
            }
        }
    }
}

/// Every call, with arguments as bad as can be, on a state.
fn worst_calls(state: State, stamp: u32) -> [(State, Answer); 4] {
    [
        gate::sample_words(state, 1_000, &[u64::MAX; 3], stamp),
        gate::sample_count(state, u32::MAX, 1_000, stamp),
        gate::offer(state, 1, u32::MAX, u32::MAX, u32::MAX, stamp),
        gate::poll(state, stamp),
    ]
}

#[test]
fn order_9_then_2_then_3() {
    for profile in PROFILES {
        let mut state = late(profile, [5, 5, 5, 5]);
        state.time = 1_000_000_000_000_000;
        state = state.with_admissions(&[]);
        for result in worst_calls(state, state.stamp.wrapping_add(BACK)) {
            assert_refused(state, result, 2);
        }
        for result in worst_calls(state, state.stamp.wrapping_add(1)) {
            assert_refused(state, result, 3);
        }
        state.level = 5;
        for step in [0, 1, BACK] {
            for result in worst_calls(state, state.stamp.wrapping_add(step)) {
                assert_refused(state, result, 9);
            }
        }
    }
}

#[test]
fn order_5_then_6_then_7_then_8() {
    for profile in PROFILES {
        let state = old(late(profile, [5, 5, 5, 5]));
        let stamp = state.stamp;
        assert_refused(state, gate::offer(state, 1, 4, 0, 0, stamp), 5);
        assert_refused(state, gate::offer(state, 1, 3, 0, 0, stamp), 6);
        assert_refused(state, gate::offer(state, 1, 3, 1, 0, stamp), 7);
        assert_refused(state, gate::offer(state, 1, 3, 1, 1, stamp), 8);
    }
}

#[test]
fn the_not_live_state_is_refused_with_9() {
    for result in worst_calls(State::default(), BACK) {
        assert_refused(State::default(), result, 9);
    }
}
