//! "Slips seen in earlier firmware", every line.

use crate::help::{fresh, made, sampled, Answer};
use reference::{ccalls, gate, rules};

#[test]
fn one_loud_sample_moves_one_level() {
    for profile in [1, 2] {
        let state = sampled(fresh(profile), 1_000);
        assert_eq!(state.level, 1);
        assert_eq!(ccalls::level_step(profile, 1_000_000, 0).level, 1);
        assert_eq!(ccalls::level_step(profile, 0, 4).level, 3);
    }
}

#[test]
fn every_load_has_a_level() {
    for profile in [1, 2] {
        assert_eq!(rules::wanted_level(profile, 395_000), Some(1));
        assert_eq!(rules::wanted_level(profile, 600_000), Some(3));
    }
}

#[test]
fn a_negative_offset_rounds_down() {
    assert_eq!(rules::offset_unheld(680_001), -2);
    assert_eq!(rules::offset(680_001), -2);
    // Five gaps in a row: 6/5, 12/5, 18/5, 24/5 and 6, all rounded down.
    let offsets: Vec<i64> = (680_001..=680_005).map(rules::offset).collect();
    assert_eq!(offsets, [-2, -3, -4, -5, -6]);
    let offsets: Vec<i64> = (679_995..=680_000).map(rules::offset).collect();
    assert_eq!(offsets, [6, 4, 3, 2, 1, 0]);
}

#[test]
fn a_wait_never_passes_three_percent() {
    for ontime in 1..=4_000u32 {
        for duty in [600_000, 600_001, 7_777_777, 29_999_999, 30_000_000] {
            let wait = rules::wait_adaptive(duty, ontime).unwrap();
            assert!(100 * ontime <= 3 * wait);
        }
    }
    assert_eq!(rules::wait_adaptive(30_000_000, 751), Some(25_034));
}

#[test]
fn duty_is_not_always_kept() {
    let wait = rules::wait_adaptive(600_000, 4_000).unwrap();
    assert_eq!(wait, 1_000_000);
    // On-time over wait, in parts per 10^9, is well above that duty.
    assert!(4_000u64 * 1_000_000_000 / u64::from(wait) > 600_000);
}

#[test]
fn a_wrapped_stamp_steps_forward() {
    assert_eq!(rules::clock_step(4_294_967_295, 0), 1);
    assert_eq!(rules::clock_step(4_294_967_000, 704), 1_000);
    let (state, _) = made(1, 0, 4_294_967_000);
    let (next, answer) = gate::poll(state, 704);
    assert_eq!(answer, Answer::Idle);
    assert_eq!((next.time, next.stamp), (1_000, 704));
}
