//! The four calls for the C stack: results, refusals and their order.

use reference::ccalls::{duty_update, level_step, wait, wanted_level};
use reference::ccalls::{DutyResult, LevelResult, WaitResult};

const BAD: u32 = u32::MAX;

fn no_level(refusal: u32) -> LevelResult {
    LevelResult { refusal, level: 0 }
}

fn no_duty(refusal: u32) -> DutyResult {
    DutyResult {
        refusal,
        smoothed: 0,
        duty: 0,
    }
}

fn no_wait(refusal: u32) -> WaitResult {
    WaitResult { refusal, wait: 0 }
}

#[test]
fn wanted_level_refusals() {
    for profile in [0, 3, 4, 5, BAD] {
        assert_eq!(wanted_level(profile, 0), no_level(1));
        assert_eq!(wanted_level(profile, BAD), no_level(1));
    }
    for profile in [1, 2] {
        let full = LevelResult {
            refusal: 0,
            level: 4,
        };
        assert_eq!(wanted_level(profile, 1_000_000), full);
        assert_eq!(wanted_level(profile, 1_000_001), no_level(4));
        assert_eq!(wanted_level(profile, BAD), no_level(4));
    }
}

#[test]
fn level_step_refusals_in_order() {
    for profile in [0, 3, 4, 5, BAD] {
        assert_eq!(level_step(profile, BAD, BAD), no_level(1));
        assert_eq!(level_step(profile, 0, 0), no_level(1));
    }
    for profile in [1, 2] {
        assert_eq!(level_step(profile, BAD, 5), no_level(9));
        assert_eq!(level_step(profile, 0, 5), no_level(9));
        assert_eq!(level_step(profile, 0, BAD), no_level(9));
        assert_eq!(level_step(profile, 1_000_001, 4), no_level(4));
        assert_eq!(
            level_step(profile, 1_000_000, 4),
            LevelResult {
                refusal: 0,
                level: 4
            }
        );
    }
}

#[test]
fn duty_update_refusals_in_order() {
    for duty in [0, 599_999, 30_000_001, BAD] {
        assert_eq!(duty_update(duty, 0, 0, 0), no_duty(9));
        assert_eq!(duty_update(duty, BAD, BAD, BAD), no_duty(9));
    }
    for duty in [600_000, 30_000_000] {
        assert_eq!(
            duty_update(duty, 1_000_000, 1_000_000, 1_000_000).refusal,
            0
        );
        assert_eq!(duty_update(duty, 1_000_001, 0, 0), no_duty(4));
        assert_eq!(duty_update(duty, 0, 1_000_001, 0), no_duty(4));
        assert_eq!(duty_update(duty, 0, 0, 1_000_001), no_duty(4));
        assert_eq!(duty_update(duty, BAD, BAD, BAD), no_duty(4));
    }
}

#[test]
fn wait_refusals_in_order() {
    for profile in [0, 5, 6, BAD] {
        assert_eq!(wait(profile, 0, 600_000, 1, 0), no_wait(1));
        assert_eq!(wait(profile, BAD, BAD, BAD, BAD), no_wait(1));
    }
    for (profile, most) in [(1, 1_000), (2, 500), (3, 4_000), (4, 4_000)] {
        for (ontime, load) in [(1, 0), (BAD, BAD), (0, 1_000_001)] {
            assert_eq!(wait(profile, 5, 600_000, ontime, load), no_wait(9));
            assert_eq!(wait(profile, 0, 599_999, ontime, load), no_wait(9));
            assert_eq!(wait(profile, 4, 30_000_001, ontime, load), no_wait(9));
            assert_eq!(wait(profile, BAD, BAD, ontime, load), no_wait(9));
        }
        for ontime in [0, 1, most, most + 1, BAD] {
            let above = wait(profile, 4, 30_000_000, ontime, 1_000_001);
            assert_eq!(above, no_wait(4));
            assert_eq!(wait(profile, 0, 600_000, ontime, BAD), no_wait(4));
        }
        for load in [0, 620_000, 1_000_000] {
            for ontime in [0, most + 1, BAD] {
                assert_eq!(wait(profile, 4, 30_000_000, ontime, load), no_wait(6));
            }
            assert_eq!(wait(profile, 4, 30_000_000, most, load).refusal, 0);
            assert_eq!(wait(profile, 0, 600_000, 1, load).refusal, 0);
        }
    }
}

#[test]
fn wait_uses_what_its_profile_uses() {
    for load in [0, 620_001, 1_000_000] {
        assert_eq!(wait(1, 3, 600_000, 1, load).wait, 500_000);
        assert_eq!(wait(1, 3, 30_000_000, 1_000, load).wait, 500_000);
        assert_eq!(wait(2, 3, 600_000, 500, load).wait, 250_000);
        assert_eq!(wait(3, 0, 30_000_000, 4_000, load).wait, 133_334);
        assert_eq!(wait(3, 4, 30_000_000, 4_000, load).wait, 133_334);
    }
    for (level, duty) in [(0, 600_000), (4, 600_000), (0, 30_000_000)] {
        assert_eq!(wait(4, level, duty, 1_000, 700_000).wait, 457_000);
    }
}

#[test]
fn duty_update_gives_both_numbers() {
    // smoothed' = (2 × 100,001 + 7 + 4) / 4, the remainder 1 dropped.
    let result = duty_update(1_000_001, 100_001, 7, 4);
    assert_eq!(result.smoothed, 50_003);
    // 984 × 1,000,001 / 1,000 = 984,000 and a rest; the offset is held.
    assert_eq!(result.duty, 1_484_000);
}
