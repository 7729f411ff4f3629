//! The rules over whole ranges, and at the ends of the number types.

use crate::help::ON_TIMES;
use reference::book::floor;
use reference::rng::Rng;
use reference::rules;

/// The greatest load of each level 0 to 3, by the paper's table.
const TO: [(u32, [u32; 4]); 2] = [
    (1, [299_999, 399_999, 499_999, 600_000]),
    (2, [299_999, 399_999, 499_999, 650_000]),
];

#[test]
fn wanted_level_over_every_load() {
    for (profile, to) in TO {
        for load in 0..=1_000_001 {
            let level = to.iter().filter(|&&most| load > most).count() as u32;
            assert_eq!(rules::wanted_level(profile, load), Some(level));
        }
        assert_eq!(rules::wanted_level(profile, u32::MAX), Some(4));
    }
    for profile in [0, 3, 4, 5, u32::MAX] {
        assert_eq!(rules::wanted_level(profile, 0), None);
    }
}

#[test]
fn level_steps_are_at_most_one() {
    for level in 0..=4i64 {
        for wanted in 0..=4i64 {
            let expected = level + (wanted - level).signum();
            let next = rules::level_step(level as u32, wanted as u32);
            assert_eq!(i64::from(next), expected);
        }
    }
    assert_eq!(rules::level_step(u32::MAX, u32::MAX), u32::MAX);
    assert_eq!(rules::level_step(0, u32::MAX), 1);
    assert_eq!(rules::level_step(u32::MAX, 0), u32::MAX - 1);
}

#[test]
fn reactive_waits_by_level() {
    let waits = |profile| -> Vec<u32> {
        let level_wait = |level| rules::wait_reactive(profile, level).unwrap();
        (0..=4).map(level_wait).collect()
    };
    assert_eq!(waits(1), [100_000, 200_000, 400_000, 500_000, 1_000_000]);
    assert_eq!(waits(2), [50_000, 100_000, 200_000, 250_000, 1_000_000]);
    for level in [5, 6, u32::MAX] {
        assert_eq!(rules::wait_reactive(1, level), None);
        assert_eq!(rules::wait(2, level, 600_000, 1, 0), None);
    }
    assert_eq!(rules::wait(0, 0, 600_000, 1, 0), None);
    assert_eq!(rules::wait(5, 0, 600_000, 1, 0), None);
    assert_eq!(rules::wait(6, 0, 600_000, 1, 0), None);
}

/// W-202, W-209 and W-213: the wait runs from the end in profiles 1, 2, 4 and 5,
/// from the start in 3.
#[test]
fn the_gate_is_closed_for_the_wait_from_its_start_or_end() {
    for profile in [1, 2, 3, 4] {
        let most = rules::on_time_max(profile).unwrap();
        for level in 0..=4 {
            for (duty, load) in [(600_000, 620_001), (7_777_777, 0), (30_000_000, 700_000)] {
                for ontime in 1..=most {
                    let wait = rules::wait(profile, level, duty, ontime, load).unwrap();
                    let before = if profile == 3 { 0 } else { ontime };
                    let closed = rules::closed_for(profile, level, duty, ontime, load);
                    assert_eq!(closed, Some(u64::from(before + wait)));
                }
            }
        }
    }
    for profile in [0, 6, u32::MAX] {
        assert_eq!(rules::wait_from(profile), None);
        assert_eq!(rules::closed_for(profile, 0, 600_000, 1, 0), None);
        assert_eq!(rules::closed_with(profile, 1, 1), None);
    }
    // Profile 5's wait comes from its list.
    assert_eq!(rules::closed_for(5, 0, 600_000, 1, 0), None);
    assert_eq!(rules::closed_with(5, 1_000, 40_000), Some(41_000));
    assert_eq!(rules::closed_for(1, 5, 600_000, 1, 0), None);
}

/// The book's floors are the longest that the rules keep a gate closed.
#[test]
fn the_floor_is_the_longest_that_a_gate_is_closed() {
    for profile in [1, 2, 3, 4] {
        let most = rules::on_time_max(profile).unwrap();
        let worst = |ontime| rules::closed_for(profile, 4, 600_000, ontime, 1_000_000);
        let closed = (1..=most).filter_map(worst);
        assert_eq!(closed.max(), Some(floor(profile)));
    }
}

#[test]
fn offset_is_the_greatest_whole_number_below() {
    for smoothed in 0..=1_000_000u32 {
        let gap = 680_000 - i64::from(smoothed);
        let offset = rules::offset_unheld(smoothed);
        assert!(5 * offset <= 6 * gap && 6 * gap < 5 * (offset + 1));
        let held = rules::offset(smoothed);
        assert_eq!(held, offset.clamp(-250_000, 500_000));
    }
}

#[test]
fn offset_limits() {
    // 6 × gap / 5 reaches 500,000 at gap 416,667 and −250,000 at gap −208,333.
    assert_eq!(rules::offset(263_333), 500_000);
    assert_eq!(rules::offset(263_334), 499_999);
    assert_eq!(rules::offset(888_333), -250_000);
    assert_eq!(rules::offset(888_332), -249_999);
    assert_eq!(rules::offset(u32::MAX), -250_000);
}

#[test]
fn adaptive_wait_is_the_ceiling_held() {
    let mut rng = Rng::new(11);
    for _ in 0..200_000 {
        let duty = 600_000 + rng.below(29_400_001) as u32;
        let ontime = 1 + rng.below(4_000) as u32;
        let wait = u64::from(rules::wait_adaptive(duty, ontime).unwrap());
        let over = u64::from(ontime) * 1_000_000_000;
        let duty = u64::from(duty);
        let enough = wait * duty >= over;
        let least_enough = (wait - 1) * duty < over;
        assert!(wait == 25_000 || least_enough);
        assert!(wait == 1_000_000 || enough);
        assert!((25_000..=1_000_000).contains(&wait));
    }
}

#[test]
fn rules_at_the_ends_of_their_types() {
    assert_eq!(rules::smoothed_next(u32::MAX, u32::MAX, u32::MAX), u32::MAX);
    assert_eq!(rules::duty_next(u32::MAX, u32::MAX), 30_000_000);
    assert_eq!(rules::duty_next(0, u32::MAX), 600_000);
    assert_eq!(rules::wait_adaptive(1, u32::MAX), Some(1_000_000));
    assert_eq!(rules::wait_adaptive(u32::MAX, 0), Some(25_000));
    assert_eq!(rules::wait_adaptive(0, 1), None);
    let end = u64::from(u32::MAX) + 1_000_000;
    assert_eq!(rules::closed_for(1, 4, 0, u32::MAX, 0), Some(end));
    assert_eq!(rules::closed_for(4, 0, 0, u32::MAX, u32::MAX), Some(end));
    for probes in [0, 1, 1_000, 12_500, u32::MAX] {
        assert_eq!(rules::load_of_count(u32::MAX, probes), None);
    }
    assert_eq!(rules::words_needed(u32::MAX), 1 << 26);
    assert_eq!(rules::words_needed(0), 0);
    assert!(rules::expired(u64::MAX, 0, u32::MAX));
    assert!(!rules::expired(0, u64::MAX, 0));
    assert_eq!(rules::busy_count(&[u64::MAX; 40]), 2_560);
    assert_eq!(rules::busy_count(&[]), 0);
}

#[test]
fn on_times_allowed() {
    for (profile, most) in ON_TIMES {
        for ontime in 0..=5_000 {
            let allowed = (1..=most).contains(&ontime);
            assert_eq!(rules::on_time_allowed(profile, ontime), allowed);
        }
        assert!(!rules::on_time_allowed(profile, u32::MAX));
    }
    for profile in [0, 6, u32::MAX] {
        assert!(!rules::on_time_allowed(profile, 1));
    }
}
