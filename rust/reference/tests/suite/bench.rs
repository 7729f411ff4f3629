//! "Bench readings", every line.

use crate::help::{fresh, offered, sampled, Answer, PROFILES};
use reference::{ccalls, gate, rules};

fn wants(load: u32, in_profile_1: u32, in_profile_2: u32) {
    for (profile, level) in [(1, in_profile_1), (2, in_profile_2)] {
        assert_eq!(rules::wanted_level(profile, load), Some(level));
        let result = ccalls::wanted_level(profile, load);
        assert_eq!((result.refusal, result.level), (0, level));
    }
}

#[test]
fn p_loads_around_30_and_40_percent() {
    wants(299_000, 0, 0);
    wants(300_000, 1, 1);
    wants(399_000, 1, 1);
}

#[test]
fn p_loads_around_60_and_65_percent() {
    wants(600_000, 3, 3);
    wants(601_000, 4, 3);
    wants(651_000, 4, 4);
}

#[test]
fn p_smoothing() {
    assert_eq!(rules::smoothed_next(0, 400_000, 400_000), 200_000);
    assert_eq!(rules::smoothed_next(200_000, 400_000, 400_000), 300_000);
    let mut state = fresh(3);
    state = sampled(sampled(state, 400), 400);
    assert_eq!(state.smoothed, 200_000);
    state = sampled(sampled(state, 400), 400);
    assert_eq!(state.smoothed, 300_000);
}

fn duty_at(duty: u32, smoothed: u32, expected: u32) {
    assert_eq!(rules::duty_next(duty, smoothed), expected);
    let result = ccalls::duty_update(duty, smoothed, smoothed, smoothed);
    assert_eq!(result.refusal, 0);
    assert_eq!((result.smoothed, result.duty), (smoothed, expected));
}

#[test]
fn p_duty_at_ten_millions() {
    duty_at(10_000_000, 680_000, 9_840_000);
    duty_at(10_000_000, 680_001, 9_839_998);
    duty_at(10_000_000, 580_000, 9_960_000);
}

#[test]
fn duty_stays_at_its_limits() {
    duty_at(30_000_000, 0, 30_000_000);
    duty_at(600_000, 1_000_000, 600_000);
}

fn waits(duty: u32, ontime: u32, expected: u32) {
    assert_eq!(rules::wait_adaptive(duty, ontime), Some(expected));
    let result = ccalls::wait(3, 0, duty, ontime, 0);
    assert_eq!((result.refusal, result.wait), (0, expected));
}

#[test]
fn p_waits_at_the_greatest_duty() {
    waits(30_000_000, 749, 25_000);
    waits(30_000_000, 750, 25_000);
    waits(30_000_000, 751, 25_034);
    waits(30_000_000, 4_000, 133_334);
}

#[test]
fn waits_at_the_least_duty() {
    waits(600_000, 599, 998_334);
    waits(600_000, 600, 1_000_000);
    waits(600_000, 601, 1_000_000);
}

#[test]
fn four_samples_from_relaxed_to_restrictive() {
    let mut state = fresh(1);
    let mut levels = vec![state.level];
    for _ in 0..5 {
        state = sampled(state, 1_000);
        levels.push(state.level);
    }
    assert_eq!(levels, [0, 1, 2, 3, 4, 4]);
}

#[test]
fn lifetime_ends_at_its_age() {
    for profile in PROFILES {
        let state = offered(fresh(profile), 5, 0, 60_000, 0);
        let (_, answer) = gate::poll(state, 59_999);
        assert!(matches!(answer, Answer::Sent(packet) if packet.id == 5));
        let (after, answer) = gate::poll(state, 60_000);
        assert_eq!(answer, Answer::Idle);
        assert_eq!(after.waiting(), 0);
    }
}
