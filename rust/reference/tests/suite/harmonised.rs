//! W-209: the harmonised profile, number 4.

use crate::help::{admission, assert_refused, fresh, late, made, sampled, Answer, Call};
use crate::runs::told;
use reference::book::{owes_ceiling, Book};
use reference::rules::{closed_for, factor, per_mille, wait_harmonised};
use reference::state::{sound, State};
use reference::{ccalls, gate, rules};

/// The request's factors, and what is around them.
#[test]
fn factors_by_per_mille() {
    for (c, expected) in [
        (0, 0),
        (1, 0),
        (619, 0),
        (620, 0),
        (621, 6),
        (622, 12),
        (623, 19),
        (700, 457),
        (999, 1_517),
        (1_000, 1_519),
    ] {
        assert_eq!(factor(c), expected, "{c}");
    }
}

/// Above 620 the factor is the least whole number that is not below
/// 3,999 − 2,480,000 / c, and it grows.
#[test]
fn the_factor_over_every_per_mille() {
    for c in 621..=1_000u32 {
        let (f, c) = (u64::from(factor(c)), u64::from(c));
        assert!(f * c + 2_480_000 >= 3_999 * c, "{c}");
        assert!((f - 1) * c + 2_480_000 < 3_999 * c, "{c}");
        assert!(factor(c as u32 - 1) < factor(c as u32));
    }
}

#[test]
fn per_mille_is_rounded_up() {
    for load in 0..=1_000_000u32 {
        let c = per_mille(load);
        assert!(1_000 * c >= load && 1_000 * c < load + 1_000);
    }
    assert_eq!(per_mille(u32::MAX), 4_294_968);
}

/// Waits worked by hand: load, on-time, wait.
const WAITS: [(u32, u32, u32); 18] = [
    (0, 1, 25_000),
    (0, 4_000, 25_000),
    (619_999, 4_000, 25_000),
    (620_000, 4_000, 25_000),
    // Factor 6, and 24,000 is held.
    (620_001, 4_000, 25_000),
    (621_000, 4_000, 25_000),
    // Factor 12.
    (621_001, 2_083, 25_000),
    (621_001, 2_084, 25_008),
    (621_001, 4_000, 48_000),
    (622_000, 4_000, 48_000),
    (622_001, 4_000, 76_000),
    (700_000, 1_000, 457_000),
    (700_000, 2_188, 999_916),
    (700_000, 2_189, 1_000_000),
    (1_000_000, 16, 25_000),
    (1_000_000, 17, 25_823),
    (1_000_000, 658, 999_502),
    (1_000_000, 659, 1_000_000),
];

#[test]
fn waits_by_load_and_on_time() {
    for (load, ontime, wait) in WAITS {
        assert_eq!(wait_harmonised(load, ontime), wait, "{load}, {ontime}");
        let result = ccalls::wait(4, 0, 600_000, ontime, load);
        assert_eq!((result.refusal, result.wait), (0, wait));
        // It runs from the end of transmission; the wait itself is as it is.
        let closed = closed_for(4, 0, 600_000, ontime, load);
        assert_eq!(closed, Some(u64::from(ontime + wait)));
    }
    assert_eq!(wait_harmonised(u32::MAX, u32::MAX), 1_000_000);
    assert_eq!(wait_harmonised(u32::MAX, 0), 25_000);
}

/// "Rounding never makes the wait shorter than the published formula held
/// within the same limits", in the request's own words, for every load.
#[test]
fn the_wait_is_never_below_the_published_formula() {
    let ontimes = [1, 2, 16, 17, 658, 659, 999, 2_083, 2_084, 3_999, 4_000];
    for load in 620_001..=1_000_000u32 {
        for ontime in ontimes {
            let wait = i64::from(wait_harmonised(load, ontime));
            let (load, ontime) = (i64::from(load), i64::from(ontime));
            assert!((25_000..=1_000_000).contains(&wait));
            let formula = ontime * (3_999 * load - 2_480_000_000);
            assert!(wait == 1_000_000 || wait * load >= formula);
        }
    }
}

/// Profile 4 keeps the latest load and nothing else; the others don't keep it.
#[test]
fn a_sample_is_remembered_in_profile_4_alone() {
    let mut state = fresh(4);
    state.level = 3; // odd, but sound, and never changed
    state.duty = 7_654_321;
    state.smoothed = 123_456;
    assert_eq!(state.latest, 0);
    for (busy, latest) in [(1_000, 1_000_000), (620, 620_000), (0, 0), (701, 701_000)] {
        let next = sampled(state, busy);
        assert_eq!(next, State { latest, ..state });
        state = next;
    }
    let refused = gate::sample_count(state, 1_001, 1_000, 5);
    assert_refused(state, refused, 4);
    let (state, _) = gate::sample_count(state, 7_751, 12_500, 5);
    assert_eq!(state.latest, 620_080);
    for profile in [1, 2, 3] {
        let loud = sampled(sampled(fresh(profile), 900), 800);
        assert_eq!(loud.latest, 0);
    }
}

#[test]
fn the_gate_opens_exactly_when_the_wait_after_the_on_time_is_over() {
    for (latest, ontime, wait) in WAITS {
        let mut state = late(4, [2, 0, 0, 0]);
        state.latest = latest;
        state.queues[0].slots[0].lifetime = 60_000_000;
        state = state.with_admissions(&[admission(state.time, ontime)]);
        let closed = ontime + wait;
        let (_, answer) = gate::poll(state, state.stamp);
        assert_eq!(answer, Answer::Closed(u64::from(closed)));
        let near = state.stamp + closed - 1;
        assert_eq!(gate::poll(state, near).1, Answer::Closed(1));
        assert!(matches!(gate::poll(state, near + 1).1, Answer::Sent(_)));
    }
}

/// The wait is taken afresh at each poll, with the on-time of the last packet
/// admitted: samples close the gate again, and open it.
#[test]
fn a_sample_changes_the_wait() {
    let mut state = late(4, [1, 0, 0, 0]);
    state.queues[0].slots[0].lifetime = 60_000_000;
    state = state.with_admissions(&[admission(state.time - 30_000, 1_000)]);
    let left = |state: State| match gate::poll(state, state.stamp).1 {
        Answer::Closed(left) => left,
        Answer::Sent(_) => 0,
        other => panic!("{other:?}"),
    };
    assert_eq!(left(state), 0);
    for (busy, closed) in [
        (620, 0),
        (621, 0),         // 6,000 is held at 25,000
        (700, 428_000),   // 1,000 and 457,000, less 30,000
        (1_000, 971_000), // 1,000 and 1,000,000, less 30,000
        (0, 0),
    ] {
        state = sampled(state, busy);
        assert_eq!(left(state), closed, "{busy}");
    }
}

/// Why the ceiling isn't claimed: in a calm channel packets of 4,000 µs go each
/// 29,000 µs. The 30,000 of any second hold them.
#[test]
fn profile_4_passes_the_ceiling_and_keeps_the_second() {
    let mut run = (made(4, 0, 0).0, Book::new(4, 0));
    let mut stamp = 0u32;
    let mut sent = Vec::new();
    for id in 0..40 {
        let offer = Call::Offer {
            id,
            priority: 0,
            ontime: 4_000,
            lifetime: 60_000_000,
            stamp,
        };
        assert_eq!(told(&mut run, offer), Answer::Taken);
        if let Answer::Closed(left) = told(&mut run, Call::Poll { stamp }) {
            stamp += left as u32;
            let answer = told(&mut run, Call::Poll { stamp });
            assert!(matches!(answer, Answer::Sent(_)), "{answer:?}");
        }
        sent.push(stamp);
        assert!(sound(&run.0));
    }
    // Seven in a row, and the eighth a second after the first.
    let first: Vec<u32> = (0..7).map(|n| 29_000 * n).collect();
    assert_eq!(sent[..7], first);
    assert_eq!(sent[7], 1_000_000);
    let window = u64::from(sent[6] - sent[0]);
    assert!(100 * 7 * 4_000 > 3 * window + 400_000);
    assert_eq!(run.1.closest().fullest_stretch, 28_000);
    assert_eq!(run.1.closest().smallest_slack, None);
    assert_eq!([1, 2, 3, 4].map(owes_ceiling), [true, true, true, false]);
}

#[test]
fn the_constants_stand_together() {
    let four = rules::PROFILE_4;
    assert_eq!((four.on_time_max, four.calm_to), (4_000, 620));
    assert_eq!((four.wait_least, four.wait_most), (25_000, 1_000_000));
    assert_eq!(four.wait_from, rules::WaitFrom::End);
}
