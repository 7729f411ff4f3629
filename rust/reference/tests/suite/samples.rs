//! "Samples": words and counts, levels, pairing.

use crate::help::{assert_refused, fresh, late, sampled, words, words_of, Answer, PROFILES};
use reference::rng::Rng;
use reference::{gate, rules};

#[test]
fn each_probe_is_its_own_bit() {
    for k in 0..1_024usize {
        let mut one = vec![0u64; 16];
        one[k / 64] = 1 << (k % 64);
        assert_eq!(rules::busy_count(&one), 1);
        assert_eq!(rules::probe_busy(&one, k), Some(true));
        let (state, answer) = gate::sample_words(fresh(3), 1_000, &one, 0);
        if k < 1_000 {
            assert_eq!(answer, Answer::Taken);
            assert_eq!(state.kept, 1_000);
        } else {
            assert_refused(fresh(3), (state, answer), 4);
        }
    }
}

#[test]
fn busy_count_is_the_count_of_ones() {
    let mut rng = Rng::new(21);
    for length in 0..40 {
        let any: Vec<u64> = (0..length).map(|_| rng.next_u64()).collect();
        let ones: u32 = any.iter().map(|word| word.count_ones()).sum();
        assert_eq!(rules::busy_count(&any), u64::from(ones));
        assert_eq!(rules::probe_busy(&any, 64 * length), None);
    }
}

#[test]
fn only_sixteen_words_are_a_sample_of_a_thousand() {
    for profile in PROFILES {
        for length in 0..=40 {
            let quiet = vec![0u64; length];
            let result = gate::sample_words(fresh(profile), 1_000, &quiet, 0);
            if length == 16 {
                assert_eq!(result.1, Answer::Taken);
            } else {
                assert_refused(fresh(profile), result, 4);
            }
        }
    }
}

#[test]
fn words_and_count_do_the_same() {
    let mut rng = Rng::new(5);
    for profile in PROFILES {
        let mut state = late(profile, [1, 0, 2, 5]);
        for _ in 0..3_000 {
            let quiet = rng.next_u64() & rng.next_u64();
            let mut any: Vec<u64> = (0..16).map(|_| rng.next_u64() | quiet).collect();
            any[15] &= (1 << 40) - 1;
            let busy: u32 = any.iter().map(|word| word.count_ones()).sum();
            let stamp = state.stamp.wrapping_add(rng.next_u32() >> 12);
            let by_words = gate::sample_words(state, 1_000, &any, stamp);
            assert_eq!(by_words, gate::sample_count(state, busy, 1_000, stamp));
            assert_eq!(by_words.1, Answer::Taken);
            state = by_words.0;
        }
    }
    assert_eq!(rules::load_of_words(1_000, &words(1_000)), Some(1_000_000));
    assert_eq!(rules::load_of_words(1_000, &words(395)), Some(395_000));
}

/// W-208's load, by count and by words, worked by hand.
#[test]
fn loads_of_some_probes() {
    for (busy, probes, load) in [
        (0, 1, 0),
        (1, 1, 1_000_000),
        (1, 2, 500_000),
        (1, 3, 333_333),
        (2, 3, 666_666),
        (6, 7, 857_142),
        (63, 64, 984_375),
        (64, 64, 1_000_000),
        (64, 65, 984_615),
        (1, 12_500, 80),
        (7_750, 12_500, 620_000),
        (7_751, 12_500, 620_080),
        (12_499, 12_500, 999_920),
        (12_500, 12_500, 1_000_000),
    ] {
        assert_eq!(rules::load_of_count(busy, probes), Some(load));
        let words = words_of(busy, probes);
        assert_eq!(rules::load_of_words(probes, &words), Some(load));
        let (by_count, answer) = gate::sample_count(fresh(3), busy, probes, 0);
        assert_eq!((by_count.kept, answer), (load, Answer::Taken));
        let by_words = gate::sample_words(fresh(3), probes, &words, 0);
        assert_eq!(by_words, (by_count, answer));
    }
}

/// The old law is the new one's at 1,000 probes.
#[test]
fn a_thousand_probes_have_a_thousand_each() {
    for busy in 0..=1_000 {
        assert_eq!(rules::load_of_count(busy, 1_000), Some(1_000 * busy));
    }
}

/// The load is the greatest whole number that is not above the fraction.
#[test]
fn the_load_is_rounded_down() {
    let mut rng = Rng::new(208);
    for probes in 1..=12_500u32 {
        let any = rng.below(u64::from(probes) + 1) as u32;
        for busy in [0, 1, any, probes - 1, probes] {
            let load = u64::from(rules::load_of_count(busy, probes).unwrap());
            let (busy, of) = (u64::from(busy), u64::from(probes));
            let over = 1_000_000 * busy;
            assert!(load * of <= over && over < (load + 1) * of);
        }
        assert_eq!(rules::load_of_count(probes + 1, probes), None);
    }
}

/// Every probe count, with words around just enough and each stray bit.
#[test]
fn just_enough_words_and_no_stray_bit() {
    for probes in 1..=12_500u32 {
        let needed = (0..).find(|length| 64 * length >= probes as usize).unwrap();
        assert_eq!(rules::words_needed(probes), needed);
        for length in needed.saturating_sub(2)..=needed + 2 {
            let quiet = vec![0; length];
            assert_eq!(rules::words_good(probes, &quiet), length == needed);
        }
        let mut bent = vec![0u64; needed];
        for k in 64 * (needed - 1)..64 * needed {
            bent[needed - 1] = 1 << (k % 64);
            let within = k < probes as usize;
            assert_eq!(rules::words_good(probes, &bent), within, "{probes}, {k}");
        }
    }
    for probes in [0, 12_501, 12_544, 65_536, u32::MAX] {
        for length in [0, 1, 195, 196, 197, 1_024] {
            assert!(!rules::words_good(probes, &vec![0; length]));
        }
    }
}

#[test]
fn words_and_count_of_any_probes_do_the_same() {
    let mut rng = Rng::new(28);
    for profile in PROFILES {
        let mut state = late(profile, [1, 0, 2, 5]);
        for _ in 0..500 {
            let any = 1 + rng.below(12_500) as u32;
            let probes = rng.pick(&[1, 63, 64, 65, 1_000, 12_499, 12_500, any]);
            let quiet = rng.next_u64() & rng.next_u64();
            let length = probes.div_ceil(64) as usize;
            let mut any: Vec<u64> = (0..length).map(|_| rng.next_u64() | quiet).collect();
            any[length - 1] &= u64::MAX >> ((64 - probes % 64) % 64);
            let busy: u32 = any.iter().map(|word| word.count_ones()).sum();
            let stamp = state.stamp.wrapping_add(rng.next_u32() >> 12);
            let by_words = gate::sample_words(state, probes, &any, stamp);
            assert_eq!(by_words, gate::sample_count(state, busy, probes, stamp));
            assert_eq!(by_words.1, Answer::Taken);
            state = by_words.0;
        }
    }
}

#[test]
fn a_sample_expires_nothing() {
    for profile in PROFILES {
        let state = late(profile, [5, 4, 3, 2]);
        let (next, answer) = gate::sample_count(state, 0, 1_000, state.stamp + 2_000_000_000);
        assert_eq!(answer, Answer::Taken);
        assert_eq!(next.queues, state.queues);
        assert_eq!(next.time, state.time + 2_000_000_000);
    }
}

#[test]
fn reactive_profiles_change_the_level_alone() {
    for profile in [1, 2] {
        let mut state = fresh(profile);
        state.duty = 12_345_678;
        state.smoothed = 999_999;
        for (busy, level) in [(1_000, 1), (400, 2), (400, 2), (0, 1), (0, 0), (0, 0)] {
            let next = sampled(state, busy);
            let mut expected = state;
            expected.level = level;
            assert_eq!(next, expected);
            state = next;
        }
    }
}

#[test]
fn profile_3_keeps_then_pairs() {
    let mut state = fresh(3);
    state.level = 2; // odd, but sound, and never changed
    let first = sampled(state, 700);
    assert_eq!((first.kept, first.haskept), (700_000, true));
    assert_eq!((first.duty, first.smoothed, first.level), (600_000, 0, 2));
    // A refused sample does not count.
    assert_refused(first, gate::sample_count(first, 1_001, 1_000, 0), 4);
    let second = sampled(first, 300);
    assert_eq!((second.kept, second.haskept), (0, false));
    assert_eq!(second.smoothed, 250_000);
    // 590,400, and the gap 430,000 gives more than 500,000.
    assert_eq!((second.duty, second.level), (1_090_400, 2));
}

#[test]
fn a_kept_load_of_zero_is_still_kept() {
    let first = sampled(fresh(3), 0);
    assert_eq!((first.kept, first.haskept), (0, true));
    let second = sampled(first, 1_000);
    assert_eq!((second.smoothed, second.haskept), (250_000, false));
}

#[test]
fn duty_climbs_to_its_top_and_falls_to_its_foot() {
    let mut state = fresh(3);
    for _ in 0..1_000 {
        state = sampled(state, 0);
    }
    assert_eq!(state.duty, 30_000_000);
    for _ in 0..1_000 {
        state = sampled(state, 1_000);
    }
    assert_eq!(state.duty, 600_000);
}
