//! The four rules of the archive, held to the reference on every number that matters.
//!
//! Each comparison is of the whole answer, the zeros of a refusal included, and is made twice: on the
//! archive's struct, and on what the safe call makes of it.

use presscurlew::rules::{self, RuleRefusal};
use presscurlew::sys;
use reference::ccalls;
use reference::rng::Rng;

const FULL_LOAD: u32 = 1_000_000;
const LEAST_DUTY: u32 = 600_000;
const MOST_DUTY: u32 = 30_000_000;
const MOST_ONTIME: u32 = 4_000;

const PROFILES: [u32; 8] = [0, 1, 2, 3, 4, 5, 6, u32::MAX];
const LEVELS: [u32; 8] = [0, 1, 2, 3, 4, 5, 6, u32::MAX];

/// Loads above the full one, near it and far from it.
const LOADS_ABOVE: [u32; 6] = [
    1_000_001,
    1_000_002,
    2_000_000,
    1 << 31,
    u32::MAX - 1,
    u32::MAX,
];

/// Loads where the update's divisions, its offset's limits and its refusals turn.
const EDGE_LOADS: [u32; 26] = [
    0,
    1,
    2,
    3,
    4,
    263_332,
    263_333,
    263_334,
    300_000,
    580_000,
    679_998,
    679_999,
    680_000,
    680_001,
    680_002,
    888_332,
    888_333,
    888_334,
    888_335,
    999_998,
    999_999,
    1_000_000,
    1_000_001,
    1_000_002,
    1 << 31,
    u32::MAX,
];

/// Duties at their limits, where an update meets one, and outside.
const EDGE_DUTIES: [u32; 22] = [
    0,
    1,
    599_999,
    600_000,
    600_001,
    600_999,
    601_000,
    609_757,
    609_758,
    750_000,
    863_822,
    863_823,
    1_000_000,
    10_000_000,
    29_979_674,
    29_979_675,
    29_999_999,
    30_000_000,
    30_000_001,
    1_000_000_000,
    1 << 31,
    u32::MAX,
];

/// A safe call's answer as number and value; a refusal's value is 0.
fn flat(answer: Result<u32, RuleRefusal>) -> (u32, u32) {
    match answer {
        Ok(value) => (0, value),
        Err(refusal) => (refusal.number(), 0),
    }
}

fn hold_wanted_level(profile: u32, load: u32) {
    let expected = ccalls::wanted_level(profile, load);
    let expected = (expected.refusal, expected.level);
    let got = sys::presscurlew_wanted_level(profile, load);
    assert_eq!(
        (got.refusal, got.level),
        expected,
        "wanted level of ({profile}, {load})"
    );
    assert_eq!(flat(rules::wanted_level(profile, load)), expected);
}

fn hold_level_step(profile: u32, load: u32, level: u32) {
    let expected = ccalls::level_step(profile, load, level);
    let expected = (expected.refusal, expected.level);
    let got = sys::presscurlew_level_step(profile, load, level);
    assert_eq!(
        (got.refusal, got.level),
        expected,
        "level step of ({profile}, {load}, {level})"
    );
    assert_eq!(flat(rules::level_step(profile, load, level)), expected);
}

/// `origin` says where the numbers come from.
fn hold_duty_update(numbers: [u32; 4], origin: &dyn std::fmt::Display) {
    let [duty, smoothed, kept, new] = numbers;
    let expected = ccalls::duty_update(duty, smoothed, kept, new);
    let expected = (expected.refusal, expected.smoothed, expected.duty);
    let got = sys::presscurlew_duty_update(duty, smoothed, kept, new);
    assert_eq!(
        (got.refusal, got.smoothed, got.duty),
        expected,
        "duty update of {numbers:?}, {origin}"
    );
    let safe = match rules::duty_update(duty, smoothed, kept, new) {
        Ok(update) => (0, update.smoothed, update.duty),
        Err(refusal) => (refusal.number(), 0, 0),
    };
    assert_eq!(safe, expected, "duty update of {numbers:?}, {origin}");
}

fn hold_wait(numbers: [u32; 5], origin: &dyn std::fmt::Display) {
    let [profile, level, duty, ontime, load] = numbers;
    let expected = ccalls::wait(profile, level, duty, ontime, load);
    let expected = (expected.refusal, expected.wait);
    let got = sys::presscurlew_wait(profile, level, duty, ontime, load);
    assert_eq!(
        (got.refusal, got.wait),
        expected,
        "wait of {numbers:?}, {origin}"
    );
    let safe = flat(rules::wait(profile, level, duty, ontime, load));
    assert_eq!(safe, expected, "wait of {numbers:?}, {origin}");
}

/// Mostly a number from `low` to `high`; now and then an edge, or any number at all.
fn mixed(rng: &mut Rng, low: u32, high: u32, edges: &[u32]) -> u32 {
    match rng.below(16) {
        0 => rng.pick(edges),
        1 => rng.next_u32(),
        _ => low + rng.below(u64::from(high - low) + 1) as u32,
    }
}

#[test]
fn wanted_level_of_every_load() {
    for profile in PROFILES {
        for load in (0..=FULL_LOAD).chain(LOADS_ABOVE) {
            hold_wanted_level(profile, load);
        }
    }
}

#[test]
fn level_step_of_every_load() {
    for profile in PROFILES {
        for level in LEVELS {
            for load in (0..=FULL_LOAD).chain(LOADS_ABOVE) {
                hold_level_step(profile, load, level);
            }
        }
    }
}

#[test]
fn duty_update_on_edges() {
    for duty in EDGE_DUTIES {
        for smoothed in EDGE_LOADS {
            for kept in EDGE_LOADS {
                for new in EDGE_LOADS {
                    hold_duty_update([duty, smoothed, kept, new], &"on edges");
                }
            }
        }
    }
}

#[test]
fn duty_update_on_ten_million_random_quadruples() {
    const SEED: u64 = 0x5EED_0001;
    let mut rng = Rng::new(SEED);
    for turn in 0..10_000_000 {
        let numbers = [
            mixed(&mut rng, LEAST_DUTY, MOST_DUTY, &EDGE_DUTIES),
            mixed(&mut rng, 0, FULL_LOAD, &EDGE_LOADS),
            mixed(&mut rng, 0, FULL_LOAD, &EDGE_LOADS),
            mixed(&mut rng, 0, FULL_LOAD, &EDGE_LOADS),
        ];
        hold_duty_update(numbers, &format_args!("seed {SEED:#x}, turn {turn}"));
    }
}

/// The wait for every on-time, in every profile and at every level, where the channel was calm, loud and no load at all.
fn hold_waits_at(duty: u32, origin: &dyn std::fmt::Display) {
    for profile in PROFILES {
        for level in LEVELS {
            for load in [0, 650_000, FULL_LOAD + 1] {
                for ontime in (0..=MOST_ONTIME + 1).chain([1 << 31, u32::MAX]) {
                    hold_wait([profile, level, duty, ontime, load], origin);
                }
            }
        }
    }
}

#[test]
fn wait_of_every_ontime_at_edge_duties() {
    for duty in EDGE_DUTIES {
        hold_waits_at(duty, &"at an edge duty");
    }
}

#[test]
fn wait_of_every_ontime_at_random_duties() {
    const SEED: u64 = 0x5EED_0002;
    let mut rng = Rng::new(SEED);
    for turn in 0..64 {
        let duty = mixed(&mut rng, LEAST_DUTY, MOST_DUTY, &EDGE_DUTIES);
        hold_waits_at(duty, &format_args!("seed {SEED:#x}, turn {turn}"));
    }
}

/// Profile 3's wait where it begins and ceases to be held: for every on-time, the duties beside those at which the quotient is a
/// limit or next to it (document 02, W-203).
#[test]
fn wait_of_every_ontime_beside_its_limits() {
    let mut held = [0u32; 3];
    for ontime in 1..=MOST_ONTIME {
        let spread = u64::from(ontime) * 1_000_000_000;
        for quotient in [24_999, 25_000, 25_001, 999_999, 1_000_000, 1_000_001] {
            let exact = (spread / quotient) as u32;
            for duty in exact.saturating_sub(2)..=exact + 2 {
                hold_wait([3, 0, duty, ontime, 0], &"beside a limit of the wait");
                if (LEAST_DUTY..=MOST_DUTY).contains(&duty) {
                    held[match ccalls::wait(3, 0, duty, ontime, 0).wait {
                        25_000 => 0,
                        1_000_000 => 2,
                        _ => 1,
                    }] += 1;
                }
            }
        }
    }
    assert!(held.iter().all(|&n| n > 1_000), "{held:?}");
}

/// On-times at the limits of the profiles, and where profile 4's wait is first held or ceases to be.
const EDGE_ONTIMES: [u32; 16] = [
    0,
    1,
    16,
    17,
    54,
    55,
    500,
    501,
    658,
    659,
    1_000,
    1_001,
    2_083,
    2_084,
    MOST_ONTIME,
    MOST_ONTIME + 1,
];

/// Every load, in the C wait of each profile; profile 4 alone goes by it.
#[test]
fn wait_of_every_load() {
    for load in (0..=FULL_LOAD).chain(LOADS_ABOVE) {
        for ontime in EDGE_ONTIMES {
            hold_wait([4, 0, LEAST_DUTY, ontime, load], &"every load");
        }
        for profile in PROFILES {
            hold_wait([profile, 4, MOST_DUTY, 400, load], &"every load");
        }
    }
}

/// Every on-time at every per mille, and beside each.
#[test]
fn wait_of_every_per_mille() {
    for load in (0..=1_000u32).map(|c| 1_000 * c) {
        for beside in [load.saturating_sub(1), load, load + 1] {
            for ontime in 0..=MOST_ONTIME + 1 {
                hold_wait([4, 0, LEAST_DUTY, ontime, beside], &"every per mille");
            }
        }
    }
}

/// Document 02, W-209, apart from the reference: for a load above 620,000 a wait below 1,000,000 has wait x load at least
/// on-time x (3,999 x load - 2,480,000,000). Up to it the wait is 25,000.
#[test]
fn profile_4_waits_no_shorter_than_the_formula() {
    let mut between = 0;
    for load in 0..=FULL_LOAD {
        for ontime in EDGE_ONTIMES.into_iter().filter(|o| (1..=4_000).contains(o)) {
            let wait = rules::wait(4, 0, LEAST_DUTY, ontime, load).unwrap();
            assert!((25_000..=1_000_000).contains(&wait));
            let [w, l, o] = [wait, load, ontime].map(i64::from);
            if load <= 620_000 {
                assert_eq!(wait, 25_000, "load {load}, on-time {ontime}");
            } else if wait < 1_000_000 {
                let asked = o * (3_999 * l - 2_480_000_000);
                assert!(w * l >= asked, "load {load}, on-time {ontime}");
            }
            between += u32::from(25_000 < wait && wait < 1_000_000);
        }
    }
    assert!(between > 1_000_000, "{between}");
}

/// Document 02, W-209: the factors 6, 12, 457 and 1,519, and the waits at 620,000, 620,001 and 1,000,000.
#[test]
fn reading_waits_of_profile_4() {
    for (ontime, load, wait) in [
        (4_000, 620_000, 25_000),
        (4_000, 620_001, 25_000), // 6 x 4,000 is less
        (4_000, 621_000, 25_000),
        (4_000, 621_001, 48_000),
        (4_000, 622_000, 48_000),
        (400, 699_001, 182_800),
        (400, 700_000, 182_800),
        (400, 700_001, 184_800),
        (658, 1_000_000, 999_502),
        (659, 1_000_000, 1_000_000),
        (4_000, 1_000_000, 1_000_000),
        (1, 1_000_000, 25_000),
    ] {
        let answer = rules::wait(4, 0, LEAST_DUTY, ontime, load);
        assert_eq!(answer, Ok(wait), "load {load}, on-time {ontime}");
    }
}

#[test]
fn wait_on_random_numbers() {
    const SEED: u64 = 0x5EED_0003;
    let mut rng = Rng::new(SEED);
    for turn in 0..10_000_000 {
        let numbers = [
            mixed(&mut rng, 1, 4, &PROFILES),
            mixed(&mut rng, 0, 4, &LEVELS),
            mixed(&mut rng, LEAST_DUTY, MOST_DUTY, &EDGE_DUTIES),
            mixed(&mut rng, 1, MOST_ONTIME, &EDGE_ONTIMES),
            mixed(&mut rng, 0, FULL_LOAD, &EDGE_LOADS),
        ];
        hold_wait(numbers, &format_args!("seed {SEED:#x}, turn {turn}"));
    }
}

/// Document 01, "Bench readings": the duty's limits hold it.
#[test]
fn reading_duty_stays_at_its_limits() {
    let most = rules::duty_update(MOST_DUTY, 0, 0, 0).unwrap();
    assert_eq!((most.smoothed, most.duty), (0, MOST_DUTY));
    let least = rules::duty_update(LEAST_DUTY, FULL_LOAD, FULL_LOAD, FULL_LOAD).unwrap();
    assert_eq!((least.smoothed, least.duty), (FULL_LOAD, LEAST_DUTY));
}

/// Document 01, "Bench readings": waits at duty 600,000.
#[test]
fn reading_waits_at_least_duty() {
    for (ontime, wait) in [(599, 998_334), (600, 1_000_000), (601, 1_000_000)] {
        assert_eq!(rules::wait(3, 0, LEAST_DUTY, ontime, 0), Ok(wait));
    }
}

/// Document 01, "Bench readings": level 0 to 4 takes four samples of full load.
#[test]
fn reading_four_samples_to_restrictive() {
    let mut level = 0;
    for expected in [1, 2, 3, 4, 4] {
        level = rules::level_step(1, FULL_LOAD, level).unwrap();
        assert_eq!(level, expected);
    }
}

/// Document 01, "Slips": a negative offset goes towards minus infinity, so a gap of −1 gives −2.
#[test]
fn slip_offset_towards_zero() {
    let update = rules::duty_update(10_000_000, 680_001, 680_001, 680_001).unwrap();
    assert_eq!((update.smoothed, update.duty), (680_001, 9_839_998));
}

/// Refusals are judged in the order 1, 9, 4, 6, when every number is bad and then with one less each time.
#[test]
fn refusals_in_order() {
    let bad = u32::MAX;
    assert_eq!(rules::level_step(0, bad, 5), Err(RuleRefusal::Profile));
    assert_eq!(rules::level_step(1, bad, 5), Err(RuleRefusal::LevelOrDuty));
    assert_eq!(rules::level_step(1, bad, 4), Err(RuleRefusal::Load));
    assert_eq!(
        rules::duty_update(0, bad, bad, bad),
        Err(RuleRefusal::LevelOrDuty)
    );
    assert_eq!(
        rules::duty_update(LEAST_DUTY, 0, 0, bad),
        Err(RuleRefusal::Load)
    );
    assert_eq!(rules::wait(5, 5, 0, 0, bad), Err(RuleRefusal::Profile));
    for profile in 1..=4 {
        let wait = |level, duty, ontime, load| rules::wait(profile, level, duty, ontime, load);
        assert_eq!(wait(5, LEAST_DUTY, 0, bad), Err(RuleRefusal::LevelOrDuty));
        assert_eq!(wait(0, 599_999, 0, bad), Err(RuleRefusal::LevelOrDuty));
        assert_eq!(wait(0, LEAST_DUTY, 0, 1_000_001), Err(RuleRefusal::Load));
        assert_eq!(wait(0, LEAST_DUTY, 0, 1_000_000), Err(RuleRefusal::OnTime));
    }
}

#[test]
fn refusals_have_their_numbers_and_words() {
    let expected = [
        (RuleRefusal::Profile, 1, "profile"),
        (RuleRefusal::LevelOrDuty, 9, "duty"),
        (RuleRefusal::Load, 4, "load"),
        (RuleRefusal::OnTime, 6, "on-time"),
    ];
    for (refusal, number, word) in expected {
        assert_eq!(refusal.number(), number);
        assert!(refusal.to_string().contains(word));
    }
}
