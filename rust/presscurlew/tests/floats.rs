//! The floating update of the archive, held to a table and to the reference, bit for bit.
//!
//! The table is that of `crates/floats/proofs/Worked.antt`, where the definition meets it. It was computed with Python's
//! floats, one operation after the other:
//!
//! ```python
//! s = 0.5 * smoothed + 0.5 * ((kept + new) / 2.0)
//! e = 0.68 - s
//! o = min(e * 0.0012, 0.0005) if e > 0.0 else max(e * 0.0012, -0.00025)
//! d = min(max((1.0 - 0.016) * duty + o, 0.0006), 0.03)
//! print(struct.pack('>d', s).hex(), struct.pack('>d', d).hex())
//! ```

use presscurlew::floats::{self, BadFloat};
use presscurlew::sys;
use reference::rng::Rng;

const LEAST_DUTY: f64 = 0.0006;
const MOST_DUTY: f64 = 0.03;

/// Number, smoothed load and duty, the last two by their bits.
type Bits = (u32, u64, u64);

const REFUSED: Bits = (14, 0, 0);

/// Duty, smoothed, kept and new, and then smoothed load and duty after the update.
#[rustfmt::skip]
const UPDATES: [[u64; 6]; 21] = [
    // A fresh gate on a quiet channel.
    [0x3f43a92a30553261, 0, 0, 0, 0, 0x3f51dd7815bb5328],
    // Rounding shows: another order of the operations, or two of them fused, gives other bits.
    [0x3f46f0068db8bac7, 0x3fe6666666666666, 0x3fde147ae147ae14, 0x3fb999999999999a, 0x3fdf851eb851eb84, 0x3f4df1828ebb1946],
    [0x3f847ae147ae147b, 0x3fb999999999999a, 0x3fd999999999999a, 0x3fe999999999999a, 0x3fd6666666666667, 0x3f84f69ca9ef5233],
    [0x3f8930be0ded288d, 0x3fd5555555555555, 0x3fb999999999999a, 0x3fc999999999999a, 0x3fceeeeeeeeeeeef, 0x3f89cfb4de997deb],
    // The load at the target, the double above it and the double below it.
    [0x3f847ae147ae147b, 0x3fe5c28f5c28f5c3, 0x3fe5c28f5c28f5c3, 0x3fe5c28f5c28f5c3, 0x3fe5c28f5c28f5c3, 0x3f8426fe718a86d7],
    [0x3f847ae147ae147b, 0x3fe5c28f5c28f5c4, 0x3fe5c28f5c28f5c4, 0x3fe5c28f5c28f5c4, 0x3fe5c28f5c28f5c4, 0x3f8426fe718a86d7],
    [0x3f847ae147ae147b, 0x3fe5c28f5c28f5c2, 0x3fe5c28f5c28f5c2, 0x3fe5c28f5c28f5c2, 0x3fe5c28f5c28f5c2, 0x3f8426fe718a86d7],
    // The offset up: free, held; down: free, held.
    [0x3f947ae147ae147b, 0x3fd147ae147ae148, 0x3fd0a3d70a3d70a4, 0x3fd147ae147ae148, 0x3fd11eb851eb851f, 0x3f94a8c154c985f0],
    [0x3f947ae147ae147b, 0x3fc999999999999a, 0x3fc999999999999a, 0x3fc999999999999a, 0x3fc999999999999a, 0x3f94aa10e0221427],
    [0x3f947ae147ae147b, 0x3fec28f5c28f5c29, 0x3fec28f5c28f5c29, 0x3fec28f5c28f5c29, 0x3fec28f5c28f5c29, 0x3f93e81450efdc9c],
    [0x3f947ae147ae147b, 0x3ff0000000000000, 0x3ff0000000000000, 0x3ff0000000000000, 0x3ff0000000000000, 0x3f93e5753a3ec02f],
    // The duty held from above, and twice from below.
    [0x3f9eb851eb851eb8, 0, 0, 0, 0, 0x3f9eb851eb851eb8],
    [0x3f43a92a30553261, 0x3ff0000000000000, 0x3ff0000000000000, 0x3ff0000000000000, 0x3ff0000000000000, 0x3f43a92a30553261],
    [0x3f43a92a30553261, 0x3fe5c28f5c28f5c3, 0x3fe5c28f5c28f5c3, 0x3fe5c28f5c28f5c3, 0x3fe5c28f5c28f5c3, 0x3f43a92a30553261],
    // Negative zeros: all, and some.
    [0x3f847ae147ae147b, 0x8000000000000000, 0x8000000000000000, 0x8000000000000000, 0x8000000000000000, 0x3f852d234eb9a177],
    [0x3f847ae147ae147b, 0x8000000000000000, 0, 0x8000000000000000, 0, 0x3f852d234eb9a177],
    [0x3f847ae147ae147b, 0, 0x8000000000000000, 0x8000000000000000, 0, 0x3f852d234eb9a177],
    // Subnormals: half the least one is 0.0, and so are two such halves; then more of them.
    [0x3f847ae147ae147b, 0x0000000000000001, 0x0000000000000001, 0x0000000000000001, 0, 0x3f852d234eb9a177],
    [0x3f847ae147ae147b, 0, 0x0000000000000001, 0x0000000000000003, 0x0000000000000001, 0x3f852d234eb9a177],
    [0x3f847ae147ae147b, 0x0000000000000003, 0x0000000000000002, 0x0000000000000003, 0x0000000000000003, 0x3f852d234eb9a177],
    [0x3f847ae147ae147b, 0x0010000000000000, 0x000fffffffffffff, 0x0010000000000000, 0x0010000000000000, 0x3f852d234eb9a177],
];

/// Duty, smoothed, kept and new of updates that are refused.
#[rustfmt::skip]
const REFUSALS: [[u64; 4]; 23] = [
    // The duty: beside its limits, zero, negative, infinite, not a number.
    [0x3f43a92a30553260, 0, 0, 0],
    [0x3f9eb851eb851eb9, 0, 0, 0],
    [0, 0, 0, 0],
    [0xbf43a92a30553261, 0, 0, 0],
    [0x7ff0000000000000, 0, 0, 0],
    [0xfff0000000000000, 0, 0, 0],
    [0x7ff8000000000000, 0, 0, 0],
    // The smoothed load: above 1.0, below 0.0, infinite, not a number.
    [0x3f847ae147ae147b, 0x3ff0000000000001, 0, 0],
    [0x3f847ae147ae147b, 0x8000000000000001, 0, 0],
    [0x3f847ae147ae147b, 0x7ff0000000000000, 0, 0],
    [0x3f847ae147ae147b, 0xfff0000000000000, 0, 0],
    [0x3f847ae147ae147b, 0x7ff8000000000000, 0, 0],
    // The kept load.
    [0x3f847ae147ae147b, 0, 0x3ff0000000000001, 0],
    [0x3f847ae147ae147b, 0, 0x8000000000000001, 0],
    [0x3f847ae147ae147b, 0, 0x7ff0000000000000, 0],
    [0x3f847ae147ae147b, 0, 0xfff0000000000000, 0],
    [0x3f847ae147ae147b, 0, 0x7ff8000000000000, 0],
    // The new load.
    [0x3f847ae147ae147b, 0, 0, 0x3ff0000000000001],
    [0x3f847ae147ae147b, 0, 0, 0x8000000000000001],
    [0x3f847ae147ae147b, 0, 0, 0x7ff0000000000000],
    [0x3f847ae147ae147b, 0, 0, 0xfff0000000000000],
    [0x3f847ae147ae147b, 0, 0, 0x7ff8000000000000],
    // All four.
    [0x7ff8000000000000, 0x7ff8000000000000, 0x7ff8000000000000, 0x7ff8000000000000],
];

/// What the archive answers, and that the safe call makes the same of it.
fn answer(numbers: [f64; 4]) -> Bits {
    let [duty, smoothed, kept, new] = numbers;
    let got = sys::presscurlew_float_update(duty, smoothed, kept, new);
    let got = (got.refusal, got.smoothed.to_bits(), got.duty.to_bits());
    let safe = match floats::update(duty, smoothed, kept, new) {
        Ok(update) => (0, update.smoothed.to_bits(), update.duty.to_bits()),
        Err(BadFloat) => REFUSED,
    };
    assert_eq!(safe, got, "update of {numbers:?}");
    got
}

/// Holds the archive to the reference, and says whether it refused. `origin` says where the numbers come from.
fn hold(numbers: [f64; 4], origin: &dyn std::fmt::Display) -> bool {
    let [duty, smoothed, kept, new] = numbers;
    let expected = match reference::float_update(duty, smoothed, kept, new) {
        Ok((smoothed, duty)) => (0, smoothed.to_bits(), duty.to_bits()),
        Err(number) => (number, 0, 0),
    };
    let got = answer(numbers);
    let bits = numbers.map(f64::to_bits);
    assert_eq!(got, expected, "update of {numbers:?} ({bits:x?}), {origin}");
    let next = f64::from_bits(got.2);
    assert!(got == REFUSED || (LEAST_DUTY..=MOST_DUTY).contains(&next));
    got == REFUSED
}

#[test]
fn updates_of_the_table() {
    for [duty, smoothed, kept, new, smoothed_after, duty_after] in UPDATES {
        let numbers = [duty, smoothed, kept, new].map(f64::from_bits);
        assert_eq!(answer(numbers), (0, smoothed_after, duty_after));
        assert!(!hold(numbers, &"of the table"));
    }
}

#[test]
fn refusals_of_the_table() {
    for numbers in REFUSALS {
        let numbers = numbers.map(f64::from_bits);
        assert_eq!(answer(numbers), REFUSED);
        assert!(hold(numbers, &"of the table"));
    }
}

/// x, and the doubles beside it.
fn beside(x: f64) -> [f64; 3] {
    let bits = x.to_bits();
    [bits - 1, bits, bits + 1].map(f64::from_bits)
}

/// Doubles where a test turns, where an offset begins to be held, where halving rounds, and those that are no numbers of
/// this world.
fn edges() -> Vec<f64> {
    let held_up = 0.68 - 0.0005 / 0.0012;
    let held_down = 0.68 + 0.00025 / 0.0012;
    let mut all = vec![0.0, 0.25, 0.5, 2.0, f64::MAX, f64::INFINITY];
    for x in [LEAST_DUTY, MOST_DUTY, held_up, 0.68, held_down, 1.0] {
        all.extend(beside(x));
    }
    all.extend([1, 2, 3].map(f64::from_bits));
    all.extend(beside(f64::MIN_POSITIVE));
    all.extend(all.clone().iter().map(|x| -x));
    // Not-a-number: quiet and signalling, of both signs.
    let patterns = [
        0x7ff8_0000_0000_0000,
        0x7ff0_0000_0000_0001,
        0xfff8_0000_0000_0000,
        0xffff_ffff_ffff_ffff,
    ];
    all.extend(patterns.map(f64::from_bits));
    all
}

/// Every edge in every place, with every edge that is accepted in the others.
#[test]
fn edges_crossed() {
    let edges = edges();
    let is_load = |x: &&f64| **x >= 0.0 && **x <= 1.0;
    let loads: Vec<f64> = edges.iter().filter(is_load).copied().collect();
    let (mut accepted, mut refused) = (0, 0);
    let mut count = |numbers| match hold(numbers, &"on edges") {
        true => refused += 1,
        false => accepted += 1,
    };
    for &any in &edges {
        for &a in &loads {
            for &b in &loads {
                for &c in &loads {
                    count([any, a, b, c]);
                }
                for duty in [LEAST_DUTY, 0.01, MOST_DUTY] {
                    count([duty, any, a, b]);
                    count([duty, a, any, b]);
                    count([duty, a, b, any]);
                }
            }
        }
    }
    assert!(accepted > 100_000 && refused > 100_000);
}

/// Any double from 0.0 to 1.0 that has 53 digits behind the point.
fn fraction(rng: &mut Rng) -> f64 {
    (any_bits(rng) >> 11) as f64 / (1u64 << 53) as f64
}

fn any_bits(rng: &mut Rng) -> u64 {
    u64::from(rng.next_u32()) << 32 | u64::from(rng.next_u32())
}

#[test]
fn a_million_random_quadruples() {
    const SEED: u64 = 0x5EED_0211;
    let mut rng = Rng::new(SEED);
    let mut refused = 0;
    for turn in 0..1_000_000 {
        let duty = LEAST_DUTY + (MOST_DUTY - LEAST_DUTY) * fraction(&mut rng);
        let loads = [(); 3].map(|()| fraction(&mut rng));
        let numbers = [duty, loads[0], loads[1], loads[2]];
        refused += u32::from(hold(numbers, &format_args!("seed {SEED:#x}, turn {turn}")));
    }
    // The duty may be rounded to beyond its limit.
    assert!(refused < 10);
}

/// Patterns from `low` to `high`: of positive doubles these are all between the two, with every exponent as often.
fn between(rng: &mut Rng, low: f64, high: f64) -> f64 {
    let (low, high) = (low.to_bits(), high.to_bits());
    f64::from_bits(low + any_bits(rng) % (high - low + 1))
}

/// Numbers that are accepted, by their patterns: the loads are mostly far below 1.0, and now and then -0.0.
#[test]
fn bit_patterns_within_the_limits() {
    const SEED: u64 = 0x5EED_0212;
    let mut rng = Rng::new(SEED);
    for turn in 0..1_000_000 {
        let duty = between(&mut rng, LEAST_DUTY, MOST_DUTY);
        let loads = [(); 3].map(|()| match rng.below(16) {
            0 => -0.0,
            1 => between(&mut rng, 0.0, f64::MIN_POSITIVE),
            2..=8 => between(&mut rng, 0.0, 1.0),
            _ => between(&mut rng, 0.125, 1.0),
        });
        let numbers = [duty, loads[0], loads[1], loads[2]];
        assert!(!hold(numbers, &format_args!("seed {SEED:#x}, turn {turn}")));
    }
}

/// One number with any pattern at all, or all four.
#[test]
fn bit_patterns_at_random() {
    const SEED: u64 = 0x5EED_0213;
    let mut rng = Rng::new(SEED);
    let (mut accepted, mut refused) = (0, 0);
    for turn in 0..1_000_000 {
        let mut numbers = [
            between(&mut rng, LEAST_DUTY, MOST_DUTY),
            fraction(&mut rng),
            fraction(&mut rng),
            fraction(&mut rng),
        ];
        match rng.below(5) as usize {
            4 => numbers = [(); 4].map(|()| f64::from_bits(any_bits(&mut rng))),
            place => numbers[place] = f64::from_bits(any_bits(&mut rng)),
        }
        match hold(numbers, &format_args!("seed {SEED:#x}, turn {turn}")) {
            true => refused += 1,
            false => accepted += 1,
        }
    }
    assert!(accepted > 100_000 && refused > 100_000);
}

/// What an update hands back may go into the next one: duty by what is proved, smoothed load in these runs.
#[test]
fn answers_go_into_the_next_update() {
    const SEED: u64 = 0x5EED_0214;
    let mut rng = Rng::new(SEED);
    for run in 0..1_000 {
        let (mut duty, mut smoothed) = (LEAST_DUTY, 0.0);
        let loudness = fraction(&mut rng);
        for turn in 0..1_000 {
            let [kept, new] = [(); 2].map(|()| match rng.below(4) {
                0 => 1.0,
                1 => 0.0,
                _ => loudness * fraction(&mut rng),
            });
            let origin = format_args!("seed {SEED:#x}, run {run}, turn {turn}");
            assert!(!hold([duty, smoothed, kept, new], &origin));
            let next = floats::update(duty, smoothed, kept, new).unwrap();
            (duty, smoothed) = (next.duty, next.smoothed);
        }
    }
}

#[test]
fn refusal_has_its_number_and_words() {
    assert_eq!(BadFloat::NUMBER, 14);
    assert!(BadFloat.to_string().starts_with("BAD-FLOAT"));
}

/// As `include/presscurlew.h` has it.
#[test]
fn answer_lies_as_c_sees_it() {
    use std::mem::{offset_of, size_of};
    assert_eq!(size_of::<sys::FloatAnswer>(), 24);
    assert_eq!(offset_of!(sys::FloatAnswer, refusal), 0);
    assert_eq!(offset_of!(sys::FloatAnswer, smoothed), 8);
    assert_eq!(offset_of!(sys::FloatAnswer, duty), 16);
}
