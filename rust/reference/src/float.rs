//! W-211: the bench's floating update, for the simulation group.
//!
//! Plain f64 in document 02's order: each operation is rounded once, as IEEE 754
//! has it, and none is fused with another. Nearness to the whole-number update
//! isn't claimed.

use crate::calls::BAD_FLOAT;

/// The least duty.
pub const DUTY_LEAST: f64 = 0.0006;
/// The greatest duty.
pub const DUTY_MOST: f64 = 0.03;

/// One update: the smoothed load and the duty after a pair of loads, or 14.
/// Loads must compare as 0.0 to 1.0 and the duty as 0.0006 to 0.03, which
/// not-a-number never does and negative zero does.
pub fn float_update(duty: f64, smoothed: f64, kept: f64, new: f64) -> Result<(f64, f64), u32> {
    let load_good = |load: f64| (0.0..=1.0).contains(&load);
    if !load_good(smoothed) || !load_good(kept) || !load_good(new) {
        return Err(BAD_FLOAT);
    }
    if !(DUTY_LEAST..=DUTY_MOST).contains(&duty) {
        return Err(BAD_FLOAT);
    }
    let half_of_old = 0.5 * smoothed;
    let sum = kept + new;
    let mean = sum / 2.0;
    let half_of_new = 0.5 * mean;
    let smoothed = half_of_old + half_of_new;
    let gap = 0.68 - smoothed;
    let product = gap * 0.0012;
    let offset = if gap > 0.0 {
        smaller(product, 0.0005)
    } else {
        larger(product, -0.00025)
    };
    let faded = (1.0 - 0.016) * duty;
    let next = faded + offset;
    Ok((smoothed, larger(smaller(next, DUTY_MOST), DUTY_LEAST)))
}

/// The smaller of two numbers. Neither is ever not-a-number here, and where they
/// are equal they are not zeros, so it is one and the same.
fn smaller(one: f64, other: f64) -> f64 {
    if one < other {
        one
    } else {
        other
    }
}

/// The larger of two numbers, likewise.
fn larger(one: f64, other: f64) -> f64 {
    if one > other {
        one
    } else {
        other
    }
}

/// An update as bits: what it shows; duty, smoothed, kept and new; smoothed and
/// duty after it.
pub type Worked = (&'static str, [u64; 4], [u64; 2]);

/// Updates worked out in another language, each operation with exact fractions
/// and then rounded once to the nearest double, ties to even.
#[rustfmt::skip]
pub const WORKED: [Worked; 26] = [
    ("a fresh gate in a calm channel",
     [0x3F43A92A30553261, 0x0000000000000000, 0x3FD999999999999A, 0x3FD999999999999A],
     [0x3FC999999999999A, 0x3F51DD7815BB5328]),
    ("the same pair again",
     [0x3F51DD7815BB5328, 0x3FC999999999999A, 0x3FD999999999999A, 0x3FD999999999999A],
     [0x3FD3333333333334, 0x3F590CE56D61EB1D]),
    ("thirds and sevenths",
     [0x3F847AE147AE147B, 0x3FD5555555555555, 0x3FD2492492492492, 0x3FE6DB6DB6DB6DB7],
     [0x3FDAAAAAAAAAAAAA, 0x3F84CCAB3EDD8B61]),
    ("at the target",
     [0x3F847AE147AE147B, 0x3FE5C28F5C28F5C3, 0x3FE5C28F5C28F5C3, 0x3FE5C28F5C28F5C3],
     [0x3FE5C28F5C28F5C3, 0x3F8426FE718A86D7]),
    ("a double above the target",
     [0x3F847AE147AE147B, 0x3FE5C28F5C28F5C4, 0x3FE5C28F5C28F5C4, 0x3FE5C28F5C28F5C4],
     [0x3FE5C28F5C28F5C4, 0x3F8426FE718A86D7]),
    ("a double below the target",
     [0x3F847AE147AE147B, 0x3FE5C28F5C28F5C2, 0x3FE5C28F5C28F5C2, 0x3FE5C28F5C28F5C2],
     [0x3FE5C28F5C28F5C2, 0x3F8426FE718A86D7]),
    ("the mean of three loads is the target, or near",
     [0x3F947AE147AE147B, 0x3FE5C28F5C28F5C3, 0x3FD70A3D70A3D70A, 0x3FF0000000000000],
     [0x3FE5C28F5C28F5C2, 0x3F9426FE718A86D7]),
    ("the offset held above",
     [0x3F847AE147AE147B, 0x3FB999999999999A, 0x3FB999999999999A, 0x3FB999999999999A],
     [0x3FB999999999999A, 0x3F852D234EB9A177]),
    ("around where it is held above",
     [0x3F847AE147AE147B, 0x3FD0DA6612839043, 0x3FD0DA6612839043, 0x3FD0DA6612839043],
     [0x3FD0DA6612839043, 0x3F852D234EB9A177]),
    ("around where it is held above",
     [0x3F847AE147AE147B, 0x3FD0DA9003EEA20A, 0x3FD0DA9003EEA20A, 0x3FD0DA9003EEA20A],
     [0x3FD0DA9003EEA20A, 0x3F852D223BD8E2F4]),
    ("the offset held below",
     [0x3F847AE147AE147B, 0x3FF0000000000000, 0x3FF0000000000000, 0x3FF0000000000000],
     [0x3FF0000000000000, 0x3F83A3EC02F2F987]),
    ("around where it is held below",
     [0x3F847AE147AE147B, 0x3FEC6D330941C821, 0x3FEC6D330941C821, 0x3FEC6D330941C821],
     [0x3FEC6D330941C821, 0x3F83A3EC8C6358C8]),
    ("around where it is held below",
     [0x3F847AE147AE147B, 0x3FEC6D4801F75105, 0x3FEC6D4801F75105, 0x3FEC6D4801F75105],
     [0x3FEC6D4801F75105, 0x3F83A3EC02F2F987]),
    ("the greatest duty, a silent channel",
     [0x3F9EB851EB851EB8, 0x0000000000000000, 0x0000000000000000, 0x0000000000000000],
     [0x0000000000000000, 0x3F9EB851EB851EB8]),
    ("the greatest duty, a full channel",
     [0x3F9EB851EB851EB8, 0x3FF0000000000000, 0x3FF0000000000000, 0x3FF0000000000000],
     [0x3FF0000000000000, 0x3F9DF8F47304039A]),
    ("the least duty, a full channel",
     [0x3F43A92A30553261, 0x3FF0000000000000, 0x3FF0000000000000, 0x3FF0000000000000],
     [0x3FF0000000000000, 0x3F43A92A30553261]),
    ("just within the limits",
     [0x3F43A92A30553262, 0x3FEFFFFFFFFFFFFF, 0x0000000000000001, 0x3FEFFFFFFFFFFFFF],
     [0x3FE7FFFFFFFFFFFF, 0x3F43A92A30553261]),
    ("just within the limits",
     [0x3F9EB851EB851EB7, 0x0000000000000001, 0x3FEFFFFFFFFFFFFF, 0x0000000000000000],
     [0x3FCFFFFFFFFFFFFF, 0x3F9EB851EB851EB8]),
    ("negative zeros alone",
     [0x3F747AE147AE147B, 0x8000000000000000, 0x8000000000000000, 0x8000000000000000],
     [0x8000000000000000, 0x3F7633482BE8BC16]),
    ("negative zeros and a zero",
     [0x3F747AE147AE147B, 0x8000000000000000, 0x8000000000000000, 0x0000000000000000],
     [0x0000000000000000, 0x3F7633482BE8BC16]),
    ("a negative zero smoothed",
     [0x3F747AE147AE147B, 0x8000000000000000, 0x3FD3333333333333, 0x3FECCCCCCCCCCCCD],
     [0x3FD3333333333333, 0x3F76052502EEC7C9]),
    ("the smallest subnormals: halves are rounded to even",
     [0x3F747AE147AE147B, 0x0000000000000001, 0x0000000000000001, 0x0000000000000001],
     [0x0000000000000000, 0x3F7633482BE8BC16]),
    ("subnormals",
     [0x3F747AE147AE147B, 0x0000000000000003, 0x0000000000000005, 0x0000000000000001],
     [0x0000000000000004, 0x3F7633482BE8BC16]),
    ("a subnormal and a load",
     [0x3F7CAC083126E979, 0x000FFFFFFFFFFFFF, 0x3FD0000000000000, 0x3FC0000000000000],
     [0x3FB8000000000000, 0x3F7E42E12620253A]),
    ("steady, below the target",
     [0x3F8948B0F8FAB5E6, 0x3FE3C6EF372FED03, 0x3FE2788CFC6F802A, 0x3FE62E42FEFA39EC],
     [0x3FE40D2B9A726507, 0x3F8902B8428AA8CE]),
    ("steady, above the target",
     [0x3F9BD5D00E2BEB94, 0x3FE6A09E667F3A21, 0x3FEBB67AE857B07F, 0x3FEE6F0E13439FAC],
     [0x3FE9D9B17226711C, 0x3F9B3B96FD204148]),
];

#[cfg(test)]
mod tests {
    use super::*;
    use crate::rng::Rng;

    fn updated(bits: [u64; 4]) -> Result<[u64; 2], u32> {
        let [duty, smoothed, kept, new] = bits.map(f64::from_bits);
        let updated = float_update(duty, smoothed, kept, new);
        updated.map(|(smoothed, duty)| [smoothed.to_bits(), duty.to_bits()])
    }

    #[test]
    fn worked_updates_bit_for_bit() {
        for (words, given, expected) in WORKED {
            assert_eq!(updated(given), Ok(expected), "{words}");
        }
    }

    /// Numbers that no place takes; and a good number for each place.
    #[test]
    fn what_does_not_compare_is_refused_in_each_place() {
        let good = [0.01, 0.5, 0.25, 0.75].map(f64::to_bits);
        assert!(updated(good).is_ok());
        let nans = [0x7FF8 << 48, 0xFFF8 << 48, 0x7FF0_0000_0000_0001, u64::MAX];
        let mut odd = nans.to_vec();
        odd.extend([f64::INFINITY, f64::NEG_INFINITY, f64::MAX, f64::MIN].map(f64::to_bits));
        odd.extend([-5e-324, -f64::MIN_POSITIVE, -1.0, 1.0 + f64::EPSILON, 2.0].map(f64::to_bits));
        for place in 0..4 {
            for bits in &odd {
                let mut bent = good;
                bent[place] = *bits;
                assert_eq!(updated(bent), Err(14), "{place}: {bits:#x}");
            }
        }
        for duty in [0.0, -0.0, 5e-324, 1.0] {
            let bent = [f64::to_bits(duty), good[1], good[2], good[3]];
            assert_eq!(updated(bent), Err(14), "{duty}");
        }
        for (limit, outwards) in [(DUTY_LEAST, -1), (DUTY_MOST, 1)] {
            let beyond = limit.to_bits().wrapping_add_signed(outwards);
            assert_eq!(updated([beyond, good[1], good[2], good[3]]), Err(14));
            let within = limit.to_bits().wrapping_add_signed(-outwards);
            for duty in [limit.to_bits(), within] {
                assert!(updated([duty, good[1], good[2], good[3]]).is_ok());
            }
        }
        for load in [0.0, -0.0, 5e-324, 1.0].map(f64::to_bits) {
            for place in 1..4 {
                let mut edge = good;
                edge[place] = load;
                assert!(updated(edge).is_ok(), "{place}: {load:#x}");
            }
        }
    }

    /// A number from 0 to 1, at an edge or anywhere.
    fn load(rng: &mut Rng) -> f64 {
        let any = rng.next_u64() as f64 / u64::MAX as f64;
        let small = f64::from_bits(rng.below(1 << 52));
        rng.pick(&[0.0, -0.0, 1.0, 0.68, small, any, any, any])
    }

    /// The duty is always within its limits, the smoothed load goes on being a
    /// load, and so the next update is never refused.
    #[test]
    fn results_are_good_for_the_next_update() {
        let mut rng = Rng::new(211);
        let (mut duty, mut smoothed) = (DUTY_LEAST, 0.0);
        let (mut least, mut most) = (0, 0);
        for round in 0..1_000_000u32 {
            let loud = round / 5_000 % 2 == 0;
            let [kept, new] = [0; 2].map(|_| if loud { 1.0 } else { load(&mut rng) });
            (smoothed, duty) = float_update(duty, smoothed, kept, new).unwrap();
            assert!((0.0006..=0.03).contains(&duty), "{duty}");
            assert!((0.0..=1.0).contains(&smoothed), "{smoothed}");
            least += u32::from(duty == 0.0006);
            most += u32::from(duty > 0.01);
        }
        assert!(least > 1_000 && most > 1_000, "{least}, {most}");
    }

    /// Any bits at all: a result within its limits, or 14.
    #[test]
    fn any_bits_are_answered() {
        let mut rng = Rng::new(212);
        let mut good = 0;
        for _ in 0..1_000_000 {
            let mut bits = [0; 4].map(|_| rng.next_u64());
            for (place, bits) in bits.iter_mut().enumerate() {
                if !rng.one_in(8) {
                    let load = load(&mut rng);
                    let duty = DUTY_LEAST + load * (DUTY_MOST - DUTY_LEAST);
                    *bits = if place == 0 { duty } else { load }.to_bits();
                }
            }
            match updated(bits) {
                Ok(after) => {
                    let [smoothed, duty] = after.map(f64::from_bits);
                    assert!((0.0006..=0.03).contains(&duty) && (0.0..=1.0).contains(&smoothed));
                    good += 1;
                }
                Err(number) => assert_eq!(number, 14),
            }
        }
        assert!((300_000..900_000).contains(&good), "{good}");
    }
}
