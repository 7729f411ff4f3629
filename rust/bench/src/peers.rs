//! The four rules and the floating update in plain Rust: no proofs, the same answers, the same calling convention.
//!
//! They are what a careful programmer would write by hand, and are never inlined, as the archive's
//! calls can't be.

use presscurlew::sys::{DutyAnswer, FloatAnswer, LevelAnswer, WaitAnswer};

const BAD_PROFILE: u32 = 1;
const BAD_LOAD: u32 = 4;
const BAD_ON_TIME: u32 = 6;
const OUT_OF_RANGE: u32 = 9;
const BAD_FLOAT: u32 = 14;

const FULL_LOAD: u32 = 1_000_000;
const TOP_LEVEL: u32 = 4;
const LEAST_DUTY: u32 = 600_000;
const MOST_DUTY: u32 = 30_000_000;

fn wanted(profile: u32, load: u32) -> u32 {
    let last = if profile == 1 { 600_000 } else { 650_000 };
    match load {
        0..=299_999 => 0,
        300_000..=399_999 => 1,
        400_000..=499_999 => 2,
        _ if load <= last => 3,
        _ => 4,
    }
}

/// The level that a load wants.
#[inline(never)]
pub extern "C" fn wanted_level(profile: u32, load: u32) -> LevelAnswer {
    let refused = |refusal| LevelAnswer { refusal, level: 0 };
    if profile != 1 && profile != 2 {
        return refused(BAD_PROFILE);
    }
    if load > FULL_LOAD {
        return refused(BAD_LOAD);
    }
    LevelAnswer {
        refusal: 0,
        level: wanted(profile, load),
    }
}

/// One level towards the wanted one.
#[inline(never)]
pub extern "C" fn level_step(profile: u32, load: u32, level: u32) -> LevelAnswer {
    let refused = |refusal| LevelAnswer { refusal, level: 0 };
    if profile != 1 && profile != 2 {
        return refused(BAD_PROFILE);
    }
    if level > TOP_LEVEL {
        return refused(OUT_OF_RANGE);
    }
    if load > FULL_LOAD {
        return refused(BAD_LOAD);
    }
    let wanted = wanted(profile, load);
    let level = if level < wanted {
        level + 1
    } else if level > wanted {
        level - 1
    } else {
        level
    };
    LevelAnswer { refusal: 0, level }
}

/// Profile 3's smoothed load and duty after a pair of samples.
#[inline(never)]
pub extern "C" fn duty_update(duty: u32, smoothed: u32, kept: u32, new: u32) -> DutyAnswer {
    let refused = |refusal| DutyAnswer {
        refusal,
        smoothed: 0,
        duty: 0,
    };
    if !(LEAST_DUTY..=MOST_DUTY).contains(&duty) {
        return refused(OUT_OF_RANGE);
    }
    if smoothed > FULL_LOAD || kept > FULL_LOAD || new > FULL_LOAD {
        return refused(BAD_LOAD);
    }
    let smoothed = (2 * smoothed + kept + new) / 4;
    let gap = 680_000 - smoothed as i32;
    let offset = (6 * gap).div_euclid(5).clamp(-250_000, 500_000);
    let kept_duty = (984 * u64::from(duty) / 1_000) as i32;
    let duty = (kept_duty + offset).clamp(LEAST_DUTY as i32, MOST_DUTY as i32) as u32;
    DutyAnswer {
        refusal: 0,
        smoothed,
        duty,
    }
}

/// The wait after an admission. Profile 4's factor is worked out each time.
#[inline(never)]
pub extern "C" fn wait(profile: u32, level: u32, duty: u32, ontime: u32, load: u32) -> WaitAnswer {
    let refused = |refusal| WaitAnswer { refusal, wait: 0 };
    let most_ontime = match profile {
        1 => 1_000,
        2 => 500,
        3 | 4 => 4_000,
        _ => return refused(BAD_PROFILE),
    };
    if level > TOP_LEVEL || !(LEAST_DUTY..=MOST_DUTY).contains(&duty) {
        return refused(OUT_OF_RANGE);
    }
    if load > FULL_LOAD {
        return refused(BAD_LOAD);
    }
    if ontime == 0 || ontime > most_ontime {
        return refused(BAD_ON_TIME);
    }
    let wait = match profile {
        1 => [100_000, 200_000, 400_000, 500_000, 1_000_000][level as usize],
        2 => [50_000, 100_000, 200_000, 250_000, 1_000_000][level as usize],
        3 => (u64::from(ontime) * 1_000_000_000)
            .div_ceil(u64::from(duty))
            .clamp(25_000, 1_000_000) as u32,
        _ => match load.div_ceil(1_000) {
            0..=620 => 25_000,
            c => ((3_999 - 2_480_000 / c) * ontime).clamp(25_000, 1_000_000),
        },
    };
    WaitAnswer { refusal: 0, wait }
}

/// Profile 3's smoothed load and duty after a pair of samples, in f64.
#[inline(never)]
pub extern "C" fn float_update(duty: f64, smoothed: f64, kept: f64, new: f64) -> FloatAnswer {
    let is_load = |x: f64| (0.0..=1.0).contains(&x);
    if !(0.0006..=0.03).contains(&duty) || !is_load(smoothed) || !is_load(kept) || !is_load(new) {
        return FloatAnswer {
            refusal: BAD_FLOAT,
            smoothed: 0.0,
            duty: 0.0,
        };
    }
    let smoothed = 0.5 * smoothed + 0.5 * ((kept + new) / 2.0);
    let difference = 0.68 - smoothed;
    let product = difference * 0.0012;
    let offset = if difference > 0.0 {
        product.min(0.0005)
    } else {
        product.max(-0.00025)
    };
    FloatAnswer {
        refusal: 0,
        smoothed,
        duty: ((1.0 - 0.016) * duty + offset).clamp(0.0006, 0.03),
    }
}

/// A call that does nothing.
#[inline(never)]
pub extern "C" fn nothing(_: u32, _: u32, _: u32, _: u32, _: u32) -> WaitAnswer {
    WaitAnswer {
        refusal: 0,
        wait: 0,
    }
}
