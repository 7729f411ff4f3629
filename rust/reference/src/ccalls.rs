//! The four calls for the radio maker's C stack, on plain numbers
//! ("Waiting and leaving", last paragraph).
//!
//! Refusal is by number, judged in the order 1, 9, 4, 6; 0 is no refusal. A
//! refusal's other numbers are 0.

use crate::rules;

/// Profile not one that this call takes.
pub const BAD_PROFILE: u32 = 1;
/// A load above 1,000,000.
pub const BAD_LOAD: u32 = 4;
/// On-time not allowed by the profile.
pub const BAD_ON_TIME: u32 = 6;
/// Level or duty out of range.
pub const OUT_OF_RANGE: u32 = 9;

/// What the wanted level and the level step hand back.
#[derive(Clone, Copy, Debug, Default, PartialEq, Eq)]
pub struct LevelResult {
    /// 0, or the number of the refusal.
    pub refusal: u32,
    /// The level.
    pub level: u32,
}

/// What the duty update hands back.
#[derive(Clone, Copy, Debug, Default, PartialEq, Eq)]
pub struct DutyResult {
    /// 0, or the number of the refusal.
    pub refusal: u32,
    /// smoothed'.
    pub smoothed: u32,
    /// duty'.
    pub duty: u32,
}

/// What the wait hands back.
#[derive(Clone, Copy, Debug, Default, PartialEq, Eq)]
pub struct WaitResult {
    /// 0, or the number of the refusal.
    pub refusal: u32,
    /// The wait in µs.
    pub wait: u32,
}

fn level_refused(refusal: u32) -> LevelResult {
    LevelResult { refusal, level: 0 }
}

fn duty_refused(refusal: u32) -> DutyResult {
    DutyResult {
        refusal,
        smoothed: 0,
        duty: 0,
    }
}

fn wait_refused(refusal: u32) -> WaitResult {
    WaitResult { refusal, wait: 0 }
}

/// The level that a load wants, in profile 1 or 2.
pub fn wanted_level(profile: u32, load: u32) -> LevelResult {
    let Some(level) = rules::wanted_level(profile, load) else {
        return level_refused(BAD_PROFILE);
    };
    if load > rules::LOAD_MOST {
        return level_refused(BAD_LOAD);
    }
    LevelResult { refusal: 0, level }
}

/// The level after one sample of that load, in profile 1 or 2.
pub fn level_step(profile: u32, load: u32, level: u32) -> LevelResult {
    let Some(wanted) = rules::wanted_level(profile, load) else {
        return level_refused(BAD_PROFILE);
    };
    if level > rules::LEVEL_MOST {
        return level_refused(OUT_OF_RANGE);
    }
    if load > rules::LOAD_MOST {
        return level_refused(BAD_LOAD);
    }
    LevelResult {
        refusal: 0,
        level: rules::level_step(level, wanted),
    }
}

/// The smoothed load and the duty after a pair of samples.
pub fn duty_update(duty: u32, smoothed: u32, kept: u32, new: u32) -> DutyResult {
    if !rules::duty_allowed(duty) {
        return duty_refused(OUT_OF_RANGE);
    }
    let most = rules::LOAD_MOST;
    if smoothed > most || kept > most || new > most {
        return duty_refused(BAD_LOAD);
    }
    let smoothed = rules::smoothed_next(smoothed, kept, new);
    DutyResult {
        refusal: 0,
        smoothed,
        duty: rules::duty_next(duty, smoothed),
    }
}

/// The wait after an admission; every number is judged, used or not. W-209: the
/// latest load is the last of them. W-213: a profile that needs a list is refused.
pub fn wait(profile: u32, level: u32, duty: u32, ontime: u32, load: u32) -> WaitResult {
    if !rules::profile_known(profile) || rules::needs_list(profile) {
        return wait_refused(BAD_PROFILE);
    }
    if level > rules::LEVEL_MOST || !rules::duty_allowed(duty) {
        return wait_refused(OUT_OF_RANGE);
    }
    if load > rules::LOAD_MOST {
        return wait_refused(BAD_LOAD);
    }
    if !rules::on_time_allowed(profile, ontime) {
        return wait_refused(BAD_ON_TIME);
    }
    match rules::wait(profile, level, duty, ontime, load) {
        Some(wait) => WaitResult { refusal: 0, wait },
        // Not reached: profile, level and duty are within range here.
        None => wait_refused(OUT_OF_RANGE),
    }
}
