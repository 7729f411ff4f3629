//! The gate's rules on plain numbers: wanted level, level step, duty update and wait.
//!
//! The calls are pure functions, and any numbers at all are answered. Refusals are judged in the order
//! of the numbers 1, 9, 4, 6; the first that holds is the answer.
//!
//! ```
//! use presscurlew::rules::{self, RuleRefusal};
//!
//! // A load of 60 % wants level 3 in profile 1, and one sample moves the level by one.
//! assert_eq!(rules::wanted_level(1, 600_000), Ok(3));
//! assert_eq!(rules::level_step(1, 600_000, 0), Ok(1));
//! assert_eq!(rules::wait(1, 1, 600_000, 400, 0), Ok(200_000));
//! assert_eq!(rules::wanted_level(3, 600_000), Err(RuleRefusal::Profile));
//!
//! // In profile 4 the wait goes by the latest load: 457 times the on-time at 70 %.
//! assert_eq!(rules::wait(4, 0, 600_000, 400, 700_000), Ok(182_800));
//! ```

use core::error::Error;
use core::fmt;

use crate::sys;

/// Why a rule refused its numbers.
#[non_exhaustive]
#[derive(Clone, Copy, Debug, PartialEq, Eq, Hash)]
pub enum RuleRefusal {
    /// The call does not take this profile.
    Profile,
    /// The level is above 4, or the duty is not 600,000 to 30,000,000.
    LevelOrDuty,
    /// A load is above 1,000,000.
    Load,
    /// The profile does not allow this on-time.
    OnTime,
}

impl RuleRefusal {
    /// The refusal's number, as a C caller sees it.
    pub const fn number(self) -> u32 {
        match self {
            RuleRefusal::Profile => 1,
            RuleRefusal::LevelOrDuty => 9,
            RuleRefusal::Load => 4,
            RuleRefusal::OnTime => 6,
        }
    }

    /// The refusal's name, as `"BAD-LOAD"`.
    pub const fn name(self) -> &'static str {
        match self {
            RuleRefusal::Profile => "BAD-PROFILE",
            RuleRefusal::LevelOrDuty => "OUT-OF-RANGE",
            RuleRefusal::Load => "BAD-LOAD",
            RuleRefusal::OnTime => "BAD-ON-TIME",
        }
    }

    const fn reason(self) -> &'static str {
        match self {
            RuleRefusal::Profile => "the call does not take this profile",
            RuleRefusal::LevelOrDuty => {
                "the level is above 4, or the duty is not 600,000 to 30,000,000"
            }
            RuleRefusal::Load => "a load is above 1,000,000",
            RuleRefusal::OnTime => "the profile does not allow this on-time",
        }
    }
}

impl fmt::Display for RuleRefusal {
    fn fmt(&self, f: &mut fmt::Formatter<'_>) -> fmt::Result {
        write!(f, "{}: {}", self.name(), self.reason())
    }
}

impl Error for RuleRefusal {}

/// Profile 3's numbers after a pair of samples.
#[derive(Clone, Copy, Debug, PartialEq, Eq)]
pub struct DutyUpdate {
    /// The smoothed load, in parts per 1,000,000.
    pub smoothed: u32,
    /// The duty, in parts per 1,000,000,000.
    pub duty: u32,
}

/// The answer, unless there is a refusal number.
fn answered<T>(refusal: u32, answer: T) -> Result<T, RuleRefusal> {
    match refusal {
        0 => Ok(answer),
        1 => Err(RuleRefusal::Profile),
        4 => Err(RuleRefusal::Load),
        6 => Err(RuleRefusal::OnTime),
        9 => Err(RuleRefusal::LevelOrDuty),
        // The contracts of the four calls give no other number.
        other => unreachable!("the archive answered with refusal {other}"),
    }
}

/// The level, 0 to 4, that a load wants in profile 1 or 2.
///
/// # Errors
///
/// [`RuleRefusal::Profile`] if `profile` is not 1 or 2; [`RuleRefusal::Load`] if `load` is above
/// 1,000,000.
pub fn wanted_level(profile: u32, load: u32) -> Result<u32, RuleRefusal> {
    let answer = sys::presscurlew_wanted_level(profile, load);
    answered(answer.refusal, answer.level)
}

/// The level after one sample of this load in profile 1 or 2: moved by at most one towards the wanted
/// level.
///
/// # Errors
///
/// [`RuleRefusal::Profile`] if `profile` is not 1 or 2; [`RuleRefusal::LevelOrDuty`] if `level` is above
/// 4; [`RuleRefusal::Load`] if `load` is above 1,000,000.
pub fn level_step(profile: u32, load: u32, level: u32) -> Result<u32, RuleRefusal> {
    let answer = sys::presscurlew_level_step(profile, load, level);
    answered(answer.refusal, answer.level)
}

/// Profile 3's update after a pair of samples, of which `kept` is the first load and `new` the second.
///
/// # Errors
///
/// [`RuleRefusal::LevelOrDuty`] if `duty` is not 600,000 to 30,000,000; [`RuleRefusal::Load`] if any of
/// the three loads is above 1,000,000.
pub fn duty_update(
    duty: u32,
    smoothed: u32,
    kept: u32,
    new: u32,
) -> Result<DutyUpdate, RuleRefusal> {
    let answer = sys::presscurlew_duty_update(duty, smoothed, kept, new);
    let update = DutyUpdate {
        smoothed: answer.smoothed,
        duty: answer.duty,
    };
    answered(answer.refusal, update)
}

/// The wait in µs before the next admission, where `ontime` is that of the packet admitted last.
///
/// In profiles 1 and 2 it goes by the level, in profile 3 by duty and on-time, in profile 4 by the on-time and the load
/// of the latest sample. It runs from the end of that packet, `ontime` after its admission, which is not added to the
/// answer; in profile 3 it runs from the admission. All are judged, used or not.
///
/// # Errors
///
/// [`RuleRefusal::Profile`] if `profile` is not 1 to 4; [`RuleRefusal::LevelOrDuty`] if `level` is above
/// 4 or `duty` is not 600,000 to 30,000,000; [`RuleRefusal::Load`] if `load` is above 1,000,000;
/// [`RuleRefusal::OnTime`] if the profile does not allow `ontime` (1 to 1,000, 1 to 500, 1 to 4,000 and again
/// 1 to 4,000 µs).
pub fn wait(
    profile: u32,
    level: u32,
    duty: u32,
    ontime: u32,
    load: u32,
) -> Result<u32, RuleRefusal> {
    let answer = sys::presscurlew_wait(profile, level, duty, ontime, load);
    answered(answer.refusal, answer.wait)
}
