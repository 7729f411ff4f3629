//! Profile 3's update in f64, for simulations that have loads and duty as fractions of 1. The gate itself never uses it.
//!
//! ```
//! use presscurlew::floats::{self, BadFloat};
//!
//! // A fresh gate, and a pair of samples in which the channel was busy for 40 % of the time.
//! let first = floats::update(0.0006, 0.0, 0.4, 0.4)?;
//! assert_eq!(first.smoothed, 0.2);
//! let second = floats::update(first.duty, first.smoothed, 0.4, 0.4)?;
//! assert!(first.duty < second.duty && second.duty <= 0.03);
//!
//! assert_eq!(floats::update(0.0006, 0.0, f64::NAN, 0.4), Err(BadFloat));
//! # Ok::<(), BadFloat>(())
//! ```

use core::error::Error;
use core::fmt;

use crate::sys;

/// Why an update is refused, number 14: a load doesn't compare as 0.0 to 1.0, or the duty not as 0.0006 to 0.03.
#[derive(Clone, Copy, Debug, PartialEq, Eq, Hash)]
pub struct BadFloat;

impl BadFloat {
    /// The refusal's number, as a C caller sees it.
    pub const NUMBER: u32 = 14;
}

impl fmt::Display for BadFloat {
    fn fmt(&self, f: &mut fmt::Formatter<'_>) -> fmt::Result {
        f.write_str("BAD-FLOAT: a load is not 0.0 to 1.0, or the duty is not 0.0006 to 0.03")
    }
}

impl Error for BadFloat {}

/// Profile 3's numbers after a pair of samples.
#[derive(Clone, Copy, Debug, PartialEq)]
pub struct FloatUpdate {
    /// The smoothed load.
    pub smoothed: f64,
    /// The duty, 0.0006 to 0.03.
    pub duty: f64,
}

/// Profile 3's update after a pair of samples, of which `kept` is the first load and `new` the second.
///
/// The answer is bit for bit that of the following, each operation rounded once:
///
/// ```
/// fn sequence(duty: f64, smoothed: f64, kept: f64, new: f64) -> (f64, f64) {
///     let smoothed = 0.5 * smoothed + 0.5 * ((kept + new) / 2.0);
///     let difference = 0.68 - smoothed;
///     let product = difference * 0.0012;
///     let offset = if difference > 0.0 { product.min(0.0005) } else { product.max(-0.00025) };
///     (smoothed, ((1.0 - 0.016) * duty + offset).clamp(0.0006, 0.03))
/// }
/// # let update = presscurlew::floats::update(0.0123, 1.0 / 3.0, 0.1, 0.2)?;
/// # assert_eq!(sequence(0.0123, 1.0 / 3.0, 0.1, 0.2), (update.smoothed, update.duty));
/// # Ok::<(), presscurlew::floats::BadFloat>(())
/// ```
///
/// That it comes near [`crate::rules::duty_update`] is not claimed.
///
/// # Errors
///
/// [`BadFloat`] if a load doesn't compare as 0.0 to 1.0, or `duty` not as 0.0006 to 0.03. Not-a-number never does;
/// negative zero goes through as it is.
pub fn update(duty: f64, smoothed: f64, kept: f64, new: f64) -> Result<FloatUpdate, BadFloat> {
    let answer = sys::presscurlew_float_update(duty, smoothed, kept, new);
    match answer.refusal {
        0 => Ok(FloatUpdate {
            smoothed: answer.smoothed,
            duty: answer.duty,
        }),
        BadFloat::NUMBER => Err(BadFloat),
        // The contract gives no other number.
        other => unreachable!("the archive answered with refusal {other}"),
    }
}
