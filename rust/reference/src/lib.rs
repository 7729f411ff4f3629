//! The second, independent program of the gate.
//!
//! It is document 01 written out plainly, with requests W-201, W-202, W-204 to
//! W-209, W-211 and W-213 of document 02, to be read beside those papers and run beside the
//! product. It shares no code and no table with the product.
//!
//! - [`rules`]: the rules on plain numbers, and each profile's constants
//! - [`ccalls`]: the four calls for the radio maker's C stack
//! - [`levels`]: the first edition's list of levels, its last loads and its level
//! - [`state`]: the state and what makes one sound
//! - [`calls`]: a call on the state and the answer to it
//! - [`gate`]: make, sample, offer and poll
//! - [`book`]: the run's book, and the check of demand 3 over a run
//! - [`log`]: the call log and its program
//! - [`writer`]: calls written to a log
//! - [`burst`]: many offers in one call
//! - [`float`]: the bench's floating update
//! - [`rng`]: a small number generator for tests
//! - [`miscounts`]: counts that don't add up, for tests
//! - [`ledgers`]: ledgers, good and broken, for tests
//! - [`lists`]: lists of levels, good and bad, and states of profile 5, for tests
//!
//! Times are whole microseconds (µs), duty is in parts per 1,000,000,000 and
//! load in parts per 1,000,000.

#![forbid(unsafe_code)]
#![deny(missing_docs)]

pub mod book;
pub mod burst;
pub mod calls;
pub mod ccalls;
pub mod float;
pub mod gate;
pub mod ledgers;
pub mod levels;
pub mod lists;
pub mod log;
pub mod miscounts;
pub mod rng;
pub mod rules;
pub mod state;
pub mod writer;

pub use float::float_update;
