#![doc = include_str!("../README.md")]
//!
//! # What is here
//!
//! - [`Gate`]: the gate of one channel: samples, [offers](Offer) and polls, [answers](Answer) and [refusals](Refusal)
//! - [`Profile`]: by which standard it waits
//! - [`State`]: what it holds, to look at and to store
//! - [`Recorder`]: a gate with a log of every call that `replay` plays
//! - [`rules`]: the gate's rules on plain numbers
//! - [`floats`]: profile 3's update in f64, for simulations
//! - [`sys`]: the archives' calls as C sees them
//!
//! With `default-features = false` there is no [`Recorder`], which needs `std`, and no [`Gate::offer_burst`], which needs
//! `alloc`: [`Gate::offer_burst_into`] is the same without a heap.
//!
//! Times are whole microseconds (µs), duty is in parts per 1,000,000,000 and load in parts per 1,000,000; in [`floats`]
//! alone both are fractions of 1.

#![no_std]
#![deny(missing_docs)]
#![deny(unsafe_code)]
#![doc(test(attr(deny(unused_must_use))))]

#[cfg(feature = "alloc")]
extern crate alloc;
#[cfg(any(feature = "std", test))]
extern crate std;

pub mod floats;
mod gate;
mod profile;
#[cfg(feature = "std")]
mod recorder;
pub mod rules;
mod state;
mod stored;
pub mod sys;

pub use gate::{Answer, Gate, Offer, Refusal, WhenFull};
pub use profile::Profile;
#[cfg(feature = "std")]
pub use recorder::{RecordError, Recorder};
pub use state::{Admission, Counts, Level, Packet, Queue, State, Waiting};
pub use stored::StateError;
