//! The tool as its users run it: each command on good and on damaged input.

mod bad;
mod check;
mod counted;
mod evidence;
mod examples;
mod help;
mod label;
mod plot;
mod programs;
mod report;
mod show;
mod trace;
mod usage;
mod write;
