//! The tests of the reference, one subject a module.

mod bench;
mod book_checks;
mod burst;
mod ccalls;
mod clock;
mod counts;
mod displacement;
mod first_edition;
mod harmonised;
mod help;
mod log_program;
mod queues;
mod refusals;
mod rules_whole;
mod runs;
mod samples;
mod second;
mod slips;
mod soundness;
mod writer;
