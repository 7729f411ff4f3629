//! `curlew`: makes call logs of the gate, shows them, checks them and draws
//! them. `curlew --help` says how; `examples/logs/README.md` has
//! more.
//!
//! - [`plain`]: the plain text form of a log, and `write`
//! - [`stream`]: records and answers, read one at a time
//! - [`follow`]: a log followed run by run, with the book of each run
//! - [`joined`]: the runs of a log one after the other, on one clock
//! - [`output`]: files and standard output, opened in one place
//! - [`watch`]: how near a run came to what is guaranteed
//! - [`label`]: the label's figures for a site, and its [`page`] to print
//! - [`lives`], [`tally`]: packets followed from offer to end, and counted
//! - [`show`], [`check`], [`plot`], [`report`], [`trace`]: the other commands
//! - [`csv`], [`check_json`]: what programs read, as `docs/TOOLS.md` has it
//!
//! A log is read one record at a time, so that its length does not matter.

#![forbid(unsafe_code)]

mod args;
mod check;
mod check_json;
mod csv;
mod fault;
mod follow;
mod joined;
mod json;
mod label;
mod lives;
mod output;
mod page;
mod plain;
mod plot;
mod progress;
mod report;
mod show;
mod stream;
mod svg;
mod tally;
mod text;
mod trace;
mod watch;

use std::process::ExitCode;

use args::Command;

fn main() -> ExitCode {
    let words: Vec<String> = match args::words() {
        Ok(words) => words,
        Err(fault) => return fault.report(),
    };
    let done = args::parse(&words).and_then(|command| match command {
        Command::Say(text) => text::say(&text),
        Command::Write(write) => plain::write(&write),
        Command::Show(show) => show::show(&show),
        Command::Check(check) => check::check(&check),
        Command::Plot(plot) => plot::plot(&plot),
        Command::Label(label) => label::label(&label),
        Command::Report(report) => report::report(&report),
        Command::Trace(trace) => trace::trace(&trace),
    });
    match done {
        Ok(()) => ExitCode::SUCCESS,
        Err(fault) => fault.report(),
    }
}
