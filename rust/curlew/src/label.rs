//! `label`: what the label promises of a trailer, for the numbers that a hire
//! desk is asked. The formulas are those of `docs/LABEL.md`, which says where
//! each is proved; a test holds the label's tables to what is said here.

use std::fs;

use reference::book::{floor, owes_ceiling, COLUMN_ROOM, STRETCH, STRETCH_MOST};
use reference::rules::{
    needs_list, on_time_max, profile_known, wait, wait_from, WaitFrom, DUTY_MOST, GAP_LEAST,
    PROFILE_5,
};

use crate::fault::Fault;
use crate::output::Output;
use crate::page::page;
use crate::text::{count, grouped, say, span};

/// What is asked of the label.
#[derive(Debug)]
pub enum LabelWish {
    /// The figures of a trailer.
    Figures(Asked),
    /// The label as a page to print.
    Page { input: String, output: String },
}

/// The trailer that is asked about.
#[derive(Debug)]
pub struct Asked {
    pub profile: u32,
    /// The longest time between two polls, in µs.
    pub poll: u64,
    /// So many of priority 0 wait before the warning.
    pub before: u64,
    /// So many messages a minute are to go.
    pub messages: Option<u64>,
    /// A stretch of time, in µs, in which the trailer is on air.
    pub stretch: Option<u64>,
}

/// A minute and an hour, in µs.
const MINUTE: u64 = 60_000_000;
const HOUR: u64 = 3_600_000_000;

/// The longest stretch that is asked about: more than 30 years.
const STRETCH_LONGEST: u64 = 1_000_000_000_000_000;

/// The longest step of the radio's clock from one call to the next that the gate takes.
const STEP_MOST: u64 = (1 << 31) - 1;

pub fn label(wish: &LabelWish) -> Result<(), Fault> {
    match wish {
        LabelWish::Figures(asked) => say(&figures(asked)?),
        LabelWish::Page { input, output } => {
            let mut output = Output::open(output, &[input])?;
            let markdown =
                fs::read_to_string(input).map_err(|error| Fault::reading(input, &error))?;
            output.put(page(&markdown)?.as_bytes())?;
            output.done()
        }
    }
}

/// How long a warning waits at most: a floor and a poll for each that goes before it, and for itself.
fn longest_wait(asked: &Asked) -> u64 {
    (asked.before + 1) * (floor(asked.profile) + asked.poll)
}

/// The messages of one trailer in a minute: those whose waits, of floor and poll each, are over before it is.
fn per_minute(asked: &Asked) -> u64 {
    (MINUTE - 1) / (floor(asked.profile) + asked.poll)
}

/// The longest packet of a profile.
fn longest(profile: u32) -> u64 {
    on_time_max(profile).map_or(0, u64::from)
}

/// The most that a profile is on air in any stretch: the least of what its shortest wait leaves, of 30 ms for each
/// second begun, and of the ceiling where it is promised.
pub fn most(profile: u32, stretch: u64) -> u64 {
    let by_second = stretch.div_ceil(STRETCH) * STRETCH_MOST;
    let held = by_second.min(by_waits(profile, stretch));
    if !owes_ceiling(profile) {
        return held;
    }
    held.min((3 * (stretch - 1) + 400_000) / 100)
}

/// As many longest packets as start in the stretch, and what a shorter one more can add.
fn by_waits(profile: u32, stretch: u64) -> u64 {
    let longest = longest(profile);
    // Profile 5's is the least that a list may have, whatever its own list is.
    let least = match needs_list(profile) {
        true => Some(PROFILE_5.wait_least),
        false => wait(profile, 0, DUTY_MOST, 1, 0),
    };
    let least = least.map_or(0, u64::from);
    let stride = match wait_from(profile) {
        Some(WaitFrom::End) => longest + least,
        _ => least,
    };
    let (whole, rest) = ((stretch - 1) / stride, (stretch - 1) % stride);
    (whole + 1) * longest + rest.saturating_sub(least)
}

fn judge(asked: &Asked) -> Result<(), Fault> {
    if !profile_known(asked.profile) {
        return Err(Fault::bad(format!(
            "there is no profile {}: it is 1 to 5",
            asked.profile
        )));
    }
    if asked.poll == 0 || asked.poll > STEP_MOST {
        return Err(Fault::bad(
            "--poll is 1 µs to 2,147,483,647 µs: the gate takes no longer step",
        ));
    }
    if asked.before >= COLUMN_ROOM {
        return Err(Fault::bad(
            "--before is 0 to 4: five packets of a priority fit into the gate",
        ));
    }
    if let Some(stretch) = asked.stretch {
        if !(GAP_LEAST..=STRETCH_LONGEST).contains(&stretch) {
            return Err(Fault::bad(
                "--stretch is 25 ms to 10^15 µs: shorter ones have no figure of their own",
            ));
        }
    }
    Ok(())
}

/// The answer to the hire desk.
fn figures(asked: &Asked) -> Result<String, Fault> {
    judge(asked)?;
    let (quiet, poll) = (span(floor(asked.profile)), span(asked.poll));
    let before = asked.before;
    let mut text = format!(
        "Profile {}, polled at least every {poll}. What is promised holds however loud the neighbours are.\n\n",
        asked.profile
    );
    let wait = span(longest_wait(asked));
    text.push_str(&line("A warning waits at most", &wait));
    text.push_str(&format!(
        "  {before} of priority 0 wait before it: ({before} + 1) x ({quiet} + {poll}).\n  \
         If it is of priority 0 and was TAKEN, if it lives longer than that, and if fewer than five\n  \
         more of priority 0 are taken while it waits, or the gate was made to keep the oldest.\n"
    ));
    text.push_str(&of_the_site(asked));
    text.push_str(&line("Longest packet", &span(longest(asked.profile))));
    text.push_str(&on_air(asked));
    text.push_str("\ndocs/LABEL.md has all of it: what the guarantee needs, and the theorem of each number.\n");
    Ok(text)
}

/// Messages a minute, and the trailers for them.
fn of_the_site(asked: &Asked) -> String {
    let one = per_minute(asked);
    let mut text = line("Messages a minute of one trailer, at least", &grouped(one));
    text.push_str("  If something waits at each poll.\n");
    let Some(messages) = asked.messages else {
        return text;
    };
    let head = format!("Trailers for {} a minute", count(messages, "message"));
    if one == 0 {
        text.push_str(&line(&head, "no number is promised to be enough"));
        text.push_str("  Polled so seldom, one trailer may send nothing in a minute.\n");
        return text;
    }
    text.push_str(&line(&head, &grouped(messages.div_ceil(one))));
    text.push_str("  If all are of this profile, each is polled so, and something waits at each of its polls.\n");
    text
}

/// How much of some stretches the trailer is on air.
fn on_air(asked: &Asked) -> String {
    let named = [("second", STRETCH), ("minute", MINUTE), ("hour", HOUR)];
    let named = named.map(|(name, stretch)| (name.to_string(), stretch));
    let own = asked.stretch.map(|stretch| (span(stretch), stretch));
    let mut text = String::new();
    for (name, stretch) in named.into_iter().chain(own) {
        let head = format!("On air in any {name}, at most");
        text.push_str(&line(&head, &span(most(asked.profile, stretch))));
    }
    text.push_str("  If its computer waits a second after each restart before it polls, and keeps the profile.\n");
    text
}

/// A figure on a line of its own.
fn line(what: &str, figure: &str) -> String {
    format!("{what:<46}{figure}\n")
}
