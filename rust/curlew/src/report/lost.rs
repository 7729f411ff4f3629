//! Warnings that were not sent: packets of priority 0, and what became of them.

use crate::follow::{refusal_name, Row};
use crate::lives::{self, How, Left, Life, Lives};
use crate::stream::Said;
use crate::text::{grouped, moment, span};

/// So many are listed; of more, only how many they are.
pub const LISTED: usize = 200;

/// A warning that was not sent.
pub struct Warning {
    /// Its run; nothing if there was no gate.
    pub run: Option<u64>,
    /// Its identifier.
    pub id: u32,
    /// The record of its offer.
    pub record: u64,
    /// The run's time at its offer.
    pub offered: u64,
    /// How it was lost and when, in words.
    pub words: String,
}

/// How a warning was lost.
#[derive(Clone, Copy, Debug, PartialEq, Eq)]
pub enum Fate {
    Expired,
    Displaced,
    Refused,
    Waiting,
    Unknown,
}

/// All fates, with what they are called.
pub const FATES: [(Fate, &str); 5] = [
    (Fate::Expired, "expired"),
    (Fate::Displaced, "displaced"),
    (Fate::Refused, "refused"),
    (Fate::Waiting, "still waiting"),
    (Fate::Unknown, "not known"),
];

/// The warnings that were not sent.
#[derive(Default)]
pub struct Lost {
    /// The first of them.
    pub list: Vec<Warning>,
    counts: [u64; FATES.len()],
}

impl Lost {
    /// How many had a fate.
    pub fn count(&self, fate: Fate) -> u64 {
        self.counts[fate as usize]
    }

    /// How many were lost.
    pub fn all(&self) -> u64 {
        self.counts.iter().sum()
    }

    /// A row, with what left by it.
    pub fn see(&mut self, row: &Row, left: &[Left]) {
        for Left { life, how } in left.iter().filter(|left| is_warning(&left.life)) {
            match how {
                How::Sent => {}
                How::Expired => self.put(Fate::Expired, || of(row, life, expired(life))),
                How::Displaced => self.put(Fate::Displaced, || of(row, life, displaced(row, life))),
            }
        }
        if row.record.kind != 2 || row.record.priority != 0 {
            return;
        }
        if let Said::Refused(number) = row.said {
            self.put(Fate::Refused, || offer(row, refused(number)));
        } else if let (None, Some(run)) = (row.book, row.run) {
            let record = run.wrong.as_ref().map_or(row.number, |wrong| wrong.record);
            self.put(Fate::Unknown, || offer(row, unknown(record)));
        }
    }

    /// An answer is wrong: what waited before may have gone, or not.
    pub fn lost_sight(&mut self, row: &Row, lives: &Lives) {
        for life in lives.waiting().filter(|life| is_warning(life)) {
            self.put(Fate::Unknown, || of(row, life, unknown(row.number)));
        }
    }

    /// A run is over, before this record or with the log: what waited still does.
    pub fn over(&mut self, run: u64, time: u64, next: Option<u64>, lives: &Lives) {
        for life in lives.waiting().filter(|life| is_warning(life)) {
            self.put(Fate::Waiting, || Warning {
                run: Some(run),
                id: life.entry.packet.id,
                record: life.record,
                offered: life.entry.packet.arrival,
                words: waiting(life, time, next),
            });
        }
    }

    fn put(&mut self, fate: Fate, warning: impl FnOnce() -> Warning) {
        self.counts[fate as usize] += 1;
        if self.list.len() < LISTED {
            self.list.push(warning());
        }
    }
}

/// A packet that waited, with what became of it.
fn of(row: &Row, life: &Life, words: String) -> Warning {
    Warning {
        run: row.run.map(|run| run.number),
        id: life.entry.packet.id,
        record: life.record,
        offered: life.entry.packet.arrival,
        words,
    }
}

/// An offer, with what became of it.
fn offer(row: &Row, words: String) -> Warning {
    Warning {
        run: row.run.map(|run| run.number),
        id: row.record.id,
        record: row.number,
        offered: lives::moment(row),
        words,
    }
}

fn expired(life: &Life) -> String {
    let packet = life.entry.packet;
    format!(
        "expired: its lifetime of {} was over at {}; it came with {} before it",
        span(u64::from(packet.lifetime)),
        moment(packet.arrival + u64::from(packet.lifetime)),
        life.entry.above
    )
}

fn displaced(row: &Row, life: &Life) -> String {
    format!(
        "displaced at {} by packet {} (record {}), after a wait of {}",
        moment(lives::moment(row)),
        row.record.id,
        grouped(row.number),
        span(lives::moment(row) - life.entry.packet.arrival)
    )
}

fn refused(number: u32) -> String {
    let name = refusal_name(number);
    format!("refused with {number}, {name}: it never was in the gate")
}

fn waiting(life: &Life, time: u64, next: Option<u64>) -> String {
    let packet = life.entry.packet;
    let over = packet.arrival + u64::from(packet.lifetime) <= time;
    let over = if over { ", its lifetime over" } else { "" };
    let end = match next {
        Some(record) => format!("a new gate was made (record {})", grouped(record)),
        None => "the log ends".to_string(),
    };
    format!("still waiting{over} at {}, where {end}", moment(time))
}

fn is_warning(life: &Life) -> bool {
    life.entry.packet.priority == 0
}

/// What is said from a wrong answer on.
fn unknown(record: u64) -> String {
    let record = grouped(record);
    format!("not known: from record {record} on the answers are wrong")
}
