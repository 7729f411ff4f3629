//! Packets followed from their offers on: which ones left with a call, and how.
//! It is seen from the run's book, by what is no longer in its columns.

use std::collections::VecDeque;

use reference::book::Entry;
use reference::calls::{BAD_KIND, CLOCK_BACK, CLOCK_END};
use reference::state::Packet;

use crate::follow::Row;
use crate::joined::HALF_TURN;
use crate::stream::Said;

/// How a packet left.
#[derive(Clone, Copy, Debug, PartialEq, Eq)]
pub enum How {
    /// A poll sent it.
    Sent,
    /// Its lifetime was over, as an offer or a poll found.
    Expired,
    /// A newer one of its priority displaced it.
    Displaced,
}

/// A packet that was taken.
#[derive(Clone, Copy, Debug, PartialEq, Eq)]
pub struct Life {
    /// The packet in the book.
    pub entry: Entry,
    /// The number of its offer's record.
    pub record: u64,
}

/// A packet that left.
#[derive(Clone, Copy, Debug, PartialEq, Eq)]
pub struct Left {
    /// The packet.
    pub life: Life,
    /// How it left.
    pub how: How,
}

/// The packets that wait.
#[derive(Default)]
pub struct Lives {
    columns: [VecDeque<Life>; 4],
}

impl Lives {
    /// What left with a call. Each call of the log must be shown in its turn.
    pub fn see(&mut self, row: &Row) -> Vec<Left> {
        if row.record.kind == 0 {
            self.forget();
        }
        let Some(book) = row.book else {
            self.forget();
            return Vec::new();
        };
        if matches!(row.said, Said::Refused(_)) || !matches!(row.record.kind, 2 | 3) {
            return Vec::new();
        }
        let (mut sent, mut displaced) = (row.sent, row.displaced);
        let mut left = Vec::new();
        for (before, after) in self.columns.iter_mut().zip(book.columns()) {
            // No two entries are equal, and a new one comes last.
            let newest = before.back().map(|life| life.entry);
            if before.len() == after.len() && newest.as_ref() == after.back() {
                continue;
            }
            let mut stays = after.iter().peekable();
            before.retain(|life| {
                let stays = stays.next_if(|stays| **stays == life.entry).is_some();
                if !stays {
                    let how = how(life, &mut sent, &mut displaced);
                    left.push(Left { life: *life, how });
                }
                stays
            });
            let record = row.number;
            before.extend(stays.map(|entry| Life {
                entry: *entry,
                record,
            }));
        }
        left
    }

    /// The packets that wait, in turn.
    pub fn waiting(&self) -> impl Iterator<Item = &Life> {
        self.columns.iter().flatten()
    }

    /// How many wait of each priority.
    pub fn lengths(&self) -> [u64; 4] {
        [0, 1, 2, 3].map(|priority| self.columns[priority].len() as u64)
    }

    fn forget(&mut self) {
        self.columns.iter_mut().for_each(VecDeque::clear);
    }
}

/// How a packet left: as the one sent, as the one displaced, or else expired.
fn how(life: &Life, sent: &mut Option<Packet>, displaced: &mut Option<Packet>) -> How {
    let is = |packet: &mut Packet| *packet == life.entry.packet;
    if sent.take_if(is).is_some() {
        How::Sent
    } else if displaced.take_if(is).is_some() {
        How::Displaced
    } else {
        How::Expired
    }
}

/// The time of a row's call in its run. A refused call moves no clock, but its
/// stamp says when it was made, unless it was refused for that; and so does the
/// stamp of a call whose answer is wrong.
pub fn moment(row: &Row) -> u64 {
    let Some(run) = row.run else {
        return 0;
    };
    let step = row.record.stamp.wrapping_sub(run.book.stamp());
    match row.said {
        Said::Refused(CLOCK_BACK | CLOCK_END | BAD_KIND) => run.book.time(),
        _ if step < HALF_TURN => run.book.time() + u64::from(step),
        _ => run.book.time(),
    }
}
