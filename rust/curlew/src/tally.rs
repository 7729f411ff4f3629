//! Packets counted by priority: what came, and what became of it.

use crate::follow::Row;
use crate::lives::{How, Left};
use crate::stream::Said;

/// The place of offers whose number is no priority.
pub const NO_PRIORITY: usize = 4;

/// The place of a record's priority.
pub fn place(priority: u8) -> usize {
    usize::from(priority).min(NO_PRIORITY)
}

/// What was counted of one priority.
#[derive(Clone, Copy, Debug, Default, PartialEq, Eq)]
pub struct Of {
    /// Offers, taken or not.
    pub offered: u64,
    /// Offers taken.
    pub taken: u64,
    /// Packets sent.
    pub sent: u64,
    /// Packets whose lifetime ended, counted when that was found.
    pub expired: u64,
    /// Packets displaced.
    pub displaced: u64,
    /// Offers refused.
    pub refused: u64,
    /// Of the packets sent, the one that waited the longest.
    pub worst: Option<Worst>,
}

/// A wait; the longer one is the greater.
#[derive(Clone, Copy, Debug, PartialEq, Eq, PartialOrd, Ord)]
pub struct Worst {
    /// How long it was.
    pub waited: u64,
    /// The packet's identifier.
    pub id: u32,
    /// The run's time when it was sent.
    pub at: u64,
    /// The number of the record that sent it.
    pub record: u64,
}

/// What was counted of all.
#[derive(Clone, Copy, Debug, Default, PartialEq, Eq)]
pub struct Tally {
    /// Calls, taken or not.
    pub calls: u64,
    /// By priority; the last place is of numbers that are none.
    pub of: [Of; NO_PRIORITY + 1],
}

impl Tally {
    /// Counts a row, with what left by its call at this time.
    pub fn see(&mut self, row: &Row, left: &[Left], now: u64) {
        self.calls += 1;
        if row.record.kind == 2 {
            let of = &mut self.of[place(row.record.priority)];
            of.offered += 1;
            match row.said {
                Said::Refused(_) => of.refused += 1,
                _ => of.taken += 1,
            }
        }
        for Left { life, how } in left {
            let packet = life.entry.packet;
            let of = &mut self.of[packet.priority as usize];
            match how {
                How::Expired => of.expired += 1,
                How::Displaced => of.displaced += 1,
                How::Sent => of.went(Worst {
                    waited: now - packet.arrival,
                    id: packet.id,
                    at: now,
                    record: row.number,
                }),
            }
        }
    }

    /// Adds what was counted elsewhere.
    pub fn add(&mut self, other: &Tally) {
        self.calls += other.calls;
        for (of, other) in self.of.iter_mut().zip(&other.of) {
            of.offered += other.offered;
            of.taken += other.taken;
            of.sent += other.sent;
            of.expired += other.expired;
            of.displaced += other.displaced;
            of.refused += other.refused;
            of.worst = of.worst.max(other.worst);
        }
    }

    /// A number summed over all priorities.
    pub fn sum(&self, of: impl Fn(&Of) -> u64) -> u64 {
        self.of.iter().map(of).sum()
    }
}

impl Of {
    fn went(&mut self, wait: Worst) {
        self.sent += 1;
        self.worst = self.worst.max(Some(wait));
    }
}
