//! Air added up across makes: the runs of a log one after the other, on the
//! one clock that their stamps give.
//!
//! A stamp is the radio's 32-bit count, so the time from the last accepted call
//! of a run to the next make is known only up to whole turns of 2^32 µs (71 min
//! 35 s). It is read as the gate reads a step: as the least that the stamps
//! allow, if that is below 2^31 µs; in truth it may be turns longer, which puts
//! the packets further apart and never nearer. A greater step is a count that
//! went back or began anew: how long the pause was is then not known, and so it
//! is after a wrong answer. Nothing is added up over such a pause.

use std::collections::VecDeque;

use reference::book::{Book, CEILING_BASE, CEILING_SLOPE, STRETCH, STRETCH_MOST};

use crate::follow::Run;

/// A step from here on is a clock that goes back.
pub const HALF_TURN: u32 = 1 << 31;

/// A part of the joined clock from one admission to another, and the air time
/// admitted in it, both ends counted.
#[derive(Clone, Copy, Debug, PartialEq, Eq)]
pub struct Span {
    /// When it starts: µs since the first make of the runs that are on one clock.
    pub from: u64,
    /// When it ends.
    pub to: u64,
    /// The records of the polls that sent at its start and at its end.
    pub records: (u64, u64),
    /// The runs of those two.
    pub runs: (u64, u64),
    /// The on-times admitted, in µs.
    pub air: u64,
}

impl Span {
    /// 3 × W + 400,000 − 100 × air time.
    pub fn slack(&self) -> i128 {
        let width = i128::from(self.to - self.from);
        CEILING_SLOPE * width + CEILING_BASE - 100 * i128::from(self.air)
    }

    /// The air time that the ceiling allows in it, in whole µs.
    pub fn allowed(&self) -> u64 {
        let width = i128::from(self.to - self.from);
        ((CEILING_SLOPE * width + CEILING_BASE) / 100) as u64 // widths are far below 2^64 / 3
    }

    /// The same with one more admission at its end.
    fn longer(&self, last: &Span) -> Span {
        Span {
            from: self.from,
            to: last.to,
            records: (self.records.0, last.records.1),
            runs: (self.runs.0, last.runs.1),
            air: self.air + last.air,
        }
    }
}

/// The time from the last packet of a run to the first of a later one.
#[derive(Clone, Copy, Debug, PartialEq, Eq)]
pub struct Silence {
    /// How long it was, in µs.
    pub long: u64,
    /// The records of the two polls that sent.
    pub records: (u64, u64),
    /// The runs of the two.
    pub runs: (u64, u64),
}

/// What is known of all runs together.
#[derive(Clone, Debug, Default)]
pub struct Joined {
    /// How many makes that were ready came after a run.
    pub restarts: u64,
    /// Before how many of these the pause is not known.
    pub unknown: u64,
    /// The shortest silence across a restart.
    pub shortest: Option<Silence>,
    /// The second, one of its ends left out, in which the most was admitted.
    pub fullest: Option<Span>,
    /// Of the windows over runs that all owe the ceiling, the one with the
    /// smallest slack.
    pub closest: Option<Span>,
    /// Where the clock is at the end of the last run, and its stamp.
    end: Option<(u64, u32)>,
    last: Option<Span>,
    tightest: Option<Span>,
    second: VecDeque<Held>,
    second_air: u64,
}

/// What was admitted at one µs of the last second.
#[derive(Clone, Copy, Debug)]
struct Held {
    at: u64,
    air: u64,
    /// The record and the run of the first of it.
    record: u64,
    run: u64,
}

impl Joined {
    /// Whether all runs together break what each run keeps.
    pub fn broken(&self) -> bool {
        self.second_broken() || self.ceiling_broken()
    }

    /// Whether more than 30 ms were admitted in some second.
    pub fn second_broken(&self) -> bool {
        self.fullest.is_some_and(|span| span.air > STRETCH_MOST)
    }

    /// Whether the ceiling was passed over runs that all owe it.
    pub fn ceiling_broken(&self) -> bool {
        self.closest.is_some_and(|span| span.slack() < 0)
    }

    /// A make was ready, at this stamp. Gives the pause before it, where it is
    /// known, and where the make is on the clock.
    pub fn make(&mut self, stamp: u32, first: bool) -> (Option<u64>, u64) {
        self.restarts += u64::from(!first);
        let known = self.end.take();
        let step = known.map(|(at, before)| (at, stamp.wrapping_sub(before)));
        match step.filter(|(_, step)| *step < HALF_TURN) {
            Some((at, step)) => (Some(u64::from(step)), at + u64::from(step)),
            None => {
                self.unknown += u64::from(!first);
                (self.last, self.tightest) = (None, None);
                self.second.clear();
                self.second_air = 0;
                (None, 0)
            }
        }
    }

    /// A run is over, and nothing was wrong in it.
    pub fn over(&mut self, run: &Run) {
        self.end = Some((run.start + run.book.time(), run.book.stamp()));
    }

    /// An answer was wrong: what goes on air from here to the next make is not
    /// known.
    pub fn lost(&mut self) {
        self.end = None;
    }

    /// A packet of this on-time was admitted, at this record.
    pub fn admitted(&mut self, record: u64, run: u64, start: u64, ontime: u32, book: &Book) {
        let at = start + book.time();
        let one = Span {
            from: at,
            to: at,
            records: (record, record),
            runs: (run, run),
            air: u64::from(ontime),
        };
        self.see_silence(&one);
        self.see_second(&one);
        if book.owes_ceiling() {
            self.see_ceiling(&one);
        } else {
            self.tightest = None;
        }
        self.last = Some(one);
    }

    fn see_silence(&mut self, one: &Span) {
        let Some(last) = self.last.filter(|last| last.runs.1 != one.runs.0) else {
            return;
        };
        let long = one.from - last.to;
        if self.shortest.is_none_or(|shortest| long < shortest.long) {
            self.shortest = Some(Silence {
                long,
                records: (last.records.1, one.records.0),
                runs: (last.runs.1, one.runs.0),
            });
        }
    }

    /// The second that ends with this admission. Admissions at one µs are held
    /// as one, so that a million of them are enough for any log.
    fn see_second(&mut self, one: &Span) {
        while let Some(old) = self.second.front() {
            if one.to - old.at < STRETCH {
                break;
            }
            self.second_air -= old.air;
            self.second.pop_front();
        }
        self.second_air += one.air;
        match self.second.back_mut() {
            Some(last) if last.at == one.to => last.air += one.air,
            _ => self.second.push_back(Held {
                at: one.to,
                air: one.air,
                record: one.records.0,
                run: one.runs.0,
            }),
        }
        let fuller = self.fullest.is_none_or(|most| self.second_air > most.air);
        if let (true, Some(first)) = (fuller, self.second.front()) {
            self.fullest = Some(Span {
                from: first.at,
                records: (first.record, one.records.1),
                runs: (first.run, one.runs.1),
                air: self.second_air,
                ..*one
            });
        }
    }

    /// The tightest window that ends with this admission: see `Watch`.
    fn see_ceiling(&mut self, one: &Span) {
        let longer = self.tightest.map(|before| before.longer(one));
        let tightest = longer
            .filter(|longer| longer.slack() < one.slack())
            .unwrap_or(*one);
        self.tightest = Some(tightest);
        if self
            .closest
            .is_none_or(|closest| tightest.slack() < closest.slack())
        {
            self.closest = Some(tightest);
        }
    }
}
