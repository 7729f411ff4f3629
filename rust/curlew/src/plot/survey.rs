//! The first reading of a log: what there is to draw of a run.

use reference::rules::TIME_END;

use crate::follow::{Row, Run};
use crate::joined::HALF_TURN;
use crate::lives::moment;
use crate::plot::page::Frame;

/// What has been read of a run.
pub struct Survey {
    from: u64,
    to: u64,
    stamp: u32,
    found: Option<Found>,
}

/// A run to draw.
#[derive(Clone)]
pub struct Found {
    /// Its number.
    pub number: u64,
    /// Its profile.
    pub profile: u32,
    /// 1 if its gate was made in the old way.
    pub oldway: u32,
    /// How long it is, as far as the stamps tell.
    pub time: u64,
    /// Samples in the part that is drawn.
    pub samples: u64,
    /// Offers in that part.
    pub offers: u64,
    /// Packets sent in that part.
    pub sent: u64,
    /// The floor of its profile.
    pub floor: u64,
    /// The longest that something waited before anything was sent.
    pub hold: u64,
    wrong: Option<(u64, String)>,
}

impl Survey {
    /// The survey of a part of a run, or of all of it.
    pub fn new(from: Option<u64>, to: Option<u64>) -> Survey {
        Survey {
            from: from.unwrap_or(0),
            to: to.unwrap_or(u64::MAX),
            stamp: 0,
            found: None,
        }
    }

    /// A row of the run.
    pub fn see(&mut self, run: &Run, row: &Row) {
        let found = self.found.get_or_insert_with(|| Found::new(run));
        found.time = match &found.wrong {
            None if row.wrong.is_none() => run.book.time(),
            None => moment(row).min(TIME_END),
            Some(_) => later(found.time, self.stamp, row.record.stamp),
        };
        self.stamp = row.record.stamp;
        if let (None, Some(text)) = (&found.wrong, row.wrong) {
            found.wrong = Some((found.time, text.to_string()));
        }
        found.hold = run.watch.longest_hold.map_or(0, |(hold, _)| hold);
        if (self.from..=self.to).contains(&moment(row)) {
            found.samples += u64::from(row.record.kind == 1);
            found.offers += u64::from(row.record.kind == 2);
            found.sent += u64::from(row.sent.is_some());
        }
    }

    /// What was found, if the run was there.
    pub fn found(self) -> Option<Found> {
        self.found
    }
}

impl Found {
    fn new(run: &Run) -> Found {
        Found {
            number: run.number,
            profile: run.profile,
            oldway: run.oldway,
            time: 0,
            samples: 0,
            offers: 0,
            sent: 0,
            floor: run.book.floor(),
            hold: 0,
            wrong: None,
        }
    }

    /// When its answers go wrong, and how.
    pub fn wrong(&self) -> Option<(u64, &str)> {
        self.wrong.as_ref().map(|(at, text)| (*at, text.as_str()))
    }

    /// The frame of a part, if there is anything in it.
    pub fn frame(&self, from: Option<u64>, to: Option<u64>) -> Option<Frame> {
        let from = from.unwrap_or(0);
        let to = to.unwrap_or(self.time).min(self.time).max(1);
        let known = self.wrong().map_or(to, |(at, _)| to.min(at));
        (from < to).then_some(Frame { from, to, known })
    }
}

/// The time at a stamp, from the time at the one before: where nothing else is
/// known, a step back is no step.
fn later(time: u64, before: u32, stamp: u32) -> u64 {
    match stamp.wrapping_sub(before) {
        step if step < HALF_TURN => (time + u64::from(step)).min(TIME_END),
        _ => time,
    }
}
