//! The panel of the time since the last packet, beside the floor.
//!
//! In a short run it is drawn as it rises; in a long one as a band of the times
//! between two packets, with the longest that something waited on it.

use crate::plot::course::{sides, Band, Cuts, Look, COLUMNS};
use crate::plot::page::{heading, limit, scale, Frame, SINCE};
use crate::svg::{Svg, Trace};
use crate::text::span;

/// The time since the last admission.
pub struct Since {
    frame: Frame,
    floor: u64,
    /// The top of the panel, in µs.
    room: u64,
    last: Option<u64>,
    before: u64,
    drawn: Drawn,
    cuts: Cuts,
}

enum Drawn {
    /// All of it, and dark what passed while others waited.
    Lines { all: Trace, dark: Trace },
    /// The times between two packets, and the longest while others waited.
    Bands { gaps: Band, dark: Band },
}

impl Since {
    /// The panel of a run whose packets waited for so long at the most.
    pub fn new(frame: Frame, floor: u64, hold: u64, band: bool) -> Since {
        let room = hold.clamp(1_250_000, 3_000_000);
        let most = room as f64;
        let drawn = if band {
            Drawn::Bands {
                gaps: Band::new(frame, most),
                dark: Band::new(frame, most),
            }
        } else {
            Drawn::Lines {
                all: Trace::default(),
                dark: Trace::default(),
            }
        };
        Since {
            frame,
            floor,
            room,
            last: None,
            before: 0,
            drawn,
            cuts: Cuts::default(),
        }
    }

    /// A call: whether something waited up to it, and whether it sent.
    pub fn call(&mut self, now: u64, waited: bool, sent: bool) {
        if let Some(last) = self.last.filter(|_| now >= self.frame.from) {
            if sent || waited {
                self.seen(last, now, waited, sent);
            }
        }
        if !waited {
            self.stop();
        }
        self.before = now;
        if sent {
            self.last = Some(now);
        }
    }

    /// The time since the last packet, at a call that sends or is waited for.
    fn seen(&mut self, last: u64, now: u64, waited: bool, sent: bool) {
        let rise = Rise {
            frame: self.frame,
            room: self.room,
            last,
        };
        match &mut self.drawn {
            Drawn::Bands { gaps, dark } => {
                let since = (now - last) as f64;
                if sent {
                    gaps.seen(now, since);
                }
                if waited {
                    dark.seen(now, since);
                }
                if now - last > self.room {
                    self.cuts.at(self.frame.x(now));
                }
            }
            Drawn::Lines { all, dark } => {
                if sent {
                    rise.draw(all, last, now, &mut self.cuts);
                    all.point(self.frame.x(now), SINCE.base);
                }
                if waited {
                    rise.draw(dark, self.before.max(last), now, &mut self.cuts);
                }
                if waited && sent {
                    dark.point(self.frame.x(now), SINCE.base);
                }
            }
        }
    }

    /// Nothing waits any more.
    fn stop(&mut self) {
        if let Drawn::Lines { dark, .. } = &mut self.drawn {
            if dark.drawing() {
                dark.stop();
            }
        }
    }

    /// Draws the panel.
    pub fn draw(&mut self, svg: &mut Svg) {
        let most = self.room as f64;
        heading(svg, SINCE, self.name());
        scale(svg, SINCE, most / 1e6, &[0.0, 0.5, 1.0], 1);
        let Frame {
            from, known: to, ..
        } = self.frame;
        match &mut self.drawn {
            Drawn::Lines { all, dark } => {
                if let Some(last) = self.last.filter(|last| *last < to && from <= to) {
                    let rise = Rise {
                        frame: self.frame,
                        room: self.room,
                        last,
                    };
                    rise.draw(all, last, to, &mut self.cuts);
                }
                svg.path(&all.path(), "faint");
                svg.path(&dark.path(), "trace");
            }
            Drawn::Bands { gaps, dark } => {
                let look = Look {
                    line: "smooth",
                    band: "band",
                    area: None,
                };
                gaps.draw(svg, SINCE, &look);
                svg.path(&longest(dark, most), "trace");
            }
        }
        self.cuts.draw(svg, SINCE);
        let y = SINCE.y(self.floor as f64, most);
        limit(svg, SINCE, y, &self.floor_name());
    }

    fn name(&self) -> &'static str {
        match self.drawn {
            Drawn::Lines { .. } => "Time since the last packet went (s); dark while others wait",
            Drawn::Bands { .. } => "Time between packets (s); dark: the longest while others wait",
        }
    }

    /// What the line of the floor is, and what is cut off.
    fn floor_name(&self) -> String {
        let text = "floor, guaranteed: a poll on or above this line sends";
        match self.cuts.any() {
            true => format!("▲ cut off at {}  ·  {text}", span(self.room)),
            false => text.to_string(),
        }
    }
}

/// The time since a packet as it rises.
struct Rise {
    frame: Frame,
    room: u64,
    last: u64,
}

impl Rise {
    /// Draws it between two moments, as far as there is room.
    fn draw(&self, trace: &mut Trace, from: u64, now: u64, cuts: &mut Cuts) {
        let mut point = |time: u64| {
            let since = (time - self.last) as f64;
            trace.point(self.frame.x(time), SINCE.y(since, self.room as f64));
        };
        let corner = self.last + self.room;
        let from = from.max(self.frame.from).min(now);
        point(from);
        if from < corner && corner < now {
            point(corner);
        }
        point(now);
        if corner < now {
            cuts.at(self.frame.x(corner.max(from)));
        }
    }
}

/// A dash for the greatest of each column.
fn longest(band: &Band, most: f64) -> String {
    let dashes = band.greatest().map(|(column, value)| {
        let (left, right) = sides(column, COLUMNS);
        format!("M{left:.1} {y:.1}H{right:.1}", y = SINCE.y(value, most))
    });
    dashes.collect()
}
