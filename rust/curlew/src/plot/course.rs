//! A number over time: a line, or of a long run a band.
//!
//! A band has columns of a few pixels. Each keeps the least and the greatest
//! that the number was, and a histogram of [`PARTS`] parts of the scale, from
//! which the median is read: half of the column's time it was at most that,
//! rounded to a part. So a band takes the same memory however long the run is.

use crate::plot::page::{Frame, Panel, LEFT, RIGHT};
use crate::svg::{Svg, Trace};

/// The columns of a band, of four pixels each.
pub const COLUMNS: usize = 246;
/// The parts of a scale that the median is told in: of loads half a per cent,
/// of levels and lengths exact.
const PARTS: usize = 200;

/// A number that holds until it changes.
pub struct Course {
    frame: Frame,
    panel: Panel,
    most: f64,
    held: Option<(u64, f64)>,
    drawn: Drawn,
    cuts: Cuts,
}

enum Drawn {
    Line(Trace),
    Band(Band),
}

impl Course {
    /// A course from 0 to a greatest number, as a band or a line.
    pub fn new(frame: Frame, panel: Panel, most: f64, band: bool) -> Course {
        let drawn = if band {
            Drawn::Band(Band::new(frame, most))
        } else {
            Drawn::Line(Trace::default())
        };
        Course {
            frame,
            panel,
            most,
            held: None,
            drawn,
            cuts: Cuts::default(),
        }
    }

    /// From this time on the number is this.
    pub fn step(&mut self, time: u64, value: f64) {
        if self.held.is_some_and(|(_, before)| before == value) {
            return;
        }
        self.hold(time);
        self.held = Some((time, value));
    }

    /// Up to this time the number was what it is.
    fn hold(&mut self, until: u64) {
        let Some((since, value)) = self.held else {
            return;
        };
        let (since, until) = (since.max(self.frame.from), until.min(self.frame.known));
        if since > until {
            return;
        }
        if value > self.most {
            self.cuts.at(self.frame.x(since));
        }
        match &mut self.drawn {
            Drawn::Line(trace) => {
                let y = self.panel.y(value, self.most);
                trace.point(self.frame.x(since), y);
                trace.point(self.frame.x(until), y);
            }
            Drawn::Band(band) => band.held(since, until, value),
        }
    }

    /// Draws it.
    pub fn draw(&mut self, svg: &mut Svg, look: &Look) {
        self.hold(self.frame.known);
        match &mut self.drawn {
            Drawn::Line(trace) => {
                if let Some(area) = look.area {
                    svg.path(&trace.filled(self.panel.base), area);
                }
                svg.path(&trace.path(), look.line);
            }
            Drawn::Band(band) => band.draw(svg, self.panel, look),
        }
        self.cuts.draw(svg, self.panel);
    }
}

/// The classes that a course is drawn in.
pub struct Look<'a> {
    /// Of the line, or of a band's median.
    pub line: &'a str,
    /// Of the band.
    pub band: &'a str,
    /// Of the area below a line, if it is to be seen.
    pub area: Option<&'a str>,
}

/// The least, the median and the greatest of each column.
pub struct Band {
    frame: Frame,
    most: f64,
    columns: Vec<Column>,
    weights: Vec<u64>,
}

#[derive(Clone, Copy)]
struct Column {
    least: f64,
    greatest: f64,
}

impl Band {
    /// An empty band.
    pub fn new(frame: Frame, most: f64) -> Band {
        let none = Column {
            least: f64::INFINITY,
            greatest: f64::NEG_INFINITY,
        };
        Band {
            frame,
            most,
            columns: vec![none; COLUMNS],
            weights: vec![0; COLUMNS * (PARTS + 1)],
        }
    }

    /// The number was this at a time, and counts once.
    pub fn seen(&mut self, time: u64, value: f64) {
        let column = self.frame.column(time, COLUMNS);
        self.weigh(column, value, 1);
    }

    /// The number was this between two times, and counts by how long.
    fn held(&mut self, since: u64, until: u64, value: f64) {
        let (first, last) = (
            self.frame.column(since, COLUMNS),
            self.frame.column(until, COLUMNS),
        );
        for column in first..=last {
            let from = self.frame.edge(column, COLUMNS).max(since);
            let to = self.frame.edge(column + 1, COLUMNS).min(until);
            // A number held up to the very edge of a column was not in it.
            if column == first || from < until {
                self.weigh(column, value, to.saturating_sub(from));
            }
        }
    }

    fn weigh(&mut self, column: usize, value: f64, weight: u64) {
        let part = (value / self.most * PARTS as f64).round();
        let part = (part.max(0.0) as usize).min(PARTS);
        self.weights[column * (PARTS + 1) + part] += weight;
        let column = &mut self.columns[column];
        column.least = column.least.min(value);
        column.greatest = column.greatest.max(value);
    }

    /// The least, the median and the greatest of a column, if it has any.
    fn three(&self, at: usize) -> Option<(f64, f64, f64)> {
        let Column { least, greatest } = self.columns[at];
        if least > greatest {
            return None;
        }
        let weights = &self.weights[at * (PARTS + 1)..(at + 1) * (PARTS + 1)];
        let half = weights.iter().sum::<u64>().div_ceil(2);
        let mut sum = 0;
        let part = weights.iter().position(|weight| {
            sum += weight;
            sum >= half
        });
        let median = part.unwrap_or(0) as f64 * self.most / PARTS as f64;
        Some((least, median.clamp(least, greatest), greatest))
    }

    /// The greatest of each column that has any.
    pub fn greatest(&self) -> impl Iterator<Item = (usize, f64)> + '_ {
        let some = |column: &(usize, &Column)| column.1.least <= column.1.greatest;
        let columns = self.columns.iter().enumerate().filter(some);
        columns.map(|(at, column)| (at, column.greatest))
    }

    /// Draws the band, and the median on it.
    pub fn draw(&self, svg: &mut Svg, panel: Panel, look: &Look) {
        let (mut area, mut median) = (String::new(), Trace::default());
        for at in 0..COLUMNS {
            let Some((least, middle, greatest)) = self.three(at) else {
                if median.drawing() {
                    median.stop();
                }
                continue;
            };
            let (left, right) = sides(at, COLUMNS);
            let [low, mid, high] = [least, middle, greatest].map(|value| panel.y(value, self.most));
            // A band of one value is as thin as a line, and still seen.
            let (low, high) = (low + 0.4, high - 0.4);
            area += &format!("M{left:.1} {low:.1}V{high:.1}H{right:.1}V{low:.1}Z");
            median.point(left, mid);
            median.point(right, mid);
        }
        svg.path(&area, look.band);
        svg.path(&median.path(), look.line);
    }
}

/// Left and right of a column.
pub fn sides(column: usize, columns: usize) -> (f64, f64) {
    let width = (RIGHT - LEFT) / columns as f64;
    (
        LEFT + width * column as f64,
        LEFT + width * (column + 1) as f64,
    )
}

/// Marks at the top of a panel, where something is cut off.
#[derive(Default)]
pub struct Cuts {
    path: String,
    last: Option<f64>,
}

impl Cuts {
    /// Something is cut off at this place; marks that would touch are one.
    pub fn at(&mut self, x: f64) {
        if self.last.is_some_and(|last| x - last < 7.0) {
            return;
        }
        self.last = Some(x);
        self.path += &format!("M{x:.1} -6l3.4 5.4h-6.8Z");
    }

    /// Whether anything is.
    pub fn any(&self) -> bool {
        self.last.is_some()
    }

    /// Draws the marks on top of a panel.
    pub fn draw(&self, svg: &mut Svg, panel: Panel) {
        if self.any() {
            let top = panel.top;
            let path = &self.path;
            svg.add(&format!(
                r#"<path class="cut" transform="translate(0 {top:.1})" d="{path}"/>"#
            ));
        }
    }
}

#[cfg(test)]
mod tests {
    use super::*;

    const FRAME: Frame = Frame {
        from: 1_000,
        to: 247_000,
        known: 247_000,
    };

    /// Columns of 1,000 µs: 40 for a quarter of the first, then 80, a moment of
    /// 100 in the second, and 20 through the third.
    #[test]
    fn a_column_has_its_least_median_and_greatest() {
        let panel = Panel {
            top: 0.0,
            base: 100.0,
        };
        let mut course = Course::new(FRAME, panel, 100.0, true);
        for (time, value) in [
            (0, 40.0),
            (1_250, 80.0),
            (2_500, 100.0),
            (2_500, 80.0),
            (3_000, 20.0),
            (4_000, 60.0),
        ] {
            course.step(time, value);
        }
        course.hold(FRAME.known);
        let Drawn::Band(band) = &course.drawn else {
            panic!("it is a band");
        };
        assert_eq!(band.three(0), Some((40.0, 80.0, 80.0)));
        assert_eq!(band.three(1), Some((80.0, 80.0, 100.0)));
        assert_eq!(band.three(2), Some((20.0, 20.0, 20.0)));
        for column in 3..COLUMNS {
            assert_eq!(band.three(column), Some((60.0, 60.0, 60.0)), "{column}");
        }
    }

    /// The median by the histogram is within half a part of that of all numbers.
    #[test]
    fn the_median_is_told_to_half_a_part() {
        let mut rng = reference::rng::Rng::new(97);
        for _ in 0..200 {
            let mut band = Band::new(FRAME, 1e6);
            let mut all: Vec<u64> = (0..1 + rng.below(60))
                .map(|_| rng.below(1_000_001))
                .collect();
            all.iter().for_each(|value| band.seen(1_000, *value as f64));
            all.sort();
            let right = all[(all.len() - 1) / 2] as f64;
            let (least, median, greatest) = band.three(0).unwrap();
            assert_eq!(
                (least, greatest),
                (all[0] as f64, all[all.len() - 1] as f64)
            );
            assert!((median - right).abs() <= 2_500.0, "{all:?}: {median}");
        }
    }
}
