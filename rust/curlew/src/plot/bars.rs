//! Packets a minute, stacked by priority.

use crate::plot::course::sides;
use crate::plot::page::{Frame, Panel, PRIORITIES};
use crate::svg::Svg;

/// The most bars, of six pixels each, and the fewest.
const BARS: (u64, u64) = (164, 20);
/// Where there is room for it, a bar is no shorter than this: packets go some
/// tens a second at the most.
const SHORTEST: u64 = 1_000_000;
/// No part of a bar is drawn thinner than this: nothing hides.
const THINNEST: f64 = 1.2;

/// How many packets of each priority fall on each bar's time.
pub struct Bars {
    frame: Frame,
    counts: Vec<[u64; PRIORITIES.len()]>,
}

impl Bars {
    /// No packets yet.
    pub fn new(frame: Frame) -> Bars {
        let bars = (frame.length() / SHORTEST).clamp(BARS.1, BARS.0);
        let counts = vec![[0; PRIORITIES.len()]; bars as usize];
        Bars { frame, counts }
    }

    /// How long a bar is.
    pub fn length(&self) -> u64 {
        self.frame.length() / self.counts.len() as u64
    }

    /// So many packets of a priority at a time.
    pub fn add(&mut self, time: u64, priority: usize, many: u64) {
        let bar = self.frame.column(time, self.counts.len());
        self.counts[bar][priority] += many;
    }

    /// So many packets in a bar are so many a minute.
    fn a_minute(&self, many: u64) -> f64 {
        many as f64 * self.counts.len() as f64 * 60e6 / self.frame.length() as f64
    }

    /// The highest bar, in packets a minute.
    pub fn highest(&self) -> f64 {
        let sums = self.counts.iter().map(|counts| counts.iter().sum());
        self.a_minute(sums.max().unwrap_or(0))
    }

    /// Draws the bars, priority 0 at their base.
    pub fn draw(&self, svg: &mut Svg, panel: Panel, most: f64) {
        let mut paths: [String; PRIORITIES.len()] = Default::default();
        for (bar, counts) in self.counts.iter().enumerate() {
            let (left, right) = sides(bar, self.counts.len());
            let (left, right) = (left + 0.4, right - 0.4);
            let mut base = panel.base;
            for (path, many) in paths.iter_mut().zip(counts) {
                if *many == 0 {
                    continue;
                }
                let high = panel.base - panel.y(self.a_minute(*many), most);
                let top = base - high.max(THINNEST);
                *path += &format!("M{left:.1} {base:.1}V{top:.1}H{right:.1}V{base:.1}Z");
                base = top;
            }
        }
        for (path, class) in paths.iter().zip(PRIORITIES) {
            svg.path(path, &format!("{class} bar"));
        }
    }
}

#[cfg(test)]
mod tests {
    use super::*;

    #[test]
    fn bars_are_packets_a_minute() {
        let frame = Frame {
            from: 0,
            to: 164 * 30_000_000,
            known: 164 * 30_000_000,
        };
        let mut bars = Bars::new(frame);
        bars.add(0, 3, 7);
        bars.add(29_999_999, 0, 1);
        bars.add(30_000_000, 3, 6);
        bars.add(frame.to, 2, 1);
        assert_eq!(bars.highest(), 16.0);
        assert_eq!(bars.counts[0], [1, 0, 0, 7, 0]);
        assert_eq!(bars.counts[1], [0, 0, 0, 6, 0]);
        assert_eq!(bars.counts[163], [0, 0, 1, 0, 0]);
    }

    #[test]
    fn bars_are_not_too_short() {
        for (length, bars) in [(9, 20), (30_000_000, 30), (90_000_000_000, 164)] {
            let bounds = Frame {
                from: 0,
                to: length,
                known: length,
            };
            assert_eq!(Bars::new(bounds).counts.len(), bars);
        }
    }

    /// One warning among a million others is still seen.
    #[test]
    fn no_part_is_thinner_than_can_be_seen() {
        let mut bars = Bars::new(Frame {
            from: 0,
            to: 100,
            known: 100,
        });
        bars.add(0, 3, 1_000_000);
        bars.add(0, 0, 1);
        let mut svg = Svg::new(10.0, 10.0);
        let panel = Panel {
            top: 0.0,
            base: 100.0,
        };
        bars.draw(&mut svg, panel, bars.highest());
        let picture = svg.whole("", "");
        assert!(
            picture.contains(r#"class="p0 bar" d="M104.4 100.0V98.8H"#),
            "{picture}"
        );
    }
}
