//! The panel of the on-time admitted in the last second, beside its limit.

use std::collections::VecDeque;

use reference::book::{STRETCH, STRETCH_MOST};

use crate::plot::course::{Course, Look};
use crate::plot::page::{heading, limit, scale, Frame, AIR, LEFT, RIGHT};
use crate::svg::Svg;

/// The top of the panel, in ms.
const MOST: f64 = 33.0;

/// The sliding second: 40 admissions at most, 25 ms apart.
pub struct Air {
    frame: Frame,
    course: Course,
    second: VecDeque<(u64, u32)>,
    sum: u64,
}

impl Air {
    /// The panel of a run in which nothing was sent yet.
    pub fn new(frame: Frame, band: bool) -> Air {
        let mut course = Course::new(frame, AIR, MOST, band);
        course.step(0, 0.0);
        Air {
            frame,
            course,
            second: VecDeque::new(),
            sum: 0,
        }
    }

    /// Time goes on: a packet falls out once it is a second old.
    pub fn now(&mut self, now: u64) {
        while let Some((at, ontime)) = self.second.front().copied() {
            if now - at < STRETCH {
                break;
            }
            self.second.pop_front();
            self.sum -= u64::from(ontime);
            self.course.step(at + STRETCH, self.sum as f64 / 1e3);
        }
    }

    /// A packet was admitted.
    pub fn sent(&mut self, now: u64, ontime: u32) {
        self.second.push_back((now, ontime));
        self.sum += u64::from(ontime);
        self.course.step(now, self.sum as f64 / 1e3);
    }

    /// Draws the panel.
    pub fn draw(&mut self, svg: &mut Svg) {
        heading(svg, AIR, "On-time admitted in the last second (ms)");
        scale(svg, AIR, MOST, &[0.0, 10.0, 20.0, 30.0], 0);
        self.now(self.frame.known);
        self.course.draw(
            svg,
            &Look {
                line: "trace",
                band: "band",
                area: Some("airfill"),
            },
        );
        svg.line((LEFT, AIR.base), (RIGHT, AIR.base), "base");
        let y = AIR.y(STRETCH_MOST as f64 / 1e3, MOST);
        let text = "limit, guaranteed: at most 30 ms are admitted in any second";
        limit(svg, AIR, y, text);
    }
}
