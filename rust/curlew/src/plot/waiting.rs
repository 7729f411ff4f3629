//! The panel of what waits, a lane for each priority.

use crate::plot::course::{Course, Look};
use crate::plot::page::{heading, side, Frame, Panel, LANES, LEFT, PRIORITIES, RIGHT};
use crate::svg::Svg;

/// The distance from one lane to the next, and a lane's height.
const LANE: f64 = 32.0;
const LANE_HEIGHT: f64 = 28.0;
/// So many fit into a queue.
const ROOM: f64 = 5.0;

/// How many wait in each queue.
pub struct Waiting {
    lanes: [Course; 4],
}

impl Waiting {
    /// The empty panel.
    pub fn new(frame: Frame, band: bool) -> Waiting {
        let course = |priority| Course::new(frame, lane(priority), ROOM, band);
        Waiting {
            lanes: [0, 1, 2, 3].map(course),
        }
    }

    /// So many wait from now on.
    pub fn now(&mut self, now: u64, priority: usize, length: u64) {
        self.lanes[priority].step(now, length as f64);
    }

    /// Draws the panel.
    pub fn draw(&mut self, svg: &mut Svg) {
        let text = "Packets waiting, by priority (0 to 5 in each queue)";
        heading(svg, LANES, text);
        for (priority, course) in self.lanes.iter_mut().enumerate() {
            let Panel { top, base } = lane(priority);
            let middle = (top + base) / 2.0 + 4.0;
            side(svg, middle, &format!("priority {priority}"));
            let class = PRIORITIES[priority];
            course.draw(
                svg,
                &Look {
                    line: &format!("{class} lane-line"),
                    band: &format!("{class} lane-band"),
                    area: Some(&format!("{class} lane")),
                },
            );
            svg.line((LEFT, base), (RIGHT, base), "base");
        }
    }
}

/// A queue's lane.
fn lane(priority: usize) -> Panel {
    let top = LANES.top + LANE * priority as f64;
    Panel {
        top,
        base: top + LANE_HEIGHT,
    }
}
