//! The panel of the level, the duty, or the wait that the load asks for.

use reference::rules;
use reference::state::State;

use crate::plot::course::{Course, Look};
use crate::plot::page::{heading, scale, side, Frame, CONTROL, LEFT, RIGHT};
use crate::svg::Svg;
use crate::text::span;

/// The greatest level.
const LEVELS: f64 = 4.0;
/// The greatest duty, in per cent.
const DUTY: f64 = 3.0;
/// The greatest wait, in seconds.
const WAIT: f64 = 1.0;

/// By what the profile sets the wait.
pub struct Control {
    profile: u32,
    course: Course,
}

impl Control {
    /// The panel of a profile.
    pub fn new(frame: Frame, profile: u32, band: bool) -> Control {
        let most = match profile {
            3 => DUTY,
            4 => WAIT,
            _ => LEVELS,
        };
        Control {
            profile,
            course: Course::new(frame, CONTROL, most, band),
        }
    }

    /// The state after a call.
    pub fn now(&mut self, now: u64, state: &State) {
        let value = match self.profile {
            3 => f64::from(state.duty) / 1e7,
            4 => f64::from(state.wait(state.ontime).unwrap_or(0)) / 1e6,
            _ => f64::from(state.level),
        };
        self.course.step(now, value);
    }

    /// Draws the panel.
    pub fn draw(&mut self, svg: &mut Svg) {
        match rules::reactive(self.profile) {
            Some(table) => {
                heading(svg, CONTROL, "Level, and the wait that it asks for");
                for (level, wait) in table.waits.iter().enumerate() {
                    let y = CONTROL.y(level as f64, LEVELS);
                    svg.line((LEFT, y), (RIGHT, y), "grid");
                    side(
                        svg,
                        y + 4.0,
                        &format!("{level}: {}", span(u64::from(*wait))),
                    );
                }
            }
            None if self.profile == 4 => {
                let text = "Wait after the last packet (s), by the latest load";
                heading(svg, CONTROL, text);
                scale(svg, CONTROL, WAIT, &[0.0, 0.25, 0.5, 0.75, 1.0], 2);
            }
            None => {
                heading(svg, CONTROL, "Duty (% of the time that may be on air)");
                scale(svg, CONTROL, DUTY, &[0.0, 1.0, 2.0, 3.0], 0);
            }
        }
        self.course.draw(
            svg,
            &Look {
                line: "trace",
                band: "band",
                area: None,
            },
        );
    }
}
