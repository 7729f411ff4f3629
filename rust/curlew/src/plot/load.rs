//! The panel of the channel load.

use reference::rules;

use crate::plot::course::{Course, Look};
use crate::plot::page::{heading, note, scale, Frame, LEFT, LOAD, RIGHT};
use crate::svg::Svg;

/// No more dots than this are drawn on the line of the load.
const DOTS: u64 = 120;
/// A load of 100 %.
const FULL: f64 = 1e6;

/// The load of each sample, and in profile 3 the smoothed one.
pub struct Load {
    frame: Frame,
    profile: u32,
    load: Course,
    smoothed: Course,
    dots: Option<String>,
}

impl Load {
    /// The panel of a part with so many samples.
    pub fn new(frame: Frame, profile: u32, samples: u64, band: bool) -> Load {
        Load {
            frame,
            profile,
            load: Course::new(frame, LOAD, FULL, band),
            smoothed: Course::new(frame, LOAD, FULL, band),
            dots: (samples <= DOTS).then(String::new),
        }
    }

    /// A sample was taken.
    pub fn sampled(&mut self, now: u64, load: u32, smoothed: u32) {
        self.load.step(now, f64::from(load));
        if self.profile == 3 {
            self.smoothed.step(now, f64::from(smoothed));
        }
        if let Some(dots) = self.dots.as_mut().filter(|_| self.frame.holds(now)) {
            let (x, y) = (self.frame.x(now), LOAD.y(f64::from(load), FULL));
            *dots += &format!(r#"<circle class="dot" cx="{x:.1}" cy="{y:.1}" r="1.9"/>"#);
        }
    }

    /// The loads at which the control changes, and what they are.
    fn rules(&self) -> (Vec<u32>, &'static str) {
        if let Some(table) = rules::reactive(self.profile) {
            let to = [
                table.relaxed_below,
                table.active1_to + 1,
                table.active2_to + 1,
                table.active3_to,
            ];
            return (to.to_vec(), "dotted: where the wanted level changes");
        }
        match self.profile {
            4 => (
                vec![1_000 * rules::PROFILE_4.calm_to],
                "dotted: 62 %, above which the wait grows",
            ),
            _ => (
                vec![rules::PROFILE_3.load_target],
                "orange: smoothed; dotted: the target, 68 %",
            ),
        }
    }

    /// Draws the panel.
    pub fn draw(&mut self, svg: &mut Svg) {
        heading(svg, LOAD, "Channel load (% of probes busy)");
        scale(svg, LOAD, 100.0, &[0.0, 25.0, 50.0, 75.0, 100.0], 0);
        let (loads, text) = self.rules();
        note(svg, LOAD, text);
        self.load.draw(
            svg,
            &Look {
                line: "trace",
                band: "band",
                area: None,
            },
        );
        svg.add(self.dots.as_deref().unwrap_or_default());
        self.smoothed.draw(
            svg,
            &Look {
                line: "smooth",
                band: "smooth-band",
                area: None,
            },
        );
        for load in loads {
            let y = LOAD.y(f64::from(load), FULL);
            svg.line((LEFT, y), (RIGHT, y), "rule");
        }
    }
}
