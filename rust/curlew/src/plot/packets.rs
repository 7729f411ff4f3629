//! The panel of the packets sent, and below it what was not sent: expired,
//! displaced, refused. In a short run each has its mark; in a long one there
//! are bars of packets a minute, stacked by priority.

use reference::rules;

use crate::plot::bars::Bars;
use crate::plot::page::{
    about, heading, note, round_step, scale, side, Frame, Panel, LEFT, LOST, PRIORITIES, RIGHT,
    SENDS,
};
use crate::svg::Svg;
use crate::text::grouped;

/// How a packet came to be not sent.
#[derive(Clone, Copy)]
pub enum Lost {
    Expired,
    Displaced,
    Refused,
}

/// The names of these, in the order of their panels.
const NAMES: [&str; 3] = ["expired", "displaced", "refused"];

/// The packets that went, and those that did not.
pub struct Packets {
    frame: Frame,
    /// The longest on-time of the profile, in ms.
    most: f64,
    drawn: Drawn,
}

enum Drawn {
    Marks(Box<Marks>),
    Rates { sent: Bars, lost: [Bars; 3] },
}

/// A mark for each packet, those that would be one pixel for all.
#[derive(Default)]
struct Marks {
    stems: [String; 4],
    under_way: [Option<(f64, u32)>; 4],
    lost: [[Row; PRIORITIES.len()]; 3],
}

/// The marks of one priority in one row.
#[derive(Default)]
struct Row {
    path: String,
    last: Option<f64>,
}

impl Packets {
    /// The panel of a profile.
    pub fn new(frame: Frame, profile: u32, rates: bool) -> Packets {
        let most = rules::on_time_max(profile).unwrap_or(4_000);
        let drawn = if rates {
            Drawn::Rates {
                sent: Bars::new(frame),
                lost: [0; 3].map(|_| Bars::new(frame)),
            }
        } else {
            Drawn::Marks(Box::default())
        };
        Packets {
            frame,
            most: f64::from(most) / 1e3,
            drawn,
        }
    }

    /// A packet went.
    pub fn sent(&mut self, now: u64, priority: usize, ontime: u32) {
        let x = self.frame.x(now);
        match &mut self.drawn {
            Drawn::Rates { sent, .. } => sent.add(now, priority, 1),
            Drawn::Marks(marks) => match &mut marks.under_way[priority] {
                Some((at, most)) if x - *at < 0.5 => *most = (*most).max(ontime),
                _ => {
                    marks.end_stem(priority, self.most);
                    marks.under_way[priority] = Some((x, ontime));
                }
            },
        }
    }

    /// A packet won't go.
    pub fn lost(&mut self, now: u64, priority: usize, how: Lost) {
        let x = self.frame.x(now);
        match &mut self.drawn {
            Drawn::Rates { lost, .. } => lost[how as usize].add(now, priority, 1),
            Drawn::Marks(marks) => {
                let row = &mut marks.lost[how as usize][priority];
                if row.last.is_none_or(|last| x - last >= 1.0) {
                    row.last = Some(x);
                    let y = LOST[how as usize].top + 2.6 + 4.2 * priority as f64;
                    row.path += &mark(how, x, y);
                }
            }
        }
    }

    /// Draws the panel, and the rows below it.
    pub fn draw(&mut self, svg: &mut Svg) {
        for (name, panel) in NAMES.into_iter().zip(LOST) {
            side(svg, panel.top + 9.0, name);
        }
        let most = self.most;
        match &mut self.drawn {
            Drawn::Marks(marks) => marks.draw(svg, most),
            Drawn::Rates { sent, lost } => {
                let bar = about(sent.length());
                heading(svg, SENDS, "Packets sent a minute, stacked by priority");
                let text = "below: packets a minute that were not sent";
                note(svg, SENDS, &format!("each bar {bar}; {text}"));
                draw_rates(svg, sent, lost);
            }
        }
        svg.line((LEFT, SENDS.base), (RIGHT, SENDS.base), "base");
    }
}

/// The bars, each row with a scale of its own.
fn draw_rates(svg: &mut Svg, sent: &Bars, lost: &[Bars; 3]) {
    let step = round_step(sent.highest().max(1.0) / 4.0);
    let most = step * (sent.highest() / step).ceil().max(1.0);
    let ticks: Vec<f64> = (0..=(most / step).round() as u64)
        .map(|tick| tick as f64 * step)
        .collect();
    scale(svg, SENDS, most, &ticks, usize::from(step < 1.0));
    sent.draw(svg, SENDS, most);
    for (bars, panel) in lost.iter().zip(LOST) {
        let highest = bars.highest();
        if highest > 0.0 {
            let text = match highest {
                0.0..10.0 => format!("up to {highest:.1}"),
                _ => format!("up to {}", grouped(highest.round() as u64)),
            };
            side(svg, panel.top + 20.0, &text);
            bars.draw(svg, panel, highest);
        }
        svg.line((LEFT, panel.base), (RIGHT, panel.base), "base");
    }
}

impl Marks {
    /// Draws the stem that is under way, the highest of its half pixel.
    fn end_stem(&mut self, priority: usize, most: f64) {
        if let Some((x, ontime)) = self.under_way[priority].take() {
            let Panel { base, .. } = SENDS;
            let y = SENDS.y(f64::from(ontime) / 1e3, most);
            self.stems[priority] += &format!("M{x:.1} {base:.1}L{x:.1} {y:.1}");
        }
    }

    fn draw(&mut self, svg: &mut Svg, most: f64) {
        heading(svg, SENDS, "Packets sent (on-time, ms)");
        let digits = if most < 4.0 { 2 } else { 0 };
        scale(svg, SENDS, most, &[0.0, most / 2.0, most], digits);
        let text = "below: packets whose lifetime ended unsent, dropped for a newer one, not taken";
        note(svg, SENDS, text);
        for priority in (0..4).rev() {
            self.end_stem(priority, most);
            let class = PRIORITIES[priority];
            svg.path(&self.stems[priority], &format!("stem {class}"));
        }
        for (rows, class) in self.lost.iter().zip(["cross", "dropped", "refused"]) {
            for (row, priority) in rows.iter().zip(PRIORITIES) {
                svg.path(&row.path, &format!("{class} {priority}"));
            }
        }
    }
}

/// A cross for what expired, a triangle that points down for what was
/// displaced, an empty box for what was refused.
fn mark(how: Lost, x: f64, y: f64) -> String {
    let (l, r, t, b) = (x - 2.4, x + 2.4, y - 2.2, y + 2.2);
    match how {
        Lost::Expired => format!("M{l:.1} {t:.1}L{r:.1} {b:.1}M{l:.1} {b:.1}L{r:.1} {t:.1}"),
        Lost::Displaced => format!("M{l:.1} {t:.1}L{r:.1} {t:.1}L{x:.1} {b:.1}Z"),
        Lost::Refused => format!("M{l:.1} {t:.1}H{r:.1}V{b:.1}H{l:.1}Z"),
    }
}
