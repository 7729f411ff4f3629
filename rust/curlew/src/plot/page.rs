//! The page of a picture: where its panels stand, its time axis and its words.

use crate::svg::{Anchor, Svg};
use crate::text::span;

/// The width of the page.
pub const WIDTH: f64 = 1120.0;
/// The height of the page.
pub const HEIGHT: f64 = 1092.0;
/// The left edge of title and legend.
pub const MARGIN: f64 = 28.0;
/// The left edge of all panels.
pub const LEFT: f64 = 104.0;
/// The right edge of all panels.
pub const RIGHT: f64 = 1088.0;

/// A panel, or a part of one: its top and its base.
#[derive(Clone, Copy)]
pub struct Panel {
    pub top: f64,
    pub base: f64,
}

const fn panel(top: f64, base: f64) -> Panel {
    Panel { top, base }
}

/// The channel load.
pub const LOAD: Panel = panel(170.0, 260.0);
/// The level, the duty or the wait.
pub const CONTROL: Panel = panel(304.0, 394.0);
/// What waits, in four lanes.
pub const LANES: Panel = panel(438.0, 562.0);
/// What was sent.
pub const SENDS: Panel = panel(606.0, 680.0);
/// What was not sent: expired, displaced, refused.
pub const LOST: [Panel; 3] = [
    panel(690.0, 712.0),
    panel(718.0, 740.0),
    panel(746.0, 768.0),
];
/// The time since the last packet.
pub const SINCE: Panel = panel(812.0, 892.0);
/// The on-time in the last second.
pub const AIR: Panel = panel(936.0, 1026.0);
const GROUNDS: [Panel; 9] = [
    LOAD, CONTROL, LANES, SENDS, LOST[0], LOST[1], LOST[2], SINCE, AIR,
];

impl Panel {
    /// The height of a value; one that the panel has no room for is at its edge.
    pub fn y(&self, value: f64, most: f64) -> f64 {
        self.base - (self.base - self.top) * (value / most).clamp(0.0, 1.0)
    }
}

/// Colours that are told apart by nearly everyone, a dash for what is guaranteed.
pub const STYLE: &str = "\
svg text { font-family: 'Helvetica Neue', Helvetica, Arial, 'Liberation Sans', sans-serif; fill: #222; }
svg .title { font-size: 21px; font-weight: bold; }
svg .facts { font-size: 13px; fill: #444; }
svg .name { font-size: 13px; font-weight: bold; }
svg .tick { font-size: 11px; fill: #444; }
svg .legend { font-size: 11px; fill: #444; }
svg .note { font-size: 11px; fill: #666; }
svg .limit-name { font-size: 11px; fill: #a80000; font-weight: bold; }
svg .paper { fill: #fff; }
svg .panel { fill: #f7f8fa; }
svg .grid { stroke: #e1e4e8; stroke-width: 1; }
svg .rule { stroke: #9aa2ab; stroke-width: 1; stroke-dasharray: 2 4; }
svg .limit { stroke: #c00000; stroke-width: 1.6; stroke-dasharray: 7 4; }
svg .base { stroke: #8b939c; stroke-width: 1; }
svg .trace { fill: none; stroke: #1f3a5f; stroke-width: 1.6; stroke-linejoin: round; }
svg .band { fill: #1f3a5f; fill-opacity: 0.25; }
svg .faint { fill: none; stroke: #c3cad3; stroke-width: 1.2; stroke-linejoin: round; }
svg .smooth { fill: none; stroke: #e69f00; stroke-width: 1.8; }
svg .smooth-band { fill: #e69f00; fill-opacity: 0.35; }
svg .dot { fill: #1f3a5f; }
svg .airfill { fill: #1f3a5f; fill-opacity: 0.16; }
svg .p0 { stroke: #d55e00; fill: #d55e00; }
svg .p1 { stroke: #0072b2; fill: #0072b2; }
svg .p2 { stroke: #009e73; fill: #009e73; }
svg .p3 { stroke: #9467a8; fill: #9467a8; }
svg .p4 { stroke: #777; fill: #777; }
svg .stem { stroke-width: 2; fill: none; }
svg .bar { stroke: none; }
svg .lane { stroke-width: 1; fill-opacity: 0.75; }
svg .lane-band { stroke: none; fill-opacity: 0.35; }
svg .lane-line { stroke-width: 1.6; fill: none; }
svg .cross { stroke-width: 1.4; fill: none; }
svg .dropped { stroke-width: 1.2; fill-opacity: 0.35; }
svg .refused { stroke-width: 1.2; fill: none; }
svg .cut { fill: #222; }
svg .fault { stroke: #c00000; stroke-width: 2; }
svg .unknown { fill: #c00000; fill-opacity: 0.12; }
";

/// The classes of the priorities; the last is for numbers that are no priority.
pub const PRIORITIES: [&str; 5] = ["p0", "p1", "p2", "p3", "p4"];

/// The part of the run's time that is drawn, both ends in it.
#[derive(Clone, Copy)]
pub struct Frame {
    pub from: u64,
    pub to: u64,
    /// What comes later is not known. Where all of it is, the end.
    pub known: u64,
}

impl Frame {
    /// The place of a time; one outside of the frame has its place at the edge.
    pub fn x(&self, time: u64) -> f64 {
        let into = time.clamp(self.from, self.to) - self.from;
        LEFT + (RIGHT - LEFT) * into as f64 / self.length() as f64
    }

    /// Whether a time is in it, and known.
    pub fn holds(&self, time: u64) -> bool {
        (self.from..=self.known).contains(&time)
    }

    /// How long it is.
    pub fn length(&self) -> u64 {
        self.to - self.from
    }

    /// The column of a time, of so many; times are below 2^52 and columns few.
    pub fn column(&self, time: u64, columns: usize) -> usize {
        let into = time.clamp(self.from, self.to) - self.from;
        let column = into * columns as u64 / self.length();
        (column as usize).min(columns - 1)
    }

    /// The first time of a column, and for the one after the last the end.
    pub fn edge(&self, column: usize, columns: usize) -> u64 {
        let into = column as u64 * self.length();
        self.from + into.div_ceil(columns as u64)
    }
}

/// The grounds of all panels, the grid of the time, and its numbers below the last.
pub fn time_axis(svg: &mut Svg, frame: &Frame) {
    for Panel { top, base } in GROUNDS {
        svg.area((LEFT, top), (RIGHT - LEFT, base - top), "panel");
    }
    let (unit, name) = match frame.length() {
        0..=999 => (1.0, "µs"),
        1_000..=999_999 => (1e3, "ms"),
        1_000_000..=599_999_999 => (1e6, "s"),
        600_000_000..=35_999_999_999 => (60e6, "min"),
        _ => (3600e6, "h"),
    };
    let (least, most) = (frame.from as f64 / unit, frame.to as f64 / unit);
    let step = round_step((most - least) / 10.0);
    for tick in (least / step).ceil() as u64..=(most / step).floor() as u64 {
        let value = tick as f64 * step;
        let x = LEFT + (RIGHT - LEFT) * (value - least) / (most - least);
        for Panel { top, base } in GROUNDS {
            svg.line((x, top), (x, base), "grid");
        }
        let text = format!("{}", (value * 1e6).round() / 1e6);
        svg.text((x, AIR.base + 17.0), Anchor::Middle, "tick", &text);
    }
    let middle = (LEFT + RIGHT) / 2.0;
    let text = format!("running time ({name})");
    svg.text((middle, AIR.base + 40.0), Anchor::Middle, "name", &text);
}

/// A panel's name, above it at the left.
pub fn heading(svg: &mut Svg, panel: Panel, text: &str) {
    svg.text((LEFT, panel.top - 9.0), Anchor::Start, "name", text);
}

/// A remark on a panel, above it at the right.
pub fn note(svg: &mut Svg, panel: Panel, text: &str) {
    svg.text((RIGHT, panel.top - 9.0), Anchor::End, "note", text);
}

/// A panel's guaranteed line, on top of what was drawn, and above the panel at
/// the right what it is.
pub fn limit(svg: &mut Svg, panel: Panel, y: f64, text: &str) {
    svg.line((LEFT, y), (RIGHT, y), "limit");
    svg.text((RIGHT, panel.top - 9.0), Anchor::End, "limit-name", text);
}

/// A word at the left of a panel.
pub fn side(svg: &mut Svg, y: f64, text: &str) {
    svg.text((LEFT - 8.0, y), Anchor::End, "tick", text);
}

/// The numbers at the left of a panel, with their lines.
pub fn scale(svg: &mut Svg, panel: Panel, most: f64, ticks: &[f64], digits: usize) {
    for tick in ticks {
        let y = panel.y(*tick, most);
        svg.line((LEFT, y), (RIGHT, y), "grid");
        side(svg, y + 4.0, &format!("{tick:.digits$}"));
    }
}

/// 1, 2 or 5 times a power of ten, the least that is no smaller.
pub fn round_step(rough: f64) -> f64 {
    let rough = rough.max(1e-6);
    let power = 10f64.powf(rough.log10().floor());
    let steps = [1.0, 2.0, 5.0, 10.0];
    let fits = steps.into_iter().find(|step| step * power >= rough);
    fits.unwrap_or(10.0) * power
}

/// A length of time to three digits, for what is drawn to a pixel anyway.
pub fn about(time: u64) -> String {
    let digits = time.checked_ilog10().unwrap_or(0).saturating_sub(2);
    let unit = 10u64.pow(digits);
    span((time + unit / 2) / unit * unit)
}

/// How much narrower plain text is than the bold one of `fitted`.
pub const PLAIN: f64 = 1.35;

/// A text of this size cut to a width, with an ellipsis where it is cut. Widths
/// are those of wide fonts: what is let through fits.
pub fn fitted(text: &str, size: f64, width: f64) -> String {
    let widths = text.chars().map(|c| size * width_of(c));
    if widths.sum::<f64>() <= width {
        return text.to_string();
    }
    let mut room = width - size * width_of('…');
    let fits = |c: &char| {
        room -= size * width_of(*c);
        room >= 0.0
    };
    let mut cut: String = text.chars().take_while(fits).collect();
    cut.truncate(cut.trim_end().len());
    cut + "…"
}

/// The width of a character in a bold sans-serif font, in parts of its size.
fn width_of(c: char) -> f64 {
    match c {
        ' ' | '!' | '\'' | ',' | '.' | ':' | ';' | 'I' | 'i' | 'j' | 'l' | '|' => 0.4,
        'm' | 'w' | 'M' | 'W' | '@' | '%' | '…' | '—' => 1.1,
        'A'..='Z' | '&' | '+' | '<' | '=' | '>' | '~' => 0.86,
        '\0'..='\u{7f}' => 0.72,
        '\u{80}'..='\u{2e7f}' => 0.9,
        _ => 1.3,
    }
}

#[cfg(test)]
mod tests {
    use super::*;

    #[test]
    fn a_long_text_is_cut_to_its_width() {
        assert_eq!(fitted("jam.log", 20.0, 200.0), "jam.log");
        assert_eq!(fitted("mmmmmmmmmm", 10.0, 110.0), "mmmmmmmmmm");
        assert_eq!(fitted("mmmmmmmmmmm", 10.0, 110.0), "mmmmmmmmm…");
        assert_eq!(fitted("ab cdef", 10.0, 36.0), "ab…");
        assert_eq!(fitted("", 10.0, 5.0), "");
        assert_eq!(fitted("車車", 10.0, 5.0), "…");
    }

    #[test]
    fn each_time_is_in_the_column_between_its_edges() {
        for (from, to) in [(0, 1), (0, 7), (5, 1_000), (0, 999_999_999_999_999)] {
            let known = to;
            let frame = Frame { from, to, known };
            for column in 0..250 {
                let (first, next) = (frame.edge(column, 250), frame.edge(column + 1, 250));
                assert!(first <= next);
                if first < next {
                    assert_eq!(frame.column(first, 250), column);
                    assert_eq!(frame.column(next - 1, 250), column);
                }
            }
            assert_eq!((frame.edge(0, 250), frame.edge(250, 250)), (from, to));
            assert_eq!(frame.column(to, 250), 249);
        }
    }

    #[test]
    fn lengths_of_time_have_three_digits() {
        for (time, text) in [
            (0, "0 µs"),
            (999, "999 µs"),
            (12_345, "12.3 ms"),
            (5_484_685, "5.48 s"),
            (999_600, "1 s"),
            (1_234_567_890, "1,230 s"),
        ] {
            assert_eq!(about(time), text);
        }
    }

    #[test]
    fn steps_are_round() {
        for (rough, round) in [(0.9, 1.0), (1.1, 2.0), (3.0, 5.0), (70.0, 100.0)] {
            assert_eq!(round_step(rough), round);
        }
    }
}
