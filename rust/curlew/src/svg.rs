//! The little of SVG that a picture of a run needs.

use std::fmt::Write;

/// The text of a picture under way.
pub struct Svg {
    text: String,
    description: String,
    width: f64,
    height: f64,
}

/// Where a text stands with respect to its point.
#[derive(Clone, Copy)]
pub enum Anchor {
    /// The point is its left end.
    Start,
    /// The point is its middle.
    Middle,
    /// The point is its right end.
    End,
}

impl Svg {
    /// An empty picture of this size.
    pub fn new(width: f64, height: f64) -> Svg {
        Svg {
            text: String::new(),
            description: String::new(),
            width,
            height,
        }
    }

    /// What the picture shows, for those who can't see it.
    pub fn describe(&mut self, text: String) {
        self.description = text;
    }

    /// Adds a line of SVG as it is.
    pub fn add(&mut self, element: &str) {
        self.text.push_str(element);
        self.text.push('\n');
    }

    /// A straight line.
    pub fn line(&mut self, from: (f64, f64), to: (f64, f64), class: &str) {
        let ((x1, y1), (x2, y2)) = (from, to);
        self.add(&format!(
            r#"<line class="{class}" x1="{x1:.1}" y1="{y1:.1}" x2="{x2:.1}" y2="{y2:.1}"/>"#
        ));
    }

    /// A box.
    pub fn area(&mut self, at: (f64, f64), size: (f64, f64), class: &str) {
        let ((x, y), (width, height)) = (at, size);
        self.add(&format!(
            r#"<rect class="{class}" x="{x:.1}" y="{y:.1}" width="{width:.1}" height="{height:.1}"/>"#
        ));
    }

    /// A line of text.
    pub fn text(&mut self, at: (f64, f64), anchor: Anchor, class: &str, text: &str) {
        let (x, y) = at;
        let anchor = match anchor {
            Anchor::Start => "start",
            Anchor::Middle => "middle",
            Anchor::End => "end",
        };
        let text = escaped(text);
        self.add(&format!(
            r#"<text class="{class}" x="{x:.1}" y="{y:.1}" text-anchor="{anchor}">{text}</text>"#
        ));
    }

    /// A path.
    pub fn path(&mut self, path: &str, class: &str) {
        if !path.is_empty() {
            self.add(&format!(r#"<path class="{class}" d="{path}"/>"#));
        }
    }

    /// The whole picture as a file, with its name and its style.
    pub fn whole(&self, name: &str, style: &str) -> String {
        let (width, height) = (self.width, self.height);
        let size = format!(r#"width="{width}" height="{height}""#);
        self.element(name, &size, &format!("<style>\n{style}</style>\n"))
    }

    /// The picture as a part of a page, which has its style.
    pub fn part(&self, name: &str) -> String {
        self.element(name, r#"class="picture""#, "")
    }

    fn element(&self, name: &str, attributes: &str, style: &str) -> String {
        format!(
            concat!(
                r#"<svg xmlns="http://www.w3.org/2000/svg" {attributes} viewBox="0 0 {w} {h}" role="img">"#,
                "\n<title>{name}</title>\n<desc>{description}</desc>\n{style}{text}</svg>\n"
            ),
            attributes = attributes,
            w = self.width,
            h = self.height,
            name = escaped(name),
            description = escaped(&self.description),
            style = style,
            text = self.text
        )
    }
}

/// A text as SVG takes it. Characters that XML has no place for become ?.
pub fn escaped(text: &str) -> String {
    let mut safe = String::new();
    for c in text.chars() {
        match c {
            '&' => safe.push_str("&amp;"),
            '<' => safe.push_str("&lt;"),
            '>' => safe.push_str("&gt;"),
            '"' => safe.push_str("&quot;"),
            c if c.is_control() => safe.push('?'),
            c => safe.push(c),
        }
    }
    safe
}

/// A line through points that come from left to right. Points that fall on the
/// same half of a pixel are thinned, so a long run's line is no longer than a
/// short one's, and looks the same as with all points drawn.
#[derive(Default)]
pub struct Trace {
    path: String,
    here: Vec<(f64, f64)>,
    last: Option<(f64, f64)>,
    broken: bool,
}

impl Trace {
    /// A point.
    pub fn point(&mut self, x: f64, y: f64) {
        let column = |x: f64| (2.0 * x).floor();
        if self
            .here
            .first()
            .is_some_and(|(first, _)| column(*first) != column(x))
        {
            self.flush();
        }
        self.here.push((x, y));
        self.last = Some((x, y));
        if self.here.len() > 12 {
            self.thin();
        }
    }

    /// The line stops here, and starts again with the next point.
    pub fn stop(&mut self) {
        self.flush();
        self.last = None;
        self.broken = true;
    }

    /// Whether the line stands at a point.
    pub fn drawing(&self) -> bool {
        self.last.is_some()
    }

    /// Of the points on one half of a pixel: first, lowest, highest, last.
    fn thin(&mut self) {
        let heights = self.here.iter().map(|(_, y)| *y);
        let lowest = heights.clone().fold(f64::INFINITY, f64::min);
        let highest = heights.fold(f64::NEG_INFINITY, f64::max);
        let (first, last) = (self.here[0], self.here[self.here.len() - 1]);
        self.here = vec![first, (first.0, lowest), (first.0, highest), last];
    }

    fn flush(&mut self) {
        if self.here.len() > 4 {
            self.thin();
        }
        for (x, y) in std::mem::take(&mut self.here) {
            let start = self.path.is_empty() || self.broken;
            let letter = if start { 'M' } else { 'L' };
            self.broken = false;
            let _ = write!(self.path, "{letter}{x:.1} {y:.1}"); // a String takes all
        }
    }

    /// The path of the line.
    pub fn path(&mut self) -> String {
        self.flush();
        self.path.clone()
    }

    /// The path of the area between the line and a height.
    pub fn filled(&mut self, base: f64) -> String {
        let path = self.path();
        let first = path.split(['M', ' ']).nth(1).unwrap_or_default();
        match self.last {
            Some((x, _)) => format!("{path}L{x:.1} {base:.1}L{first} {base:.1}Z"),
            None => path,
        }
    }
}

#[cfg(test)]
mod tests {
    use super::*;

    #[test]
    fn text_can_not_break_out() {
        assert_eq!(escaped("<a&\"b\">\u{7}"), "&lt;a&amp;&quot;b&quot;&gt;?");
    }

    #[test]
    fn a_short_line_keeps_its_points() {
        let mut trace = Trace::default();
        trace.point(0.0, 1.0);
        trace.point(10.0, 1.0);
        trace.stop();
        trace.point(10.0, 2.0);
        trace.point(20.0, 2.0);
        assert_eq!(trace.path(), "M0.0 1.0L10.0 1.0M10.0 2.0L20.0 2.0");
    }

    #[test]
    fn a_long_line_is_thinned_and_keeps_its_peaks() {
        let mut trace = Trace::default();
        for at in 0..1_000_000 {
            let y = if at == 345_678 { 99.0 } else { 0.0 };
            trace.point(f64::from(at) / 10_000.0, y);
        }
        let path = trace.path();
        assert!(path.len() < 10_000, "{}", path.len());
        assert!(path.contains(" 99.0"));
    }
}
