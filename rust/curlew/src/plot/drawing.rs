//! The second reading of a log: the panels of the picture.

use reference::rules;

use crate::follow::Row;
use crate::lives::{moment, How, Left, Lives};
use crate::plain::way;
use crate::plot::air::Air;
use crate::plot::control::Control;
use crate::plot::course::COLUMNS;
use crate::plot::load::Load;
use crate::plot::packets::{Lost, Packets};
use crate::plot::page::{
    about, fitted, time_axis, Frame, AIR, HEIGHT, LEFT, MARGIN, PLAIN, PRIORITIES, RIGHT, WIDTH,
};
use crate::plot::since::Since;
use crate::plot::survey::Found;
use crate::plot::waiting::Waiting;
use crate::stream::Said;
use crate::svg::{Anchor, Svg};
use crate::tally::{place, Tally};
use crate::text::{count, grouped, span};

/// More offers than this are drawn as bars and bands, and more samples as bands.
const MANY: u64 = 2_000;
/// More packets sent than this would be a solid bar in the panels of what passes
/// between them.
const MANY_SENT: u64 = 300;

/// A picture under way.
pub struct Drawing {
    found: Found,
    frame: Frame,
    lives: Lives,
    tally: Tally,
    /// How many waited when the part began, once it has.
    waiting_before: Option<u64>,
    waiting: u64,
    load: Load,
    control: Control,
    lanes: Waiting,
    packets: Packets,
    since: Since,
    air: Air,
}

impl Drawing {
    /// The empty picture of a run.
    pub fn new(found: &Found, frame: Frame) -> Drawing {
        let (samples, packets) = (found.samples > MANY, found.offers > MANY);
        let sent = found.sent > MANY_SENT;
        Drawing {
            found: found.clone(),
            frame,
            lives: Lives::default(),
            tally: Tally::default(),
            waiting_before: None,
            waiting: 0,
            load: Load::new(frame, found.profile, found.samples, samples),
            control: Control::new(frame, found.profile, samples),
            lanes: Waiting::new(frame, packets),
            packets: Packets::new(frame, found.profile, packets),
            since: Since::new(frame, found.floor, found.hold, sent),
            air: Air::new(frame, sent),
        }
    }

    /// The number of the run.
    pub fn run(&self) -> u64 {
        self.found.number
    }

    /// The next call of the run.
    pub fn see(&mut self, row: &Row) {
        // A call that was refused after the last one taken is at the run's end.
        let now = moment(row).min(self.found.time);
        if row.state.is_none() || now > self.frame.to {
            return;
        }
        let before: u64 = self.lives.lengths().iter().sum();
        let left = self.lives.see(row);
        let inside = now >= self.frame.from;
        if inside {
            self.waiting_before.get_or_insert(before);
            self.tally.see(row, &left, now);
            self.mark(row, &left, now);
        }
        if !matches!(row.said, Said::Refused(_)) {
            self.waiting = self.lives.lengths().iter().sum();
            self.follow(row, now, before > 0);
        }
    }

    /// What went with a call, and what won't go.
    fn mark(&mut self, row: &Row, left: &[Left], now: u64) {
        for Left { life, how } in left {
            let packet = life.entry.packet;
            let priority = packet.priority as usize;
            match how {
                How::Sent => self.packets.sent(now, priority, packet.ontime),
                How::Expired => self.packets.lost(now, priority, Lost::Expired),
                How::Displaced => self.packets.lost(now, priority, Lost::Displaced),
            }
        }
        if row.record.kind == 2 && matches!(row.said, Said::Refused(_)) {
            let priority = place(row.record.priority);
            self.packets.lost(now, priority, Lost::Refused);
        }
    }

    /// Where all is after a call that was not refused.
    fn follow(&mut self, row: &Row, now: u64, waited: bool) {
        self.air.now(now);
        if let Some(state) = row.state {
            if row.record.kind == 1 {
                // A sample that was taken has a load.
                let load = rules::load_of_count(row.record.id, row.record.probes());
                self.load.sampled(now, load.unwrap_or(0), state.smoothed);
            }
            self.control.now(now, state);
        }
        for (priority, length) in self.lives.lengths().into_iter().enumerate() {
            self.lanes.now(now, priority, length);
        }
        self.since.call(now, waited, row.sent.is_some());
        if let Some(packet) = row.sent {
            self.air.sent(now, packet.ontime);
        }
    }

    /// The whole picture.
    pub fn picture(&mut self, title: &str) -> Svg {
        let mut svg = Svg::new(WIDTH, HEIGHT);
        svg.area((0.0, 0.0), (WIDTH, HEIGHT), "paper");
        let width = RIGHT - MARGIN;
        let title = fitted(title, 21.0, width);
        svg.text((MARGIN, 38.0), Anchor::Start, "title", &title);
        let facts = [self.facts(), self.totals()];
        for (line, y) in facts.iter().zip([61.0, 80.0]) {
            svg.text(
                (MARGIN, y),
                Anchor::Start,
                "facts",
                &fitted(line, 13.0, PLAIN * width),
            );
        }
        self.legend(&mut svg);
        time_axis(&mut svg, &self.frame);
        self.load.draw(&mut svg);
        self.control.draw(&mut svg);
        self.lanes.draw(&mut svg);
        self.packets.draw(&mut svg);
        self.since.draw(&mut svg);
        self.air.draw(&mut svg);
        self.fault(&mut svg);
        svg.describe(format!(
            "{}. {}. From top to bottom, over the run's time: channel load, level, duty or wait, packets waiting, \
             packets sent, expired, displaced and refused, time since the last admission beside the floor, on-time \
             admitted in the last second beside its limit.",
            facts[0], facts[1]
        ));
        svg
    }

    /// Which run it is, and which part of it is drawn.
    fn facts(&self) -> String {
        let found = &self.found;
        let kind = match found.profile {
            3 => "adaptive",
            4 => "harmonised",
            _ => "reactive",
        };
        let mut text = format!(
            "Run {} · profile {} ({kind}){} · {}",
            grouped(found.number),
            found.profile,
            way(found.oldway),
            span(found.time)
        );
        if self.in_part() {
            let Frame { from, to, .. } = self.frame;
            text += &format!(
                " · drawn: {} to {}, and counted there:",
                span(from),
                span(to)
            );
        }
        text
    }

    fn in_part(&self) -> bool {
        (self.frame.from, self.frame.to) != (0, self.found.time.max(1))
    }

    /// What was counted in the part that is drawn.
    fn totals(&self) -> String {
        let tally = &self.tally;
        let before = match self.waiting_before {
            Some(waiting) if self.in_part() => format!(" · {} waiting before", grouped(waiting)),
            _ => String::new(),
        };
        let end = if self.found.wrong().is_some() {
            "when the answers went wrong"
        } else {
            "at the end"
        };
        format!(
            "{}{before} · {} taken: {} sent, {} expired, {} displaced, {} waiting {end} · {} refused",
            count(tally.calls, "call"),
            count(tally.sum(|of| of.taken), "packet"),
            grouped(tally.sum(|of| of.sent)),
            grouped(tally.sum(|of| of.expired)),
            grouped(tally.sum(|of| of.displaced)),
            grouped(self.waiting),
            count(tally.sum(|of| of.refused), "offer"),
        )
    }

    /// The colours of the priorities with their counts, and below what lines and
    /// bands are.
    fn legend(&self, svg: &mut Svg) {
        let room = (RIGHT - MARGIN) / 4.0;
        for (priority, class) in PRIORITIES.into_iter().take(4).enumerate() {
            let x = MARGIN + room * priority as f64;
            svg.area((x, 97.0), (18.0, 10.0), class);
            let of = &self.tally.of[priority];
            let counts = format!("{} taken, {} sent", grouped(of.taken), grouped(of.sent));
            let room = PLAIN * (room - 30.0);
            let highest = format!("priority {priority} (highest): {counts}");
            let text = match priority {
                0 if fitted(&highest, 11.0, room) == highest => highest,
                _ => fitted(&format!("priority {priority}: {counts}"), 11.0, room),
            };
            svg.text((x + 25.0, 106.0), Anchor::Start, "legend", &text);
        }
        svg.line((MARGIN, 122.0), (MARGIN + 32.0, 122.0), "limit");
        let text = "guaranteed, however loud the neighbours are";
        svg.text((MARGIN + 40.0, 126.0), Anchor::Start, "legend", text);
        let Found {
            samples,
            offers,
            sent,
            ..
        } = self.found;
        if samples > MANY || offers > MANY || sent > MANY_SENT {
            let x = MARGIN + 310.0;
            svg.area((x, 117.0), (32.0, 10.0), "band");
            svg.line((x, 122.0), (x + 32.0, 122.0), "trace");
            let each = about(self.frame.length() / COLUMNS as u64);
            let text = format!(
                "band: least to greatest in {each}; line: the median by time, to a 400th of the scale"
            );
            svg.text((x + 40.0, 126.0), Anchor::Start, "legend", &text);
        }
    }

    /// Where the answers go wrong, and that what follows is not known.
    fn fault(&self, svg: &mut Svg) {
        let Some((at, text)) = self.found.wrong() else {
            return;
        };
        let (from, to) = (self.frame.x(at), RIGHT);
        svg.area((from, 150.0), (to - from, AIR.base - 150.0), "unknown");
        svg.line((from, 150.0), (from, AIR.base), "fault");
        let text = format!(
            "Wrong at {}: {text}. From there on nothing is known.",
            span(at)
        );
        let text = fitted(&text, 12.0, RIGHT - LEFT);
        svg.text((MARGIN, 142.0), Anchor::Start, "limit-name", &text);
    }
}
