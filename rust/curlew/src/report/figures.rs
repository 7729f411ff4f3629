//! The label's figures, and beside each the nearest that a log came to it.

use std::cmp::Reverse;
use std::collections::VecDeque;

use reference::book::{self, STRETCH};
use reference::rules;

use crate::follow::{Row, Run};
use crate::label::most;
use crate::stream::Said;
use crate::text::{count, grouped, in_ms, moment, span};
use crate::watch::{Wait, Window};

const SECOND: u64 = STRETCH;
const MINUTE: u64 = 60 * SECOND;
const HOUR: u64 = 60 * MINUTE;
/// The label gives messages a minute for a host that polls at least so often.
const POLLED: u64 = 50_000;

/// A line of the table.
pub struct Figure {
    /// What it is.
    pub name: &'static str,
    /// What the label says.
    pub label: String,
    /// What the log has.
    pub log: String,
    /// Whether it was kept; nothing where the label promises nothing, or the log
    /// has nothing of it.
    pub kept: Option<bool>,
}

/// What was measured in the runs of one profile.
pub struct Measured {
    /// The profile.
    pub profile: u32,
    /// How many runs it was.
    pub runs: u64,
    /// The run under way.
    run: u64,
    longest: Option<u32>,
    fullest: Option<(u64, Window)>,
    minute: Sliding,
    hour: Sliding,
    most_in_a_second: u64,
    closest: Option<(u64, Window)>,
    latest_closed: Option<u64>,
    rate: Rate,
    nearest: Option<(u64, Wait)>,
}

impl Measured {
    /// Nothing measured yet.
    pub fn new(profile: u32) -> Measured {
        Measured {
            profile,
            runs: 0,
            run: 0,
            longest: None,
            fullest: None,
            minute: Sliding::new(MINUTE),
            hour: Sliding::new(HOUR),
            most_in_a_second: 0,
            closest: None,
            latest_closed: None,
            rate: Rate::default(),
            nearest: None,
        }
    }

    /// A run begins.
    pub fn begin(&mut self, run: u64) {
        self.runs += 1;
        self.run = run;
        self.minute.begin();
        self.hour.begin();
        self.rate.begin();
    }

    /// A call of the run, as long as all is known.
    pub fn see(&mut self, row: &Row) {
        let Some(book) = row.book.filter(|_| !matches!(row.said, Said::Refused(_))) else {
            return;
        };
        let now = book.time();
        if let Some(packet) = row.sent {
            self.longest = self.longest.max(Some(packet.ontime));
            self.minute.admitted(self.run, now, packet.ontime);
            self.hour.admitted(self.run, now, packet.ontime);
            let second = book.stretch().len() as u64;
            self.most_in_a_second = self.most_in_a_second.max(second);
        }
        self.rate.call(self.run, now, row.said);
    }

    /// A run is over.
    pub fn over(&mut self, run: &Run) {
        let watch = &run.watch;
        let of = |window: Window| (run.number, window);
        let air = |(_, window): &(u64, Window)| Reverse(window.air);
        self.fullest = lesser(self.fullest, watch.fullest.map(of), air);
        let slack = |(_, window): &(u64, Window)| window.slack();
        self.closest = lesser(self.closest, watch.closest.map(of), slack);
        let spare = |(_, wait): &(u64, Wait)| i128::from(wait.bound()) - i128::from(wait.waited);
        let nearest = watch.nearest_wait.map(|wait| (run.number, wait));
        self.nearest = lesser(self.nearest, nearest, spare);
        self.latest_closed = self.latest_closed.max(run.book.closest().latest_closed);
    }

    /// The table.
    pub fn figures(&self) -> Vec<Figure> {
        let mut figures = vec![self.packet()];
        let windows = [
            ("on air in any second, at most", 1, self.fullest),
            ("on air in any minute, at most", 60, self.minute.most),
            ("on air in any hour, at most", 3_600, self.hour.most),
        ];
        for (name, many, window) in windows {
            figures.push(on_air(name, most(self.profile, many * STRETCH), window));
        }
        figures.push(self.ceiling());
        figures.push(self.floor());
        figures.push(self.a_minute());
        figures.push(self.warning());
        figures.push(self.quiet());
        figures
    }

    fn packet(&self) -> Figure {
        let most = rules::on_time_max(self.profile).unwrap_or(0);
        Figure {
            name: "longest packet on air",
            label: air(u64::from(most)),
            log: match self.longest {
                Some(longest) => air(u64::from(longest)),
                None => NOTHING.to_string(),
            },
            kept: self.longest.map(|longest| longest <= most),
        }
    }

    fn ceiling(&self) -> Figure {
        let name = "on air in any stretch of time, at most";
        if !book::owes_ceiling(self.profile) {
            return Figure {
                name,
                label: "no such promise".to_string(),
                log: "–".to_string(),
                kept: None,
            };
        }
        Figure {
            name,
            label: "3 % of it and 4 ms".to_string(),
            log: match self.closest {
                Some((run, window)) => format!(
                    "{} of the {} allowed: {}, run {}",
                    air(window.air),
                    air(window.allowed()),
                    window.place(),
                    grouped(run)
                ),
                None => NOTHING.to_string(),
            },
            kept: self.closest.map(|(_, window)| window.slack() >= 0),
        }
    }

    fn floor(&self) -> Figure {
        let floor = book::floor(self.profile);
        Figure {
            name: "while something waits, a packet goes at the first poll so long after the one before",
            label: span(floor),
            log: match self.latest_closed {
                Some(latest) => format!("latest CLOSED: {} after the one before", span(latest)),
                None => "no poll was CLOSED".to_string(),
            },
            kept: self.latest_closed.map(|latest| latest < floor),
        }
    }

    fn a_minute(&self) -> Figure {
        let least = (MINUTE - 1) / (book::floor(self.profile) + POLLED);
        Figure {
            name: "messages a minute, polled every 50 ms with something waiting, at least",
            label: grouped(least),
            log: match self.rate.fewest {
                Some((fewest, run, from)) => format!(
                    "fewest: {}, from {} on, run {}",
                    grouped(fewest),
                    moment(from),
                    grouped(run)
                ),
                None => "there was no such minute".to_string(),
            },
            kept: self.rate.fewest.map(|(fewest, ..)| fewest >= least),
        }
    }

    fn warning(&self) -> Figure {
        let floor = span(book::floor(self.profile));
        Figure {
            name: "a warning with k before it, polled every p, waits at most",
            label: format!("(k + 1) x ({floor} + p)"),
            log: match self.nearest {
                Some((run, wait)) => format!(
                    "nearest: packet {} of run {} went after {}, where k = {} and p = {} make {}",
                    wait.id,
                    grouped(run),
                    span(wait.waited),
                    wait.before,
                    span(wait.apart),
                    span(wait.bound())
                ),
                None => "no warning went".to_string(),
            },
            kept: self.nearest.map(|(_, wait)| wait.waited <= wait.bound()),
        }
    }

    /// The shortest wait of a profile makes its quiet figure.
    fn quiet(&self) -> Figure {
        let label = match self.profile {
            1 => "up to 10",
            2 => "up to 20",
            3 | 4 => "up to 40",
            _ => "not told",
        };
        Figure {
            name: "messages a second on an empty channel (NOT guaranteed)",
            label: label.to_string(),
            log: format!("most in any second: {}", grouped(self.most_in_a_second)),
            kept: None,
        }
    }
}

/// Air time in the label's units: 0.5 ms, 30 ms, 1.8 s.
fn air(time: u64) -> String {
    match time {
        0..SECOND => format!("{} ms", in_ms(time)),
        _ => span(time),
    }
}

/// The one that is less, the first if both are alike.
fn lesser<T, K: Ord>(one: Option<T>, other: Option<T>, by: impl Fn(&T) -> K) -> Option<T> {
    one.into_iter().chain(other).min_by_key(by)
}

const NOTHING: &str = "nothing was sent";

fn on_air(name: &'static str, most: u64, window: Option<(u64, Window)>) -> Figure {
    Figure {
        name,
        label: air(most),
        log: match window {
            Some((run, window)) => {
                let run = grouped(run);
                format!("{}: {}, run {run}", air(window.air), window.place())
            }
            None => NOTHING.to_string(),
        },
        kept: window.map(|(_, window)| window.air <= most),
    }
}

/// The air time in a stretch that slides along a run, one of its ends left out.
/// Admissions are 25 ms apart, so an hour holds 144,000 at most.
struct Sliding {
    width: u64,
    held: VecDeque<(u64, u32)>,
    air: u64,
    most: Option<(u64, Window)>,
}

impl Sliding {
    fn new(width: u64) -> Sliding {
        Sliding {
            width,
            held: VecDeque::new(),
            air: 0,
            most: None,
        }
    }

    fn begin(&mut self) {
        self.held.clear();
        self.air = 0;
    }

    fn admitted(&mut self, run: u64, now: u64, ontime: u32) {
        self.held.push_back((now, ontime));
        self.air += u64::from(ontime);
        while let Some((at, old)) = self.held.front().copied() {
            if now - at < self.width {
                break;
            }
            self.held.pop_front();
            self.air -= u64::from(old);
        }
        let fuller = self.most.is_none_or(|(_, most)| self.air > most.air);
        if let (true, Some((from, _))) = (fuller, self.held.front().copied()) {
            let (to, air) = (now, self.air);
            self.most = Some((run, Window { from, to, air }));
        }
    }
}

/// The fewest packets of any minute in which no call came more than 50 ms after
/// the poll before it and each poll found a packet. Such a minute goes from a
/// poll, which is not counted, to the first call 60 s later or more. The fewest
/// are in one that starts where such a stretch does, or with a packet sent.
#[derive(Default)]
struct Rate {
    /// How many, in which run, and from when on.
    fewest: Option<(u64, u64, u64)>,
    sent: u64,
    last_poll: Option<u64>,
    starts: VecDeque<(u64, u64)>,
}

impl Rate {
    fn begin(&mut self) {
        self.last_poll = None;
        self.starts.clear();
    }

    /// A call that was not refused.
    fn call(&mut self, run: u64, now: u64, said: Said) {
        let sent = matches!(said, Said::Sent(_));
        self.sent += u64::from(sent);
        let late = self.last_poll.is_none_or(|last| now - last > POLLED);
        if late || said == Said::Idle {
            self.begin();
        }
        while let Some((from, before)) = self.starts.front().copied() {
            if now - from < MINUTE {
                break;
            }
            self.starts.pop_front();
            let here = self.sent - before;
            if self.fewest.is_none_or(|(fewest, ..)| here < fewest) {
                self.fewest = Some((here, run, from));
            }
        }
        if polled(said) {
            self.last_poll = Some(now);
            if sent || self.starts.is_empty() {
                self.starts.push_back((now, self.sent));
            }
        }
    }
}

/// Whether it is the answer to a poll.
fn polled(said: Said) -> bool {
    matches!(said, Said::Sent(_) | Said::Closed(_) | Said::Idle)
}

/// The runs that were measured, in words.
pub fn of_runs(measured: &Measured) -> String {
    format!(
        "Profile {}, {}",
        measured.profile,
        count(measured.runs, "run")
    )
}

#[cfg(test)]
mod tests {
    use super::*;
    use reference::rng::Rng;

    /// The sliding stretch has the most of all stretches that start anywhere.
    #[test]
    fn the_fullest_stretch_is_that_of_all() {
        let mut rng = Rng::new(96);
        for _ in 0..50 {
            let mut sliding = Sliding::new(1_000);
            let mut all: Vec<(u64, u32)> = Vec::new();
            let mut now = 0;
            for _ in 0..60 {
                now += 25 + rng.below(300);
                let ontime = 1 + rng.below(50) as u32;
                all.push((now, ontime));
                sliding.admitted(1, now, ontime);
            }
            let air = |from: u64| -> u64 {
                let inside = all
                    .iter()
                    .filter(|(at, _)| (from..from + 1_000).contains(at));
                inside.map(|(_, ontime)| u64::from(*ontime)).sum()
            };
            let most = (0..now).map(air).max();
            assert_eq!(sliding.most.map(|(_, window)| window.air), most);
        }
    }

    /// The fewest of a minute is that of all pairs of calls.
    #[test]
    fn the_fewest_are_those_of_all_minutes() {
        let mut rng = Rng::new(57);
        let mut found = 0;
        for _ in 0..4 {
            let (mut rate, mut calls, mut now) = (Rate::default(), Vec::new(), 0);
            rate.begin();
            for _ in 0..10_000 {
                now += 1 + rng.below(24_000) + 60_000 * u64::from(rng.below(20_000) == 0);
                let said = match rng.below(40) {
                    0 | 1 => Said::Sent(7),
                    2 => Said::Taken,
                    _ if rng.below(20_000) == 0 => Said::Idle,
                    _ => Said::Closed(9),
                };
                calls.push((now, said));
                rate.call(1, now, said);
            }
            let fewest = fewest_of_all(&calls);
            assert_eq!(rate.fewest.map(|(fewest, ..)| fewest), fewest);
            found += u64::from(fewest.is_some());
        }
        assert!(found > 1, "{found}");
    }

    /// By the words alone: from each poll on.
    fn fewest_of_all(calls: &[(u64, Said)]) -> Option<u64> {
        let mut fewest = None;
        for (at, (from, said)) in calls.iter().enumerate() {
            let (mut last, mut sent) = (*from, 0);
            if !polled(*said) {
                continue;
            }
            for (now, said) in &calls[at + 1..] {
                if now - last > POLLED || *said == Said::Idle {
                    break;
                }
                sent += u64::from(matches!(said, Said::Sent(_)));
                if polled(*said) {
                    last = *now;
                }
                if now - from >= MINUTE {
                    fewest = Some(fewest.map_or(sent, |fewest: u64| fewest.min(sent)));
                    break;
                }
            }
        }
        fewest
    }
}
