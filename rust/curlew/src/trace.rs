//! `curlew trace`: the life of a packet, from each of its offers to how it left.

use crate::fault::Fault;
use crate::follow::{refusal_name, Hearer, Reading, Row, Run};
use crate::lives::{self, How, Left, Life, Lives};
use crate::output::Output;
use crate::stream::Said;
use crate::text::{count, grouped, moment, span};

/// So many lines are written on the polls that passed a packet by.
const LINES: usize = 40;

/// What `curlew trace` was asked for.
pub struct TraceWish {
    /// The packet's identifier.
    pub id: u32,
    /// The log.
    pub log: String,
    /// The program's output, if there is one.
    pub answers: Option<String>,
}

/// Tells the life of a packet.
pub fn trace(wish: &TraceWish) -> Result<(), Fault> {
    let answers = wish.answers.as_deref();
    let reading = Reading::open("trace", &wish.log, answers)?;
    let inputs: Vec<&str> = std::iter::once(wish.log.as_str()).chain(answers).collect();
    let mut tracer = Tracer {
        id: wish.id,
        output: Output::standard(&inputs)?,
        lives: Lives::default(),
        watched: Vec::new(),
        offers: 0,
        ends: [0; ENDS.len()],
        wrong: 0,
    };
    let of = match answers {
        Some(answers) => format!("answers of {answers}"),
        None => "answers of the second program".to_string(),
    };
    writeln!(tracer.output, "{}, {of}: packet {}\n", wish.log, wish.id)?;
    reading.follow(&mut tracer)?;
    tracer.end()?;
    tracer.output.done()?;
    match tracer.wrong {
        0 => Ok(()),
        _ => Err(Fault::NotKept),
    }
}

/// What became of an offer, in the order of their counts.
#[derive(Clone, Copy)]
enum End {
    Sent,
    Expired,
    Displaced,
    Refused,
    Waiting,
    Unknown,
}

const ENDS: [&str; 6] = [
    "sent",
    "expired",
    "displaced",
    "refused",
    "still waiting",
    "not known",
];

/// The packets of the identifier, as the log is read.
struct Tracer {
    id: u32,
    output: Output,
    lives: Lives,
    watched: Vec<Watched>,
    offers: u64,
    ends: [u64; ENDS.len()],
    wrong: u64,
}

/// A packet of the identifier that waits.
struct Watched {
    /// The record of its offer, which is its own.
    record: u64,
    arrival: u64,
    lines: Vec<String>,
    /// Lines that there was no room for.
    more: u64,
    closed: Option<Closed>,
}

/// Polls in a row that found the gate closed.
struct Closed {
    from: u64,
    to: u64,
    polls: u64,
    left: u64,
}

impl Hearer for Tracer {
    fn row(&mut self, row: &Row) -> Result<(), Fault> {
        if let Some(text) = row.wrong {
            self.wrong += 1;
            self.lost_sight(row, text)?;
        }
        let mut left = self.lives.see(row);
        left.retain(|left| left.life.entry.packet.id == self.id);
        for left in &left {
            self.left(row, left)?;
        }
        if row.record.kind == 3 && row.book.is_some() {
            self.polled(row);
        }
        if row.record.kind == 2 && row.record.id == self.id {
            self.offered(row)?;
        }
        Ok(())
    }

    /// What waits when a run is over stays so.
    fn run_over(&mut self, run: &Run) -> Result<(), Fault> {
        let time = run.book.time();
        for mut watched in std::mem::take(&mut self.watched) {
            watched.end_closed();
            let waited = span(time - watched.arrival);
            let last = format!(
                "STILL WAITING when the run ended, with record {}, after {waited}",
                grouped(run.last)
            );
            self.write(watched, End::Waiting, time, &last)?;
        }
        Ok(())
    }
}

impl Tracer {
    /// A poll: why it passed by what waits.
    fn polled(&mut self, row: &Row) {
        let now = lives::moment(row);
        for watched in &mut self.watched {
            if let Said::Closed(left) = row.said {
                watched.closed(now, left);
            }
            if let Some(packet) = row.sent {
                watched.end_closed();
                let (id, priority) = (packet.id, packet.priority);
                watched.line(
                    now,
                    &format!("packet {id} of priority {priority} went first"),
                );
            }
        }
    }

    /// An offer of the identifier.
    fn offered(&mut self, row: &Row) -> Result<(), Fault> {
        self.offers += 1;
        let now = lives::moment(row);
        let head = head(row, now);
        let mut watched = Watched {
            record: row.number,
            arrival: now,
            lines: vec![head],
            more: 0,
            closed: None,
        };
        if let Said::Refused(number) = row.said {
            let last = format!(
                "REFUSED {number} {}: it never was in the gate",
                refusal_name(number)
            );
            return self.write(watched, End::Refused, now, &last);
        }
        let newest = self.lives.waiting().find(|life| life.record == row.number);
        let Some(life) = newest.copied() else {
            let last = format!(
                "{}: from a wrong answer on, what became of it is not known",
                row.said.line()
            );
            return self.write(watched, End::Unknown, now, &last);
        };
        watched.line(now, &format!("TAKEN; {}", self.before(&life)));
        if let Some(packet) = row.displaced {
            watched.line(now, &format!("it displaced packet {}", packet.id));
        }
        self.watched.push(watched);
        Ok(())
    }

    /// What waits before a packet.
    fn before(&self, life: &Life) -> String {
        let priority = life.entry.packet.priority as usize;
        let higher: u64 = self.lives.lengths()[..priority].iter().sum();
        let own = match life.entry.above {
            0 => "none of its priority waits before it".to_string(),
            1 => "1 of its priority waits before it".to_string(),
            above => format!("{above} of its priority wait before it"),
        };
        match priority {
            0 => own,
            _ => format!("{own}, and {higher} of higher ones"),
        }
    }

    /// A packet of the identifier left.
    fn left(&mut self, row: &Row, left: &Left) -> Result<(), Fault> {
        let at = self
            .watched
            .iter()
            .position(|one| one.record == left.life.record);
        let Some(at) = at else {
            return Ok(()); // it was watched since its offer
        };
        let mut watched = self.watched.remove(at);
        watched.end_closed();
        let now = lives::moment(row);
        let packet = left.life.entry.packet;
        let waited = span(now - packet.arrival);
        let record = grouped(row.number);
        let (end, last) = match left.how {
            How::Sent => (
                End::Sent,
                format!("SENT by record {record}, after {waited}"),
            ),
            How::Displaced => {
                let by = row.record.id;
                let text = format!("DISPLACED by packet {by}, record {record}, after {waited}");
                (End::Displaced, text)
            }
            How::Expired => {
                let lifetime = u64::from(packet.lifetime);
                let over = moment(packet.arrival + lifetime);
                let text =
                    format!("EXPIRED: its lifetime was over at {over}, as record {record} found");
                (End::Expired, text)
            }
        };
        self.write(watched, end, now, &last)
    }

    /// An answer is wrong: what becomes of what waits is no longer known.
    fn lost_sight(&mut self, row: &Row, text: &str) -> Result<(), Fault> {
        let now = lives::moment(row);
        for mut watched in std::mem::take(&mut self.watched) {
            watched.end_closed();
            let last = format!("not known from here on: {text}");
            self.write(watched, End::Unknown, now, &last)?;
        }
        Ok(())
    }

    /// Writes a life that is over.
    fn write(&mut self, watched: Watched, end: End, now: u64, last: &str) -> Result<(), Fault> {
        self.ends[end as usize] += 1;
        for line in &watched.lines {
            writeln!(self.output, "{line}")?;
        }
        if watched.more > 0 {
            let more = grouped(watched.more);
            writeln!(self.output, "{:>24}  .. {more} more of such lines", "")?;
        }
        writeln!(self.output, "{:>24}  {last}\n", moment(now))
    }

    /// How many offers there were, and what became of them.
    fn end(&mut self) -> Result<(), Fault> {
        let id = self.id;
        if self.offers == 0 {
            return writeln!(self.output, "Packet {id} was never offered in this log.");
        }
        let ends = ENDS.iter().zip(self.ends).filter(|(_, many)| *many > 0);
        let ends: Vec<String> = ends
            .map(|(name, many)| format!("{} {name}", grouped(many)))
            .collect();
        let offers = count(self.offers, "offer");
        writeln!(self.output, "Packet {id}: {offers}: {}.", ends.join(", "))
    }
}

/// The line on an offer.
fn head(row: &Row, now: u64) -> String {
    let record = grouped(row.number);
    let place = match row.run {
        Some(run) => format!("run {}, at {}", grouped(run.number), moment(now)),
        None => "outside of all runs".to_string(),
    };
    format!(
        "Offer at record {record}, {place}: priority {}, {} on air, lives {}",
        row.record.priority,
        span(u64::from(row.record.ontime)),
        span(u64::from(row.record.lifetime))
    )
}

impl Watched {
    fn line(&mut self, now: u64, text: &str) {
        if self.lines.len() >= LINES {
            self.more += 1;
            return;
        }
        self.lines.push(format!("{:>24}  {text}", moment(now)));
    }

    /// A poll found the gate closed, for so long.
    fn closed(&mut self, now: u64, left: u64) {
        let closed = self.closed.get_or_insert(Closed {
            from: now,
            to: now,
            polls: 0,
            left,
        });
        closed.to = now;
        closed.polls += 1;
        closed.left = left;
    }

    /// The polls in a row that found it closed are over.
    fn end_closed(&mut self) {
        let Some(closed) = self.closed.take() else {
            return;
        };
        let left = span(closed.left);
        let line = match closed.polls {
            1 => format!("CLOSED for {left} more"),
            polls => format!(
                "CLOSED at {} polls up to {}, the last for {left} more",
                grouped(polls),
                moment(closed.to)
            ),
        };
        self.line(closed.from, &line);
    }
}
