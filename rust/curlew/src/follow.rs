//! A log followed run by run. Each run has its book, fed the calls and the
//! answers that were given, and the second program beside it: its state shows
//! level and duty, its answers are what is right, and its counts must be the
//! book's.

use reference::book::{Book, APART, STRETCH_MOST};
use reference::calls;
use reference::gate::{Answer, Call};
use reference::log::{read, step, LogCall, Record};
use reference::state::{Packet, State};

use crate::fault::Fault;
use crate::joined::Joined;
use crate::plain::way;
use crate::progress::Progress;
use crate::stream::{refuse_one_pipe, whole, Answers, Next, Records, Said};
use crate::text::{count, grouped, moment, span};
use crate::watch::Watch;

/// One run: a make that was not refused, and the calls up to the next make.
#[derive(Clone)]
pub struct Run {
    /// 1 for the first run of the log.
    pub number: u64,
    /// The profile.
    pub profile: u32,
    /// 1 if the gate was made in the old way, where a full queue refuses; else 0.
    pub oldway: u32,
    /// The number of its make's record.
    pub first: u64,
    /// The number of the last record seen.
    pub last: u64,
    /// The time from the last accepted call of the run before to its make,
    /// where the stamps tell it.
    pub pause: Option<u64>,
    /// Where its make is on the clock of the runs before it; 0 if there is no
    /// pause.
    pub start: u64,
    /// The run's book, as it was before the first wrong answer.
    pub book: Book,
    /// How near it came to what is guaranteed, up to the first wrong answer.
    pub watch: Watch,
    /// How many of its answers were wrong.
    pub faults: u64,
    /// The first of them.
    pub wrong: Option<Wrong>,
}

/// An answer that was wrong.
#[derive(Clone, Debug, PartialEq, Eq)]
pub struct Wrong {
    /// The number of its record.
    pub record: u64,
    /// What is wrong, with the record's number and call before it.
    pub text: String,
}

/// A record with its answer, and where the run then is.
pub struct Row<'a> {
    /// The record's number, 1 for the first.
    pub number: u64,
    /// The record.
    pub record: Record,
    /// The answer given.
    pub said: Said,
    /// What is wrong with the answer.
    pub wrong: Option<&'a str>,
    /// The run, if there is one.
    pub run: Option<&'a Run>,
    /// The run's book after the call; nothing from a wrong answer on to the next
    /// make, as nobody knows what the gate that gave it then held.
    pub book: Option<&'a Book>,
    /// The second program's state after the call, as long as the gate's is that.
    pub state: Option<&'a State>,
    /// The packet that the poll sent.
    pub sent: Option<Packet>,
    /// The packet that the offer displaced.
    pub displaced: Option<Packet>,
}

/// What a log is read with.
pub struct Follower {
    state: State,
    runs: u64,
    run: Option<Run>,
    /// Whether no answer since the last make was wrong.
    known: bool,
    loose: u64,
    joined: Joined,
}

/// What hears of each record, and of each run's end.
pub trait Hearer {
    /// A record was answered.
    fn row(&mut self, row: &Row) -> Result<(), Fault>;
    /// A run is over: a make follows, or the log ends.
    fn run_over(&mut self, run: &Run) -> Result<(), Fault>;
    /// Whether it has heard enough: then no more is read.
    fn enough(&self) -> bool {
        false
    }
}

/// A log that was read to its end, or until its hearer had enough.
pub struct Whole {
    /// How many records were read.
    pub records: u64,
    /// How many runs.
    pub runs: u64,
    /// Whether it was read to its end.
    pub ended: bool,
    /// The bytes left over.
    pub left_over: Vec<u8>,
    /// How many answers outside of all runs were wrong.
    pub loose: u64,
    /// All runs together.
    pub joined: Joined,
}

/// A log and its answers, opened.
pub struct Reading {
    records: Records,
    answers: Option<Answers>,
    progress: Progress,
}

impl Reading {
    /// Opens a log and its answers.
    pub fn open(doing: &'static str, log: &str, answers: Option<&str>) -> Result<Reading, Fault> {
        if let Some(answers) = answers {
            refuse_one_pipe(log, answers)?;
        }
        Ok(Reading {
            records: Records::open(log)?,
            answers: answers.map(Answers::open).transpose()?,
            progress: Progress::new(doing, whole(log)),
        })
    }

    /// Follows the log; without answers, the second program gives them.
    pub fn follow(mut self, hearer: &mut dyn Hearer) -> Result<Whole, Fault> {
        let mut follower = Follower::new();
        let mut number = 0;
        while !hearer.enough() {
            match self.records.next()? {
                Next::Record(record) => {
                    number += 1;
                    let said = match &mut self.answers {
                        Some(answers) => Some(answers.answer(number)?),
                        None => None,
                    };
                    follower.feed(number, &record, said, hearer)?;
                    self.progress.at(number);
                }
                Next::End(left_over) => {
                    if let Some(answers) = &mut self.answers {
                        answers.end(number, left_over.len())?;
                    }
                    follower.end_run(hearer)?;
                    return Ok(follower.whole(number, Some(left_over)));
                }
            }
        }
        Ok(follower.whole(number, None))
    }
}

/// Opens a log with its answers and follows it.
pub fn follow(
    doing: &'static str,
    log: &str,
    answers: Option<&str>,
    hearer: &mut dyn Hearer,
) -> Result<Whole, Fault> {
    Reading::open(doing, log, answers)?.follow(hearer)
}

impl Follower {
    fn new() -> Follower {
        Follower {
            state: State::default(),
            runs: 0,
            run: None,
            known: true,
            loose: 0,
            joined: Joined::default(),
        }
    }

    /// What was read, and the bytes left over if that was all.
    fn whole(self, records: u64, left_over: Option<Vec<u8>>) -> Whole {
        Whole {
            records,
            runs: self.runs,
            ended: left_over.is_some(),
            left_over: left_over.unwrap_or_default(),
            loose: self.loose,
            joined: self.joined,
        }
    }

    /// The run is over, if there is one.
    fn end_run(&mut self, hearer: &mut dyn Hearer) -> Result<(), Fault> {
        let Some(over) = self.run.take() else {
            return Ok(());
        };
        if over.faults == 0 {
            self.joined.over(&over);
        }
        hearer.run_over(&over)
    }

    /// The next record, with the answer given.
    fn feed(
        &mut self,
        number: u64,
        record: &Record,
        said: Option<Said>,
        hearer: &mut dyn Hearer,
    ) -> Result<(), Fault> {
        let (state, right) = step(self.state, record);
        self.state = state;
        let right = Said::of(&right);
        let said = said.unwrap_or(right);
        if record.kind == 0 {
            self.end_run(hearer)?;
            self.known = true;
            if said == Said::Ready {
                self.runs += 1;
                let (pause, start) = self.joined.make(record.stamp, self.runs == 1);
                self.run = Some(Run::new(self.runs, number, record, pause, start));
            }
        }
        let judged = self.judge(number, record, said, right);
        let wrong = judged.as_ref().err().map(String::as_str);
        let known = self.known;
        let book = self.run.as_ref().map(|run| &run.book).filter(|_| known);
        // Only of a call that was taken has the book just heard.
        let taken = book.filter(|_| said == Said::Taken);
        let displaced = taken.and_then(Book::displaced);
        hearer.row(&Row {
            number,
            record: *record,
            said,
            wrong,
            run: self.run.as_ref(),
            book,
            state: Some(&self.state).filter(|_| known),
            sent: judged.as_ref().ok().copied().flatten(),
            displaced: displaced.map(|entry| entry.packet),
        })
    }

    /// Judges an answer: the packet sent, or what is wrong. After a wrong answer
    /// nobody knows what the gate holds, but what it should have answered is
    /// known all the same: that goes by the log alone.
    fn judge(
        &mut self,
        number: u64,
        record: &Record,
        said: Said,
        right: Said,
    ) -> Result<Option<Packet>, String> {
        let judged = match &mut self.run {
            _ if !self.known => compare(said, right).map(|()| None),
            Some(run) => run.judge(record, said, right, &self.state),
            None => outside(said, right).map(|()| None),
        };
        if let Some(run) = &mut self.run {
            run.last = number;
        }
        match judged {
            Ok(sent) => {
                if let (Some(packet), Some(run)) = (sent, &self.run) {
                    let (joined, ontime) = (&mut self.joined, packet.ontime);
                    joined.admitted(number, run.number, run.start, ontime, &run.book);
                }
                Ok(sent)
            }
            Err(text) => {
                let text = placed(number, record, &text);
                self.note(number, &text);
                Err(text)
            }
        }
    }

    /// Notes a wrong answer, from which on nothing is known.
    fn note(&mut self, record: u64, text: &str) {
        self.known = false;
        self.joined.lost();
        let Some(run) = &mut self.run else {
            self.loose += 1;
            return;
        };
        run.faults += 1;
        run.wrong.get_or_insert_with(|| Wrong {
            record,
            text: text.to_string(),
        });
    }
}

impl Run {
    fn new(number: u64, first: u64, make: &Record, pause: Option<u64>, start: u64) -> Run {
        Run {
            number,
            profile: u32::from(make.priority),
            oldway: make.lifetime,
            first,
            last: first,
            pause,
            start,
            book: Book::new(u32::from(make.priority), make.stamp),
            watch: Watch::default(),
            faults: 0,
            wrong: None,
        }
    }

    /// Judges an answer of a run in which nothing was wrong so far, and gives
    /// the packet sent. A wrong answer leaves the book as it is: a copy of it
    /// says what would be broken.
    fn judge(
        &mut self,
        record: &Record,
        said: Said,
        right: Said,
        state: &State,
    ) -> Result<Option<Packet>, String> {
        if said != right {
            self.clone().hear(record, said)?;
            compare(said, right)?;
        }
        let sent = self.hear(record, said)?;
        // The book's own counts add up: it has looked at that itself.
        self.book.compare(&state.counts)?;
        self.book.compare_ledger(&state.ledger)?;
        Ok(sent)
    }

    /// Feeds the book, and looks at what it can't see.
    fn hear(&mut self, record: &Record, said: Said) -> Result<Option<Packet>, String> {
        if let Said::Refused(refusal) = said {
            self.watch.refused(refusal);
            return Ok(None);
        }
        let Some(call) = call_of(record) else {
            return match record.kind {
                0 => Ok(None),
                kind => Err(format!("{} to a record of kind {kind}", said.line())),
            };
        };
        let answer = self.answer(&call, said)?;
        let sent = match answer {
            Answer::Sent(packet) => Some(packet),
            _ => None,
        };
        let fed = self.book.feed(&call, &answer);
        fed.map_err(|text| self.plainer(&text, sent))?;
        self.watch.accepted(&call, sent, &self.book)?;
        Ok(sent)
    }

    /// The answer as the book takes it: SENT with the whole packet, which is
    /// the one on top of the book's columns.
    fn answer(&self, call: &Call, said: Said) -> Result<Answer, String> {
        let polled = matches!(call, Call::Poll { .. });
        match said {
            Said::Taken if !polled => Ok(Answer::Taken),
            Said::Idle if polled => Ok(Answer::Idle),
            Said::Closed(left) if polled => Ok(Answer::Closed(left)),
            Said::Sent(id) if polled => match self.top(call.stamp()) {
                Some(packet) if packet.id == id => Ok(Answer::Sent(packet)),
                Some(packet) => Err(format!(
                    "SENT {id}, but packet {} of priority {} is first in turn",
                    packet.id, packet.priority
                )),
                None => Err(format!("SENT {id}, but nothing waits")),
            },
            _ => Err(format!("{} is no answer to this call", said.line())),
        }
    }

    /// What a poll at this stamp finds on top of the lowest-numbered column
    /// that has an unexpired packet.
    fn top(&self, stamp: u32) -> Option<Packet> {
        let time = self.book.time() + u64::from(stamp.wrapping_sub(self.book.stamp()));
        let live = |packet: &Packet| time - packet.arrival < u64::from(packet.lifetime);
        self.book.columns().iter().find_map(|column| {
            let mut packets = column.iter().map(|entry| entry.packet);
            packets.find(live)
        })
    }

    /// The book's text in this tool's words.
    fn plainer(&self, text: &str, sent: Option<Packet>) -> String {
        match (text, sent) {
            ("IDLE with a packet in a column", _) => "IDLE, but a packet waits".to_string(),
            ("CLOSED with all columns empty", _) => "CLOSED, but nothing waits".to_string(),
            (text, Some(packet)) if text.starts_with("ceiling") => {
                let now = self.book.time();
                let window = self.watch.tightest_with(now, packet.ontime);
                format!(
                    "ceiling: {} of air time in {}, where {} is allowed",
                    span(window.air),
                    span(window.to - window.from),
                    span(window.allowed())
                )
            }
            (text, Some(_)) if text.starts_with("second") => format!(
                "second: {} admitted in the second up to {}, where {} is allowed",
                span(self.book.on_air()),
                moment(self.book.time()),
                span(STRETCH_MOST)
            ),
            (text, Some(_)) if text.starts_with("gap") => format!(
                "gap: {} after the packet before, where {} are due",
                span(self.watch.since_last(self.book.time())),
                span(APART)
            ),
            _ => text.to_string(),
        }
    }

    /// What the run was: its records, profile and length, as far as it is known.
    pub fn title(&self) -> String {
        let known = match self.wrong {
            None => "",
            Some(_) => " to the last right answer",
        };
        format!(
            "profile {}{}, {}{known}, records {} to {}",
            self.profile,
            way(self.oldway),
            moment(self.book.time()),
            grouped(self.first),
            grouped(self.last)
        )
    }
}

/// The call of a record, if it is one on a state.
fn call_of(record: &Record) -> Option<Call> {
    match read(record) {
        Ok(LogCall::On(call)) => Some(call),
        _ => None,
    }
}

/// An answer where there is no run: every call is refused.
fn outside(said: Said, right: Said) -> Result<(), String> {
    if !matches!(said, Said::Refused(_)) {
        return Err(format!(
            "{}, but there is no gate: no make was ready",
            said.line()
        ));
    }
    compare(said, right)
}

/// The answer given beside the second program's.
fn compare(said: Said, right: Said) -> Result<(), String> {
    if said == right {
        return Ok(());
    }
    let (said, right) = (said.line(), right.line());
    Err(format!("the answer is {said}, the right one is {right}"))
}

/// A text with the record that it is about.
fn placed(number: u64, record: &Record, text: &str) -> String {
    format!(
        "record {} ({}): {text}",
        grouped(number),
        crate::plain::call(record)
    )
}

/// The name of a refusal number.
pub fn refusal_name(number: u32) -> &'static str {
    calls::refusal_name(number).unwrap_or("unknown")
}

/// A log's size in words.
pub fn size(whole: &Whole) -> String {
    let mut text = format!(
        "{} in {}",
        count(whole.records, "record"),
        count(whole.runs, "run")
    );
    if !whole.left_over.is_empty() {
        text += &format!(
            ", then a torn tail of {}",
            count(whole.left_over.len() as u64, "byte")
        );
    }
    text
}

#[cfg(test)]
mod tests {
    use super::*;
    use reference::book::STRETCH;
    use reference::rng::Rng;

    /// Keeps the admissions, to count what the watch counts as it goes.
    #[derive(Default)]
    struct Ledger {
        sent: Vec<(u64, u64)>,
        runs: u64,
    }

    impl Hearer for Ledger {
        fn row(&mut self, row: &Row) -> Result<(), Fault> {
            assert_eq!(row.wrong, None);
            if let (Some(run), Some(packet)) = (row.run, row.sent) {
                self.sent.push((run.book.time(), u64::from(packet.ontime)));
            }
            Ok(())
        }

        fn run_over(&mut self, run: &Run) -> Result<(), Fault> {
            let sent = std::mem::take(&mut self.sent);
            let air = |from: u64, to: u64| -> u64 {
                let inside = sent.iter().filter(|(at, _)| (from..=to).contains(at));
                inside.map(|(_, ontime)| ontime).sum()
            };
            // From each admission on, for less than a second.
            let stretches = sent.iter().map(|(at, _)| air(*at, at + STRETCH - 1));
            let fullest = run.watch.fullest;
            assert_eq!(fullest.map(|fullest| fullest.air), stretches.max());
            if let Some(window) = fullest {
                assert!(window.to - window.from < STRETCH);
                assert_eq!(window.air, air(window.from, window.to));
            }
            let mut least = None;
            for (at, (from, _)) in sent.iter().enumerate() {
                for (to, _) in &sent[at..] {
                    let slack =
                        3 * i128::from(to - from) + 400_000 - 100 * i128::from(air(*from, *to));
                    least = Some(least.map_or(slack, |least: i128| least.min(slack)));
                }
            }
            let closest = run.watch.closest;
            assert_eq!(closest.map(|window| window.slack()), least);
            let owed = least.filter(|_| run.book.owes_ceiling());
            assert_eq!(run.book.closest().smallest_slack, owed);
            if let Some(window) = closest {
                assert_eq!(window.air, air(window.from, window.to));
            }
            assert_eq!(run.book.counts().sent, sent.len() as u64);
            self.runs += 1;
            Ok(())
        }
    }

    /// Hears what was wrong, and at which record.
    #[derive(Default)]
    struct Ear {
        wrong: Vec<(u64, String)>,
    }

    impl Hearer for Ear {
        fn row(&mut self, row: &Row) -> Result<(), Fault> {
            let wrong = row.wrong.map(|text| (row.number, text.to_string()));
            self.wrong.extend(wrong);
            Ok(())
        }

        fn run_over(&mut self, _run: &Run) -> Result<(), Fault> {
            Ok(())
        }
    }

    /// The second program counts as the book does, so no list of answers
    /// reaches this fault; it is tried with a state that has counted otherwise.
    #[test]
    fn counts_that_are_not_the_books_are_wrong() {
        let record = |kind: u8, priority: u8, lifetime: u32| Record {
            kind,
            priority,
            ontime: 1,
            lifetime,
            ..Record::default()
        };
        let (make, offer, poll) = (record(0, 1, 0), record(2, 0, 9), record(3, 0, 0));
        let two = Some("has 2 accepted, the book 1");
        for (counted, words) in [
            ([0, 0, 0], None),
            ([1, 0, 0], two),
            ([0, 1, 0], two),
            ([0, 0, 1], two),
        ] {
            let [sent, expired, displaced] = counted;
            let (mut ear, mut follower) = (Ear::default(), Follower::new());
            for (number, record) in [(1, make), (2, offer), (3, poll)] {
                let fed = follower.feed(number, &record, None, &mut ear);
                assert!(fed.is_ok());
                if number == 1 {
                    follower.state = follower.state.counted(sent, expired, displaced);
                }
            }
            match words {
                None => assert_eq!(ear.wrong, []),
                Some(words) => {
                    let [(2, text)] = &ear.wrong[..] else {
                        panic!("{:?}", ear.wrong);
                    };
                    assert!(text.contains(words), "{text}");
                }
            }
        }
    }

    #[test]
    fn the_closest_calls_are_those_of_all_windows() {
        let mut ledger = Ledger::default();
        let follower = followed(34, 20_000, [400, 60_000], &mut ledger);
        assert_eq!((ledger.runs, follower.runs), (49, 50));
    }

    /// Follows random calls, with a make each so many of them, and steps of less than so many µs.
    fn followed(seed: u64, records: u64, most: [u64; 2], hearer: &mut dyn Hearer) -> Follower {
        let [each, step] = most;
        let mut rng = Rng::new(seed);
        let mut follower = Follower::new();
        let mut stamp = 0u32;
        for number in 1..=records {
            let profile = 1 + rng.below(4) as u8;
            stamp = stamp.wrapping_add(rng.below(step) as u32);
            let made = number % each == 1;
            if made && seed % 3 == 0 && rng.below(8) == 0 {
                stamp = stamp.wrapping_sub(rng.below(9) as u32); // the count went back
            }
            let record = Record {
                kind: if made { 0 } else { rng.pick(&[1, 2, 2, 3, 3]) },
                priority: if made { profile } else { rng.below(4) as u8 },
                ontime: 1 + rng.below(500) as u16,
                lifetime: if made {
                    rng.below(2) as u32
                } else {
                    1 + rng.below(2_000_000) as u32
                },
                id: rng.below(300) as u32,
                stamp,
            };
            assert!(follower.feed(number, &record, None, hearer).is_ok());
        }
        follower
    }

    /// An admission: the clock it is on, when, its on-time, its run, and whether that owes the ceiling.
    #[derive(Clone, Copy)]
    struct One(u64, u64, u64, u64, bool);

    /// Keeps all admissions of all runs.
    #[derive(Default)]
    struct Roll {
        sent: Vec<One>,
        clock: u64,
        unknown: u64,
    }

    impl Hearer for Roll {
        fn row(&mut self, row: &Row) -> Result<(), Fault> {
            let (Some(run), Some(book)) = (row.run, row.book) else {
                return Ok(());
            };
            if row.record.kind == 0 && run.pause.is_none() {
                self.clock += 1;
                self.unknown += u64::from(run.number > 1);
            }
            if let Some(packet) = row.sent {
                let (at, ontime) = (run.start + book.time(), u64::from(packet.ontime));
                let owes = book.owes_ceiling();
                self.sent
                    .push(One(self.clock, at, ontime, run.number, owes));
            }
            Ok(())
        }

        fn run_over(&mut self, _run: &Run) -> Result<(), Fault> {
            Ok(())
        }
    }

    impl Roll {
        /// The most in any second and the least slack over all windows, each on one clock.
        fn windows(&self) -> (Option<u64>, Option<i128>) {
            let (mut fullest, mut least) = (None, None::<i128>);
            for (at, One(clock, from, ..)) in self.sent.iter().enumerate() {
                let (mut air, mut owed) = (0, true);
                let later = self.sent[at..].iter();
                for One(_, to, ontime, _, owes) in later.take_while(|one| one.0 == *clock) {
                    air += ontime;
                    owed &= owes;
                    if to - from < STRETCH {
                        fullest = fullest.max(Some(air));
                    }
                    if owed {
                        let slack = 3 * i128::from(to - from) + 400_000 - 100 * i128::from(air);
                        least = Some(least.map_or(slack, |least| least.min(slack)));
                    }
                }
            }
            (fullest, least)
        }

        /// The shortest time from one run's last admission to the next one's first.
        fn shortest(&self) -> Option<u64> {
            let pairs = self.sent.windows(2);
            let across = pairs.filter(|pair| pair[0].0 == pair[1].0 && pair[0].3 != pair[1].3);
            across.map(|pair| pair[1].1 - pair[0].1).min()
        }
    }

    /// The figures of all runs together are those of all windows of all admissions.
    #[test]
    fn the_joined_figures_are_those_of_all_windows() {
        let (mut seconds, mut ceilings) = (0, 0);
        for seed in 1..=40 {
            let mut roll = Roll::default();
            let most = [[5, 300], [23, 60_000], [60, 900], [200, 9_000]][seed as usize % 4];
            let joined = followed(seed, 1_500, most, &mut roll).joined;
            let fullest = joined.fullest.map(|span| span.air);
            let least = joined.closest.map(|span| span.slack());
            assert_eq!((fullest, least), roll.windows(), "seed {seed}");
            let shortest = joined.shortest.map(|silence| silence.long);
            assert_eq!(shortest, roll.shortest(), "seed {seed}");
            assert_eq!(joined.unknown, roll.unknown, "seed {seed}");
            seconds += u64::from(joined.second_broken());
            ceilings += u64::from(joined.ceiling_broken());
        }
        // Both kinds of log were there: those that break it, and those that don't.
        assert!((1..40).contains(&ceilings), "{ceilings}");
        assert!((1..40).contains(&seconds), "{seconds}");
    }
}
