//! `curlew check`: the verdict over a log and its answers, for people.

use reference::book::{STRETCH, STRETCH_MOST};

use crate::args::CheckWish;
use crate::fault::Fault;
use crate::follow::{refusal_name, size, Hearer, Reading, Row, Run, Whole};
use crate::joined::{Joined, Silence, Span};
use crate::output::Output;
use crate::stream::shown_name;
use crate::text::{count, grouped, moment, span};
use crate::watch::Wait;

/// So many runs are told in full.
const TOLD_IN_FULL: u64 = 20;
/// So many runs have at least a line.
const LISTED: u64 = 1_000;

/// Checks a log and its answers.
pub fn check(wish: &CheckWish) -> Result<(), Fault> {
    if wish.json {
        return crate::check_json::check(wish);
    }
    let reading = Reading::open("check", &wish.log, Some(&wish.answers))?;
    let mut telling = Telling {
        output: Output::standard(&[&wish.log, &wish.answers])?,
        tally: Tally::default(),
        faults: Faults::up_to(wish.faults),
        unlisted: 0,
    };
    let whole = reading.follow(&mut telling)?;
    telling.end(wish, &whole)?;
    telling.output.done()?;
    match telling.tally.kept(&whole) {
        true => Ok(()),
        false => Err(Fault::NotKept),
    }
}

/// How many runs were kept, and how many were not.
#[derive(Default)]
pub struct Tally {
    /// Runs without a wrong answer.
    pub good: u64,
    /// Runs with one.
    pub broken: u64,
    /// Whether one of them does not owe the ceiling.
    pub without_ceiling: bool,
}

impl Tally {
    /// One more run.
    pub fn add(&mut self, run: &Run) {
        match run.faults {
            0 => self.good += 1,
            _ => self.broken += 1,
        }
        self.without_ceiling |= !run.book.owes_ceiling();
    }

    /// Whether all was kept.
    pub fn kept(&self, whole: &Whole) -> bool {
        self.broken == 0 && whole.loose == 0 && !whole.joined.broken()
    }
}

/// The verdict in a sentence or two.
pub fn verdict(tally: &Tally, whole: &Whole) -> String {
    let of = count(whole.runs, "run");
    if tally.broken > 0 {
        let across = match whole.joined.broken() {
            true => " Nor across restarts.",
            false => "",
        };
        return format!("NOT KEPT in {} of {of}.{across}", grouped(tally.broken));
    }
    if whole.loose > 0 {
        return "NOT KEPT: an answer outside of all runs is wrong.".to_string();
    }
    if whole.joined.broken() {
        return "NOT KEPT across restarts, though each run by itself was. After a restart the host \
                stays silent for a second: docs/LABEL.md."
            .to_string();
    }
    if whole.runs == 0 {
        return "KEPT, but there was no run to look at.".to_string();
    }
    let held = match tally.without_ceiling {
        true => "Second and floor held throughout, and the ceiling where it is promised.",
        false => "Ceiling and floor held throughout.",
    };
    match whole.joined.unknown {
        0 => format!("KEPT. {held}"),
        _ => format!("KEPT. {held} Not over each restart: there a pause is not known."),
    }
}

/// What was wrong, up to so many texts.
pub struct Faults {
    most: u64,
    /// How many there were.
    pub all: u64,
    /// How many are told.
    pub told: u64,
    run: Vec<(u64, String)>,
    outside: Vec<(u64, String)>,
}

impl Faults {
    /// No fault yet, and room for so many.
    pub fn up_to(most: u64) -> Faults {
        Faults {
            most,
            all: 0,
            told: 0,
            run: Vec::new(),
            outside: Vec::new(),
        }
    }

    /// Notes what is wrong with an answer, if something is.
    pub fn hear(&mut self, row: &Row) {
        let Some(text) = row.wrong else {
            return;
        };
        self.all += 1;
        if self.told == self.most {
            return;
        }
        self.told += 1;
        let place = match row.run {
            Some(_) => &mut self.run,
            None => &mut self.outside,
        };
        place.push((row.number, text.to_string()));
    }

    /// Those of the run that is over.
    pub fn take_run(&mut self) -> Vec<(u64, String)> {
        std::mem::take(&mut self.run)
    }

    /// Those outside of all runs.
    pub fn take_outside(&mut self) -> Vec<(u64, String)> {
        std::mem::take(&mut self.outside)
    }
}

/// The verdict on its way to standard output.
struct Telling {
    output: Output,
    tally: Tally,
    faults: Faults,
    unlisted: u64,
}

impl Hearer for Telling {
    fn row(&mut self, row: &Row) -> Result<(), Fault> {
        self.faults.hear(row);
        Ok(())
    }

    fn run_over(&mut self, run: &Run) -> Result<(), Fault> {
        self.tally.add(run);
        let told = self.faults.take_run();
        let out = &mut self.output;
        let title = format!("Run {}: {}", grouped(run.number), run.title());
        if run.faults > 0 && (!told.is_empty() || run.number <= LISTED) {
            writeln!(out, "{title}")?;
            return wrong(out, run.faults, &told);
        }
        if run.number > LISTED {
            self.unlisted += 1;
            return Ok(());
        }
        if run.number > TOLD_IN_FULL {
            return writeln!(out, "{title}{}. KEPT.", in_short(run));
        }
        writeln!(out, "{title}")?;
        for (name, text) in report(run) {
            writeln!(out, "  {name:<9}  {text}")?;
        }
        writeln!(out)
    }
}

impl Telling {
    /// What is said after the runs.
    fn end(&mut self, wish: &CheckWish, whole: &Whole) -> Result<(), Fault> {
        let outside = self.faults.take_outside();
        let out = &mut self.output;
        if whole.runs > TOLD_IN_FULL {
            writeln!(out)?;
        }
        if self.unlisted > 0 {
            let more = count(self.unlisted, "more run");
            writeln!(out, "{more}, not told one by one.\n")?;
        }
        if whole.loose > 0 {
            writeln!(out, "Outside of all runs:")?;
            wrong(out, whole.loose, &outside)?;
        }
        if whole.joined.restarts > 0 {
            writeln!(out, "All runs together, on the clock that the stamps give:")?;
            for (name, text) in together(&whole.joined) {
                writeln!(out, "  {name:<9}  {text}")?;
            }
            writeln!(out)?;
        }
        let log = shown_name(&wish.log);
        writeln!(out, "{log}: {}, answers fit.", size(whole))?;
        writeln!(out, "Verdict: {}", verdict(&self.tally, whole))
    }
}

/// The faults of a run, those that are told and how many more there are.
fn wrong(out: &mut Output, all: u64, told: &[(u64, String)]) -> Result<(), Fault> {
    let answers = match all {
        1 => "1 answer is wrong".to_string(),
        all => format!("{} answers are wrong", grouped(all)),
    };
    writeln!(out, "  NOT KEPT   {answers}:")?;
    for (_, text) in told {
        writeln!(out, "             {text}")?;
    }
    if all > told.len() as u64 {
        let more = grouped(all - told.len() as u64);
        writeln!(out, "             .. and {more} more")?;
    }
    if all > 1 {
        let after = "From the first on, what the gate held is not known; the others differ";
        let other = "from what the second program answers to the same calls.";
        writeln!(out, "             {after} {other}")?;
    }
    writeln!(out)
}

/// A run in a few words: what it sent, and the pause before it.
fn in_short(run: &Run) -> String {
    let sent = run.book.counts().sent;
    let mut text = format!(", {} sent, {} on air", grouped(sent), span(run.watch.air));
    if let Some(pause) = run.pause {
        text += &format!(", after a pause of {}", span(pause));
    }
    text
}

/// The lines on all runs together.
pub fn together(joined: &Joined) -> Vec<(&'static str, String)> {
    let mut lines = vec![("Restarts", restarts(joined))];
    let second = match joined.fullest {
        None => "KEPT: nothing was sent.".to_string(),
        Some(fullest) => format!(
            "{} {}, with {} of the {} allowed in any second.",
            kept(!joined.second_broken()),
            place(&fullest),
            span(fullest.air),
            span(STRETCH_MOST)
        ),
    };
    lines.push(("Second", second));
    let ceiling = match joined.closest {
        None => "Nothing was sent in a profile that promises it.".to_string(),
        Some(closest) => format!(
            "{} {}, with {} of the {} allowed.",
            kept(!joined.ceiling_broken()),
            place(&closest),
            span(closest.air),
            span(closest.allowed())
        ),
    };
    lines.push(("Ceiling", ceiling));
    lines
}

/// How the packets before and after restarts lie.
fn restarts(joined: &Joined) -> String {
    let many = count(joined.restarts, "restart");
    let silence = match joined.shortest {
        None => "no packet went both before and after one, on one clock".to_string(),
        Some(Silence {
            long,
            records,
            runs,
        }) => format!(
            "the shortest silence across one is {}, from record {} (run {}) to record {} (run {}){}",
            span(long),
            grouped(records.0),
            grouped(runs.0),
            grouped(records.1),
            grouped(runs.1),
            if long < STRETCH { ": less than the second that the label asks for" } else { "" }
        ),
    };
    match joined.unknown {
        0 => format!("{many}; {silence}."),
        unknown => format!(
            "{many}; {silence}. Before {} of them the pause is not known, and nothing is added up over it: \
             the count went back or began anew, or an answer was wrong.",
            grouped(unknown)
        ),
    }
}

fn kept(kept: bool) -> &'static str {
    match kept {
        true => "KEPT. Closest call:",
        false => "NOT KEPT:",
    }
}

/// Where a part of the joined clock is.
fn place(part: &Span) -> String {
    let (first, last) = part.records;
    let (run, to) = part.runs;
    if first == last {
        return format!(
            "one packet at record {} (run {})",
            grouped(first),
            grouped(run)
        );
    }
    format!(
        "the {} from record {} (run {}) to record {} (run {})",
        span(part.to - part.from),
        grouped(first),
        grouped(run),
        grouped(last),
        grouped(to)
    )
}

/// The lines on a run that was kept.
fn report(run: &Run) -> Vec<(&'static str, String)> {
    let mut lines = vec![];
    if let Some(pause) = run.pause {
        let after = format!("made {} after the last call of the run before", span(pause));
        lines.push(("Restart", after));
    } else if run.number > 1 {
        let after = "after the run before, at a time that is not known: see below";
        lines.push(("Restart", after.to_string()));
    }
    lines.push(("Calls", calls(run)));
    lines.push(("Counts", counts(run)));
    ceiling(run, &mut lines);
    floor(run, &mut lines);
    turn(run, &mut lines);
    let answers = count(run.last - run.first + 1, "answer");
    lines.push((
        "Answers",
        format!("KEPT. {answers}, each the second program's."),
    ));
    lines
}

fn calls(run: &Run) -> String {
    let watch = &run.watch;
    let mut text = format!(
        "accepted: {}, {}, {}",
        count(watch.samples, "sample"),
        count(run.book.counts().accepted, "offer"),
        count(watch.polls, "poll")
    );
    let refused: Vec<String> = (0u32..)
        .zip(watch.refusals)
        .filter(|(_, times)| *times > 0)
        .map(|(number, times)| format!("{} {}", grouped(times), refusal_name(number)))
        .collect();
    if refused.is_empty() {
        text += "; none refused";
    } else {
        text += &format!("; refused: {}", refused.join(", "));
    }
    text
}

fn counts(run: &Run) -> String {
    let counts = run.book.counts();
    format!(
        "KEPT. {} accepted = {} sent + {} expired + {} displaced + {} waiting at the end. \
         They add up at every record.",
        grouped(counts.accepted),
        grouped(counts.sent),
        grouped(counts.expired),
        grouped(counts.displaced),
        grouped(run.book.waiting())
    )
}

/// The ceiling, where it is promised, and the second.
fn ceiling(run: &Run, lines: &mut Vec<(&'static str, String)>) {
    let ceiling = match run.watch.closest {
        _ if !run.book.owes_ceiling() => format!(
            "Not promised in profile {}, where 25 ms after one packet the next may go.",
            run.profile
        ),
        None => "KEPT: nothing was sent.".to_string(),
        Some(closest) => format!(
            "KEPT. Closest call: {}, with {} of the {} allowed.",
            closest.place(),
            span(closest.air),
            span(closest.allowed())
        ),
    };
    lines.push(("Ceiling", ceiling));
    let second = match run.watch.fullest {
        None => "KEPT: nothing was sent.".to_string(),
        Some(fullest) => format!(
            "KEPT. Closest call: {}, with {} of the {} allowed in any second.",
            fullest.place(),
            span(fullest.air),
            span(STRETCH_MOST)
        ),
    };
    lines.push(("Second", second));
}

fn floor(run: &Run, lines: &mut Vec<(&'static str, String)>) {
    let first = match run.book.closest().latest_closed {
        Some(latest) => format!(
            "KEPT. Latest CLOSED: {} after an admission; from {} on a poll sends.",
            span(latest),
            span(run.book.floor())
        ),
        None => "KEPT. No poll found the gate closed.".to_string(),
    };
    lines.push(("Floor", first));
    if let Some((hold, at)) = run.watch.longest_hold {
        lines.push((
            "",
            format!(
                "Longest that packets waited and none went: {}, up to the SENT at {}.",
                span(hold),
                moment(at)
            ),
        ));
    }
}

fn turn(run: &Run, lines: &mut Vec<(&'static str, String)>) {
    let watch = &run.watch;
    let most = run.book.closest().most_seen;
    let seen = match most {
        0 => "no packet of priority 0 saw another go first".to_string(),
        1 => "a packet of priority 0 saw 1 other go first, which came before it".to_string(),
        most => format!(
            "a packet of priority 0 saw {} others go first, which came before it",
            grouped(most)
        ),
    };
    lines.push(("Turn", format!("KEPT. Each in its turn; {seen}.")));
    if let Some(fewest) = run.book.closest().fewest_offers {
        lines.push(("", displaced(run, fewest)));
    }
    lines.push(("Delivery", delivery(run)));
    if let Some(wait) = watch.nearest_wait {
        lines.push(("", nearest(&wait)));
    }
}

/// What became of the packets of priority 0, and to which of them delivery was
/// promised at all: one that does not live as long as its bound, or is
/// displaced, had no promise.
fn delivery(run: &Run) -> String {
    let watch = &run.watch;
    if watch.zero_sent + watch.zero_expired + watch.zero_displaced == 0 {
        return "Not promised here: no packet of priority 0 left.".to_string();
    }
    let left = format!(
        "Of priority 0, {} went, {} expired and {} displaced",
        grouped(watch.zero_sent),
        grouped(watch.zero_expired),
        was_or_were(watch.zero_displaced)
    );
    match watch.zero_promised {
        0 => format!("Not promised here: none lived longer than the label's bound. {left}."),
        promised => format!("KEPT. {left}; {} promised to go.", was_or_were(promised)),
    }
}

/// What a full queue has dropped, and after how many offers at the least.
fn displaced(run: &Run, fewest: u64) -> String {
    let many = run.book.counts().displaced;
    let packets = if many == 1 { "packet" } else { "packets" };
    format!(
        "{} {packets} displaced, none before {} more of its own priority were taken.",
        grouped(many),
        grouped(fewest)
    )
}

/// So many were.
fn was_or_were(number: u64) -> String {
    let word = if number == 1 { "was" } else { "were" };
    format!("{} {word}", grouped(number))
}

/// The wait that came nearest to its bound.
fn nearest(wait: &Wait) -> String {
    format!(
        "Closest call: packet {} went after {}; the label says at most {} x ({} + {}) = {}.",
        wait.id,
        span(wait.waited),
        wait.before + 1,
        span(wait.floor),
        span(wait.apart),
        span(wait.bound())
    )
}
