//! `curlew check --json`: the verdict for programs. `docs/TOOLS.md` says what
//! each field means; fields may be added, and those that are there stay.

use crate::args::CheckWish;
use crate::check::{verdict, Faults, Tally};
use crate::fault::Fault;
use crate::follow::{Hearer, Reading, Row, Run, Whole};
use crate::joined::Joined;
use crate::json::Json;
use crate::output::Output;
use crate::plain::way_name;

/// The form of the output: it grows if a field is taken away or means otherwise.
const FORM: u32 = 1;

/// Checks a log and its answers, and writes the verdict as JSON.
pub fn check(wish: &CheckWish) -> Result<(), Fault> {
    let reading = Reading::open("check", &wish.log, Some(&wish.answers))?;
    let output = Output::standard(&[&wish.log, &wish.answers])?;
    let mut telling = Telling {
        json: Json::new(output),
        tally: Tally::default(),
        faults: Faults::up_to(wish.faults),
    };
    let json = &mut telling.json;
    json.object("")?;
    json.number("form", FORM)?;
    json.text("log", &wish.log)?;
    json.text("answers", &wish.answers)?;
    json.list("runs")?;
    let whole = reading.follow(&mut telling)?;
    telling.json.close()?;
    telling.end(&whole)?;
    telling.json.done()?;
    match telling.tally.kept(&whole) {
        true => Ok(()),
        false => Err(Fault::NotKept),
    }
}

/// The verdict on its way to standard output.
struct Telling {
    json: Json,
    tally: Tally,
    faults: Faults,
}

impl Hearer for Telling {
    fn row(&mut self, row: &Row) -> Result<(), Fault> {
        self.faults.hear(row);
        Ok(())
    }

    fn run_over(&mut self, run: &Run) -> Result<(), Fault> {
        self.tally.add(run);
        let faults = self.faults.take_run();
        let json = &mut self.json;
        json.object("")?;
        json.number("run", run.number)?;
        json.truth("kept", run.faults == 0)?;
        json.number("profile", run.profile)?;
        json.text("way", &way_name(run.oldway))?;
        json.number("first_record", run.first)?;
        json.number("last_record", run.last)?;
        json.maybe("pause_us", run.pause)?;
        json.number("length_us", run.book.time())?;
        counts(json, run)?;
        limits(json, run)?;
        json.number("wrong_answers", run.faults)?;
        told(json, &faults)?;
        json.close()
    }
}

impl Telling {
    /// What is said after the runs.
    fn end(&mut self, whole: &Whole) -> Result<(), Fault> {
        let outside = self.faults.take_outside();
        let json = &mut self.json;
        json.object("outside")?;
        json.number("wrong_answers", whole.loose)?;
        told(json, &outside)?;
        json.close()?;
        joined(json, &whole.joined)?;
        json.number("records", whole.records)?;
        json.number("left_over_bytes", whole.left_over.len() as u64)?;
        json.number("wrong_answers", self.faults.all)?;
        json.number("wrong_answers_told", self.faults.told)?;
        json.truth("kept", self.tally.kept(whole))?;
        json.text("verdict", &verdict(&self.tally, whole))?;
        json.close()
    }
}

/// What was called, and what became of it.
fn counts(json: &mut Json, run: &Run) -> Result<(), Fault> {
    let (counts, watch) = (run.book.counts(), &run.watch);
    json.number("samples", watch.samples)?;
    json.number("polls", watch.polls)?;
    json.number("accepted", counts.accepted)?;
    json.number("sent", counts.sent)?;
    json.number("expired", counts.expired)?;
    json.number("displaced", counts.displaced)?;
    json.number("waiting", run.book.waiting())?;
    json.number("air_us", watch.air)?;
    json.object("refused")?;
    for (number, times) in (0u32..).zip(watch.refusals).filter(|(_, times)| *times > 0) {
        json.number(&number.to_string(), times)?;
    }
    json.close()?;
    json.object("priority_0")?;
    json.number("sent", watch.zero_sent)?;
    json.number("promised", watch.zero_promised)?;
    json.number("expired", watch.zero_expired)?;
    json.number("displaced", watch.zero_displaced)?;
    json.close()
}

/// How near the run came to its limits.
fn limits(json: &mut Json, run: &Run) -> Result<(), Fault> {
    let watch = &run.watch;
    let ceiling = watch.closest.filter(|_| run.book.owes_ceiling());
    json.truth("ceiling_promised", run.book.owes_ceiling())?;
    for (name, window) in [("second", watch.fullest), ("ceiling", ceiling)] {
        let Some(window) = window else {
            json.null(name)?;
            continue;
        };
        json.object(name)?;
        json.number("from_us", window.from)?;
        json.number("to_us", window.to)?;
        json.number("air_us", window.air)?;
        json.close()?;
    }
    json.number("floor_us", run.book.floor())?;
    json.maybe("latest_closed_us", run.book.closest().latest_closed)?;
    json.maybe("longest_hold_us", watch.longest_hold.map(|(hold, _)| hold))
}

/// The faults of a run, or of no run.
fn told(json: &mut Json, faults: &[(u64, String)]) -> Result<(), Fault> {
    json.list("faults")?;
    for (record, text) in faults {
        json.object("")?;
        json.number("record", *record)?;
        json.text("text", text)?;
        json.close()?;
    }
    json.close()
}

/// All runs together.
fn joined(json: &mut Json, joined: &Joined) -> Result<(), Fault> {
    json.object("joined")?;
    json.truth("kept", !joined.broken())?;
    json.number("restarts", joined.restarts)?;
    json.number("unknown_pauses", joined.unknown)?;
    let silence = joined.shortest.map(|silence| silence.long);
    json.maybe("shortest_silence_us", silence)?;
    for (name, span) in [("second", joined.fullest), ("ceiling", joined.closest)] {
        let Some(span) = span else {
            json.null(name)?;
            continue;
        };
        json.object(name)?;
        json.number("first_record", span.records.0)?;
        json.number("last_record", span.records.1)?;
        json.number("first_run", span.runs.0)?;
        json.number("last_run", span.runs.1)?;
        json.number("width_us", span.to - span.from)?;
        json.number("air_us", span.air)?;
        json.close()?;
    }
    json.close()
}
