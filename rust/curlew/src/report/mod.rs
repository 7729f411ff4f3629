//! `curlew report`: one page on a log and its answers, for whoever asks what a
//! trailer did.
//!
//! - [`figures`]: the label's figures, and what the log has beside them
//! - [`lost`]: the warnings that were not sent
//! - [`html`]: the page

mod figures;
mod html;
mod lost;

use std::cmp::Reverse;

use reference::rules;

use crate::check::{self, Faults};
use crate::fault::Fault;
use crate::follow::{follow, Hearer, Row, Run};
use crate::lives::{moment, Lives};
use crate::output::Output;
use crate::plot::{Drawing, Found, Survey};
use crate::stream::refuse_streams;
use crate::tally::Tally;

use figures::Measured;
use lost::Lost;

/// So many runs are in the table; of more, only how many they are.
const RUNS_LISTED: usize = 50;
/// So many wrong answers are listed.
const FAULTS_LISTED: u64 = 50;
/// So many runs are drawn, those with wrong answers first, then the longest.
const PICTURES: usize = 6;

/// What `curlew report` was asked for.
pub struct ReportWish {
    /// The log.
    pub log: String,
    /// The program's output.
    pub answers: String,
    /// The page.
    pub output: String,
    /// A title in place of the log's name.
    pub title: Option<String>,
}

/// Writes the page. The log is read twice: for all that is counted, and to draw
/// it.
pub fn report(wish: &ReportWish) -> Result<(), Fault> {
    let inputs = [wish.log.as_str(), wish.answers.as_str()];
    refuse_streams("report", &inputs)?;
    let mut output = Output::open(&wish.output, &inputs)?;
    let answers = Some(wish.answers.as_str());
    let mut gathered = Gathered::new();
    let whole = follow("report, first reading", &wish.log, answers, &mut gathered)?;
    gathered.end_run(None);
    gathered.tell();
    let mut pictures = Pictures::new(&gathered.chosen);
    follow("report, second reading", &wish.log, answers, &mut pictures)?;
    pictures.end();
    let page = html::page(wish, &gathered, &whole, &pictures.done);
    output.put(page.as_bytes())?;
    output.done()?;
    match gathered.runs.kept(&whole) {
        true => Ok(()),
        false => Err(Fault::NotKept),
    }
}

/// A run that is over, for the table.
struct Line {
    number: u64,
    profile: u32,
    oldway: u32,
    first: u64,
    last: u64,
    time: u64,
    pause: Option<u64>,
    tally: Tally,
    /// How many waited at its end; those of `unknown` when an answer was wrong.
    waiting: u64,
    unknown: u64,
    faults: u64,
}

/// All that the first reading gathers.
struct Gathered {
    lives: Lives,
    /// The run under way: what was counted, and what there is to draw.
    tally: Tally,
    unknown_here: u64,
    survey: Option<Survey>,
    run: Option<Line>,
    /// All runs together, and offers to no gate.
    total: Tally,
    waiting: u64,
    unknown: u64,
    measured: Vec<Measured>,
    lost: Lost,
    lines: Vec<Line>,
    runs: check::Tally,
    faults: Faults,
    /// The wrong answers that are listed, with their records.
    told: Vec<(u64, String)>,
    /// Calls after a wrong answer, of which nothing was counted.
    uncounted: u64,
    chosen: Vec<(u64, Found)>,
}

impl Gathered {
    fn new() -> Gathered {
        Gathered {
            lives: Lives::default(),
            tally: Tally::default(),
            unknown_here: 0,
            survey: None,
            run: None,
            total: Tally::default(),
            waiting: 0,
            unknown: 0,
            measured: Vec::new(),
            lost: Lost::default(),
            lines: Vec::new(),
            runs: check::Tally::default(),
            faults: Faults::up_to(FAULTS_LISTED),
            told: Vec::new(),
            uncounted: 0,
            chosen: Vec::new(),
        }
    }

    /// The log is read: what was wrong, in the order of the log.
    fn tell(&mut self) {
        self.told = self.faults.take_run();
        self.told.extend(self.faults.take_outside());
        self.told.sort();
    }

    /// What was measured in a profile; one that there is not has no figures, nor has profile 5, of which there is no log.
    fn measured(&mut self, profile: u32) -> Option<&mut Measured> {
        if !rules::profile_known(profile) || rules::needs_list(profile) {
            return None;
        }
        let at = self.measured.iter().position(|one| one.profile == profile);
        let at = at.unwrap_or_else(|| {
            self.measured.push(Measured::new(profile));
            self.measured.len() - 1
        });
        self.measured.get_mut(at)
    }

    /// A make: a run begins, if it was ready.
    fn begin(&mut self, row: &Row) {
        let Some(run) = row.run else {
            return;
        };
        if let Some(measured) = self.measured(run.profile) {
            measured.begin(run.number);
        }
    }

    /// A row of a run, or of none.
    fn see(&mut self, row: &Row) {
        self.faults.hear(row);
        if row.book.is_none() && row.run.is_some() {
            // From a wrong answer on to the next make.
            self.lost.lost_sight(row, &self.lives);
            self.unknown_here += self.lives.lengths().iter().sum::<u64>();
            self.uncounted += 1;
        }
        let left = self.lives.see(row);
        self.lost.see(row, &left);
        if row.run.is_none() || row.book.is_some() {
            self.tally.see(row, &left, moment(row));
        }
        if let Some(run) = row.run {
            if let Some(measured) = self.measured(run.profile) {
                measured.see(row);
            }
            let survey = self.survey.get_or_insert_with(|| Survey::new(None, None));
            survey.see(run, row);
        }
    }

    /// A run, or what came before it, is over, with this record or the log.
    fn end_run(&mut self, next: Option<u64>) {
        self.total.add(&self.tally);
        let tally = std::mem::take(&mut self.tally);
        let Some(mut line) = self.run.take() else {
            return;
        };
        self.lost.over(line.number, line.time, next, &self.lives);
        line.waiting = self.lives.lengths().iter().sum();
        self.waiting += line.waiting;
        line.unknown = std::mem::take(&mut self.unknown_here);
        self.unknown += line.unknown;
        line.tally = tally;
        if let Some(found) = self.survey.take().and_then(Survey::found) {
            self.chosen.push((line.tally.calls, found));
            self.chosen.sort_by_key(|(calls, found)| {
                (found.wrong().is_none(), Reverse(*calls), found.number)
            });
            self.chosen.truncate(PICTURES);
        }
        if self.lines.len() < RUNS_LISTED {
            self.lines.push(line);
        }
    }
}

impl Hearer for Gathered {
    fn row(&mut self, row: &Row) -> Result<(), Fault> {
        if row.record.kind == 0 {
            self.end_run(Some(row.number));
            self.begin(row);
        }
        self.see(row);
        Ok(())
    }

    fn run_over(&mut self, run: &Run) -> Result<(), Fault> {
        self.runs.add(run);
        if let Some(measured) = self.measured(run.profile) {
            measured.over(run);
        }
        self.run = Some(Line {
            number: run.number,
            profile: run.profile,
            oldway: run.oldway,
            first: run.first,
            last: run.last,
            time: run.book.time(),
            pause: run.pause,
            tally: Tally::default(),
            waiting: 0,
            unknown: 0,
            faults: run.faults,
        });
        Ok(())
    }
}

/// The second reading: the pictures of the runs that were chosen.
struct Pictures {
    wanted: Vec<Found>,
    drawing: Option<(u64, Drawing)>,
    /// The number of each run drawn, and its picture.
    done: Vec<(u64, String)>,
}

impl Pictures {
    fn new(chosen: &[(u64, Found)]) -> Pictures {
        Pictures {
            wanted: chosen.iter().map(|(_, found)| found.clone()).collect(),
            drawing: None,
            done: Vec::new(),
        }
    }

    /// The picture under way is done.
    fn end(&mut self) {
        if let Some((run, mut drawing)) = self.drawing.take() {
            let name = format!("Run {run}");
            let picture = drawing.picture(&name).part(&name);
            self.done.push((run, picture));
        }
    }
}

impl Hearer for Pictures {
    fn row(&mut self, row: &Row) -> Result<(), Fault> {
        let Some(run) = row.run else {
            return Ok(());
        };
        if row.record.kind == 0 {
            let found = self.wanted.iter().find(|found| found.number == run.number);
            let frame = found.and_then(|found| found.frame(None, None));
            let pair = found.zip(frame);
            self.drawing = pair.map(|(found, frame)| (run.number, Drawing::new(found, frame)));
        }
        if let Some((_, drawing)) = &mut self.drawing {
            drawing.see(row);
        }
        Ok(())
    }

    fn run_over(&mut self, _run: &Run) -> Result<(), Fault> {
        self.end();
        Ok(())
    }
}
