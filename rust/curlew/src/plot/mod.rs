//! `curlew plot`: a picture of a run.
//!
//! - [`survey`], [`drawing`]: the log is read twice, for what there is and to
//!   draw it
//! - [`page`]: where the panels stand, the time axis, the words
//! - [`course`], [`bars`]: lines, bands and stacked bars
//! - [`load`], [`control`], [`waiting`], [`packets`], [`since`], [`air`]: the
//!   panels, from top to bottom
//!
//! From some thousand packets on, and for the load from some thousand samples
//! on, a panel has bands and bars in place of lines and marks.

mod air;
mod bars;
mod control;
mod course;
mod drawing;
mod load;
mod packets;
pub mod page;
mod since;
mod survey;
mod waiting;

use crate::fault::{tell, Fault};
use crate::follow::{follow, Hearer, Row, Run, Whole};
use crate::output::Output;
use crate::stream::refuse_streams;
use crate::text::{count, span};

pub use drawing::Drawing;
pub use survey::{Found, Survey};

/// What `curlew plot` was asked for.
pub struct PlotWish {
    /// The log.
    pub log: String,
    /// The program's output, if there is one.
    pub answers: Option<String>,
    /// The picture.
    pub output: String,
    /// Which run of the log.
    pub run: u64,
    /// A title in place of the log's name.
    pub title: Option<String>,
    /// The part of the run's time to draw, in µs.
    pub from: Option<u64>,
    /// See `from`.
    pub to: Option<u64>,
}

/// Draws a run. The log is read twice: for its length, and to draw it.
pub fn plot(wish: &PlotWish) -> Result<(), Fault> {
    let answers = wish.answers.as_deref();
    let inputs: Vec<&str> = std::iter::once(wish.log.as_str()).chain(answers).collect();
    refuse_streams("plot", &inputs)?;
    let mut output = Output::open(&wish.output, &inputs)?;
    let mut search = Search {
        wanted: wish.run,
        survey: Survey::new(wish.from, wish.to),
    };
    let whole = follow("plot, first reading", &wish.log, answers, &mut search)?;
    let Some(found) = search.survey.found() else {
        return Err(no_such_run(wish, &whole));
    };
    let Some(frame) = found.frame(wish.from, wish.to) else {
        return Err(nothing_there(wish, &found));
    };
    let mut drawing = Drawing::new(&found, frame);
    follow("plot, second reading", &wish.log, answers, &mut drawing)?;
    let title = wish.title.clone().unwrap_or_else(|| file_name(&wish.log));
    let picture = drawing.picture(&title).whole(&title, page::STYLE);
    output.put(picture.as_bytes())?;
    output.done()?;
    match found.wrong() {
        None => Ok(()),
        Some((_, text)) => {
            let log = &wish.log;
            tell(&format!(
                "{log}: {text}; the picture is of what came before"
            ));
            Err(Fault::NotKept)
        }
    }
}

fn no_such_run(wish: &PlotWish, whole: &Whole) -> Fault {
    let runs = match whole.runs {
        0 => "it has no run: no make was ready".to_string(),
        runs => format!("it has {}, and no run {}", count(runs, "run"), wish.run),
    };
    Fault::bad(format!("{}: {runs}", wish.log))
}

fn nothing_there(wish: &PlotWish, found: &Found) -> Fault {
    Fault::bad(format!(
        "{}: there is nothing to draw from {} to {}: the run is {} long",
        wish.log,
        span(wish.from.unwrap_or(0)),
        span(wish.to.unwrap_or(found.time)),
        span(found.time)
    ))
}

/// The last part of a path.
pub fn file_name(path: &str) -> String {
    path.rsplit('/').next().unwrap_or(path).to_string()
}

/// The survey of one run of a log.
struct Search {
    wanted: u64,
    survey: Survey,
}

impl Hearer for Search {
    fn row(&mut self, row: &Row) -> Result<(), Fault> {
        if let Some(run) = row.run.filter(|run| run.number == self.wanted) {
            self.survey.see(run, row);
        }
        Ok(())
    }

    fn run_over(&mut self, _run: &Run) -> Result<(), Fault> {
        Ok(())
    }
}

impl Hearer for Drawing {
    fn row(&mut self, row: &Row) -> Result<(), Fault> {
        if row.run.is_some_and(|run| run.number == self.run()) {
            self.see(row);
        }
        Ok(())
    }

    fn run_over(&mut self, _run: &Run) -> Result<(), Fault> {
        Ok(())
    }
}
