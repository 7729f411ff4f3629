//! `curlew show --csv`: a log as a table for programs. `docs/TOOLS.md` says what
//! each column means; columns may be added at the end, and those that are there
//! stay.

use reference::book::Book;
use reference::state::State;

use crate::fault::Fault;
use crate::follow::{Hearer, Reading, Row, Run};
use crate::output::Output;
use crate::plain::way_name;
use crate::show::{second_full, wait, ShowWish};
use crate::stream::Said;

/// The names of the columns.
const NAMES: &str = "record,run,known,time_us,call,profile,way,busy,probes,id,priority,ontime_us,\
lifetime_us,stamp,answer,number,second_full,displaced_id,accepted,sent,expired,displaced,waiting_0,\
waiting_1,waiting_2,waiting_3,air_us,level,duty_ppb,load_ppm,wait_us,wrong";

/// Shows a log as comma-separated values.
pub fn show(wish: &ShowWish) -> Result<(), Fault> {
    let reading = Reading::open("show", &wish.log, wish.answers.as_deref())?;
    let mut lines = Lines {
        wish,
        output: Output::standard(&wish.inputs())?,
        wrong: false,
        shown: 0,
    };
    reading.follow(&mut lines)?;
    lines.heading()?;
    lines.output.done()?;
    match lines.wrong {
        true => Err(Fault::NotKept),
        false => Ok(()),
    }
}

/// The lines on their way to standard output.
struct Lines<'a> {
    wish: &'a ShowWish,
    output: Output,
    wrong: bool,
    shown: u64,
}

impl Lines<'_> {
    /// The names, before the first line.
    fn heading(&mut self) -> Result<(), Fault> {
        match self.shown {
            0 => writeln!(self.output, "{NAMES}"),
            _ => Ok(()),
        }
    }
}

impl Hearer for Lines<'_> {
    fn row(&mut self, row: &Row) -> Result<(), Fault> {
        self.wrong |= row.wrong.is_some();
        if !self.wish.shows(row) {
            return Ok(());
        }
        self.heading()?;
        self.shown += 1;
        let run = cell(row.run.map(|run| run.number));
        let known = u8::from(row.state.is_some());
        let time = cell(row.book.map(Book::time));
        let cells = [
            format!("{},{run},{known},{time}", row.number),
            call(row),
            answer(row),
            row.book.map_or(",".repeat(8), book),
            row.state.map_or(",".repeat(3), state),
            quoted(row.wrong.unwrap_or_default()),
        ];
        writeln!(self.output, "{}", cells.join(","))
    }

    fn run_over(&mut self, _run: &Run) -> Result<(), Fault> {
        Ok(())
    }

    fn enough(&self) -> bool {
        self.wish.enough(self.shown)
    }
}

/// A number, or nothing.
fn cell(number: Option<u64>) -> String {
    number.map(|number| number.to_string()).unwrap_or_default()
}

/// call, profile, way, busy, probes, id, priority, ontime_us, lifetime_us, stamp.
fn call(row: &Row) -> String {
    let record = &row.record;
    let (id, priority) = (record.id, record.priority);
    let cells = match record.kind {
        0 => format!("make,{priority},{},,,,,,", way_name(record.lifetime)),
        1 => format!("sample,,,{id},{},,,,", record.probes()),
        2 => format!(
            "offer,,,,,{id},{priority},{},{}",
            record.ontime, record.lifetime
        ),
        3 => "poll,,,,,,,,".to_string(),
        kind => format!("kind {kind},,,,,,,,"),
    };
    format!("{cells},{}", record.stamp)
}

/// answer, number, second_full, displaced_id.
fn answer(row: &Row) -> String {
    let line = row.said.line();
    let (word, number) = line.split_once(' ').unwrap_or((&line, ""));
    let full = match row.said {
        Said::Closed(_) if row.state.is_some() => u8::from(second_full(row)).to_string(),
        _ => String::new(),
    };
    let displaced = cell(row.displaced.map(|packet| u64::from(packet.id)));
    format!("{word},{number},{full},{displaced}")
}

/// accepted, sent, expired, displaced, waiting_0 to waiting_3, air_us.
fn book(book: &Book) -> String {
    let counts = book.counts();
    let counts = [
        counts.accepted,
        counts.sent,
        counts.expired,
        counts.displaced,
    ];
    let lengths = book.columns().iter().map(|column| column.len() as u64);
    let numbers = counts.into_iter().chain(lengths).chain([book.on_air()]);
    let cells: Vec<String> = numbers.map(|number| number.to_string()).collect();
    cells.join(",")
}

/// level, duty_ppb, load_ppm, wait_us; of the first three the one that the
/// profile goes by.
fn state(state: &State) -> String {
    let by = match (state.live, state.profile) {
        (false, _) => return ",".repeat(3),
        (_, 3) => format!(",{},", state.duty),
        (_, 4) => format!(",,{}", state.latest),
        _ => format!("{},,", state.level),
    };
    format!("{by},{}", cell(wait(state).map(u64::from)))
}

/// A text as a cell, between quotation marks where it needs them.
fn quoted(text: &str) -> String {
    if text.contains([',', '"', '\n', '\r']) {
        return format!("\"{}\"", text.replace('"', "\"\""));
    }
    text.to_string()
}
