//! `curlew show`: a log as a table, or in the plain form.

use reference::book::Book;
use reference::log::Record;
use reference::state::State;

use crate::csv;
use crate::fault::Fault;
use crate::follow::{refusal_name, Hearer, Reading, Row, Run};
use crate::output::Output;
use crate::plain;
use crate::progress::Progress;
use crate::stream::{shown_name, whole, Next, Records, Said};
use crate::text::{clock, five, in_ms, percent, plain_span, wrapped};

/// What `curlew show` was asked for.
pub struct ShowWish {
    /// The log.
    pub log: String,
    /// The program's output, if there is one.
    pub answers: Option<String>,
    /// The first record to show.
    pub from: u64,
    /// How many to show.
    pub first: Option<u64>,
    /// Whether to leave out what moves no packet.
    pub brief: bool,
    /// In which form.
    pub form: Form,
}

/// The forms in which a log is shown.
#[derive(Clone, Copy, PartialEq, Eq)]
pub enum Form {
    /// A table for people.
    Table,
    /// The plain form.
    Plain,
    /// A table for programs.
    Csv,
}

impl ShowWish {
    /// The files that are read.
    pub fn inputs(&self) -> Vec<&str> {
        let log = std::iter::once(self.log.as_str());
        log.chain(self.answers.as_deref()).collect()
    }

    /// Whether a record is one to show.
    pub fn shows(&self, row: &Row) -> bool {
        let idle = self.brief && moves_nothing(row);
        row.wrong.is_some() || (!idle && row.number >= self.from)
    }

    /// Whether so many lines are enough.
    pub fn enough(&self, shown: u64) -> bool {
        self.first.is_some_and(|most| shown >= most)
    }
}

/// Shows a log.
pub fn show(wish: &ShowWish) -> Result<(), Fault> {
    match wish.form {
        Form::Plain => return show_plain(wish),
        Form::Csv => return csv::show(wish),
        Form::Table => {}
    }
    let reading = Reading::open("show", &wish.log, wish.answers.as_deref())?;
    let mut table = Table {
        wish,
        output: Output::standard(&wish.inputs())?,
        wrong: false,
        shown: 0,
    };
    let whole = reading.follow(&mut table)?;
    table.heading()?;
    let out = &mut table.output;
    if !whole.ended {
        writeln!(out, "      ..")?;
    } else if whole.left_over.is_empty() {
        writeln!(out, "     END")?;
    } else {
        let bytes = plain::hex(&whole.left_over);
        writeln!(out, "    TORN left over: {bytes}")?;
    }
    table.output.done()?;
    if table.wrong {
        return Err(Fault::NotKept);
    }
    Ok(())
}

/// The log in the plain form.
fn show_plain(wish: &ShowWish) -> Result<(), Fault> {
    let mut records = Records::open(&wish.log)?;
    let mut output = Output::standard(&[&wish.log])?;
    let mut progress = Progress::new("show", whole(&wish.log));
    let end = wish.first.map(|most| wish.from.saturating_add(most));
    let mut number = 1;
    while end.is_none_or(|end| number < end) {
        match records.next()? {
            Next::Record(record) if number >= wish.from => {
                writeln!(output, "{}", plain::line(&record))?;
            }
            Next::Record(_) => {}
            Next::End(left_over) => {
                if !left_over.is_empty() && number >= wish.from {
                    writeln!(output, "tail {}", plain::hex(&left_over))?;
                }
                break;
            }
        }
        progress.at(number);
        number += 1;
    }
    output.done()
}

/// The table's columns: how wide each is. A line has 120 places at most; what is
/// too long for its column goes on in it, a line lower.
const WIDTHS: [usize; 11] = [8, 15, 23, 20, 5, 5, 5, 5, 4, 6, 14];
/// Whether the column is flush left.
const LEFT: [bool; 11] = [
    false, false, true, true, false, false, false, false, false, false, true,
];
/// The names of the columns, in two lines.
const NAMES: [[&str; 2]; 11] = [
    ["", "record"],
    ["", "time, h:mm:ss"],
    ["", "call"],
    ["", "answer"],
    ["acce-", "pted"],
    ["", "sent"],
    ["ex-", "pired"],
    ["dis-", "plac."],
    ["wait", "0123"],
    ["air of", "1s, ms"],
    ["gate,", "wait in ms"],
];
/// The most places of a line.
const LINE: usize = 120;

/// The table on its way to standard output.
struct Table<'a> {
    wish: &'a ShowWish,
    output: Output,
    wrong: bool,
    shown: u64,
}

impl Table<'_> {
    /// The heading, before the first line: an error that comes before it stands
    /// alone.
    fn heading(&mut self) -> Result<(), Fault> {
        if self.shown > 0 {
            return Ok(());
        }
        let of = match &self.wish.answers {
            Some(answers) => format!("answers of {}", shown_name(answers)),
            None => "answers of the second program".to_string(),
        };
        for name in [&format!("{},", shown_name(&self.wish.log)), &of] {
            for line in wrapped(name, LINE) {
                writeln!(self.output, "{line}")?;
            }
        }
        for line in 0..2 {
            self.cells(&NAMES.map(|name| name[line].to_string()))?;
        }
        Ok(())
    }

    /// A row of cells, over as many lines as the longest takes.
    fn cells(&mut self, cells: &[String; 11]) -> Result<(), Fault> {
        let cells: Vec<Vec<String>> = (cells.iter().zip(WIDTHS))
            .map(|(cell, width)| wrapped(cell, width))
            .collect();
        let deepest = cells.iter().map(Vec::len).max().unwrap_or(1);
        for at in 0..deepest {
            let mut line = String::with_capacity(LINE + 1);
            for (column, cell) in cells.iter().enumerate() {
                let text = cell.get(at).map_or("", String::as_str);
                let width = WIDTHS[column];
                line += &match LEFT[column] {
                    true => format!("{text:<width$} "),
                    false => format!("{text:>width$} "),
                };
            }
            writeln!(self.output, "{}", line.trim_end())?;
        }
        Ok(())
    }
}

impl Hearer for Table<'_> {
    fn row(&mut self, row: &Row) -> Result<(), Fault> {
        self.wrong |= row.wrong.is_some();
        if !self.wish.shows(row) {
            return Ok(());
        }
        self.heading()?;
        self.shown += 1;
        let [accepted, sent, expired, displaced] = counts(row);
        let cells = [
            number(row),
            known(row, time),
            call(&row.record),
            answer(row),
            accepted,
            sent,
            expired,
            displaced,
            match row.run {
                Some(_) if row.book.is_none() => "????".to_string(),
                _ => known(row, lengths),
            },
            known(row, |book| in_ms(book.on_air())),
            row.state.map_or("?".to_string(), control),
        ];
        self.cells(&cells)?;
        let Some(text) = row.wrong else {
            return Ok(());
        };
        for line in wrapped(text, LINE - 9) {
            writeln!(self.output, "         {line}")?;
        }
        Ok(())
    }

    fn run_over(&mut self, _run: &Run) -> Result<(), Fault> {
        Ok(())
    }

    fn enough(&self) -> bool {
        self.wish.enough(self.shown)
    }
}

/// A sample that was taken, and a poll that sent nothing.
fn moves_nothing(row: &Row) -> bool {
    let sampled = row.record.kind == 1 && row.said == Said::Taken;
    sampled || matches!(row.said, Said::Closed(_) | Said::Idle)
}

/// The record's number, marked where the answer is wrong.
fn number(row: &Row) -> String {
    match row.wrong {
        None => row.number.to_string(),
        Some(_) => format!("!{:>7}", row.number),
    }
}

/// The run's time; from 100 hours on its µs go a line lower.
fn time(book: &Book) -> String {
    let text = clock(book.time());
    match text.len() {
        0..=15 => text,
        _ => text.replace('.', " ."),
    }
}

/// What the book of a run says; nothing outside of runs, and ? where it is not
/// known any more.
fn known(row: &Row, says: impl Fn(&Book) -> String) -> String {
    match (row.run, row.book) {
        (None, _) => String::new(),
        (Some(_), None) => "?".to_string(),
        (Some(_), Some(book)) => says(book),
    }
}

/// How many packets were accepted, sent, expired and displaced.
fn counts(row: &Row) -> [String; 4] {
    [
        known(row, |book| five(book.counts().accepted)),
        known(row, |book| five(book.counts().sent)),
        known(row, |book| five(book.counts().expired)),
        known(row, |book| five(book.counts().displaced)),
    ]
}

/// How many wait in each queue: a digit each, as five fit.
fn lengths(book: &Book) -> String {
    let columns = book.columns().iter();
    columns.map(|column| column.len().to_string()).collect()
}

/// A call in a few words, near to the plain form.
fn call(record: &Record) -> String {
    let Record { id, priority, .. } = record;
    match record.kind {
        1 => format!("sample {id} of {}", record.probes()),
        2 => {
            let ontime = plain_span(u64::from(record.ontime));
            let lifetime = plain_span(u64::from(record.lifetime));
            format!("offer {id} p{priority} {ontime} {lifetime}")
        }
        3 => "poll".to_string(),
        0 => plain::call(record),
        kind => format!("no call: kind {kind}"),
    }
}

/// An answer, its number explained; behind it the packet that was displaced, or
/// that it is the second and not the wait that keeps the gate closed.
fn answer(row: &Row) -> String {
    match (row.said, row.displaced) {
        (Said::Refused(number), _) => format!("REFUSED {number} {}", refusal_name(number)),
        (said, Some(packet)) => format!("{}, displaced {}", said.line(), packet.id),
        (said, None) if second_full(row) => format!("{}, full", said.line()),
        (said, None) => said.line(),
    }
}

/// Whether a poll is closed for longer than what is left of the wait.
pub fn second_full(row: &Row) -> bool {
    let Said::Closed(left) = row.said else {
        return false;
    };
    let wait = row.state.and_then(wait_left);
    wait.is_some_and(|wait| left > wait)
}

/// What is left of the wait, if something was admitted.
fn wait_left(state: &State) -> Option<u64> {
    let last = state.last()?;
    let closed = state.closed_for(last.ontime)?;
    Some(closed.saturating_sub(state.time - last.at))
}

/// The level, the duty or the latest load, and the wait that it asks for.
fn control(state: &State) -> String {
    if !state.live {
        return "no gate".to_string();
    }
    let by = match state.profile {
        3 => percent(state.duty, 1_000_000_000, 3),
        4 => percent(state.latest, 1_000_000, 2),
        _ => format!("L{}", state.level),
    };
    let by = by.replace(' ', "");
    match wait(state) {
        Some(wait) => format!("{by} {}", in_ms(u64::from(wait))),
        None => by,
    }
}

/// The wait that the state asks for; by duty or load that needs a packet that
/// was sent.
pub fn wait(state: &State) -> Option<u32> {
    let known = state.any || matches!(state.profile, 1 | 2);
    state.wait(state.ontime).filter(|_| known)
}
