//! Records and answers, read one at a time.

use std::fs::{self, File, FileType};
use std::io::{self, BufRead, BufReader, Read};
use std::os::fd::AsFd;
use std::os::unix::fs::FileTypeExt;

use reference::gate::Answer;
use reference::log::{Record, RECORD_BYTES};

use crate::fault::Fault;
use crate::output::place;
use crate::text::{count, grouped, quoted};

/// Bytes read at a time.
const BLOCK: usize = 1 << 18;
/// No answer's line is longer than this.
const LONGEST_LINE: usize = 40;

/// The name that stands for standard input or output.
pub const STANDARD: &str = "-";

/// A file, or standard input for "-".
pub fn open(name: &str) -> Result<Box<dyn BufRead>, Fault> {
    if name == STANDARD {
        return Ok(Box::new(BufReader::with_capacity(
            BLOCK,
            io::stdin().lock(),
        )));
    }
    let file = File::open(name).map_err(|error| Fault::reading(name, &error))?;
    let folder = file.metadata().is_ok_and(|data| data.is_dir());
    if folder {
        return Err(Fault::bad(format!("{name}: it is a folder")));
    }
    Ok(Box::new(BufReader::with_capacity(BLOCK, file)))
}

/// The number of whole records in a file, if it is a plain file.
pub fn whole(name: &str) -> Option<u64> {
    let data = std::fs::metadata(name).ok().filter(|data| data.is_file())?;
    Some(data.len() / RECORD_BYTES as u64)
}

/// Refuses two inputs that are one pipe: each would get a part of what comes.
pub fn refuse_one_pipe(log: &str, answers: &str) -> Result<(), Fault> {
    let pipe = kind(log).is_some_and(|kind| kind.is_fifo() || kind.is_socket());
    if pipe && place(log) == place(answers) {
        let (log, answers) = (shown_name(log), shown_name(answers));
        return Err(Fault::bad(format!(
            "{log} and {answers} are one pipe: LOG and ANSWERS must come from two places"
        )));
    }
    Ok(())
}

/// Refuses an input that can't be read twice, for a command that does so.
pub fn refuse_streams(doing: &str, inputs: &[&str]) -> Result<(), Fault> {
    match inputs.iter().find(|input| !rereadable(input)) {
        None => Ok(()),
        Some(input) => Err(Fault::bad(format!(
            "{}: {doing} reads its input twice, and this can be read only once; write it to a file first",
            shown_name(input)
        ))),
    }
}

/// Whether a second reading gives the same; where nothing is, opening it says so.
fn rereadable(name: &str) -> bool {
    let kind = kind(name);
    name != STANDARD && kind.is_none_or(|kind| kind.is_file() || kind.is_dir())
}

/// What kind of thing an input is.
fn kind(name: &str) -> Option<FileType> {
    if name == STANDARD {
        let input = io::stdin().as_fd().try_clone_to_owned().ok()?;
        return Some(File::from(input).metadata().ok()?.file_type());
    }
    Some(fs::metadata(name).ok()?.file_type())
}

/// The records of a log.
pub struct Records {
    name: String,
    input: Box<dyn BufRead>,
}

/// What comes next in a log.
pub enum Next {
    /// A record.
    Record(Record),
    /// The end, with the 0 to 15 bytes left over.
    End(Vec<u8>),
}

impl Records {
    /// The records of a file, or of standard input for "-".
    pub fn open(name: &str) -> Result<Records, Fault> {
        let input = open(name)?;
        let name = shown_name(name);
        Ok(Records { name, input })
    }

    /// The next record, or the end.
    pub fn next(&mut self) -> Result<Next, Fault> {
        let mut bytes = [0; RECORD_BYTES];
        let mut got = 0;
        while got < RECORD_BYTES {
            match self.input.read(&mut bytes[got..]) {
                Ok(0) => return Ok(Next::End(bytes[..got].to_vec())),
                Ok(more) => got += more,
                Err(error) if error.kind() == io::ErrorKind::Interrupted => {}
                Err(error) => return Err(Fault::reading(&self.name, &error)),
            }
        }
        Ok(Next::Record(Record::from_bytes(&bytes)))
    }
}

/// An answer as its line says it: of a packet sent, the identifier alone.
#[derive(Clone, Copy, Debug, PartialEq, Eq)]
pub enum Said {
    /// A make gave a fresh state.
    Ready,
    /// An offer or a sample was taken.
    Taken,
    /// A poll sent the packet of this identifier.
    Sent(u32),
    /// A poll found nothing waiting.
    Idle,
    /// A poll found the gate closed for so many µs.
    Closed(u64),
    /// The call was refused with this number.
    Refused(u32),
}

impl Said {
    /// What the line of an answer says.
    pub fn of(answer: &Answer) -> Said {
        match *answer {
            Answer::Ready => Said::Ready,
            Answer::Taken => Said::Taken,
            Answer::Sent(packet) => Said::Sent(packet.id),
            Answer::Idle => Said::Idle,
            Answer::Closed(left) => Said::Closed(left),
            Answer::Refused(number) => Said::Refused(number),
        }
    }

    /// The answer's line.
    pub fn line(&self) -> String {
        match self {
            Said::Ready => "READY".to_string(),
            Said::Taken => "TAKEN".to_string(),
            Said::Sent(id) => format!("SENT {id}"),
            Said::Idle => "IDLE".to_string(),
            Said::Closed(left) => format!("CLOSED {left}"),
            Said::Refused(number) => format!("REFUSED {number}"),
        }
    }
}

/// A line of the program's output.
#[derive(Clone, Copy, Debug, PartialEq, Eq)]
enum Line {
    Answer(Said),
    End,
    Torn,
}

/// The line of some bytes, if it is one that the program writes.
fn line_of(bytes: &[u8]) -> Option<Line> {
    let text = std::str::from_utf8(bytes).ok()?;
    let (word, number) = match text.split_once(' ') {
        Some((word, number)) => (word, Some(number)),
        None => (text, None),
    };
    let said = match (word, number) {
        ("READY", None) => Said::Ready,
        ("TAKEN", None) => Said::Taken,
        ("IDLE", None) => Said::Idle,
        ("SENT", Some(id)) => Said::Sent(decimal(id)?.try_into().ok()?),
        ("CLOSED", Some(left)) => Said::Closed(decimal(left)?),
        ("REFUSED", Some(number)) => Said::Refused(decimal(number)?.try_into().ok()?),
        ("END", None) => return Some(Line::End),
        ("TORN", None) => return Some(Line::Torn),
        _ => return None,
    };
    Some(Line::Answer(said))
}

/// A decimal number without leading zeros.
fn decimal(text: &str) -> Option<u64> {
    let digits = !text.is_empty() && text.bytes().all(|byte| byte.is_ascii_digit());
    let leading = text.len() > 1 && text.starts_with('0');
    if digits && !leading {
        text.parse().ok()
    } else {
        None
    }
}

/// The answers of a program, a line each.
pub struct Answers {
    name: String,
    input: Box<dyn BufRead>,
    line: u64,
    bytes: Vec<u8>,
}

impl Answers {
    /// The answers in a file, or on standard input for "-".
    pub fn open(name: &str) -> Result<Answers, Fault> {
        let input = open(name)?;
        let name = shown_name(name);
        Ok(Answers {
            name,
            input,
            line: 0,
            bytes: Vec::with_capacity(LONGEST_LINE + 1),
        })
    }

    /// The answer to the record of this number.
    pub fn answer(&mut self, record: u64) -> Result<Said, Fault> {
        match self.next_line()? {
            Some(Line::Answer(said)) => Ok(said),
            Some(last) => Err(self.bad(&format!(
                "{} comes too early: the log has a record {}",
                word(last),
                grouped(record)
            ))),
            None => Err(self.bad(&format!(
                "the answers end, but the log has a record {}",
                grouped(record)
            ))),
        }
    }

    /// After the last record: END or TORN, and nothing more.
    pub fn end(&mut self, records: u64, left_over: usize) -> Result<(), Fault> {
        let right = if left_over == 0 {
            Line::End
        } else {
            Line::Torn
        };
        let of_the_log = match left_over {
            0 => format!("the log ends after {}", count(records, "record")),
            some => format!(
                "the log ends with {} after {}",
                count(some as u64, "byte"),
                count(records, "record")
            ),
        };
        match self.next_line()? {
            Some(line) if line == right => {}
            Some(line) => {
                let text = format!("{} where {} is due: {of_the_log}", word(line), word(right));
                return Err(self.bad(&text));
            }
            None => {
                let text = format!("there is no line {}: {of_the_log}", word(right));
                return Err(self.bad(&text));
            }
        }
        let mut more = [0];
        match self.input.read(&mut more) {
            Ok(0) => Ok(()),
            Ok(_) => {
                self.line += 1;
                Err(self.bad(&format!("there is more after {}", word(right))))
            }
            Err(error) => Err(Fault::reading(&self.name, &error)),
        }
    }

    /// The next line; nothing at the end of the input.
    fn next_line(&mut self) -> Result<Option<Line>, Fault> {
        self.line += 1;
        self.bytes.clear();
        let mut part = (&mut self.input).take(LONGEST_LINE as u64 + 1);
        let read = part.read_until(b'\n', &mut self.bytes);
        let bytes = &self.bytes;
        read.map_err(|error| Fault::reading(&self.name, &error))?;
        if bytes.is_empty() {
            return Ok(None);
        }
        if let Some(text) = bytes.strip_suffix(b"\n") {
            return match line_of(text) {
                Some(line) => Ok(Some(line)),
                None => Err(self.bad(&format!("{} is no answer", quoted(text)))),
            };
        }
        if bytes.len() > LONGEST_LINE {
            return Err(self.bad(&format!("{} is no answer", quoted(bytes))));
        }
        Err(self.bad(&format!("{} does not end in a newline", quoted(bytes))))
    }

    /// A fault at the line last read.
    fn bad(&self, text: &str) -> Fault {
        Fault::bad(format!("{}, line {}: {text}", self.name, self.line))
    }
}

/// The word of a line, for a message.
fn word(line: Line) -> String {
    match line {
        Line::Answer(said) => said.line(),
        Line::End => "END".to_string(),
        Line::Torn => "TORN".to_string(),
    }
}

/// The name of an input, for a message.
pub fn shown_name(name: &str) -> String {
    if name == STANDARD {
        "standard input".to_string()
    } else {
        name.to_string()
    }
}

#[cfg(test)]
mod tests {
    use super::*;

    #[test]
    fn the_lines_of_all_answers_are_read_back() {
        let all = [
            Said::Ready,
            Said::Taken,
            Said::Sent(0),
            Said::Sent(u32::MAX),
            Said::Idle,
            Said::Closed(1_000_000),
            Said::Refused(10),
        ];
        for said in all {
            let line = said.line();
            assert_eq!(line_of(line.as_bytes()), Some(Line::Answer(said)));
        }
    }

    #[test]
    fn other_lines_are_none() {
        let bad = [
            "",
            " ",
            "READ",
            "ready",
            "READY ",
            " READY",
            "READY 1",
            "TAKEN\r",
            "SENT",
            "SENT ",
            "SENT 07",
            "SENT +7",
            "SENT -7",
            "SENT 7 ",
            "SENT 4294967296",
            "CLOSED 00",
            "CLOSED 1,000",
            "REFUSED x",
            "END 1",
            "TORN.",
        ];
        for text in bad {
            assert_eq!(line_of(text.as_bytes()), None, "{text:?}");
        }
        assert_eq!(line_of(&[0xFF, 0xFE]), None);
    }
}
