//! What ends a command before its time, and the exit status that says so.

use std::io::{self, Write};
use std::path::Path;
use std::process::ExitCode;

/// Why a command failed.
#[derive(Debug)]
pub enum Fault {
    /// Exit status 1: the log and its answers were read, and a guarantee was
    /// not kept or an answer is wrong. All was said already.
    NotKept,
    /// Exit status 2: bad input, bad usage, a file that can't be read.
    Bad(String),
    /// Whoever read our output has had enough of it. That is no failure.
    NoReader,
}

impl Fault {
    /// Bad input, in words.
    pub fn bad(text: impl Into<String>) -> Fault {
        Fault::Bad(text.into())
    }

    /// A file that can't be read.
    pub fn reading(name: &str, error: &io::Error) -> Fault {
        Fault::Bad(format!("{name}: {}", plainly(name, error)))
    }

    /// A file that can't be written.
    pub fn writing(name: &str, error: &io::Error) -> Fault {
        if error.kind() == io::ErrorKind::BrokenPipe {
            return Fault::NoReader;
        }
        Fault::Bad(format!("{name}: {}", plainly(name, error)))
    }

    /// Says the fault on standard error, and gives the exit status.
    pub fn report(&self) -> ExitCode {
        match self {
            Fault::NotKept => ExitCode::from(1),
            Fault::NoReader => ExitCode::SUCCESS,
            Fault::Bad(text) => {
                tell(text);
                ExitCode::from(2)
            }
        }
    }
}

/// Says a text on standard error, in one line.
pub fn tell(text: &str) {
    let line = format!("curlew: {}\n", one_line(text));
    let _ = io::stderr().write_all(line.as_bytes()); // nobody is left to be told
}

/// An error in words, without the system's number.
fn plainly(name: &str, error: &io::Error) -> String {
    let folder = Path::new(name).parent().unwrap_or(Path::new(""));
    let in_a_folder = !folder.as_os_str().is_empty();
    match error.kind() {
        io::ErrorKind::NotFound if in_a_folder && !folder.exists() => {
            format!("there is no such folder, {}", folder.display())
        }
        io::ErrorKind::NotFound => "there is no such file".to_string(),
        io::ErrorKind::PermissionDenied => "it may not be opened".to_string(),
        _ => {
            let text = error.to_string();
            let words = text.split(" (os error").next().unwrap_or_default();
            words.to_lowercase()
        }
    }
}

/// A text on one line, whatever a file is named.
fn one_line(text: &str) -> String {
    let mut line = String::new();
    for c in text.chars() {
        if c.is_control() {
            line.extend(c.escape_default());
        } else {
            line.push(c);
        }
    }
    line
}
