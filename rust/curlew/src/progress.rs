//! How far a long input has been read, on standard error.

use std::io::{self, IsTerminal, Write};
use std::time::{Duration, Instant};

use crate::text::grouped;

/// Records between two looks at the clock.
const LOOK_EVERY: u64 = 1 << 16;

/// Tells how far a command is, once it has run for a while.
pub struct Progress {
    doing: &'static str,
    whole: Option<u64>,
    every: Duration,
    last: Instant,
    told: bool,
    overwrite: bool,
}

impl Progress {
    /// Progress through a whole of so many records, if that is known. On a
    /// terminal one line is written over and over, else a line now and then.
    pub fn new(doing: &'static str, whole: Option<u64>) -> Progress {
        let overwrite = io::stderr().is_terminal();
        let every = Duration::from_secs(if overwrite { 1 } else { 5 });
        Progress {
            doing,
            whole,
            every,
            last: Instant::now(),
            told: false,
            overwrite,
        }
    }

    /// So many records have been read.
    pub fn at(&mut self, records: u64) {
        if records % LOOK_EVERY == 0 && self.last.elapsed() >= self.every {
            self.last = Instant::now();
            self.told = true;
            self.write(&self.line(records));
        }
    }

    /// The line for so many records.
    fn line(&self, records: u64) -> String {
        let doing = self.doing;
        match self.whole {
            Some(whole) if whole > 0 => {
                let part = u128::from(records) * 100 / u128::from(whole);
                let (records, whole) = (grouped(records), grouped(whole));
                format!("curlew: {doing}: {records} of {whole} records, {part} %")
            }
            _ => format!("curlew: {doing}: {} records", grouped(records)),
        }
    }

    /// A line on standard error; if that can't be written, so be it.
    fn write(&self, line: &str) {
        let mut output = io::stderr().lock();
        let _ = if self.overwrite {
            write!(output, "\r{line} ")
        } else {
            writeln!(output, "{line}")
        };
    }
}

impl Drop for Progress {
    fn drop(&mut self) {
        if self.told && self.overwrite {
            let _ = writeln!(io::stderr()); // as above
        }
    }
}

#[cfg(test)]
mod tests {
    use super::*;

    #[test]
    fn the_line_says_how_far() {
        let mut progress = Progress::new("check", Some(10_000_000));
        let line = progress.line(2_500_000);
        assert_eq!(line, "curlew: check: 2,500,000 of 10,000,000 records, 25 %");
        progress.whole = None;
        assert_eq!(progress.line(7), "curlew: check: 7 records");
    }

    #[test]
    fn it_tells_only_after_a_while() {
        let mut progress = Progress::new("check", None);
        progress.at(LOOK_EVERY);
        assert!(!progress.told);
        progress.every = Duration::ZERO;
        progress.at(LOOK_EVERY + 1);
        assert!(!progress.told);
        progress.at(2 * LOOK_EVERY);
        assert!(progress.told);
    }
}
