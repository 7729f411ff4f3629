//! JSON, written piece by piece: no more of it is held than how deep it is.

use crate::fault::Fault;
use crate::output::Output;

/// What was opened last, and whether something is in it already.
struct Level {
    end: char,
    any: bool,
}

/// JSON on its way to an output: one value, a line for each that stands in the
/// outermost lists.
pub struct Json {
    output: Output,
    levels: Vec<Level>,
}

impl Json {
    /// Begins with nothing written.
    pub fn new(output: Output) -> Json {
        Json {
            output,
            levels: Vec::new(),
        }
    }

    /// Opens an object, in a list or under a name.
    pub fn object(&mut self, name: &str) -> Result<(), Fault> {
        self.key(name)?;
        write!(self.output, "{{")?;
        self.levels.push(Level {
            end: '}',
            any: false,
        });
        Ok(())
    }

    /// Opens a list under a name.
    pub fn list(&mut self, name: &str) -> Result<(), Fault> {
        self.key(name)?;
        write!(self.output, "[")?;
        self.levels.push(Level {
            end: ']',
            any: false,
        });
        Ok(())
    }

    /// Closes what was opened last.
    pub fn close(&mut self) -> Result<(), Fault> {
        match self.levels.pop() {
            Some(level) => write!(self.output, "{}", level.end),
            None => Ok(()),
        }
    }

    /// A whole number.
    pub fn number(&mut self, name: &str, number: impl Into<i128>) -> Result<(), Fault> {
        self.key(name)?;
        write!(self.output, "{}", number.into())
    }

    /// A whole number, or null if it is not known or there is none.
    pub fn maybe(&mut self, name: &str, number: Option<u64>) -> Result<(), Fault> {
        match number {
            Some(number) => self.number(name, number),
            None => self.null(name),
        }
    }

    /// Nothing.
    pub fn null(&mut self, name: &str) -> Result<(), Fault> {
        self.key(name)?;
        write!(self.output, "null")
    }

    /// Yes or no.
    pub fn truth(&mut self, name: &str, truth: bool) -> Result<(), Fault> {
        self.key(name)?;
        write!(self.output, "{truth}")
    }

    /// A text.
    pub fn text(&mut self, name: &str, text: &str) -> Result<(), Fault> {
        self.key(name)?;
        write!(self.output, "{}", quoted(text))
    }

    /// The value is whole: a newline ends it.
    pub fn done(mut self) -> Result<(), Fault> {
        writeln!(self.output)?;
        self.output.done()
    }

    /// The comma before a value that is not the first, and its name; in a list
    /// the name is left empty. A value of the outermost two levels has its line.
    fn key(&mut self, name: &str) -> Result<(), Fault> {
        let depth = self.levels.len();
        let Some(level) = self.levels.last_mut() else {
            return Ok(());
        };
        if level.any {
            write!(self.output, ",")?;
        }
        level.any = true;
        if depth <= 2 && (depth == 1 || level.end == ']') {
            write!(self.output, "\n{}", " ".repeat(2 * depth))?;
        }
        if name.is_empty() {
            return Ok(());
        }
        write!(self.output, "{}:", quoted(name))
    }
}

/// A text between quotation marks.
fn quoted(text: &str) -> String {
    let mut quoted = "\"".to_string();
    for c in text.chars() {
        match c {
            '"' => quoted += "\\\"",
            '\\' => quoted += "\\\\",
            '\n' => quoted += "\\n",
            '\r' => quoted += "\\r",
            '\t' => quoted += "\\t",
            c if c.is_control() => quoted += &format!("\\u{:04x}", u32::from(c)),
            c => quoted.push(c),
        }
    }
    quoted.push('"');
    quoted
}

#[cfg(test)]
mod tests {
    use super::*;

    #[test]
    fn texts_are_quoted() {
        assert_eq!(quoted("a \"b\" \\ µ"), r#""a \"b\" \\ µ""#);
        assert_eq!(quoted("\n\r\t\u{1}\u{7f}"), r#""\n\r\t\u0001\u007f""#);
    }
}
