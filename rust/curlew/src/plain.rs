//! The plain text form of a log: one call a line. `curlew write` turns it into
//! records, and `curlew show --plain` turns records back into it.

use std::io::{self, BufRead};

use reference::log::{Record, RECORD_BYTES};
use reference::rules::{NEW_WAY, OLD_WAY, PROBES};

use crate::fault::Fault;
use crate::output::Output;
use crate::progress::Progress;
use crate::stream::{open, shown_name};
use crate::text::quoted;

/// What `curlew write` was asked for.
pub struct WriteWish {
    /// The plain text; "-" is standard input.
    pub input: String,
    /// Where the records go; "-" is standard output.
    pub output: String,
}

/// The word for a make in the new way: a full queue drops its oldest.
const DROPS: &str = "drop-oldest";
/// The word for a make in the old way: a full queue refuses the new one.
const KEEPS: &str = "keep-oldest";
/// The word before the number of any other way, which the gate refuses.
const WAY: &str = "way";

/// The word before the number of a sample's probes; without it they are 1,000.
const OF: &str = "of";

/// The longest line that is read.
const LONGEST_LINE: u64 = 4_096;

/// Writes the records of a plain text. A file comes to be only as a whole: a
/// text with an error leaves what was there.
pub fn write(wish: &WriteWish) -> Result<(), Fault> {
    let mut input = open(&wish.input)?;
    let mut output = Output::open(&wish.output, &[&wish.input])?;
    records(&mut input, &shown_name(&wish.input), &mut output)?;
    output.done()
}

/// Writes the records of a plain text.
fn records(input: &mut dyn BufRead, name: &str, output: &mut Output) -> Result<(), Fault> {
    let mut reader = Reader::default();
    let mut progress = Progress::new("write", None);
    let mut bytes = Vec::new();
    let mut written = 0;
    for number in 1u64.. {
        bytes.clear();
        let mut part = io::Read::take(&mut *input, LONGEST_LINE);
        let got = part.read_until(b'\n', &mut bytes);
        let got = got.map_err(|error| Fault::reading(name, &error))?;
        if got == 0 {
            break;
        }
        let read = line_text(&bytes, number).and_then(|text| reader.line(text));
        match read {
            Ok(Some(part)) => {
                output.put(&part)?;
                written += 1;
                progress.at(written);
            }
            Ok(None) => {}
            Err(text) => return Err(Fault::bad(format!("{name}, line {number}: {text}"))),
        }
    }
    Ok(())
}

/// The text of a line; of the first without the mark that some editors put there.
fn line_text(bytes: &[u8], number: u64) -> Result<&str, String> {
    if bytes.len() as u64 == LONGEST_LINE && !bytes.ends_with(b"\n") {
        return Err(format!("the line is longer than {LONGEST_LINE} bytes"));
    }
    let text = std::str::from_utf8(bytes).map_err(|_| format!("{} is no text", quoted(bytes)))?;
    match number {
        1 => Ok(text.strip_prefix('\u{FEFF}').unwrap_or(text)),
        _ => Ok(text),
    }
}

/// Reads line by line, for a stamp may be told by the one before it.
#[derive(Default)]
pub struct Reader {
    stamp: Option<u32>,
    torn: bool,
}

/// The words of one line that are still to be read.
struct Words<'a> {
    words: std::str::SplitWhitespace<'a>,
}

impl Reader {
    /// The bytes of a line: a record, a tail, or nothing.
    pub fn line(&mut self, line: &str) -> Result<Option<Vec<u8>>, String> {
        let text = line.split('#').next().unwrap_or_default();
        let mut words = Words {
            words: text.split_whitespace(),
        };
        let Some(first) = words.words.next() else {
            return Ok(None);
        };
        if self.torn {
            return Err("nothing may come after a tail".to_string());
        }
        let record = match first {
            "make" => self.make(&mut words)?,
            "sample" => self.sample(&mut words)?,
            "offer" => self.offer(&mut words)?,
            "poll" => self.poll(&mut words)?,
            "raw" => Record::from_bytes(&words.raw()?),
            "tail" => {
                self.torn = true;
                return words.tail().map(Some);
            }
            other => {
                return Err(format!(
                "'{other}' is no call; a line starts with make, sample, offer, poll, raw or tail"
            ))
            }
        };
        words.end()?;
        self.stamp = Some(record.stamp);
        Ok(Some(record.to_bytes().to_vec()))
    }

    /// A make: its profile, the way if it is told, and its stamp.
    fn make(&self, words: &mut Words) -> Result<Record, String> {
        let priority = words.small("the profile")?;
        let lifetime = words.way()?;
        let stamp = self.at(words)?;
        Ok(Record {
            kind: 0,
            priority,
            lifetime,
            stamp,
            ..Record::default()
        })
    }

    /// A sample: its busy count, its probes if they are told, and its stamp.
    fn sample(&self, words: &mut Words) -> Result<Record, String> {
        let id = words.number("the busy count")?;
        let lifetime = words.probes()?;
        let stamp = self.at(words)?;
        Ok(Record {
            kind: 1,
            lifetime,
            id,
            stamp,
            ..Record::default()
        })
    }

    fn poll(&self, words: &mut Words) -> Result<Record, String> {
        let stamp = self.at(words)?;
        Ok(Record {
            kind: 3,
            stamp,
            ..Record::default()
        })
    }

    /// An offer; what comes after the identifier may come in any order.
    fn offer(&self, words: &mut Words) -> Result<Record, String> {
        let id = words.number("the identifier")?;
        let (mut priority, mut ontime, mut lifetime, mut stamp) = (None, None, None, None);
        while let Some(word) = words.words.next() {
            let again = match word {
                "priority" => priority.replace(words.small("the priority")?).is_some(),
                "ontime" => ontime.replace(words.time("the on-time")?).is_some(),
                "lifetime" => lifetime.replace(words.time("the lifetime")?).is_some(),
                "at" => stamp.replace(self.stamp(words)?).is_some(),
                other => {
                    return Err(format!(
                        "'{other}' is out of place; an offer has priority, ontime, lifetime and at"
                    ))
                }
            };
            if again {
                return Err(format!("'{word}' is there twice"));
            }
        }
        let missing = |word: &str| format!("'{word}' and its number are missing");
        let ontime = ontime.ok_or_else(|| missing("ontime"))?;
        Ok(Record {
            kind: 2,
            priority: priority.ok_or_else(|| missing("priority"))?,
            ontime: fit(ontime, u64::from(u16::MAX), "the on-time")? as u16,
            lifetime: fit(
                lifetime.ok_or_else(|| missing("lifetime"))?,
                u64::from(u32::MAX),
                "the lifetime",
            )? as u32,
            id,
            stamp: stamp.ok_or_else(|| missing("at"))?,
        })
    }

    /// "at" and a stamp.
    fn at(&self, words: &mut Words) -> Result<u32, String> {
        match words.words.next() {
            Some("at") => self.stamp(words),
            Some(other) => Err(format!("'{other}' where 'at' is due")),
            None => Err("'at' and its stamp are missing".to_string()),
        }
    }

    /// A stamp: a number, or + or - and a time from the stamp before.
    fn stamp(&self, words: &mut Words) -> Result<u32, String> {
        let word = words.word("the stamp")?;
        let forward = word.strip_prefix('+');
        let Some(step) = forward.or_else(|| word.strip_prefix('-')) else {
            let stamp = time_of(word).ok_or_else(|| no_number(word, "the stamp"))?;
            return Ok(fit(stamp, u64::from(u32::MAX), "the stamp")? as u32);
        };
        let Some(before) = self.stamp else {
            return Err(format!(
                "'{word}' needs a stamp before it, and there is none"
            ));
        };
        let step = time_of(step).ok_or_else(|| no_number(word, "the stamp"))?;
        let step = fit(step, u64::from(u32::MAX), "the step")? as u32;
        Ok(match forward {
            Some(_) => before.wrapping_add(step),
            None => before.wrapping_sub(step),
        })
    }
}

impl<'a> Words<'a> {
    fn word(&mut self, what: &str) -> Result<&'a str, String> {
        self.words
            .next()
            .ok_or_else(|| format!("{what} is missing"))
    }

    /// A number of 32 bits.
    fn number(&mut self, what: &str) -> Result<u32, String> {
        let word = self.word(what)?;
        let number = number_of(word).ok_or_else(|| no_number(word, what))?;
        Ok(fit(number, u64::from(u32::MAX), what)? as u32)
    }

    /// A number of 8 bits.
    fn small(&mut self, what: &str) -> Result<u8, String> {
        let word = self.word(what)?;
        let number = number_of(word).ok_or_else(|| no_number(word, what))?;
        Ok(fit(number, u64::from(u8::MAX), what)? as u8)
    }

    /// The way of a make, if it is told; a full queue drops its oldest else.
    fn way(&mut self) -> Result<u32, String> {
        let mut ahead = self.words.clone();
        let way = match ahead.next() {
            Some(DROPS) => NEW_WAY,
            Some(KEEPS) => OLD_WAY,
            Some(WAY) => {
                self.words = ahead;
                return self.number("the way");
            }
            _ => return Ok(NEW_WAY),
        };
        self.words = ahead;
        Ok(way)
    }

    /// The field of a sample's probes, in which 0 means 1,000; so no field says
    /// that there were none.
    fn probes(&mut self) -> Result<u32, String> {
        let mut ahead = self.words.clone();
        if ahead.next() != Some(OF) {
            return Ok(0);
        }
        self.words = ahead;
        match self.number("the probe count")? {
            0 => Err("no record says 0 probes: its 0 means 1,000".to_string()),
            PROBES => Ok(0),
            other => Ok(other),
        }
    }

    /// A time, with or without a unit.
    fn time(&mut self, what: &str) -> Result<u64, String> {
        let word = self.word(what)?;
        time_of(word).ok_or_else(|| no_number(word, what))
    }

    /// Bytes in hexadecimal, to the end of the line.
    fn bytes(&mut self) -> Result<Vec<u8>, String> {
        let mut bytes = Vec::new();
        for word in self.words.by_ref() {
            let two = word.len() == 2 && word.bytes().all(|byte| byte.is_ascii_hexdigit());
            match u8::from_str_radix(word, 16) {
                Ok(byte) if two => bytes.push(byte),
                _ => return Err(format!("'{word}' is no byte; a byte is 00 to ff")),
            }
        }
        Ok(bytes)
    }

    fn raw(&mut self) -> Result<[u8; RECORD_BYTES], String> {
        let bytes = self.bytes()?;
        let got = bytes.len();
        bytes
            .try_into()
            .map_err(|_| format!("a raw record has 16 bytes, here are {got}"))
    }

    fn tail(&mut self) -> Result<Vec<u8>, String> {
        let bytes = self.bytes()?;
        match bytes.len() {
            1..=15 => Ok(bytes),
            got => Err(format!("a tail has 1 to 15 bytes, here are {got}")),
        }
    }

    fn end(&mut self) -> Result<(), String> {
        match self.words.next() {
            None => Ok(()),
            Some(word) => Err(format!("'{word}' is one word too many")),
        }
    }
}

/// A decimal number; _ may stand between digits.
fn number_of(word: &str) -> Option<u64> {
    let first = word.starts_with(|c: char| c.is_ascii_digit());
    let good = word.bytes().all(|b| b.is_ascii_digit() || b == b'_');
    if !first || !good {
        return None;
    }
    let digits: String = word.chars().filter(|c| *c != '_').collect();
    Some(digits.parse().unwrap_or(u64::MAX)) // too long for 64 bits is too large for any field
}

/// A time in µs: a number, or one with us, µs, ms, s, min or h after it, and
/// then with digits after a point as well, as long as it is whole µs.
pub fn time_of(word: &str) -> Option<u64> {
    let end = word.find(|c: char| !matches!(c, '0'..='9' | '_' | '.'));
    let (digits, unit) = word.split_at(end.unwrap_or(word.len()));
    let unit = match unit {
        "" | "us" | "µs" | "μs" => 1,
        "ms" => 1_000,
        "s" => 1_000_000,
        "min" => 60_000_000,
        "h" => 3_600_000_000,
        _ => return None,
    };
    let Some((whole, part)) = digits.split_once('.') else {
        return Some(number_of(digits)?.saturating_mul(unit));
    };
    let part = part_of(part, unit)?;
    Some(number_of(whole)?.saturating_mul(unit).saturating_add(part))
}

/// So many parts of a unit, told by the digits after the point; none if that is
/// no whole number of µs.
fn part_of(digits: &str, unit: u64) -> Option<u64> {
    let number = number_of(digits)?;
    let places = digits.bytes().filter(|b| b.is_ascii_digit()).count();
    let whole = 10u64.checked_pow(u32::try_from(places).ok()?)?;
    let parts = u128::from(number) * u128::from(unit);
    let whole = u128::from(whole);
    (parts % whole == 0).then_some((parts / whole) as u64) // below the unit
}

fn no_number(word: &str, what: &str) -> String {
    format!("'{word}' is no number for {what}")
}

/// The number, if the record has room for it.
fn fit(number: u64, most: u64, what: &str) -> Result<u64, String> {
    if number <= most {
        Ok(number)
    } else {
        Err(format!("{what} is too large for a record: at most {most}"))
    }
}

/// A record in the plain form, its stamp told in full. A record that the words
/// can't say, as one with an ignored field that is not zero, is told raw.
pub fn line(record: &Record) -> String {
    let text = call(record);
    let back = Reader::default().line(&text);
    if back == Ok(Some(record.to_bytes().to_vec())) {
        text
    } else {
        format!("raw {}", hex(&record.to_bytes()))
    }
}

/// The call of a record in the plain form; what the gate ignores is left out.
pub fn call(record: &Record) -> String {
    let Record {
        kind,
        priority,
        ontime,
        lifetime,
        id,
        stamp,
    } = record;
    match kind {
        0 => format!("make {priority}{} at {stamp}", way(*lifetime)),
        1 => format!("sample {id}{} at {stamp}", probes(record)),
        2 => {
            format!("offer {id} priority {priority} ontime {ontime} lifetime {lifetime} at {stamp}")
        }
        3 => format!("poll at {stamp}"),
        _ => format!("raw {}", hex(&record.to_bytes())),
    }
}

/// The words for the way of a make; there are none for the default.
pub fn way(number: u32) -> String {
    match number {
        NEW_WAY => String::new(),
        OLD_WAY => format!(" {KEEPS}"),
        other => format!(" {WAY} {other}"),
    }
}

/// The way of a make as a word, the default too.
pub fn way_name(number: u32) -> String {
    match number {
        NEW_WAY => DROPS.to_string(),
        OLD_WAY => KEEPS.to_string(),
        other => format!("{WAY} {other}"),
    }
}

/// The words for the probes of a sample; there are none for 1,000.
fn probes(record: &Record) -> String {
    match record.probes() {
        PROBES => String::new(),
        other => format!(" {OF} {other}"),
    }
}

/// Bytes in hexadecimal with blanks between.
pub fn hex(bytes: &[u8]) -> String {
    let each: Vec<String> = bytes.iter().map(|byte| format!("{byte:02x}")).collect();
    each.join(" ")
}

#[cfg(test)]
mod tests {
    use super::*;
    use reference::rng::Rng;

    fn record_of(line: &str) -> Record {
        let bytes = Reader::default().line(line).unwrap().unwrap();
        Record::from_bytes(&bytes.try_into().unwrap())
    }

    #[test]
    fn each_call_is_read() {
        let read = record_of("offer 7 priority 2 ontime 400 lifetime 1_000_000 at 4294967100");
        let offer = Record {
            kind: 2,
            priority: 2,
            ontime: 400,
            lifetime: 1_000_000,
            id: 7,
            stamp: 4_294_967_100,
        };
        assert_eq!(read, offer);
        let other =
            record_of("offer 7 at 4294967100 lifetime 1s ontime 400us priority 2 # warning");
        assert_eq!(other, offer);
        assert_eq!(line(&record_of("make 2 at 5ms")), "make 2 at 5000");
        assert_eq!(line(&record_of("  poll   at 7")), "poll at 7");
        assert_eq!(line(&record_of("sample 600 at 0")), "sample 600 at 0");
    }

    #[test]
    fn a_make_tells_its_way() {
        for (text, lifetime, plain) in [
            ("make 2 at 5", 0, "make 2 at 5"),
            ("make 2 drop-oldest at 5", 0, "make 2 at 5"),
            ("make 2 way 0 at 5", 0, "make 2 at 5"),
            ("make 2 keep-oldest at 5", 1, "make 2 keep-oldest at 5"),
            ("make 2 way 1 at 5", 1, "make 2 keep-oldest at 5"),
            ("make 2 way 7 at 5", 7, "make 2 way 7 at 5"),
        ] {
            let read = record_of(text);
            let make = Record {
                priority: 2,
                lifetime,
                stamp: 5,
                ..Record::default()
            };
            assert_eq!(read, make, "{text}");
            assert_eq!(line(&read), plain);
        }
    }

    #[test]
    fn a_sample_tells_its_probes() {
        for (text, lifetime, plain) in [
            ("sample 620 at 5", 0, "sample 620 at 5"),
            ("sample 620 of 1_000 at 5", 0, "sample 620 at 5"),
            (
                "sample 620 of 12_500 at 5",
                12_500,
                "sample 620 of 12500 at 5",
            ),
            ("sample 620 of 1 at 5", 1, "sample 620 of 1 at 5"),
        ] {
            let read = record_of(text);
            let sample = Record {
                kind: 1,
                lifetime,
                id: 620,
                stamp: 5,
                ..Record::default()
            };
            assert_eq!(read, sample, "{text}");
            assert_eq!(line(&read), plain);
        }
        // A field that says 1,000 reads alike, and is not what the words write.
        let says = Record {
            kind: 1,
            lifetime: 1_000,
            id: 620,
            ..Record::default()
        };
        assert_eq!(call(&says), "sample 620 at 0");
        assert!(line(&says).starts_with("raw 01 "), "{}", line(&says));
    }

    #[test]
    fn a_stamp_may_follow_the_one_before() {
        let mut reader = Reader::default();
        let mut stamp = |line: &str| {
            let bytes = reader.line(line).unwrap().unwrap();
            Record::from_bytes(&bytes.try_into().unwrap()).stamp
        };
        assert_eq!(stamp("make 1 at 4294967000"), 4_294_967_000);
        assert_eq!(stamp("poll at +1000"), 704);
        assert_eq!(stamp("poll at -1000"), 4_294_967_000);
        assert_eq!(stamp("poll at +10ms"), 9_704);
    }

    #[test]
    fn times_have_units() {
        for (text, time) in [
            ("400", 400),
            ("400us", 400),
            ("400µs", 400),
            ("400\u{3bc}s", 400), // the Greek letter, which some keyboards give
            ("1.5ms", 1_500),
            ("1.5s", 1_500_000),
            ("0.000001s", 1),
            ("1.50_0s", 1_500_000),
            ("1_000ms", 1_000_000),
            ("2min", 120_000_000),
            ("0.5h", 1_800_000_000),
            ("1h", 3_600_000_000),
            ("99999999999999999999h", u64::MAX),
        ] {
            assert_eq!(time_of(text), Some(time), "{text}");
        }
        for text in [
            "",
            "s",
            "µs",
            ".5s",
            "5.s",
            "1.2.3s",
            "1.5",
            "1.5µs",
            "0.0000001s",
            "1e3",
            "1 s",
            "-1s",
            "+1s",
            "_1s",
            "1.5d",
            "1.5S",
            "1,5s",
            "0x1",
            "1.00000000000000000000s",
        ] {
            assert_eq!(time_of(text), None, "{text}");
        }
    }

    #[test]
    fn blank_lines_and_comments_are_nothing() {
        for text in ["", "  ", "# make 1 at 0", "\t#", "\n", "\r\n"] {
            assert_eq!(Reader::default().line(text), Ok(None));
        }
    }

    #[test]
    fn errors_say_what_is_wrong() {
        let cases = [
            ("makes 1 at 0", "'makes' is no call"),
            ("make", "the profile is missing"),
            ("make x at 0", "'x' is no number for the profile"),
            (
                "make 256 at 0",
                "the profile is too large for a record: at most 255",
            ),
            ("make 1", "'at' and its stamp are missing"),
            ("make 1 on 0", "'on' where 'at' is due"),
            ("make 1 at", "the stamp is missing"),
            ("make 1 at 4294967296", "the stamp is too large"),
            (
                "make 1 at 99999999999999999999999",
                "the stamp is too large",
            ),
            ("make 1 at 0 0", "'0' is one word too many"),
            ("make 1 at +5", "'+5' needs a stamp before it"),
            ("make 1 at 5d", "'5d' is no number for the stamp"),
            ("make 1 at 2h", "the stamp is too large"),
            ("make 1 at 1.5", "'1.5' is no number for the stamp"),
            ("make 1 at 1.s", "'1.s' is no number for the stamp"),
            ("make 1 drop-oldest", "'at' and its stamp are missing"),
            ("make 1 oldest at 0", "'oldest' where 'at' is due"),
            (
                "make 1 keep-oldest keep-oldest at 0",
                "'keep-oldest' where 'at' is due",
            ),
            ("make keep-oldest at 0", "'keep-oldest' is no number"),
            ("make 1 way at 0", "'at' is no number for the way"),
            ("make 1 way 4294967296 at 0", "the way is too large"),
            ("sample 5 of 0 at 0", "no record says 0 probes"),
            ("sample 5 of at 0", "'at' is no number for the probe count"),
            ("sample 5 of 9 of 9 at 0", "'of' where 'at' is due"),
            (
                "sample 5 of 4294967296 at 0",
                "the probe count is too large",
            ),
            ("poll 5", "'5' where 'at' is due"),
            (
                "offer 7 priority 1 ontime 1 at 0",
                "'lifetime' and its number are missing",
            ),
            ("offer 7 priority 1 priority 1", "'priority' is there twice"),
            ("offer 7 size 9", "'size' is out of place"),
            (
                "offer 7 priority 0 ontime 65536 lifetime 1 at 0",
                "the on-time is too large",
            ),
            (
                "offer -7 priority 0 ontime 1 lifetime 1 at 0",
                "'-7' is no number for the identifier",
            ),
            ("raw 00 11", "a raw record has 16 bytes, here are 2"),
            ("tail", "a tail has 1 to 15 bytes, here are 0"),
            ("tail 0x", "'0x' is no byte"),
            ("tail +1", "'+1' is no byte"),
        ];
        for (text, wanted) in cases {
            let said = Reader::default().line(text).unwrap_err();
            assert!(said.contains(wanted), "{text}: {said}");
        }
    }

    #[test]
    fn nothing_comes_after_a_tail() {
        let mut reader = Reader::default();
        assert_eq!(reader.line("tail 03 00"), Ok(Some(vec![3, 0])));
        assert_eq!(reader.line("# still good"), Ok(None));
        assert!(reader.line("poll at 0").is_err());
    }

    #[test]
    fn any_record_goes_to_text_and_back() {
        let mut rng = Rng::new(16);
        for round in 0..20_000 {
            let mut bytes = [0; RECORD_BYTES];
            for byte in &mut bytes {
                *byte = rng.below(256) as u8;
            }
            bytes[0] = rng.below(6) as u8;
            let mut record = Record::from_bytes(&bytes);
            if round % 2 == 0 && record.kind != 2 {
                record = Record {
                    kind: record.kind,
                    stamp: record.stamp,
                    ..Record::default()
                };
            }
            assert_eq!(record_of(&line(&record)), record);
        }
    }
}
