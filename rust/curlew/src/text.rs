//! Numbers, times and words as people read them.

use crate::fault::Fault;
use crate::output::Output;

/// Writes a whole text to standard output.
pub fn say(text: &str) -> Result<(), Fault> {
    let mut output = Output::standard(&[])?;
    output.put(text.as_bytes())?;
    output.done()
}

/// A number with a comma after each three digits: 1,000,000.
pub fn grouped(number: impl Into<i128>) -> String {
    let number = number.into();
    let digits = number.unsigned_abs().to_string();
    let mut text = String::new();
    for (at, digit) in digits.chars().enumerate() {
        if at > 0 && (digits.len() - at) % 3 == 0 {
            text.push(',');
        }
        text.push(digit);
    }
    if number < 0 {
        text.insert(0, '-');
    }
    text
}

/// Seconds with six digits after the point: 1.020000 is 1,020,000 µs.
pub fn seconds(time: u64) -> String {
    format!("{}.{:06}", grouped(time / 1_000_000), time % 1_000_000)
}

/// A moment of a run: in seconds, and from a minute on as h:mm:ss as well.
pub fn moment(time: u64) -> String {
    let text = format!("{} s", seconds(time));
    match time / 1_000_000 {
        0..60 => text,
        whole => format!("{text} ({})", h_mm_ss(whole)),
    }
}

/// A time as h:mm:ss and the µs after the point: 0:00:01.020000.
pub fn clock(time: u64) -> String {
    format!("{}.{:06}", h_mm_ss(time / 1_000_000), time % 1_000_000)
}

/// Whole seconds as h:mm:ss.
fn h_mm_ss(whole: u64) -> String {
    let (hours, rest) = (whole / 3_600, whole % 3_600);
    format!("{hours}:{:02}:{:02}", rest / 60, rest % 60)
}

/// A length of time in ms, as 0.4, 28 and 133.334.
pub fn in_ms(time: u64) -> String {
    shortest_decimal(time, 1_000, (time / 1_000).to_string())
}

/// A length of time in the unit that suits it: 400 µs, 49.2 ms, 1.02 s.
pub fn span(time: u64) -> String {
    let (unit, name) = match time {
        0..=9_999 => return format!("{} µs", grouped(time)),
        10_000..=999_999 => (1_000, "ms"),
        _ => (1_000_000, "s"),
    };
    let text = shortest_decimal(time, unit, grouped(time / unit));
    format!("{text} {name}")
}

/// A whole part, and behind it what is left of the time as digits after the
/// point, without zeros at the end.
fn shortest_decimal(time: u64, unit: u64, whole: String) -> String {
    let digits = format!("{}", unit + time % unit)[1..].to_string();
    match digits.trim_end_matches('0') {
        "" => whole,
        digits => format!("{whole}.{digits}"),
    }
}

/// A length of time as the plain form reads it, with no blank, in the unit in
/// which it is the shortest: 400µs, 4ms, 0.4s.
pub fn plain_span(time: u64) -> String {
    let mut shortest = format!("{time}µs");
    for (unit, name) in [(1_000, "ms"), (1_000_000, "s")] {
        let text = shortest_decimal(time, unit, (time / unit).to_string()) + name;
        if time > 0 && text.chars().count() < shortest.chars().count() {
            shortest = text;
        }
    }
    shortest
}

/// A number in at most five places: as it is, or cut down to k, M and so on.
pub fn five(number: u64) -> String {
    if number < 100_000 {
        return number.to_string();
    }
    let mut unit = 1;
    for name in ["k", "M", "G", "T", "P", "E"] {
        unit *= 1_000;
        let parts = number / (unit / 100); // hundredths of the unit
        match parts {
            0..=999 => return format!("{}.{:02}{name}", parts / 100, parts % 100),
            1_000..=9_999 => return format!("{}.{}{name}", parts / 100, parts % 100 / 10),
            10_000..=99_999 => return format!("{}{name}", parts / 100),
            _ => {}
        }
    }
    "?".to_string() // 1,000 E does not fit into 64 bits
}

/// A text in lines of at most so many characters, broken at blanks, or where a
/// word alone is longer.
pub fn wrapped(text: &str, width: usize) -> Vec<String> {
    let mut lines = vec![];
    let mut line = String::new();
    let mut room = width;
    for word in text.split(' ') {
        let long = word.chars().count();
        if !line.is_empty() && long < room {
            line.push(' ');
            line += word;
            room -= long + 1;
            continue;
        }
        if !line.is_empty() {
            lines.push(std::mem::take(&mut line));
        }
        let chars: Vec<char> = word.chars().collect();
        for part in chars.chunks(width) {
            if !line.is_empty() {
                lines.push(std::mem::take(&mut line));
            }
            line = part.iter().collect();
        }
        room = width - line.chars().count();
    }
    lines.push(line);
    lines
}

/// So many of a thing: 1 packet, 2 packets.
pub fn count(number: u64, one: &str) -> String {
    let end = if number == 1 { "" } else { "s" };
    format!("{} {one}{end}", grouped(number))
}

/// Bytes as text for a message, what can't be printed escaped, cut if long.
pub fn quoted(bytes: &[u8]) -> String {
    let cut = &bytes[..bytes.len().min(40)];
    let dots = if bytes.len() > 40 { ".." } else { "" };
    format!("'{}{dots}'", cut.escape_ascii())
}

/// A load or a duty as a percentage, so many parts to a whole.
pub fn percent(parts: u32, whole: u32, digits: usize) -> String {
    format!("{:.digits$} %", 100.0 * f64::from(parts) / f64::from(whole))
}

#[cfg(test)]
mod tests {
    use super::*;

    #[test]
    fn numbers_are_grouped_by_three() {
        assert_eq!(grouped(0), "0");
        assert_eq!(grouped(999), "999");
        assert_eq!(grouped(1_000), "1,000");
        assert_eq!(grouped(-1_234_567), "-1,234,567");
    }

    #[test]
    fn times_are_told_in_the_unit_that_suits() {
        assert_eq!(span(0), "0 µs");
        assert_eq!(span(9_999), "9,999 µs");
        assert_eq!(span(49_200), "49.2 ms");
        assert_eq!(span(50_000), "50 ms");
        assert_eq!(span(1_020_001), "1.020001 s");
        assert_eq!(span(3_600_000_000), "3,600 s");
        assert_eq!(seconds(1_020_001), "1.020001");
    }

    #[test]
    fn moments_are_told_as_a_clock_does() {
        assert_eq!(moment(59_999_999), "59.999999 s");
        assert_eq!(moment(3_723_000_000), "3,723.000000 s (1:02:03)");
        assert_eq!(clock(0), "0:00:00.000000");
        assert_eq!(clock(1_000_000_000_000_000), "277777:46:40.000000");
        assert_eq!(in_ms(0), "0");
        assert_eq!(in_ms(133_334), "133.334");
        assert_eq!(in_ms(400), "0.4");
        for (time, text) in [
            (0, "0µs"),
            (400, "400µs"),
            (4_000, "4ms"),
            (400_000, "0.4s"),
            (1_500_000, "1.5s"),
            (60_000_000, "60s"),
            (60_000_001, "60000001µs"),
        ] {
            assert_eq!(plain_span(time), text);
            assert_eq!(crate::plain::time_of(text), Some(time));
        }
    }

    #[test]
    fn any_number_has_five_places() {
        for (number, text) in [
            (0, "0"),
            (99_999, "99999"),
            (100_000, "100k"),
            (999_999, "999k"),
            (1_000_000, "1.00M"),
            (12_349_999, "12.3M"),
            (1_000_000_000_000_000, "1.00P"),
            (u64::MAX, "18.4E"),
        ] {
            assert_eq!(five(number), text);
        }
    }

    #[test]
    fn a_text_is_wrapped() {
        assert_eq!(wrapped("", 5), [""]);
        assert_eq!(wrapped("one two", 7), ["one two"]);
        assert_eq!(wrapped("one two", 6), ["one", "two"]);
        assert_eq!(wrapped("a 1234567 b", 3), ["a", "123", "456", "7 b"]);
    }

    #[test]
    fn bytes_are_quoted_safely() {
        assert_eq!(quoted(b"TAKEN\r"), "'TAKEN\\r'");
        assert_eq!(quoted(&[b'x'; 50]), format!("'{}..'", "x".repeat(40)));
    }
}
