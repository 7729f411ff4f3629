//! `curlew show`.

use reference::log::Record;
use reference::rng::Rng;

use crate::help::{answers, curlew, curlew_fed, example, example_bytes, log_of, Folder, EXAMPLES};

/// The table of the sample, to the last blank.
#[test]
fn the_sample() {
    let shown = curlew(&["show", &example("sample", "log"), &example("sample", "out")]);
    let shown = shown.good().text();
    assert!(shown
        .split(HEADING)
        .next()
        .unwrap()
        .ends_with("sample.out\n"));
    let table = table(&shown);
    let wanted = "
                                                                      acce-         ex-  dis- wait air of gate,
  record   time, h:mm:ss call                    answer                pted  sent pired plac. 0123 1s, ms wait in ms
       1  0:00:00.000000 make 2 at 4294967000    READY                    0     0     0     0 0000      0 L0 50
       2  0:00:00.000100 offer 7 p2 400µs 1s     TAKEN                    1     0     0     0 0010      0 L0 50
       3  0:00:00.000100 offer 8 p1 400µs 60ms   TAKEN                    2     0     0     0 0110      0 L0 50
       4  0:00:00.000200 poll                    SENT 8                   2     1     0     0 0010    0.4 L0 50
       5  0:00:00.001000 poll                    CLOSED 49600             2     1     0     0 0010    0.4 L0 50
       6  0:00:00.050200 poll                    CLOSED 400               2     1     0     0 0010    0.4 L0 50
       7  0:00:00.050200 poll                    REFUSED 2 CLOCK-BACK     2     1     0     0 0010    0.4 L0 50
       8  0:00:00.050200 poll                    CLOSED 400               2     1     0     0 0010    0.4 L0 50
     END
";
    assert_eq!(format!("\n{table}"), wanted);
}

/// The first line of the heading.
const HEADING: &str = "                                                                      acce-";

/// What is shown but for the names of the files.
fn table(shown: &str) -> &str {
    &shown[shown.find(HEADING).unwrap()..]
}

/// The columns of the table: where each starts and ends.
const COLUMNS: [(usize, usize); 11] = [
    (0, 8),
    (9, 24),
    (25, 48),
    (49, 69),
    (70, 75),
    (76, 81),
    (82, 87),
    (88, 93),
    (94, 98),
    (99, 105),
    (106, 120),
];

/// The cells of a line of the table.
fn cells(line: &str) -> Vec<String> {
    let chars: Vec<char> = line.chars().collect();
    let cell = |(from, to): (usize, usize)| {
        let part = chars.get(from.min(chars.len())..to.min(chars.len()));
        part.unwrap_or_default().iter().collect::<String>()
    };
    let cells = COLUMNS.map(|column| cell(column).trim().to_string());
    cells.to_vec()
}

/// Each count stands in its column, and the table ends with those of the run.
#[test]
fn the_counts_stand_in_their_columns() {
    let shown = curlew(&["show", &example("jam", "log")]).good().text();
    let lines: Vec<&str> = shown.lines().collect();
    let last = cells(lines[lines.len() - 2]);
    assert_eq!(last[4..8], ["69", "16", "37", "11"], "{shown}");
}

/// The greatest numbers that a record, an answer or a run can have: no line is longer than 120 places, and between two
/// columns there is always a blank.
#[test]
fn any_numbers_stay_in_their_columns() {
    let mut text = "make 1 keep-oldest at 4294967295\nmake 255 way 4294967295 at 4294967295\nmake 4 at 4294967295\n".to_string();
    text += "sample 4294967295 of 4294967295 at +0\nsample 12499 of 12500 at +0\n";
    text += "offer 4294967295 priority 255 ontime 65535 lifetime 4294967295 at +0\n";
    text += "raw ff ff ff ff ff ff ff ff ff ff ff ff ff ff ff ff\n";
    for id in 4_294_967_280u64..=4_294_967_295 {
        text += &format!("offer {id} priority 3 ontime 87 lifetime 59999999 at +0\n");
    }
    text += "poll at +1\npoll at +1\n";
    let mut log = log_of(&text);
    // Steps of 2^31 - 1 up to just before the end of the clock.
    let mut stamp = 1u32;
    for _ in 0..465_661 {
        stamp = stamp.wrapping_add(0x7FFF_FFFF);
        let poll = Record {
            kind: 3,
            stamp,
            ..Record::default()
        };
        log.extend(poll.to_bytes());
    }
    let folder = Folder::new();
    let log_name = folder.file(&"long name ".repeat(20), &log);
    in_columns(&curlew(&["show", "--first", "60", &log_name]).good().text());
    let shown = curlew(&["show", "--from", "465600", &log_name]).text();
    in_columns(&shown);
    assert!(shown.contains("277777:36:"), "the end of the clock is near");
    // Wrong answers: the greatest that a line can say.
    let wrong = [
        "CLOSED 18446744073709551615",
        "SENT 4294967295",
        "REFUSED 4294967295",
        "IDLE",
    ];
    let mut out: Vec<String> = answers(&log).lines().map(str::to_string).collect();
    for (line, text) in (25..).zip(wrong) {
        out[line] = text.to_string();
    }
    let out = folder.file("a.out", out.join("\n") + "\n");
    let shown = curlew(&["show", "--first", "60", &log_name, &out]).failed(1, "CLOSED");
    in_columns(&shown.text());
}

fn in_columns(shown: &str) {
    for line in table(shown).lines() {
        let chars: Vec<char> = line.chars().collect();
        assert!(chars.len() <= 120, "{line}");
        let row = line.starts_with("         ") && chars.get(25).is_some_and(|c| *c != ' ');
        let reason = row && chars.get(9).is_some_and(|c| *c != ' ');
        for (_, to) in COLUMNS {
            let between = chars.get(to).is_none_or(|c| *c == ' ');
            assert!(between || reason || line.contains("left over"), "{line}");
        }
    }
    assert!(shown.lines().all(|line| line.chars().count() <= 120));
}

/// Each offer that found five says which packet it displaced; another, and one that was refused, says nothing.
#[test]
fn an_offer_says_what_it_displaced() {
    let shown = curlew(&["show", &example("drop-oldest", "log")]);
    let shown = shown.good().text();
    let told: Vec<String> = shown
        .lines()
        .filter(|line| line.contains(", displaced "))
        .map(squeezed)
        .collect();
    let wanted = [
        "8 0:00:00.030999 offer 6 p0 900µs 60s TAKEN, displaced 1 7 0 0 1 5001 0 L0 100",
        "10 0:00:00.051000 offer 8 p0 900µs 60s TAKEN, displaced 2 9 0 1 2 5001 0 L0 100",
    ];
    assert_eq!(told, wanted);
    let shown = curlew(&["show", &example("keep-oldest", "log")]);
    let shown = shown.good().text();
    assert!(!shown.contains(", displaced "), "{shown}");
    assert!(shown.contains("make 1 keep-oldest at 0"));
    assert!(shown.contains("REFUSED 8 QUEUE-FULL"));
}

/// A poll says when it is the second that keeps the gate closed, and each record the air time of the last second.
#[test]
fn a_full_second_is_told() {
    let shown = curlew(&["show", "--from", "415", &example("any-second", "log")]);
    let shown = shown.good().text();
    let lines: Vec<String> = table(&shown)
        .lines()
        .skip(2)
        .take(7)
        .map(squeezed)
        .collect();
    let wanted = [
        "415 0:00:40.800004 poll SENT 7 7 7 0 0 0000 28 3.000% 133.334",
        "416 0:00:40.933338 offer 8 p0 4ms 10s TAKEN 8 7 0 0 1000 28 3.000% 133.334",
        "417 0:00:40.933338 offer 9 p0 100µs 10s TAKEN 9 7 0 0 2000 28 3.000% 133.334",
        "418 0:00:40.933338 poll CLOSED 66662, full 9 7 0 0 2000 28 3.000% 133.334",
        "419 0:00:40.999999 poll CLOSED 1, full 9 7 0 0 2000 28 3.000% 133.334",
        "420 0:00:41.000000 poll SENT 8 9 8 0 0 1000 28 3.000% 133.334",
        "421 0:00:41.133334 poll SENT 9 9 9 0 0 0000 24.1 3.000% 25",
    ];
    assert_eq!(lines, wanted);
    let shown = curlew(&["show", &example("jam", "log")]).good().text();
    assert!(!shown.contains(", full"), "the wait alone closes it");
}

/// A refusal, a sample or a poll after an offer that displaced does not say it again.
#[test]
fn what_was_displaced_is_told_once() {
    let folder = Folder::new();
    let mut text = "make 1 at 0\n".to_string();
    for id in 1..=6 {
        text += &format!("offer {id} priority 2 ontime 9 lifetime 60s at +0\n");
    }
    text += "offer 7 priority 9 ontime 9 lifetime 60s at +0\nsample 5 at +0\npoll at +0\n";
    let log = folder.file("a.log", log_of(&text));
    let shown = curlew(&["show", &log]).good().text();
    assert_eq!(shown.matches(", displaced ").count(), 1, "{shown}");
    assert!(shown.contains("TAKEN, displaced 1 "), "{shown}");
}

fn squeezed(line: &str) -> String {
    line.split_whitespace().collect::<Vec<_>>().join(" ")
}

#[test]
fn without_answers_the_second_program_gives_them() {
    for name in EXAMPLES {
        let (log, out) = (example(name, "log"), example(name, "out"));
        let with = curlew(&["show", &log, &out]).good().text();
        let without = curlew(&["show", &log]).good().text();
        assert_eq!(table(&with), table(&without), "{name}");
        assert!(without.contains("answers of the second program"));
    }
}

#[test]
fn standard_input_may_be_the_log_or_the_answers() {
    let (log, out) = (example("jam", "log"), example("jam", "out"));
    let whole = curlew(&["show", &log, &out]).good().text();
    let fed = curlew_fed(&["show", "-", &out], &example_bytes("jam", "log"));
    assert_eq!(table(&fed.good().text()), table(&whole));
    let fed = curlew_fed(&["show", &log, "-"], &example_bytes("jam", "out"));
    assert_eq!(table(&fed.good().text()), table(&whole));
}

#[test]
fn a_part_of_it() {
    let log = example("jam", "log");
    let whole = curlew(&["show", &log]).good().text();
    let part = curlew(&["show", "--from", "101", "--first", "5", &log]);
    let part = part.good().text();
    let whole: Vec<&str> = table(&whole).lines().collect();
    let part: Vec<&str> = table(&part).lines().collect();
    let numbered = |line: &&&str| {
        line[..8]
            .trim()
            .parse::<u64>()
            .is_ok_and(|n| (101..=105).contains(&n))
    };
    let wanted: Vec<&str> = whole.iter().filter(numbered).copied().collect();
    assert_eq!((&part[2..7], wanted.len()), (&wanted[..], 5));
    assert_eq!(part[7..], ["      .."]);
    let brief = curlew(&["show", "--brief", &log]).good().text();
    assert!(brief.contains("SENT 101"));
    assert!(!brief.contains("CLOSED") && !brief.contains("sample"));
}

/// After --first no more is read: what comes after may be anything, and be without end.
#[test]
fn the_first_rows_are_all_that_is_read() {
    let bytes = example_bytes("jam", "log");
    for options in [
        &["--first", "3"][..],
        &["--first", "3", "--csv"],
        &["--first", "3", "--plain"],
    ] {
        let mut child = std::process::Command::new(env!("CARGO_BIN_EXE_curlew"))
            .args(["show", "-"])
            .args(options)
            .stdin(std::process::Stdio::piped())
            .stdout(std::process::Stdio::piped())
            .spawn()
            .unwrap();
        let mut stdin = child.stdin.take().unwrap();
        std::io::Write::write_all(&mut stdin, &bytes[..48]).unwrap();
        // The pipe stays open until the tool is done.
        let output = child.wait_with_output().unwrap();
        drop(stdin);
        assert!(output.status.success(), "{options:?}");
        let shown = String::from_utf8(output.stdout).unwrap();
        let of_form = [6, 4, 3].contains(&shown.lines().count());
        assert!(of_form || shown.ends_with(" ..\n"), "{shown}");
    }
    let answers = b"READY\nTAKEN\nTAKEN\nnonsense\n";
    curlew_fed(
        &["show", "--first", "3", &example("jam", "log"), "-"],
        answers,
    )
    .good();
}

#[test]
fn a_torn_tail_and_an_empty_log() {
    let shown = curlew(&["show", &example("damaged-tail", "log")])
        .good()
        .text();
    assert!(
        shown.ends_with("TORN left over: 03 00 00 00 00 00 00\n"),
        "{shown}"
    );
    let shown = curlew_fed(&["show", "-"], b"").good().text();
    assert!(shown.ends_with("END\n"), "{shown}");
}

#[test]
fn wrong_answers_are_marked() {
    let folder = Folder::new();
    let out = String::from_utf8(example_bytes("sample", "out")).unwrap();
    let out = folder.file("bad.out", out.replace("CLOSED 49600", "IDLE"));
    let shown = curlew(&["show", &example("sample", "log"), &out]);
    let shown = shown.failed(1, "record 5 (poll at 704): IDLE, but a packet waits");
    let text = shown.text();
    let marked: Vec<&str> = text.lines().filter(|line| line.starts_with('!')).collect();
    assert_eq!(marked.len(), 1, "{text}");
    assert!(marked[0].contains("IDLE"), "{text}");
    // From there on nothing is known, the time neither.
    let rows: Vec<Vec<String>> = table(&text).lines().skip(2).map(cells).collect();
    for row in rows.iter().filter(|row| row[2] == "poll").skip(1) {
        let unknown = ["?", "?", "?", "?", "????", "?", "?"];
        assert_eq!(
            (row[1].as_str(), &row[4..]),
            ("?", &unknown.map(str::to_string)[..]),
            "{text}"
        );
    }
}

/// The next make ends what is not known, and a second fault is marked too.
#[test]
fn what_is_not_known_ends_with_the_next_make() {
    let folder = Folder::new();
    let text = "make 1 at 0\npoll at +5\npoll at +5\npoll at +5\nmake 2 at +5\npoll at +5\n";
    let log = folder.file("a.log", log_of(text));
    let out = folder.file("a.out", "READY\nSENT 7\nIDLE\nCLOSED 3\nREADY\nIDLE\nEND\n");
    let text = curlew(&["show", &log, &out])
        .failed(1, "SENT 7, but nothing waits")
        .text();
    let rows: Vec<Vec<String>> = table(&text).lines().skip(2).map(cells).collect();
    let times: Vec<&str> = rows.iter().map(|row| row[1].as_str()).collect();
    let wanted = [
        "0:00:00.000000",
        "?",
        "cord 2 (poll at",
        "?",
        "?",
        "cord 4 (poll at",
        "0:00:00.000000",
        "0:00:00.000005",
        "",
    ];
    assert_eq!(times.len(), wanted.len(), "{text}");
    for (time, wanted) in times.iter().zip(wanted) {
        assert!(*time == wanted || time.contains("record"), "{text}");
    }
    assert!(
        text.contains("record 4 (poll at 15): the answer is CLOSED 3, the right one is IDLE"),
        "{text}"
    );
}

#[test]
fn an_offer_that_was_spent_is_named() {
    let folder = Folder::new();
    let out = String::from_utf8(example_bytes("sample", "out")).unwrap();
    let out = folder.file("bad.out", out.replacen("TAKEN", "REFUSED 11", 1));
    let shown = curlew(&["show", &example("sample", "log"), &out]);
    shown.failed(1, "REFUSED 11 SPENT");
}

/// A log's make never gets 15; an answer that says so is wrong, and named.
#[test]
fn a_make_of_profile_5_is_shown_as_refused() {
    let folder = Folder::new();
    let log = folder.file("five.log", log_of("make 5 at 0\npoll at 1\n"));
    let text = curlew(&["show", &log]).good().text();
    for words in ["REFUSED 1 ", "BAD-PROFILE", "REFUSED 9 NO-STATE", "no gate"] {
        assert!(text.contains(words), "no '{words}' in: {text}");
    }
    let out = folder.file("bad.out", "REFUSED 15\nREFUSED 9\nEND\n");
    let shown = curlew(&["show", &log, &out]);
    shown.failed(1, "REFUSED 15 BAD-LIST");
}

#[test]
fn answers_that_do_not_fit_end_it() {
    let log = example("sample", "log");
    let done = curlew_fed(&["show", &log, "-"], b"READY\nTAKE\n");
    done.failed(2, "line 2: 'TAKE' is no answer");
    // Before the first row there is no heading either.
    for form in [&["show"][..], &["show", "--csv"]] {
        let words = [form, &[&log, "-"]].concat();
        let done = curlew_fed(&words, b"TAKE\n").failed(2, "line 1: 'TAKE' is no answer");
        assert_eq!(done.text(), "");
    }
}

#[test]
fn write_then_show_then_write() {
    for name in EXAMPLES {
        let plain = curlew(&["show", "--plain", &example(name, "log")]).good();
        let again = curlew_fed(&["write"], &plain.out).good();
        assert_eq!(again.out, example_bytes(name, "log"), "{name}");
    }
}

#[test]
fn any_bytes_go_to_text_and_back() {
    let mut rng = Rng::new(99);
    for length in [0, 1, 15, 16, 17, 160, 4_095, 50_000] {
        let bytes: Vec<u8> = (0..length)
            .map(|at| match at % 16 {
                0 => rng.below(5) as u8,
                _ => rng.below(256) as u8,
            })
            .collect();
        let plain = curlew_fed(&["show", "--plain", "-"], &bytes).good();
        assert_eq!(curlew_fed(&["write"], &plain.out).good().out, bytes);
        curlew_fed(&["show", "-"], &bytes).good();
    }
}
