//! What programs read: `check --json` and `show --csv`, to the letter.
//! `docs/TOOLS.md` says what it means. A test here that fails is a program of
//! somebody else that fails.

use crate::help::{answers, curlew, example, log_of, Folder, EXAMPLES};

/// The verdict in JSON, the names of the files left out.
fn json(log: &str, out: &str, status: i32) -> String {
    let folder = Folder::new();
    let bytes = log_of(log);
    let (log, out) = (folder.file("a.log", &bytes), folder.file("a.out", out));
    let done = curlew(&["check", "--json", &log, &out]);
    assert_eq!((done.status, done.err.as_str()), (status, ""));
    let text = done.text();
    well_formed(&text);
    text.replace(&log, "LOG").replace(&out, "ANSWERS")
}

const SAMPLE: &str = r#"{
  "form":1,
  "log":"LOG",
  "answers":"ANSWERS",
  "runs":[
    {"run":1,"kept":true,"profile":2,"way":"drop-oldest","first_record":1,"last_record":8,"pause_us":null,"length_us":50200,"samples":0,"polls":4,"accepted":2,"sent":1,"expired":0,"displaced":0,"waiting":1,"air_us":400,"refused":{"2":1},"priority_0":{"sent":0,"promised":0,"expired":0,"displaced":0},"ceiling_promised":true,"second":{"from_us":200,"to_us":200,"air_us":400},"ceiling":{"from_us":200,"to_us":200,"air_us":400},"floor_us":1000500,"latest_closed_us":50000,"longest_hold_us":100,"wrong_answers":0,"faults":[]}],
  "outside":{"wrong_answers":0,"faults":[]},
  "joined":{"kept":true,"restarts":0,"unknown_pauses":0,"shortest_silence_us":null,"second":{"first_record":4,"last_record":4,"first_run":1,"last_run":1,"width_us":0,"air_us":400},"ceiling":{"first_record":4,"last_record":4,"first_run":1,"last_run":1,"width_us":0,"air_us":400}},
  "records":8,
  "left_over_bytes":0,
  "wrong_answers":0,
  "wrong_answers_told":0,
  "kept":true,
  "verdict":"KEPT. Ceiling and floor held throughout."}
"#;

#[test]
fn the_verdict_on_the_sample() {
    let log = curlew(&["show", "--plain", &example("sample", "log")]);
    let out = std::fs::read_to_string(example("sample", "out")).unwrap();
    assert_eq!(json(&log.good().text(), &out, 0), SAMPLE);
}

const RESTARTED: &str = r#"{
  "form":1,
  "log":"LOG",
  "answers":"ANSWERS",
  "runs":[
    {"run":1,"kept":true,"profile":4,"way":"keep-oldest","first_record":2,"last_record":4,"pause_us":null,"length_us":0,"samples":0,"polls":1,"accepted":1,"sent":1,"expired":0,"displaced":0,"waiting":0,"air_us":4000,"refused":{},"priority_0":{"sent":1,"promised":0,"expired":0,"displaced":0},"ceiling_promised":false,"second":{"from_us":0,"to_us":0,"air_us":4000},"ceiling":null,"floor_us":1004000,"latest_closed_us":null,"longest_hold_us":0,"wrong_answers":0,"faults":[]},
    {"run":2,"kept":false,"profile":3,"way":"drop-oldest","first_record":5,"last_record":8,"pause_us":4000,"length_us":0,"samples":0,"polls":0,"accepted":1,"sent":0,"expired":0,"displaced":0,"waiting":1,"air_us":0,"refused":{},"priority_0":{"sent":0,"promised":0,"expired":0,"displaced":0},"ceiling_promised":true,"second":null,"ceiling":null,"floor_us":1000000,"latest_closed_us":null,"longest_hold_us":null,"wrong_answers":2,"faults":[{"record":7,"text":"record 7 (poll at 4000): IDLE, but a packet waits"},{"record":8,"text":"record 8 (poll at 4001): the answer is CLOSED 9, the right one is IDLE"}]},
    {"run":3,"kept":true,"profile":1,"way":"drop-oldest","first_record":9,"last_record":9,"pause_us":null,"length_us":0,"samples":0,"polls":0,"accepted":0,"sent":0,"expired":0,"displaced":0,"waiting":0,"air_us":0,"refused":{},"priority_0":{"sent":0,"promised":0,"expired":0,"displaced":0},"ceiling_promised":true,"second":null,"ceiling":null,"floor_us":1001000,"latest_closed_us":null,"longest_hold_us":null,"wrong_answers":0,"faults":[]}],
  "outside":{"wrong_answers":1,"faults":[{"record":1,"text":"record 1 (poll at 0): the answer is REFUSED 3, the right one is REFUSED 9"}]},
  "joined":{"kept":true,"restarts":2,"unknown_pauses":1,"shortest_silence_us":null,"second":{"first_record":4,"last_record":4,"first_run":1,"last_run":1,"width_us":0,"air_us":4000},"ceiling":null},
  "records":9,
  "left_over_bytes":2,
  "wrong_answers":3,
  "wrong_answers_told":3,
  "kept":false,
  "verdict":"NOT KEPT in 1 of 3 runs."}
"#;

/// Runs of several kinds, a restart, faults in a run and outside of all, and a torn tail.
#[test]
fn the_verdict_on_restarts_and_faults() {
    let log = "poll at 0\nmake 4 keep-oldest at 0\noffer 7 priority 0 ontime 4000 lifetime 1s at 0\npoll at 0\n\
        make 3 at 4000\noffer 8 priority 0 ontime 4000 lifetime 1s at +0\npoll at +0\npoll at +1\nmake 1 at +1\ntail 01 02\n";
    let out = answers(&log_of(log));
    let lines = "REFUSED 9\nREADY\nTAKEN\nSENT 7\nREADY\nTAKEN\nSENT 8\nIDLE\nREADY\nTORN\n";
    assert_eq!(out, lines);
    let bent = lines
        .replace("SENT 8\nIDLE", "IDLE\nCLOSED 9")
        .replace("REFUSED 9", "REFUSED 3");
    assert_eq!(json(log, &bent, 1), RESTARTED);
}

#[test]
fn the_verdict_across_restarts() {
    let packet = "offer 7 priority 0 ontime 4000 lifetime 1s at +0\npoll at +0\n";
    let log = format!("make 3 at 0\n{packet}make 3 at +4ms\n{packet}");
    let text = json(&log, &answers(&log_of(&log)), 1);
    let joined = r#"
  "joined":{"kept":false,"restarts":1,"unknown_pauses":0,"shortest_silence_us":4000,"second":{"first_record":3,"last_record":6,"first_run":1,"last_run":2,"width_us":4000,"air_us":8000},"ceiling":{"first_record":3,"last_record":6,"first_run":1,"last_run":2,"width_us":4000,"air_us":8000}},"#;
    assert!(text.contains(joined), "{text}");
    assert!(
        text.contains("\n  \"kept\":false,\n  \"verdict\":\"NOT KEPT across restarts"),
        "{text}"
    );
}

/// Each example, and a name that needs quoting.
#[test]
fn it_is_json() {
    for name in EXAMPLES {
        let done = curlew(&[
            "check",
            "--json",
            &example(name, "log"),
            &example(name, "out"),
        ]);
        well_formed(&done.text());
    }
    let folder = Folder::new();
    let log = folder.file("a \"b\" \\ \n\t\u{1}µ.log", log_of("make 1 at 0\n"));
    let out = folder.file("a.out", "READY\nEND\n");
    let done = curlew(&["check", "--json", &log, &out]).good();
    well_formed(&done.text());
    assert!(
        done.text().contains(r#"/a \"b\" \\ \n\t\u0001µ.log","#),
        "{}",
        done.text()
    );
    // Without a run, and with a limit on the faults.
    let done = curlew(&[
        "check",
        "--json",
        "/dev/null",
        &folder.file("b.out", "END\n"),
    ])
    .good();
    well_formed(&done.text());
    assert!(
        done.text().contains("\n  \"runs\":[],\n"),
        "{}",
        done.text()
    );
    let polls = folder.file("c.log", log_of(&"poll at 0\n".repeat(9)));
    let idle = folder.file("c.out", "IDLE\n".repeat(9) + "END\n");
    let done = curlew(&["check", "--json", "--faults", "2", &polls, &idle])
        .failed(1, "\"wrong_answers_told\":2,");
    well_formed(&done.text());
    assert_eq!(done.text().matches("\"record\":").count(), 2);
}

/// One JSON value and a newline.
fn well_formed(text: &str) {
    let text = text.strip_suffix('\n').unwrap();
    assert_eq!(value(text.trim()), Some(""), "{text}");
}

/// What is left after one value; nothing if there is none.
fn value(text: &str) -> Option<&str> {
    match text.chars().next()? {
        '{' => items(&text[1..], '}', |text| {
            let rest = string(text)?.trim_start().strip_prefix(':')?;
            value(rest.trim_start())
        }),
        '[' => items(&text[1..], ']', value),
        '"' => string(text),
        _ => {
            let end = text.find([',', '}', ']', '\n']).unwrap_or(text.len());
            let word = &text[..end];
            let good = ["true", "false", "null"].contains(&word) || word.parse::<i128>().is_ok();
            good.then_some(&text[end..])
        }
    }
}

/// Items with commas between, up to a closing sign.
fn items(text: &str, end: char, item: impl Fn(&str) -> Option<&str>) -> Option<&str> {
    let mut text = text.trim_start();
    if let Some(rest) = text.strip_prefix(end) {
        return Some(rest);
    }
    loop {
        text = item(text)?.trim_start();
        if let Some(rest) = text.strip_prefix(end) {
            return Some(rest);
        }
        text = text.strip_prefix(',')?.trim_start();
    }
}

/// A string: no control sign in it, and no escape that JSON does not have.
fn string(text: &str) -> Option<&str> {
    let mut signs = text.strip_prefix('"')?.char_indices();
    while let Some((at, sign)) = signs.next() {
        match sign {
            '"' => return Some(&text[at + 2..]),
            '\\' => match signs.next()?.1 {
                'u' => (0..4).try_for_each(|_| signs.next()?.1.to_digit(16).map(|_| ()))?,
                '"' | '\\' | 'n' | 'r' | 't' => {}
                _ => return None,
            },
            sign if sign.is_control() => return None,
            _ => {}
        }
    }
    None
}

const NAMES: &str = "record,run,known,time_us,call,profile,way,busy,probes,id,priority,ontime_us,lifetime_us,stamp,answer,\
number,second_full,displaced_id,accepted,sent,expired,displaced,waiting_0,waiting_1,waiting_2,waiting_3,air_us,level,\
duty_ppb,load_ppm,wait_us,wrong\n";

fn csv(log: &str, out: Option<&str>, options: &[&str]) -> String {
    let folder = Folder::new();
    let log = folder.file("a.log", log_of(log));
    let out = out.map(|out| folder.file("a.out", out));
    let files = [Some(log.as_str()), out.as_deref()];
    let files: Vec<&str> = files.into_iter().flatten().collect();
    let done = curlew(&[&["show", "--csv"], options, &files].concat());
    assert_eq!(done.err, "");
    done.text()
}

/// Each kind of call and of answer, in each profile.
#[test]
fn the_columns_are_these() {
    let log = "poll at 5\nmake 9 at 6\nmake 1 keep-oldest at 7\nsample 620 of 12500 at +1\n\
        offer 7 priority 2 ontime 400 lifetime 1s at +1\npoll at +1\npoll at 0\nraw 09 00 00 00 00 00 00 00 00 00 00 00 01 00 00 00\n\
        make 3 at 0\nmake 4 way 0 at 4294967295\nsample 630 at +0\n";
    let lines = "\
1,,1,,poll,,,,,,,,,5,REFUSED,9,,,,,,,,,,,,,,,,\n\
2,,1,,make,9,drop-oldest,,,,,,,6,REFUSED,1,,,,,,,,,,,,,,,,\n\
3,1,1,0,make,1,keep-oldest,,,,,,,7,READY,,,,0,0,0,0,0,0,0,0,0,0,,,100000,\n\
4,1,1,1,sample,,,620,12500,,,,,8,TAKEN,,,,0,0,0,0,0,0,0,0,0,0,,,100000,\n\
5,1,1,2,offer,,,,,7,2,400,1000000,9,TAKEN,,,,1,0,0,0,0,0,1,0,0,0,,,100000,\n\
6,1,1,3,poll,,,,,,,,,10,SENT,7,,,1,1,0,0,0,0,0,0,400,0,,,100000,\n\
7,1,1,3,poll,,,,,,,,,0,REFUSED,2,,,1,1,0,0,0,0,0,0,400,0,,,100000,\n\
8,1,1,3,kind 9,,,,,,,,,1,REFUSED,10,,,1,1,0,0,0,0,0,0,400,0,,,100000,\n\
9,2,1,0,make,3,drop-oldest,,,,,,,0,READY,,,,0,0,0,0,0,0,0,0,0,,600000,,,\n\
10,3,1,0,make,4,drop-oldest,,,,,,,4294967295,READY,,,,0,0,0,0,0,0,0,0,0,,,0,,\n\
11,3,1,0,sample,,,630,1000,,,,,4294967295,TAKEN,,,,0,0,0,0,0,0,0,0,0,,,630000,,\n";
    assert_eq!(csv(log, None, &[]), format!("{NAMES}{lines}"));
}

#[test]
fn a_full_second_and_a_displaced_packet() {
    let text = curlew(&["show", "--csv", &example("any-second", "log")])
        .good()
        .text();
    let row = text
        .lines()
        .find(|line| line.contains("CLOSED,66662,"))
        .unwrap();
    assert_eq!(row, "418,1,1,40933338,poll,,,,,,,,,40933338,CLOSED,66662,1,,9,7,0,0,2,0,0,0,28000,,30000000,,133334,");
    let text = curlew(&["show", "--csv", &example("drop-oldest", "log")])
        .good()
        .text();
    let row = text.lines().nth(8).unwrap();
    assert_eq!(
        row,
        "8,1,1,30999,offer,,,,,6,0,900,60000000,30999,TAKEN,,,1,7,0,0,1,5,0,0,1,0,0,,,100000,"
    );
}

/// From a wrong answer on the cells are empty that are not known.
#[test]
fn what_is_not_known_is_empty() {
    let log = "make 1 at 0\npoll at 5\npoll at 6\nmake 1 at 7\n";
    let lines = "\
1,1,1,0,make,1,drop-oldest,,,,,,,0,READY,,,,0,0,0,0,0,0,0,0,0,0,,,100000,\n\
2,1,0,,poll,,,,,,,,,5,CLOSED,3,,,,,,,,,,,,,,,,\"record 2 (poll at 5): CLOSED, but nothing waits\"\n\
3,1,0,,poll,,,,,,,,,6,IDLE,,,,,,,,,,,,,,,,,\n\
4,2,1,0,make,1,drop-oldest,,,,,,,7,READY,,,,0,0,0,0,0,0,0,0,0,0,,,100000,\n";
    let out = "READY\nCLOSED 3\nIDLE\nREADY\nEND\n";
    assert_eq!(csv(log, Some(out), &[]), format!("{NAMES}{lines}"));
    let part: String = lines
        .lines()
        .skip(1)
        .take(2)
        .map(|line| format!("{line}\n"))
        .collect();
    assert_eq!(
        csv(log, Some(out), &["--from", "2", "--first", "2"]),
        format!("{NAMES}{part}")
    );
    assert_eq!(csv("", None, &[]), NAMES);
}

/// Every row of every example has all columns, and sums of counts that add up.
#[test]
fn all_rows_have_all_columns() {
    let columns = NAMES.trim_end().split(',').count();
    for name in EXAMPLES {
        let text = curlew(&["show", "--csv", &example(name, "log")])
            .good()
            .text();
        for line in text.lines().skip(1) {
            let cells: Vec<&str> = line.split(',').collect();
            assert_eq!(cells.len(), columns, "{name}: {line}");
            if cells[18].is_empty() {
                continue;
            }
            let numbers: Vec<u64> = cells[18..26]
                .iter()
                .map(|cell| cell.parse().unwrap())
                .collect();
            assert_eq!(numbers[0], numbers[1..].iter().sum(), "{name}: {line}");
        }
    }
}
