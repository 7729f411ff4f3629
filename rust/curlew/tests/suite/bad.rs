//! Bad input of a hundred kinds and more: each is refused in one line, with a
//! status that says so, and none brings the tool down.

use std::ffi::OsStr;
use std::os::unix::ffi::OsStrExt;
use std::process::{Command, Stdio};

use reference::rng::Rng;

use crate::help::{answers, curlew, curlew_fed, example, example_bytes, log_of, Done, Folder};

/// Status 2 with one line of error, or 1 with none; never a panic.
fn refused(what: &str, done: &Done) {
    let lines: Vec<&str> = done.err.lines().collect();
    match done.status {
        1 => assert_eq!(done.err, "", "{what}"),
        2 => {
            assert_eq!(lines.len(), 1, "{what}: {}", done.err);
            assert!(lines[0].starts_with("curlew: "), "{what}: {}", done.err);
        }
        status => panic!("{what}: status {status}, {}", done.err),
    }
    assert!(!done.err.contains("panicked"), "{what}: {}", done.err);
}

/// Lines that the plain form does not have.
const LINES: [&str; 74] = [
    "mak 1 at 0",
    "MAKE 1 at 0",
    "make",
    "make at 0",
    "make 1",
    "make 1 at",
    "make 1 at x",
    "make 1 at 0x5",
    "make 1 at 4294967296",
    "make 1 at 18446744073709551616",
    "make 1 at 99999999999999999999999999999999",
    "make 1 at +5",
    "make 1 at -5",
    "make 1 at --5",
    "make 1 at +",
    "make 1 at 1.5",
    "make 1 at 1.5µs",
    "make 1 at 2h",
    "make 1 at 1e3",
    "make 1 at 0 0",
    "make 1 at 0 at 0",
    "make 256 at 0",
    "make -1 at 0",
    "make 1s at 0",
    "make 1.0 at 0",
    "make 1 keep at 0",
    "make 1 keep-oldest drop-oldest at 0",
    "make 1 way at 0",
    "make 1 way -1 at 0",
    "make 1 way 4294967296 at 0",
    "sample",
    "sample at 0",
    "sample 1 of at 0",
    "sample 1 of 0 at 0",
    "sample 1 of 4294967296 at 0",
    "sample 1 of 5 of 5 at 0",
    "sample 4294967296 at 0",
    "sample 62% at 0",
    "sample -1 at 0",
    "offer",
    "offer 7",
    "offer 7 at 0",
    "offer 4294967296 priority 0 ontime 1 lifetime 1 at 0",
    "offer 7 priority 256 ontime 1 lifetime 1 at 0",
    "offer 7 priority 0 ontime 65536 lifetime 1 at 0",
    "offer 7 priority 0 ontime 66ms lifetime 1 at 0",
    "offer 7 priority 0 ontime 0.0000001s lifetime 1 at 0",
    "offer 7 priority 0 ontime 1 lifetime 72min at 0",
    "offer 7 priority 0 ontime 1 lifetime 4294967296 at 0",
    "offer 7 priority 0 ontime 1 lifetime 1",
    "offer 7 priority 0 ontime 1 at 0",
    "offer 7 priority 0 lifetime 1 at 0",
    "offer 7 ontime 1 lifetime 1 at 0",
    "offer 7 priority 0 priority 0 ontime 1 lifetime 1 at 0",
    "offer 7 priority 0 ontime 1 lifetime 1 at 0 at 0",
    "offer 7 priority 0 ontime 1 lifetime 1 at 0 now",
    "offer 7 priority 0 ontime 1 lifetime 1 size 5 at 0",
    "offer 7 priority high ontime 1 lifetime 1 at 0",
    "poll",
    "poll 0",
    "poll at",
    "poll at 0,5",
    "poll at 1__x",
    "poll at _1",
    "raw",
    "raw 00",
    "raw 00 00 00 00 00 00 00 00 00 00 00 00 00 00 00 00 00",
    "raw 0 0 0 0 0 0 0 0 0 0 0 0 0 0 0 0",
    "raw gg 00 00 00 00 00 00 00 00 00 00 00 00 00 00 00",
    "raw +1 00 00 00 00 00 00 00 00 00 00 00 00 00 00 00",
    "tail",
    "tail 00 00 00 00 00 00 00 00 00 00 00 00 00 00 00 00",
    "tail x0",
    "tail 00\npoll at 0",
];

#[test]
fn bad_lines() {
    for line in LINES {
        let done = curlew_fed(&["write"], line.as_bytes());
        refused(line, &done);
        assert_eq!(
            (done.status, done.out.len()),
            (2, done.out.len().min(1)),
            "{line}"
        );
        let place = if line.contains('\n') {
            "line 2: "
        } else {
            "line 1: "
        };
        assert!(done.err.contains(place), "{line}: {}", done.err);
    }
    for bytes in [
        &b"\xFF\xFEm\0a\0k\0e\0"[..], // a text of 16-bit letters
        b"poll at 7\0\n",
        b"\0",
        b"\x80",
        b"poll at \xC2\xB5\n",
        b"\xEF\xBB\xBF\xEF\xBB\xBFpoll at 7\n", // two marks
        b"poll at 7\n\xEF\xBB\xBFpoll at 7\n",  // a mark in the middle
        &[b'#'; 5_000],
        &example_bytes("jam", "log"), // the log where the text is due
    ] {
        let done = curlew_fed(&["write"], bytes);
        refused(&format!("{:?}", &bytes[..bytes.len().min(20)]), &done);
    }
}

/// Words that the command line does not have.
#[test]
fn bad_words() {
    let (log, out) = (example("sample", "log"), example("sample", "out"));
    let (log, out) = (log.as_str(), out.as_str());
    let cases: [&[&str]; 40] = [
        &[],
        &[""],
        &["-"],
        &["--"],
        &["-x"],
        &["checks", log, out],
        &["check"],
        &["check", log],
        &["check", log, out, log],
        &["check", "-", "-"],
        &["check", "--json"],
        &["check", "--json", log],
        &["check", "--faults", log, out],
        &["check", "--faults", "0", log, out],
        &["check", "--faults", "-1", log, out],
        &["check", "--faults", "18446744073709551616", log, out],
        &["check", "--faults", "1", "--faults", "2", log, out],
        &["check", "--csv", log, out],
        &["check", out, log],
        &["check", log, log],
        &["show"],
        &["show", "", out],
        &["show", log, out, out],
        &["show", "--from"],
        &["show", "--from", "", log],
        &["show", "--from", "1s", log],
        &["show", "--first", "0", log],
        &["show", "--first", "1.5", log],
        &["show", "--first", "99999999999999999999", log],
        &["show", "--plain", "--csv", log],
        &["show", "--plain", log, out],
        &["show", "--json", log],
        &["show", log, log],
        &["write", log, out],
        &["write", "-o"],
        &["write", "-o", "/nowhere/at/all.log"],
        &["write", "-o", "/"],
        &["plot", log],
        &["plot", "-o", "x.svg"],
        &["plot", "--run", "0", log, "-o", "x.svg"],
    ];
    for words in cases {
        refused(&format!("{words:?}"), &curlew(words));
    }
    let folder = Folder::new();
    let strange = folder.path("two\nlines\u{7}\u{1b}[31m");
    let done = curlew(&["show", &strange]);
    refused("a strange name", &done);
    assert!(
        done.err.contains("two\\nlines\\u{7}\\u{1b}[31m"),
        "{}",
        done.err
    );
    let output = Command::new(env!("CARGO_BIN_EXE_curlew"))
        .arg("show")
        .arg(OsStr::from_bytes(b"\xFF\n\xFE"))
        .stdin(Stdio::null())
        .output()
        .unwrap();
    let done = Done {
        status: output.status.code().unwrap(),
        out: output.stdout,
        err: String::from_utf8(output.stderr).unwrap(),
    };
    refused("a name that is no text", &done);
}

/// Answers that are damaged, each through all that read them.
#[test]
fn bad_answers() {
    let folder = Folder::new();
    let log = folder.file("a.log", example_bytes("jam", "log"));
    let good = String::from_utf8(example_bytes("jam", "out")).unwrap();
    let lines: Vec<&str> = good.lines().collect();
    let with = |at: usize, text: &str| {
        let mut lines = lines.clone();
        lines[at] = text;
        lines.join("\n") + "\n"
    };
    let mut bad: Vec<Vec<u8>> = [
        "",
        "\n",
        "READY ",
        "ready",
        "SENT",
        "SENT ",
        "SENT 07",
        "SENT -1",
        "SENT 4294967296",
        "SENT 1 2",
        "CLOSED",
        "CLOSED 18446744073709551616",
        "CLOSED 1.5",
        "REFUSED",
        "REFUSED 99999999999",
        "IDLE 0",
        "END",
        "TORN",
        "\u{FEFF}READY",
        "READY\r",
        "\0",
        "x".repeat(100_000).as_str(),
        "SENT 4294967295",
        "CLOSED 18446744073709551615",
        "CLOSED 0",
        "REFUSED 0",
        "REFUSED 4294967295",
        "TAKEN",
        "IDLE",
        "REFUSED 9",
        "REFUSED 1",
        "SENT 0",
    ]
    .iter()
    .map(|text| with(0, text).into_bytes())
    .collect();
    bad.push(with(400, "SENT 4294967295").into_bytes());
    bad.push(good.trim_end().as_bytes().to_vec());
    bad.push((good.clone() + "END\n").into_bytes());
    bad.push(lines[..lines.len() - 1].join("\n").into_bytes());
    bad.push(Vec::new());
    bad.push(vec![0xFF; 1_000]);
    bad.push(vec![b'\n'; 1_000]);
    let svg = folder.path("a.svg");
    for (number, out) in bad.iter().enumerate() {
        let out = folder.file("a.out", out);
        for words in [
            &["check", &log, &out][..],
            &["check", "--json", &log, &out],
            &["show", &log, &out],
            &["show", "--csv", &log, &out],
        ] {
            refused(&format!("answers {number}, {words:?}"), &curlew(words));
        }
        let plot = curlew(&["plot", &log, &out, "-o", &svg]);
        assert!(
            !plot.err.contains("panicked"),
            "answers {number}: {}",
            plot.err
        );
    }
}

/// Any bytes may be a log, and get the answers that are due to them.
#[test]
fn any_bytes_are_a_log() {
    let mut rng = Rng::new(7_777);
    let folder = Folder::new();
    let svg = folder.path("a.svg");
    for round in 0..40 {
        let length = rng.below(3_000);
        let bytes: Vec<u8> = (0..length)
            .map(|at| match at % 16 {
                0 => rng.pick(&[0, 1, 2, 3, 3, 255]),
                1 if rng.below(2) == 0 => rng.below(6) as u8,
                2..=7 if rng.below(3) > 0 => [0, 9, 9, 0, 0, 0][at as usize % 16 - 2],
                14 | 15 if rng.below(4) > 0 => 0,
                _ => rng.below(256) as u8,
            })
            .collect();
        let log = folder.file("a.log", &bytes);
        let out = folder.file("a.out", answers(&bytes));
        for words in [
            &["show", &log, &out][..],
            &["show", "--csv", "--brief", &log],
            &["show", "--plain", &log],
        ] {
            curlew(words).good();
        }
        for words in [&["check", &log, &out][..], &["check", "--json", &log, &out]] {
            let done = curlew(words);
            assert_eq!(done.err, "", "seed 7777, round {round}");
            let kept = !done.text().contains("NOT KEPT");
            assert_eq!(done.status, i32::from(!kept), "seed 7777, round {round}");
        }
        let plot = curlew(&["plot", &log, &out, "-o", &svg]);
        assert!(
            !plot.err.contains("panicked"),
            "seed 7777, round {round}: {}",
            plot.err
        );
        // The same bytes as answers, and as a text.
        refused("a log as answers", &curlew(&["check", &out, &log]));
        let text = curlew_fed(&["write"], &bytes);
        assert!(!text.err.contains("panicked"), "seed 7777, round {round}");
    }
}

/// Numbers at the edges of what a record can say, in each field.
#[test]
fn the_edges_of_every_field() {
    let mut text = String::new();
    for profile in 0..=6 {
        for way in [0, 1, 2, u32::MAX] {
            for stamp in [0, u32::MAX] {
                text += &format!("make {profile} way {way} at {stamp}\n");
                for probes in [1, 999, 1_000, 12_500, 12_501, u32::MAX] {
                    text += &format!("sample {probes} of {probes} at +0\n");
                }
                for (priority, ontime, lifetime) in [
                    (0, 1, 1),
                    (3, 4_000, 60_000_000),
                    (4, 0, 0),
                    (255, 65_535, u32::MAX),
                ] {
                    text += &format!("offer 4294967295 priority {priority} ontime {ontime} lifetime {lifetime} at +0\n");
                }
                for step in ["0", "1", "25000", "2147483647", "2147483648", "4294967295"] {
                    text += &format!("poll at +{step}\n");
                }
            }
        }
    }
    let log = log_of(&text);
    let folder = Folder::new();
    let (name, out) = (
        folder.file("a.log", &log),
        folder.file("a.out", answers(&log)),
    );
    curlew(&["show", &name, &out]).good();
    curlew(&["show", "--csv", &name, &out]).good();
    let plain = curlew(&["show", "--plain", &name]).good();
    assert_eq!(curlew_fed(&["write"], &plain.out).good().out, log);
    let told = curlew(&["check", &name, &out]).text();
    assert!(told.contains("answers fit"), "{told}");
}
