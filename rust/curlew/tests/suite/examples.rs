//! The example logs: text, bytes and output belong together.

use std::io::Write;
use std::process::{Command, Stdio};

use crate::help::{answers, curlew, example, example_bytes, Folder, EXAMPLES};

#[test]
fn the_text_gives_the_log() {
    for name in EXAMPLES {
        let written = curlew(&["write", &example(name, "txt")]).good();
        assert_eq!(written.out, example_bytes(name, "log"), "{name}");
    }
}

#[test]
fn the_second_program_gives_the_output() {
    for name in EXAMPLES {
        let said = answers(&example_bytes(name, "log"));
        let kept = String::from_utf8(example_bytes(name, "out")).unwrap();
        assert_eq!(said, kept, "{name}");
    }
}

/// The proved program, if its path is in PRESSCURLEW_REPLAY.
#[test]
fn the_proved_program_gives_the_output() {
    let Some(program) = std::env::var_os("PRESSCURLEW_REPLAY") else {
        eprintln!("PRESSCURLEW_REPLAY is not set: only the second program was looked at");
        return;
    };
    for name in EXAMPLES {
        let mut child = Command::new(&program)
            .stdin(Stdio::piped())
            .stdout(Stdio::piped())
            .spawn()
            .unwrap_or_else(|error| panic!("{program:?}: {error}"));
        let mut stdin = child.stdin.take().unwrap();
        let log = example_bytes(name, "log");
        let feeder = std::thread::spawn(move || stdin.write_all(&log).unwrap());
        let output = child.wait_with_output().unwrap();
        feeder.join().unwrap();
        assert!(output.status.success(), "{name}: {}", output.status);
        let said = String::from_utf8(output.stdout).unwrap();
        let kept = String::from_utf8(example_bytes(name, "out")).unwrap();
        assert_eq!(said, kept, "{name}");
    }
}

/// The proved program, if its path is in PRESSCURLEW_REPLAY, plays its standard input whatever its arguments are.
#[test]
fn the_proved_program_says_that_it_takes_no_arguments() {
    let Some(program) = std::env::var_os("PRESSCURLEW_REPLAY") else {
        eprintln!("PRESSCURLEW_REPLAY is not set: there is no program to look at");
        return;
    };
    let note = "replay: arguments are ignored: the log is what comes on standard input\n";
    for (words, said) in [
        (&[][..], ""),
        (&["jam.log"], note),
        (&["--help", "x"], note),
        (&[""], note),
    ] {
        let output = Command::new(&program)
            .args(words)
            .stdin(std::fs::File::open(example("sample", "log")).unwrap())
            .output()
            .unwrap_or_else(|error| panic!("{program:?}: {error}"));
        assert_eq!(output.status.code(), Some(0));
        assert_eq!(output.stdout, example_bytes("sample", "out"), "{words:?}");
        assert_eq!(String::from_utf8(output.stderr).unwrap(), said, "{words:?}");
    }
}

#[test]
fn each_keeps_its_guarantees() {
    for name in EXAMPLES {
        let check = curlew(&["check", &example(name, "log"), &example(name, "out")]);
        if ["restarts", "damaged-tail"].contains(&name) {
            check.failed(
                1,
                "Verdict: NOT KEPT across restarts, though each run by itself was.",
            );
            continue;
        }
        let text = check.good().text();
        assert!(text.contains("Verdict: KEPT."), "{name}: {text}");
        assert!(!text.contains("NOT KEPT"), "{name}: {text}");
    }
}

/// What the log of restarts is there to show: one that is right, eight that aren't, and one of which nothing is known.
#[test]
fn after_a_restart_the_host_stays_silent() {
    let check = curlew(&[
        "check",
        &example("restarts", "log"),
        &example("restarts", "out"),
    ]);
    let text = check.failed(1, "11 runs").text();
    for words in [
        "Run 2: profile 3, 0.250000 s, records 5 to 8\n  Restart    made 250 ms after the last call of the run before\n",
        "Restarts   10 restarts; the shortest silence across one is 4,000 µs, from record 11 (run 3) to record 14 (run 4): \
         less than the second that the label asks for. Before 1 of them the pause is not known, and nothing is added up",
        "Second     NOT KEPT: the 28 ms from record 11 (run 3) to record 32 (run 10), with 32 ms of the 30 ms allowed",
        "Ceiling    NOT KEPT: the 28 ms from record 11 (run 3) to record 32 (run 10), with 32 ms of the 4,840 µs allowed",
    ] {
        assert!(text.contains(words), "no '{words}' in: {text}");
    }
    assert_eq!(text.matches("NOT KEPT").count(), 3, "{text}");
    // Up to the second run all is kept, a second after the last packet too.
    let log = example_bytes("restarts", "log")[..8 * 16].to_vec();
    let folder = Folder::new();
    let out = folder.file("a.out", answers(&log));
    let log = folder.file("a.log", &log);
    let text = curlew(&["check", &log, &out]).good().text();
    let words =
        "the shortest silence across one is 1 s, from record 3 (run 1) to record 8 (run 2).";
    assert!(text.contains(words), "{text}");
}

/// The damaged tail has a host that sends 102 µs after a restart.
#[test]
fn the_ceiling_is_broken_across_a_restart() {
    let check = curlew(&[
        "check",
        &example("damaged-tail", "log"),
        &example("damaged-tail", "out"),
    ]);
    let words = "Ceiling    NOT KEPT: the 102 µs from record 13 (run 1) to record 21 (run 2), \
                 with 4,500 µs of the 4,003 µs allowed.";
    let text = check.failed(1, words).text();
    assert_eq!(text.matches("NOT KEPT").count(), 2, "{text}");
}

#[test]
fn there_are_no_other_logs() {
    let folder = example("", "");
    let folder = folder.trim_end_matches("/.");
    let mut names: Vec<String> = std::fs::read_dir(folder)
        .unwrap()
        .map(|entry| entry.unwrap().file_name().into_string().unwrap())
        .collect();
    names.sort();
    let mut wanted: Vec<String> = EXAMPLES
        .iter()
        .flat_map(|name| ["log", "out", "txt"].map(|ending| format!("{name}.{ending}")))
        .collect();
    wanted.push("README.md".to_string());
    wanted.sort();
    assert_eq!(names, wanted);
}

/// The logs of the two ways are the same calls but for the way of the make.
#[test]
fn the_two_ways_have_the_same_calls() {
    let [drops, keeps] = ["drop-oldest", "keep-oldest"].map(|name| example_bytes(name, "log"));
    let mut other = drops.clone();
    other[4] = 1; // the lifetime field of the make
    assert_eq!((drops[4], other), (0, keeps));
}

/// What the log of the sliding second is there to show.
#[test]
fn the_eighth_packet_waits_until_the_first_is_a_second_old() {
    let out = String::from_utf8(example_bytes("any-second", "out")).unwrap();
    let lines = "\nSENT 7\nTAKEN\nTAKEN\nCLOSED 66662\nCLOSED 1\nSENT 8\n";
    assert!(out.contains(lines), "{out}");
    assert_eq!(out.matches("SENT 1").count(), 43, "1, and 101 to 142");
}

/// What the new radio is there to show: one busy probe of 12,500 moves the level.
#[test]
fn with_many_probes_a_threshold_is_met_to_the_probe() {
    let text = curlew(&["show", &example("new-radio", "log")])
        .good()
        .text();
    for (call, level) in [
        ("sample 3749 of 12500 ", " L0 100"),
        ("sample 3750 of 12500 ", " L1 200"),
        ("sample 7501 of 12500 ", " L4 1000"),
        ("sample 600 of 1000 ", " L3 500"),
        ("sample 601 of 1000 ", " L4 1000"),
    ] {
        let row = text.lines().find(|line| line.contains(call)).unwrap();
        assert!(row.ends_with(level), "{row}");
    }
    for call in [
        "sample 12501 of 12500 ",
        "sample 0 of 12501 ",
        "sample 2 of 1 ",
    ] {
        let row = text.lines().find(|line| line.contains(call)).unwrap();
        assert!(row.contains("REFUSED 4 BAD-SAMPLE"), "{row}");
    }
}

/// What the log from abroad is there to show: the threshold, the second without a ceiling, and the floor.
#[test]
fn abroad_the_wait_goes_by_the_latest_load() {
    let text = curlew(&["show", &example("abroad", "log")]).good().text();
    for (call, wait) in [
        ("sample 7750 of 12500 ", " 62.00% 25"),
        ("sample 7751 of 12500 ", " 62.01% 25"),
        ("sample 7763 of 12500 ", " 62.10% 48"),
        ("sample 8750 of 12500 ", " 70.00% 1000"),
    ] {
        let row = text.lines().find(|line| line.contains(call)).unwrap();
        assert!(row.ends_with(wait), "{row}");
    }
    assert!(text.contains("CLOSED 797000, full"), "{text}");
    let check = curlew(&[
        "check",
        &example("abroad", "log"),
        &example("abroad", "out"),
    ]);
    let text = check.good().text();
    for words in [
        "Latest CLOSED: 1.003999 s after an admission; from 1.004 s on a poll sends.",
        "Of priority 0, 9 went, 0 expired and 0 were displaced; 9 were promised",
        "the 174 ms from 3.000000 s on, with 28 ms of the 30 ms allowed",
    ] {
        assert!(text.contains(words), "no '{words}' in: {text}");
    }
}

/// What the jam is there to show.
#[test]
fn in_the_jam_a_warning_goes_each_second() {
    let check = curlew(&["check", &example("jam", "log"), &example("jam", "out")]);
    let text = check.good().text();
    assert!(
        text.contains("Of priority 0, 13 went, 0 expired and 0 were displaced; 13 were promised"),
        "{text}"
    );
    assert!(text.contains("none went: 1.02 s,"), "{text}");
    assert!(text.contains("11 packets displaced"), "{text}");
}
