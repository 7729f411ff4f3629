//! `curlew check`: it says KEPT of good answers, and finds bad ones.

use reference::log::Record;
use reference::rng::Rng;

use crate::help::{answers, curlew, curlew_fed, example, example_bytes, log_of, Done, Folder};

/// Checks a log with these answers.
fn check(log: &[u8], out: &str) -> Done {
    let folder = Folder::new();
    let log = folder.file("a.log", log);
    let out = folder.file("a.out", out);
    curlew(&["check", &log, &out])
}

/// The sample with one of its lines changed.
fn sample_with(line: usize, text: &str) -> Done {
    let out = String::from_utf8(example_bytes("sample", "out")).unwrap();
    let mut lines: Vec<&str> = out.lines().collect();
    lines[line - 1] = text;
    check(&example_bytes("sample", "log"), &(lines.join("\n") + "\n"))
}

#[test]
fn the_sample_is_kept() {
    let text = sample_with(1, "READY").good().text();
    for words in [
        "Run 1: profile 2, 0.050200 s, records 1 to 8",
        "accepted: 0 samples, 2 offers, 4 polls; refused: 1 CLOCK-BACK",
        "Counts     KEPT. 2 accepted = 1 sent + 0 expired + 0 displaced + 1 waiting at the end. They add up",
        "Delivery   Not promised here: no packet of priority 0 left.",
        "Ceiling    KEPT. Closest call: one packet at 0.000200 s, with 400 µs of the 4,000 µs allowed.",
        "Second     KEPT. Closest call: one packet at 0.000200 s, with 400 µs of the 30 ms allowed in any second.",
        "KEPT. Latest CLOSED: 50 ms after an admission; from 1.0005 s on a poll sends.",
        "none went: 100 µs, up to the SENT at 0.000200 s.",
        "8 records in 1 run, answers fit.",
        "Verdict: KEPT. Ceiling and floor held throughout.",
    ] {
        assert!(text.contains(words), "no '{words}' in: {text}");
    }
}

#[test]
fn one_wrong_answer_is_found() {
    let cases = [
        (1, "TAKEN", "TAKEN, but there is no gate"),
        (1, "REFUSED 1", "the answer is REFUSED 1, the right one is READY"),
        (2, "IDLE", "record 2 (offer 7 priority 2 ontime 400 lifetime 1000000 at 4294967100): IDLE is no answer"),
        (2, "REFUSED 8", "the answer is REFUSED 8, the right one is TAKEN"),
        (2, "REFUSED 11", "the answer is REFUSED 11, the right one is TAKEN"),
        (4, "SENT 7", "SENT 7, but packet 8 of priority 1 is first in turn"),
        (4, "IDLE", "record 4 (poll at 4294967200): IDLE, but a packet waits"),
        (4, "CLOSED 5", "floor: CLOSED before any admission"),
        (4, "TAKEN", "TAKEN is no answer to this call"),
        (5, "CLOSED 49601", "the answer is CLOSED 49601, the right one is CLOSED 49600"),
        // As if the wait had started with the admission.
        (5, "CLOSED 49200", "the answer is CLOSED 49200, the right one is CLOSED 49600"),
        (5, "SENT 7", "record 5 (poll at 704): gap: 800 µs after the packet before, where 25 ms are due"),
        (5, "IDLE", "IDLE, but a packet waits"),
        (6, "SENT 7", "the answer is SENT 7, the right one is CLOSED 400"),
        (7, "IDLE", "record 7 (poll at 49903)"),
        (8, "SENT 8", "SENT 8, but packet 7 of priority 2 is first in turn"),
        (8, "CLOSED 9", "the answer is CLOSED 9, the right one is CLOSED 400"),
        (8, "REFUSED 3", "the answer is REFUSED 3, the right one is CLOSED 400"),
    ];
    for (line, text, words) in cases {
        let done = sample_with(line, text).failed(1, words);
        let said = done.text();
        assert!(said.contains("Verdict: NOT KEPT"), "{text}: {said}");
    }
}

#[test]
fn a_wrong_answer_where_nothing_waits_is_found() {
    let log = log_of("make 2 at 0\npoll at +1\n");
    assert_eq!(answers(&log), "READY\nIDLE\nEND\n");
    for (said, words) in [
        ("SENT 7", "SENT 7, but nothing waits"),
        ("CLOSED 9", "CLOSED, but nothing waits"),
        (
            "REFUSED 3",
            "the answer is REFUSED 3, the right one is IDLE",
        ),
    ] {
        check(&log, &format!("READY\n{said}\nEND\n")).failed(1, words);
    }
}

#[test]
fn answers_that_do_not_fit_the_log() {
    let log = example_bytes("sample", "log");
    let good = String::from_utf8(example_bytes("sample", "out")).unwrap();
    let less = |lines: usize| {
        let kept: Vec<&str> = good.lines().take(lines).collect();
        kept.join("\n") + "\n"
    };
    let cases = [
        (
            String::new(),
            "line 1: the answers end, but the log has a record 1",
        ),
        (
            less(5),
            "line 6: the answers end, but the log has a record 6",
        ),
        (
            less(8),
            "line 9: there is no line END: the log ends after 8 records",
        ),
        (
            less(5) + "END\n",
            "line 6: END comes too early: the log has a record 6",
        ),
        (less(8) + "TORN\n", "line 9: TORN where END is due"),
        (
            less(8) + "IDLE\nEND\n",
            "line 9: IDLE where END is due: the log ends after 8 records",
        ),
        (good.clone() + "\n", "line 10: there is more after END"),
        (
            good.replace("SENT 8", "SENT 08"),
            "line 4: 'SENT 08' is no answer",
        ),
        (
            good.replace("TAKEN", "TAKEN "),
            "line 2: 'TAKEN ' is no answer",
        ),
        (
            good.replace("REFUSED", "refused"),
            "line 7: 'refused 2' is no answer",
        ),
        (
            good.replace('\n', "\r\n"),
            "line 1: 'READY\\r' is no answer",
        ),
        (
            good.trim_end().to_string(),
            "line 9: 'END' does not end in a newline",
        ),
        ("x".repeat(100_000), "line 1: 'xxxx"),
        ("\u{FFFD}\n".to_string(), "is no answer"),
    ];
    for (out, words) in cases {
        check(&log, &out).failed(2, words);
    }
    check(&log[..120], &good).failed(
        2,
        "line 8: CLOSED 400 where TORN is due: the log ends with 8 bytes after 7 records",
    );
}

#[test]
fn damaged_logs_do_not_fit_the_answers() {
    let log = example_bytes("jam", "log");
    let out = String::from_utf8(example_bytes("jam", "out")).unwrap();
    check(&log[..log.len() - 16], &out).failed(2, "where END is due");
    check(&log[..log.len() - 1], &out).failed(2, "where TORN is due");
    let mut longer = log.clone();
    longer.extend([3; 16]);
    check(&longer, &out).failed(2, "END comes too early: the log has a record 764");
    check(&log[16..], &out).failed(2, "where END is due: the log ends after 762 records");
    // Record 96 is the offer of the first warning: its kind, priority, identifier and stamp.
    for at in [0, 1, 8, 13] {
        let mut bent = log.clone();
        bent[16 * 95 + at] ^= 0x40;
        check(&bent, &out).failed(1, "Verdict: NOT KEPT");
    }
}

/// SENT before its time: where on-times are long the ceiling is passed.
#[test]
fn the_ceiling_is_watched() {
    let text = "make 3 at 0\n\
        offer 1 priority 0 ontime 4000 lifetime 1s at +0\n\
        offer 2 priority 0 ontime 4000 lifetime 1s at +0\n\
        poll at +0\npoll at +1000\n";
    let out = "READY\nTAKEN\nTAKEN\nSENT 1\nSENT 2\nEND\n";
    let words = "record 5 (poll at 1000): ceiling: 8,000 µs of air time in 1,000 µs, where 4,030 µs is allowed";
    check(&log_of(text), out).failed(1, words);
}

/// Eight packets of 4,000 µs at 133,334 µs keep the ceiling, and are too much for a second.
#[test]
fn the_second_is_watched() {
    let (log, out) = (example("any-second", "log"), example("any-second", "out"));
    let text = curlew(&["check", &log, &out]).good().text();
    let words = "Second     KEPT. Closest call: the 975 ms from 42.133334 s on, with 30 ms of the 30 ms allowed";
    assert!(text.contains(words), "{text}");
    let log = example_bytes("any-second", "log");
    let out = String::from_utf8(example_bytes("any-second", "out")).unwrap();
    check(&log, &out.replace("CLOSED 66662", "SENT 8")).failed(
        1,
        "record 418 (poll at 40933338): second: 32 ms admitted in the second up to 40.933338 s, \
         where 30 ms is allowed",
    );
    // A number of µs that is not the greater of the two.
    for wrong in ["CLOSED 66661", "CLOSED 66663", "CLOSED 1"] {
        let words = format!("the answer is {wrong}, the right one is CLOSED 66662");
        check(&log, &out.replace("CLOSED 66662", wrong)).failed(1, &words);
    }
    // The shorter one behind it would fit, and is not first in turn.
    check(&log, &out.replace("CLOSED 66662", "SENT 9"))
        .failed(1, "SENT 9, but packet 8 of priority 0 is first in turn");
    check(&log, &out.replace("CLOSED 25000", "SENT 142")).failed(
        1,
        "second: 30.001 ms admitted in the second up to 43.158334 s",
    );
}

/// In profile 4 the ceiling is not promised, and KEPT is not said of it; the second is watched there too.
#[test]
fn no_ceiling_is_claimed_of_profile_4() {
    let mut text = "make 4 at 0\n".to_string();
    let mut out = "READY\n".to_string();
    for id in 0..8 {
        text += &format!("offer {id} priority 0 ontime 4000 lifetime 60s at +0\npoll at +0\n");
        text += "sample 620 at +29ms\n";
        out += &format!("TAKEN\nSENT {id}\nTAKEN\n");
    }
    let log = log_of(&text);
    let right = out.replace("SENT 7", "CLOSED 797000") + "END\n";
    assert_eq!(answers(&log), right);
    let told = check(&log, &right).good().text();
    for words in [
        "Ceiling    Not promised in profile 4, where 25 ms after one packet the next may go.",
        "Second     KEPT. Closest call: the 174 ms from 0.000000 s on, with 28 ms of the 30 ms allowed",
        "Verdict: KEPT. Second and floor held throughout, and the ceiling where it is promised.",
    ] {
        assert!(told.contains(words), "no '{words}' in: {told}");
    }
    assert!(!told.contains("Ceiling    KEPT"), "{told}");
    check(&log, &(out + "END\n"))
        .failed(1, "second: 32 ms admitted in the second up to 0.203000 s");
    // The same answers in profile 3 pass the ceiling.
    let log = log_of(&text.replace("make 4", "make 3"));
    check(&log, &right).failed(
        1,
        "ceiling: 8,000 µs of air time in 29 ms, where 4,870 µs is allowed",
    );
}

/// Two packets nearer than any wait, so short that neither ceiling is passed.
#[test]
fn the_gap_is_watched() {
    let text = "make 2 at 0\n\
        offer 1 priority 0 ontime 9 lifetime 1s at +0\n\
        offer 2 priority 0 ontime 9 lifetime 1s at +0\n\
        poll at +0\npoll at +24999\n";
    let out = "READY\nTAKEN\nTAKEN\nSENT 1\nSENT 2\nEND\n";
    let words =
        "record 5 (poll at 24999): gap: 24.999 ms after the packet before, where 25 ms are due";
    check(&log_of(text), out).failed(1, words);
}

#[test]
fn the_floor_is_watched() {
    let text = "make 1 at 0\n\
        offer 1 priority 0 ontime 9 lifetime 60s at +0\n\
        offer 2 priority 0 ontime 9 lifetime 60s at +0\n\
        poll at +0\npoll at +999999\npoll at +1\n";
    let log = log_of(text);
    let out = "READY\nTAKEN\nTAKEN\nSENT 1\nSENT 2\nIDLE\nEND\n";
    assert_eq!(answers(&log), out);
    check(&log, out).good();
    let out = "READY\nTAKEN\nTAKEN\nSENT 1\nCLOSED 1\nCLOSED 1\nEND\n";
    check(&log, out).failed(
        1,
        "record 5 (poll at 999999): the answer is CLOSED 1, the right one is SENT 2",
    );
    // With the longest wait and on-time the first CLOSED is right, and the second breaks the floor.
    for (profile, ontime, floor) in [
        (1, 1_000, 1_001_000),
        (2, 500, 1_000_500),
        (3, 4_000, 1_000_000),
        (4, 4_000, 1_004_000),
    ] {
        let mut text = format!("make {profile} at 0\n");
        text += &"sample 1000 at +0\n".repeat(4);
        for id in [1, 2] {
            text += &format!("offer {id} priority 0 ontime {ontime} lifetime 60s at +0\n");
        }
        text += &format!("poll at +0\npoll at {}\npoll at {floor}\n", floor - 1);
        let log = log_of(&text);
        let out = answers(&log);
        assert!(out.ends_with("\nSENT 1\nCLOSED 1\nSENT 2\nEND\n"), "{out}");
        check(&log, &out).good();
        check(&log, &out.replace("SENT 2", "CLOSED 1")).failed(
            1,
            &format!(
                "record 10 (poll at {floor}): floor: CLOSED {floor} µs after the last admission"
            ),
        );
    }
}

/// Sent, expired and waiting are counted from calls and answers, each where it happens, and anew in each run.
#[test]
fn the_counts_of_each_run() {
    let text = "make 1 at 0\n\
        offer 1 priority 0 ontime 9 lifetime 60s at +0\n\
        offer 2 priority 1 ontime 9 lifetime 5 at +0\n\
        offer 3 priority 9 ontime 9 lifetime 5 at +0\n\
        poll at +0\n\
        offer 4 priority 2 ontime 9 lifetime 60s at +5\n\
        offer 5 priority 3 ontime 9 lifetime 5 at +0\n\
        sample 0 at +5\n\
        make 2 at 0\n\
        poll at +0\n";
    let log = log_of(text);
    let told = check(&log, &answers(&log)).good().text();
    for words in [
        // 2 was removed at the offer of 4; 5 has expired, and no offer or poll has come to remove it.
        "4 accepted = 1 sent + 1 expired + 0 displaced + 2 waiting at the end.",
        "0 accepted = 0 sent + 0 expired + 0 displaced + 0 waiting at the end.",
    ] {
        assert!(told.contains(words), "no '{words}' in: {told}");
    }
    let text = text.replace("make 2", "poll at +0\nmake 2");
    let told = check(&log_of(&text), &answers(&log_of(&text)))
        .good()
        .text();
    let words = "4 accepted = 1 sent + 2 expired + 0 displaced + 1 waiting at the end.";
    assert!(told.contains(words), "no '{words}' in: {told}");
}

/// A full queue in each of the two ways: what was displaced is told, and the other way's answers are found.
#[test]
fn displaced_packets_are_counted() {
    let drops = curlew(&[
        "check",
        &example("drop-oldest", "log"),
        &example("drop-oldest", "out"),
    ]);
    let text = drops.good().text();
    for words in [
        "Run 1: profile 1, 0.656400 s, records 1 to 17",
        "9 accepted = 6 sent + 1 expired + 2 displaced + 0 waiting at the end.",
        "2 packets displaced, none before 5 more of its own priority were taken.",
        "Delivery   KEPT. Of priority 0, 5 went, 1 expired and 2 were displaced; 5 were promised to go.",
    ] {
        assert!(text.contains(words), "no '{words}' in: {text}");
    }
    let keeps = curlew(&[
        "check",
        &example("keep-oldest", "log"),
        &example("keep-oldest", "out"),
    ]);
    let text = keeps.good().text();
    for words in [
        "Run 1: profile 1 keep-oldest, 0.656400 s, records 1 to 17",
        "refused: 2 QUEUE-FULL",
        "7 accepted = 6 sent + 1 expired + 0 displaced + 0 waiting at the end.",
        "Delivery   KEPT. Of priority 0, 5 went, 1 expired and 0 were displaced; 5 were promised to go.",
    ] {
        assert!(text.contains(words), "no '{words}' in: {text}");
    }
    assert!(!text.contains("packets displaced"), "{text}");
    // Each log with the answers of the other: the first that differs is found.
    let (drops, keeps) = (example("drop-oldest", "log"), example("keep-oldest", "log"));
    curlew(&["check", &drops, &example("keep-oldest", "out")]).failed(
        1,
        "record 8 (offer 6 priority 0 ontime 900 lifetime 60000000 at 30999): \
         the answer is REFUSED 8, the right one is TAKEN",
    );
    curlew(&["check", &keeps, &example("drop-oldest", "out")])
        .failed(1, "the answer is TAKEN, the right one is REFUSED 8");
}

/// A packet that does not live longer than its bound, here 1.001 s, was promised nothing: whether it went or not, KEPT
/// is not said of it.
#[test]
fn delivery_is_kept_only_where_it_was_promised() {
    let text = |lifetime: u32| {
        format!(
            "make 1 at 0\n\
             offer 1 priority 0 ontime 9 lifetime {lifetime} at +0\npoll at +0\n\
             offer 2 priority 0 ontime 9 lifetime 5 at +0\npoll at +5\n"
        )
    };
    for (lifetime, words) in [
        (
            1_001_000,
            "Delivery   Not promised here: none lived longer than the label's bound. \
             Of priority 0, 1 went, 1 expired and 0 were displaced.",
        ),
        (
            1_001_001,
            "Delivery   KEPT. Of priority 0, 1 went, 1 expired and 0 were displaced; 1 was promised to go.",
        ),
    ] {
        let log = log_of(&text(lifetime));
        let told = check(&log, &answers(&log)).good().text();
        assert!(told.contains(words), "no '{words}' in: {told}");
    }
}

/// A sample is judged with the probes that it tells.
#[test]
fn the_probes_of_a_sample_are_judged() {
    let text = "make 1 at 0\nsample 12500 of 12500 at +0\nsample 12501 of 12500 at +0\nsample 1001 at +0\n";
    let log = log_of(text);
    let out = answers(&log);
    assert_eq!(out, "READY\nTAKEN\nREFUSED 4\nREFUSED 4\nEND\n");
    let told = check(&log, &out).good().text();
    assert!(
        told.contains("1 sample, 0 offers, 0 polls; refused: 2 BAD-SAMPLE"),
        "{told}"
    );
    check(&log, &out.replacen("REFUSED 4", "TAKEN", 1)).failed(
        1,
        "record 3 (sample 12501 of 12500 at 0): the answer is TAKEN, the right one is REFUSED 4",
    );
}

/// A gate that displaces the newest of five, or one of another queue, sends what it should not.
#[test]
fn another_packet_displaced_is_found() {
    let mut text = "make 1 at 0\n".to_string();
    for id in 1..=6 {
        text += &format!("offer {id} priority 2 ontime 9 lifetime 60s at +0\n");
    }
    let log = log_of(&(text + "poll at +0\n"));
    let out = answers(&log);
    assert!(out.ends_with("\nSENT 2\nEND\n"), "{out}");
    check(&log, &out).good();
    for wrong in ["SENT 1", "SENT 3", "SENT 6"] {
        let words = format!("{wrong}, but packet 2 of priority 2 is first in turn");
        check(&log, &out.replace("SENT 2", wrong)).failed(1, &words);
    }
}

#[test]
fn several_runs_each_have_a_verdict() {
    let text = "poll at 0\nmake 1 at 5\npoll at +1\nmake 9 at 7\npoll at 8\nmake 2 at 9\n\
        offer 4 priority 0 ontime 5 lifetime 9 at +0\npoll at +1\n";
    let log = log_of(text);
    let out = answers(&log);
    let told = check(&log, &out).good().text();
    assert!(
        told.contains("Run 1: profile 1, 0.000001 s, records 2 to 3"),
        "{told}"
    );
    assert!(
        told.contains("Run 2: profile 2, 0.000001 s, records 6 to 8"),
        "{told}"
    );
    assert!(told.contains("8 records in 2 runs"), "{told}");
    // A fault in one leaves the other as it is, and one outside is found too.
    let done = check(&log, &out.replace("SENT 4", "IDLE"));
    let told = done.failed(1, "Verdict: NOT KEPT in 1 of 2 runs.").text();
    assert!(
        told.contains("Run 1: profile 1") && told.contains("Ceiling    KEPT"),
        "{told}"
    );
    let done = check(&log, &out.replacen("REFUSED 9", "REFUSED 3", 1));
    done.failed(
        1,
        "Outside of all runs:\n  NOT KEPT   1 answer is wrong:\n             \
         record 1 (poll at 0): the answer is REFUSED 3",
    );
    let done = check(
        &log,
        &out.replace("REFUSED 1\nREFUSED 9", "REFUSED 1\nIDLE"),
    );
    done.failed(1, "record 5 (poll at 8): IDLE, but there is no gate");
}

/// A log can't carry profile 5's list: its make is refused with 1, and starts no
/// run.
#[test]
fn a_make_of_profile_5_is_refused_with_1() {
    let log = log_of("make 5 at 0\npoll at 1\nmake 1 at 2\nmake 5 keep-oldest at 3\npoll at 4\n");
    let out = answers(&log);
    assert_eq!(
        out,
        "REFUSED 1\nREFUSED 9\nREADY\nREFUSED 1\nREFUSED 9\nEND\n"
    );
    let told = check(&log, &out).good().text();
    assert!(told.contains("5 records in 1 run"), "{told}");
    for (bad, words) in [
        (
            "REFUSED 15",
            "the answer is REFUSED 15, the right one is REFUSED 1",
        ),
        ("READY", "the answer is READY, the right one is REFUSED 1"),
    ] {
        let bent = out.replacen("REFUSED 1", bad, 1);
        check(&log, &bent).failed(1, &format!("record 1 (make 5 at 0): {words}"));
    }
}

#[test]
fn no_run_and_no_records() {
    check(b"", "END\n").good();
    let told = check(&[3; 16], "REFUSED 9\nEND\n").good().text();
    assert!(told.contains("there was no run to look at"), "{told}");
    let told = check(&[3; 5], "TORN\n").good().text();
    assert!(told.contains("a torn tail of 5 bytes"), "{told}");
}

/// Twenty runs are told in full, a thousand in a line each, and the others are counted.
#[test]
fn many_runs_are_not_told_one_by_one() {
    let log = log_of(&("make 1 at 5\n".to_string() + &"make 1 at +2s\n".repeat(1_049)));
    let told = check(&log, &answers(&log)).good().text();
    assert!(
        told.contains("50 more runs, not told one by one."),
        "{told}"
    );
    assert_eq!(told.matches("\n  Calls ").count(), 20, "{told}");
    let line = "Run 21: profile 1, 0.000000 s, records 21 to 21, 0 sent, 0 µs on air, after a pause of 2 s. KEPT.\n";
    assert!(told.contains(line), "{told}");
    assert_eq!(told.matches("\nRun ").count() + 1, 1_000, "{told}");
}

/// Every wrong answer is told, those of several runs and those of none, up to a limit.
#[test]
fn every_fault_is_told() {
    let mut text = "poll at 0\nmake 1 at 0\n".to_string() + &"poll at +1s\n".repeat(5);
    text += &("make 2 at +1s\n".to_string() + &"poll at +1s\n".repeat(5));
    let log = log_of(&text);
    let out = answers(&log);
    let mut lines: Vec<&str> = out.lines().collect();
    for (line, wrong) in [
        (1, "IDLE"),
        (3, "SENT 1"),
        (5, "CLOSED 5"),
        (7, "REFUSED 2"),
        (9, "TAKEN"),
        (13, "SENT 9"),
    ] {
        lines[line - 1] = wrong;
    }
    let bent = lines.join("\n") + "\n";
    let told = check(&log, &bent)
        .failed(1, "Verdict: NOT KEPT in 2 of 2 runs.")
        .text();
    for words in [
        "Run 1: profile 1, 0.000000 s to the last right answer, records 2 to 7\n  NOT KEPT   3 answers are wrong:",
        "record 3 (poll at 1000000): SENT 1, but nothing waits\n",
        "record 5 (poll at 3000000): the answer is CLOSED 5, the right one is IDLE\n",
        "record 7 (poll at 5000000): the answer is REFUSED 2, the right one is IDLE\n",
        "Run 2: profile 2, 0.000000 s to the last right answer, records 8 to 13\n  NOT KEPT   2 answers are wrong:",
        "record 9 (poll at 7000000): TAKEN is no answer to this call\n",
        "record 13 (poll at 11000000): the answer is SENT 9, the right one is IDLE\n",
        "Outside of all runs:\n  NOT KEPT   1 answer is wrong:\n             record 1 (poll at 0): IDLE, but there is no gate",
        "From the first on, what the gate held is not known",
    ] {
        assert!(told.contains(words), "no '{words}' in: {told}");
    }
    let folder = Folder::new();
    let (log, out) = (folder.file("a.log", &log), folder.file("a.out", &bent));
    let told = curlew(&["check", "--faults", "2", &log, &out])
        .failed(1, ".. and 2 more")
        .text();
    assert_eq!(told.matches("record ").count(), 2, "{told}");
    assert!(
        told.contains("5 answers are wrong") || told.contains("3 answers are wrong"),
        "{told}"
    );
}

/// Three runs of a second each, with a packet of 4 ms each 4 ms: each run keeps what it promises.
fn restarts(gap: &str, runs: u32, profile: u32) -> (Vec<u8>, String) {
    let mut text = "make 3 at 0\n".replace('3', &profile.to_string());
    for id in 1..=runs {
        if id > 1 {
            text += &format!("make {profile} at +{gap}\n");
        }
        text += &format!("offer {id} priority 0 ontime 4000 lifetime 1s at +0\npoll at +0\n");
    }
    let log = log_of(&text);
    let out = answers(&log);
    assert_eq!(out.matches("SENT").count(), runs as usize);
    (log, out)
}

/// Makes 4 ms apart, each with one packet: each run is kept, and all together are not.
#[test]
fn air_is_added_up_across_makes() {
    let (log, out) = restarts("4ms", 8, 3);
    let told = check(&log, &out)
        .failed(
            1,
            "Verdict: NOT KEPT across restarts, though each run by itself was.",
        )
        .text();
    for words in [
        "Run 2: profile 3, 0.000000 s, records 4 to 6\n  Restart    made 4,000 µs after the last call of the run before\n",
        "Restarts   7 restarts; the shortest silence across one is 4,000 µs, from record 3 (run 1) to record 6 (run 2): \
         less than the second that the label asks for.",
        "Second     NOT KEPT: the 28 ms from record 3 (run 1) to record 24 (run 8), with 32 ms of the 30 ms allowed",
        "Ceiling    NOT KEPT: the 28 ms from record 3 (run 1) to record 24 (run 8), with 32 ms of the 4,840 µs allowed",
    ] {
        assert!(told.contains(words), "no '{words}' in: {told}");
    }
    assert_eq!(told.matches("Second     KEPT").count(), 8, "{told}");
    // Seven are 28 ms: the second is kept, the ceiling is not.
    let (log, out) = restarts("4ms", 7, 3);
    let told = check(&log, &out)
        .failed(1, "Ceiling    NOT KEPT: the 24 ms")
        .text();
    assert!(
        told.contains("Second     KEPT. Closest call: the 24 ms from record 3 (run 1)"),
        "{told}"
    );
    // In profile 4 no ceiling is promised.
    let (log, out) = restarts("4ms", 7, 4);
    let told = check(&log, &out).good().text();
    assert!(
        told.contains("Ceiling    Nothing was sent in a profile that promises it."),
        "{told}"
    );
    let (log, out) = restarts("4ms", 8, 4);
    check(&log, &out).failed(1, "Second     NOT KEPT: the 28 ms");
}

/// A second of silence keeps what each run keeps; one µs less need not, and a little less is told.
#[test]
fn a_second_of_silence_is_enough() {
    for profile in [3, 4] {
        let (log, out) = restarts("1s", 40, profile);
        let told = check(&log, &out).good().text();
        assert!(
            told.contains("39 restarts; the shortest silence across one is 1 s,"),
            "{told}"
        );
        assert!(!told.contains("less than the second"), "{told}");
    }
    let (log, out) = restarts("999999us", 3, 3);
    let told = check(&log, &out).good().text();
    assert!(
        told.contains("less than the second that the label asks for"),
        "{told}"
    );
}

/// Stamps wrap: the pause is read as the least that they allow. A count that goes back tells nothing.
#[test]
fn a_pause_that_the_stamps_do_not_tell() {
    let text = |stamp: u32| {
        let packet = "offer 1 priority 0 ontime 4000 lifetime 1s at +0\npoll at +0\n";
        format!("make 3 at 4294966000\n{packet}make 3 at {stamp}\n{packet}")
    };
    let judged = |stamp: u32| {
        let log = log_of(&text(stamp));
        let out = answers(&log);
        check(&log, &out)
    };
    // Over the wrap, 2,000 µs later.
    judged(704).failed(
        1,
        "shortest silence across one is 2,000 µs, from record 3 (run 1) to record 6 (run 2)",
    );
    judged(4_294_966_000).failed(1, "shortest silence across one is 0 µs");
    judged(2_147_482_351).good(); // half a turn less 1 µs later
    for back in [2_147_482_352, 4_294_965_999, 2_200_000_000] {
        let told = judged(back).good().text();
        for words in [
            "Restart    after the run before, at a time that is not known: see below",
            "1 restart; no packet went both before and after one, on one clock. Before 1 of them the pause is not known",
            "Verdict: KEPT. Ceiling and floor held throughout. Not over each restart: there a pause is not known.",
        ] {
            assert!(told.contains(words), "no '{words}' in: {told}");
        }
    }
    // After a wrong answer the pause is not known either.
    let log = log_of(&text(704));
    let told = check(&log, &answers(&log).replacen("SENT 1", "IDLE", 1))
        .failed(1, "NOT KEPT in 1 of 2 runs.");
    assert!(
        told.text()
            .contains("Before 1 of them the pause is not known"),
        "{}",
        told.text()
    );
}

/// One of the inputs may come as a stream.
#[test]
fn the_answers_may_come_on_standard_input() {
    let out = example_bytes("jam", "out");
    curlew_fed(&["check", &example("jam", "log"), "-"], &out).good();
}

/// Random runs: the second program's answers are kept, and a line changed for
/// another that this record could get is found.
#[test]
fn random_runs_and_random_changes() {
    let mut rng = Rng::new(2_026);
    for _ in 0..60 {
        let log = random_log(&mut rng, 400);
        let out = answers(&log);
        check(&log, &out).good();
        let mut lines: Vec<String> = out.lines().map(str::to_string).collect();
        let at = rng.below(lines.len() as u64 - 1) as usize;
        let other = match log[16 * at] {
            0 => "REFUSED 1".to_string(),
            1 | 2 if lines[at] == "TAKEN" => format!("REFUSED {}", 1 + rng.below(11)),
            1 | 2 => "TAKEN".to_string(),
            _ => {
                let id = rng.below(400);
                let left = 1 + rng.below(1_000_000);
                let choices = [
                    "IDLE".to_string(),
                    format!("SENT {id}"),
                    format!("CLOSED {left}"),
                ];
                choices[rng.below(3) as usize].clone()
            }
        };
        if lines[at] == other {
            continue;
        }
        lines[at] = other;
        let bent = lines.join("\n") + "\n";
        check(&log, &bent).failed(1, &format!("record {} (", at + 1));
    }
}

/// A log of good calls, most of them accepted.
fn random_log(rng: &mut Rng, records: u32) -> Vec<u8> {
    let profile = 1 + rng.below(3) as u8;
    let most = [1_000, 500, 4_000][usize::from(profile) - 1];
    let mut stamp = rng.next_u32();
    let mut bytes = Vec::new();
    let make = Record {
        kind: 0,
        priority: profile,
        lifetime: rng.below(2) as u32,
        stamp,
        ..Record::default()
    };
    bytes.extend(make.to_bytes());
    for id in 1..records {
        stamp = stamp.wrapping_add(rng.below(60_000) as u32);
        let record = Record {
            kind: rng.pick(&[1, 2, 2, 3, 3, 3]),
            priority: rng.below(4) as u8,
            ontime: 1 + rng.below(most) as u16,
            lifetime: 1 + rng.below(3_000_000) as u32,
            id,
            stamp,
        };
        bytes.extend(record.to_bytes());
    }
    bytes
}
