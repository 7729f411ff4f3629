//! `curlew trace`.

use reference::rng::Rng;

use crate::counted::{busy_log, offers, End};
use crate::help::{answers, curlew, curlew_fed, example, example_bytes, log_of, Folder};

/// The life of a packet in a plain text, with the right answers.
fn traced(id: u32, text: &str) -> String {
    let id = id.to_string();
    let done = curlew_fed(&["trace", "--id", &id, "-"], &log_of(text)).good();
    done.text()
}

#[test]
fn a_packet_of_the_jam() {
    let (log, out) = (example("jam", "log"), example("jam", "out"));
    let text = curlew(&["trace", "--id", "501", &log, &out]).good().text();
    let right = "\
Offer at record 4, run 1, at 0.004000 s: priority 3, 1,000 µs on air, lives 20 s
              0.004000 s  TAKEN; none of its priority waits before it, and 2 of higher ones
              0.010000 s  packet 401 of priority 1 went first
              0.040000 s  CLOSED at 33 polls up to 1.000000 s, the last for 10.7 ms more
              1.030000 s  packet 303 of priority 2 went first
              1.060000 s  CLOSED at 33 polls up to 2.020000 s, the last for 10.6 ms more
              2.050000 s  packet 101 of priority 0 went first
              2.080000 s  CLOSED at 33 polls up to 3.040000 s, the last for 10.9 ms more
              3.070000 s  packet 102 of priority 0 went first
              3.100000 s  CLOSED at 33 polls up to 4.060000 s, the last for 10.9 ms more
              4.090000 s  packet 103 of priority 0 went first
              4.120000 s  CLOSED at 30 polls up to 4.990000 s, the last for 100.9 ms more
              5.004000 s  DISPLACED by packet 506, record 242, after 5 s

Packet 501: 1 offer: 1 displaced.
";
    let head = format!("{log}, answers of {out}: packet 501\n\n");
    assert_eq!(text, head + right);
}

/// One identifier used again and again: each of its lives is told.
#[test]
fn every_way_to_end() {
    let text = traced(
        7,
        "\
        offer 7 priority 1 ontime 9 lifetime 9 at 5\n\
        make 1 keep-oldest at 0\n\
        offer 7 priority 0 ontime 400 lifetime 1s at +1ms\n\
        poll at +1ms\n\
        offer 7 priority 9 ontime 400 lifetime 1s at +1ms\n\
        offer 7 priority 1 ontime 400 lifetime 50ms at +1ms\n\
        poll at +1ms\n\
        poll at +60ms\n\
        offer 7 priority 2 ontime 400 lifetime 50s at +1ms\n",
    );
    for words in [
        "Offer at record 1, outside of all runs: priority 1,",
        "REFUSED 9 NO-STATE: it never was in the gate",
        "0.002000 s  SENT by record 4, after 1,000 µs",
        "REFUSED 5 BAD-PRIORITY: it never was in the gate",
        "0.005000 s  CLOSED for 97.4 ms more",
        "0.065000 s  EXPIRED: its lifetime was over at 0.054000 s, as record 8 found",
        "0.066000 s  STILL WAITING when the run ended, with record 9, after 0 µs",
        "Packet 7: 5 offers: 1 sent, 1 expired, 2 refused, 1 still waiting.",
    ] {
        assert!(text.contains(words), "no '{words}' in: {text}");
    }
}

#[test]
fn a_packet_that_was_never_offered() {
    let text = traced(8, "make 1 at 0\npoll at +1ms\n");
    assert!(
        text.ends_with("\n\nPacket 8 was never offered in this log.\n"),
        "{text}"
    );
}

/// A packet that is passed by for long has a bounded number of lines.
#[test]
fn a_long_life() {
    let mut text = "make 3 at 0\noffer 1 priority 3 ontime 9 lifetime 60s at +1ms\n".to_string();
    for id in 0..1_000 {
        text += &format!(
            "offer {} priority 0 ontime 9 lifetime 1s at +25ms\npoll at +25ms\npoll at +1\n",
            id + 2
        );
    }
    let told = traced(1, &text);
    assert!(told.lines().count() < 60, "{told}");
    assert!(told.contains("more of such lines"), "{told}");
    assert!(told.contains("STILL WAITING"), "{told}");
}

/// Over all identifiers of a log, the ends are those of the second program's states.
#[test]
fn the_ends_of_all_packets() {
    let mut rng = Rng::new(2_605);
    let folder = Folder::new();
    for records in [100, 1_500] {
        let log = busy_log(&mut rng, records);
        let all = offers(&log);
        let out = folder.file("a.out", answers(&log));
        let log = folder.file("a.log", &log);
        for id in 0..30 {
            let text = curlew(&["trace", "--id", &id.to_string(), &log, &out]);
            let text = text.good().text();
            let own = || all.iter().filter(|offer| offer.id == id);
            let ends = [
                (End::Sent, "sent", "  SENT by"),
                (End::Expired, "expired", "  EXPIRED"),
                (End::Displaced, "displaced", "  DISPLACED"),
                (End::Refused, "refused", "  REFUSED"),
                (End::Waiting, "still waiting", "  STILL WAITING"),
            ];
            for (end, name, line) in ends {
                let many = own().filter(|offer| offer.end == end).count();
                assert_eq!(text.matches(line).count(), many, "{id}: {text}");
                let last = text.lines().last().unwrap();
                assert!(
                    many == 0 || last.contains(&format!("{many} {name}")),
                    "{last}"
                );
            }
            assert_eq!(text.matches("Offer at record").count(), own().count());
        }
    }
}

#[test]
fn a_wrong_answer() {
    let folder = Folder::new();
    let out = String::from_utf8(example_bytes("jam", "out")).unwrap();
    let bent = folder.file("bent.out", out.replacen("SENT 106", "IDLE", 1));
    let log = example("jam", "log");
    for (id, words) in [
        ("106", "9.190000 s  not known from here on: record 444 (poll at 10190000): IDLE, but a packet waits"),
        ("110", "TAKEN: from a wrong answer on, what became of it is not known"),
        ("110", "Packet 110: 1 offer: 1 not known."),
        ("101", "Packet 101: 1 offer: 1 sent."),
    ] {
        curlew(&["trace", "--id", id, &log, &bent]).failed(1, words);
    }
}

#[test]
fn bad_usage() {
    let log = example("jam", "log");
    for (words, said) in [
        (
            &["trace", &log][..],
            "--id and the packet's identifier are missing",
        ),
        (
            &["trace", "--id", &log],
            "--id needs a number from 0 to 4294967295, not",
        ),
        (
            &["trace", "--id", "4294967296", &log],
            "--id needs a number",
        ),
        (&["trace", "--id", "-1", &log], "--id needs a number"),
        (&["trace", "--id", "1"], "the name of the LOG is missing"),
        (
            &["trace", "--id", "1", &log, &log, &log],
            "is one name too many",
        ),
    ] {
        curlew(words).failed(2, said);
    }
}
