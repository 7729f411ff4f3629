//! `curlew plot`.

use crate::counted::{assert_well_formed, busy_log, offers, End, Offer};
use crate::help::{answers, curlew, example, example_bytes, Folder, EXAMPLES};
use reference::rng::Rng;

/// The picture of an example.
fn picture(name: &str, more: &[&str]) -> String {
    let folder = Folder::new();
    let svg = folder.path("a.svg");
    let (log, out) = (example(name, "log"), example(name, "out"));
    let mut words = vec!["plot", &log, &out, "-o", &svg];
    words.extend(more);
    curlew(&words).good();
    std::fs::read_to_string(&svg).unwrap()
}

#[test]
fn each_example_has_a_picture_that_explains_itself() {
    for name in EXAMPLES {
        let svg = picture(name, &[]);
        assert_well_formed(&svg);
        for words in [
            &format!("{name}.log"),
            "Channel load (% of probes busy)",
            "Packets waiting, by priority",
            "Packets sent (on-time, ms)",
            "Time since the last packet went (s)",
            "On-time admitted in the last second (ms)",
            "limit, guaranteed: at most 30 ms are admitted in any second",
            "floor, guaranteed: a poll on or above this line sends",
            "running time (",
            "priority 0 (highest)",
        ] {
            assert!(svg.contains(words), "{name}: no '{words}'");
        }
        let reactive = svg.contains("Level, and the wait that it asks for");
        let adaptive = svg.contains("Duty (% of the time that may be on air)");
        let harmonised = svg.contains("Wait after the last packet (s), by the latest load");
        let kinds = [reactive, adaptive, harmonised];
        assert_eq!(kinds.iter().filter(|kind| **kind).count(), 1, "{name}");
        assert_eq!(harmonised, name == "abroad");
        assert_eq!(
            harmonised,
            svg.contains("dotted: 62 %, above which the wait grows")
        );
        let adapts = ["quiet-morning", "any-second", "damaged-tail"];
        assert_eq!(adaptive, adapts.contains(&name));
    }
}

#[test]
fn each_packet_sent_has_a_stem() {
    let svg = picture("jam", &[]);
    assert_eq!(marks(&svg, "stem"), 16);
    let counts = "69 packets taken: 16 sent, 37 expired, 11 displaced, 5 waiting at the end";
    assert!(svg.contains(counts));
}

/// How many marks of a class the picture has.
fn marks(svg: &str, class: &str) -> usize {
    let of = format!(r#"class="{class}"#);
    let lines = svg.lines().filter(|line| line.contains(&of));
    lines.map(|line| line.matches('M').count()).sum()
}

/// Displaced packets have marks of their own, and are not drawn as expired.
#[test]
fn each_packet_displaced_has_a_mark() {
    let drops = picture("drop-oldest", &[]);
    assert_eq!(marks(&drops, "dropped"), 2);
    // The cross of one packet has two strokes.
    assert_eq!(marks(&drops, "cross"), 2);
    assert!(drops.contains("1 expired, 2 displaced, 0 waiting at the end"));
    let keeps = picture("keep-oldest", &[]);
    assert_eq!(marks(&keeps, "dropped"), 0);
    assert_eq!(marks(&keeps, "cross"), 2);
    assert!(keeps.contains("profile 1 (reactive) keep-oldest"));
    assert_eq!(marks(&picture("jam", &[]), "dropped"), 11);
}

#[test]
fn a_run_and_a_title_may_be_chosen() {
    let svg = picture("damaged-tail", &["--run", "2", "--title", "A <b> & \"c\""]);
    assert_well_formed(&svg);
    assert!(svg.contains("Run 2 · profile 2"));
    assert!(svg.contains("A &lt;b&gt; &amp; &quot;c&quot;"));
}

#[test]
fn a_run_that_is_not_there() {
    let folder = Folder::new();
    let svg = folder.path("a.svg");
    let log = example("jam", "log");
    curlew(&["plot", "--run", "2", &log, "-o", &svg]).failed(2, "it has 1 run, and no run 2");
    let empty = folder.file("empty.log", "");
    curlew(&["plot", &empty, "-o", &svg]).failed(2, "it has no run: no make was ready");
    assert_eq!(folder.names(), ["empty.log"]);
}

/// A part that starts after the fault has nothing in it but the mark.
#[test]
fn a_part_of_which_nothing_is_known() {
    let folder = Folder::new();
    let out = String::from_utf8(example_bytes("jam", "out")).unwrap();
    let bent = folder.file("bent.out", out.replacen("SENT 106", "IDLE", 1));
    let (log, svg) = (example("jam", "log"), folder.path("a.svg"));
    let words = [
        "plot", &log, &bent, "-o", &svg, "--from", "12s", "--to", "14s",
    ];
    curlew(&words).failed(1, "");
    let picture = std::fs::read_to_string(&svg).unwrap();
    assert_well_formed(&picture);
    assert!(picture.contains(r#"class="unknown" x="104.0""#));
    for class in ["trace", "faint", "stem", "cross", "p0 lane-line"] {
        assert!(!picture.contains(&format!(r#"class="{class}"#)), "{class}");
    }
}

/// Answers that don't fit make no picture; one that is wrong is where it ends.
#[test]
fn a_picture_ends_where_an_answer_is_wrong() {
    let folder = Folder::new();
    let svg = folder.path("a.svg");
    let out = String::from_utf8(example_bytes("jam", "out")).unwrap();
    let bent = folder.file("bent.out", out.replacen("CLOSED", "SENT 1\nCLOSED", 1));
    let log = example("jam", "log");
    curlew(&["plot", &log, &bent, "-o", &svg]).failed(2, "where END is due");
    assert_eq!(folder.names(), ["bent.out"]);
    let bent = folder.file("bent.out", out.replacen("SENT 106", "IDLE", 1));
    let done = curlew(&["plot", &log, &bent, "-o", &svg]).failed(1, "");
    let words = "IDLE, but a packet waits; the picture is of what came before";
    assert!(done.err.contains(words), "{}", done.err);
    let picture = std::fs::read_to_string(&svg).unwrap();
    assert_well_formed(&picture);
    // The packet that is not sent would have been the tenth.
    assert_eq!(marks(&picture, "stem"), 9);
    for words in [
        "Wrong at 9.19 s: record 444 (poll at 10190000): IDLE, but a packet waits. From there on nothing is known.",
        r#"class="unknown""#,
        "9 sent",
        "waiting when the answers went wrong",
    ] {
        assert!(picture.contains(words), "no '{words}'");
    }
}

#[test]
fn a_part_of_a_run() {
    let svg = picture("jam", &["--from", "2s", "--to", "6500ms"]);
    assert_well_formed(&svg);
    assert!(svg.contains("drawn: 2 s to 6.5 s"));
    assert_eq!(marks(&svg, "stem"), 5);
    assert_well_formed(&picture("clock-wrap", &["--from", "500s", "--to", "600s"]));
    let folder = Folder::new();
    let plot = |from: &str, to: &str, words: &str| {
        let svg = folder.path("a.svg");
        let log = example("jam", "log");
        curlew(&["plot", "--from", from, "--to", to, &log, "-o", &svg]).failed(2, words);
    };
    plot(
        "99s",
        "100s",
        "nothing to draw from 99 s to 100 s: the run is 15.97 s long",
    );
    plot("3s", "3s", "nothing to draw from 3 s to 3 s");
    plot("soon", "3s", "--from needs a time, as 12s, not 'soon'");
}

/// What was refused has marks, and is counted.
#[test]
fn each_offer_refused_has_a_mark() {
    let keeps = picture("keep-oldest", &[]);
    assert_eq!(marks(&keeps, "refused"), 2);
    assert!(
        keeps.contains("waiting at the end · 2 offers refused"),
        "{keeps}"
    );
    assert_eq!(marks(&picture("drop-oldest", &[]), "refused"), 0);
    let damaged = picture("damaged-tail", &[]);
    assert!(damaged.contains("refused p4"), "one that has no priority");
}

/// The counts in the picture of a log's part.
fn counts_drawn(log: &[u8], from: u64, to: u64) -> (String, String) {
    let folder = Folder::new();
    let out = folder.file("a.out", answers(log));
    let (log, svg) = (folder.file("a.log", log), folder.path("a.svg"));
    let (from, to) = (from.to_string(), to.to_string());
    let words = ["plot", &log, &out, "-o", &svg, "--from", &from, "--to", &to];
    curlew(&words).good();
    let svg = std::fs::read_to_string(&svg).unwrap();
    assert_well_formed(&svg);
    let at = svg.find(" taken: ").unwrap();
    let line = svg[..at].rfind('>').unwrap() + 1;
    let end = at + svg[at..].find('<').unwrap();
    (svg[line..end].to_string(), svg)
}

/// The counts of a part are those of the part, in short pictures and in long ones.
#[test]
fn the_counts_are_those_of_the_part_that_is_drawn() {
    let mut rng = Rng::new(96);
    for records in [300, 300, 300, 300, 24_000] {
        let log = busy_log(&mut rng, records);
        let all = offers(&log);
        let last = all.iter().map(|offer| offer.at).max().unwrap();
        let from = 1 + rng.below(last / 4);
        let to = last / 2 + rng.below(last / 4);
        let (line, svg) = counts_drawn(&log, from, to);
        let many = |of: &dyn Fn(&Offer) -> bool| all.iter().filter(|offer| of(offer)).count();
        let drawn = |time: u64| (from..=to).contains(&time);
        let taken = |offer: &Offer| offer.end != End::Refused;
        let ended = |end: End| many(&|offer| offer.end == end && drawn(offer.ended));
        let waiting = |at: u64| many(&|one| taken(one) && one.at < at && one.ended >= at);
        let parts = [
            format!(" {} waiting before", waiting(from)),
            format!(
                " {} packets taken",
                many(&|one| taken(one) && drawn(one.at))
            ),
            format!(" {} sent", ended(End::Sent)),
            format!(" {} expired", ended(End::Expired)),
            format!(" {} displaced", ended(End::Displaced)),
            format!(" {} waiting at the end", waiting(to + 1)),
            format!(" {} offers refused", ended(End::Refused)),
        ];
        let plain = line.replace(',', "");
        for part in parts {
            assert!(
                plain.contains(&part),
                "{records}, {from} to {to}: no '{part}' in {line}"
            );
        }
        assert_eq!(svg.contains("Packets sent a minute"), records > 10_000);
    }
}

/// Offers refused after the last call that was taken are at the run's end, and counted with it.
#[test]
fn refused_at_the_end() {
    let text = "make 1 at 0\npoll at +1s\n";
    let late = "offer 7 priority 0 ontime 400 lifetime 0 at +5s\n";
    let log = crate::help::log_of(&format!("{text}{late}{late}"));
    for (from, to, refused) in [(0, 99_000_000, 2), (0, 999_999, 0), (1, 1_000_000, 2)] {
        let (line, _) = counts_drawn(&log, from, to);
        assert!(
            line.contains(&format!(" {refused} offers refused")),
            "{line}"
        );
    }
    let mut rng = Rng::new(98);
    for _ in 0..20 {
        let log = busy_log(&mut rng, 60);
        let all = offers(&log);
        let refused = all.iter().filter(|offer| offer.end == End::Refused).count();
        let (line, _) = counts_drawn(&log, 0, u64::MAX / 2);
        let text = format!(" {refused} offer");
        assert!(line.contains(&text), "{line}: {refused}");
    }
}

/// In a long run each priority that went is seen, however few they are, and so is what did not go.
#[test]
fn a_long_run() {
    let folder = Folder::new();
    let mut text = "make 1 at 0\n".to_string();
    for id in 0..50_000 {
        let busy = id * 7_919 % 1_001;
        // One warning in the whole run, and eleven in a thousand of each of two others.
        let priority = match id {
            31_000 => 0,
            _ if id % 1_000 < 11 => 1,
            _ if id % 1_000 < 22 => 2,
            _ => 3,
        };
        text += &format!("sample {busy} at +9ms\n");
        text += &format!(
            "offer {id} priority {priority} ontime 900 lifetime 1500ms at +9ms\npoll at +9ms\n"
        );
    }
    let text = folder.file("long.txt", text);
    let (log, svg) = (folder.path("long.log"), folder.path("long.svg"));
    curlew(&["write", &text, "-o", &log]).good();
    curlew(&["plot", &log, "-o", &svg]).good();
    let svg = std::fs::read_to_string(&svg).unwrap();
    assert_well_formed(&svg);
    assert!(svg.len() < 400_000, "{}", svg.len());
    assert!(svg.contains("priority 0 (highest): 1 taken, 1 sent"));
    for words in [
        "Packets sent a minute, stacked by priority",
        "band: least to greatest in 5.49 s; line: the median by time, to a 400th of the scale",
        "Time between packets (s); dark: the longest while others wait",
    ] {
        assert!(svg.contains(words), "no '{words}'");
    }
    // A bar of priority 0 in one place; of the others in all of the sends.
    let bars = |class: &str| -> Vec<usize> {
        let of = format!(r#"class="{class} bar""#);
        let lines = svg.lines().filter(|line| line.contains(&of));
        lines.map(|line| line.matches('M').count()).collect()
    };
    assert_eq!(bars("p0"), [1]);
    assert!(
        bars("p3").iter().all(|bars| *bars > 100),
        "{:?}",
        bars("p3")
    );
    assert_eq!(marks(&svg, "stem"), 0);
}

/// A pause that has no room in its panel is marked as cut off, with a warning's floor drawn on top.
#[test]
fn what_is_cut_off_is_marked() {
    let drawn = |pause: &str| {
        let folder = Folder::new();
        let offer = "offer 1 priority 0 ontime 900 lifetime 1s";
        let text = format!(
            "make 1 at 0\n{offer} at +5ms\npoll at +5ms\n{offer} at +{pause}\npoll at +5ms\n"
        );
        let (log, svg) = (folder.path("a.log"), folder.path("a.svg"));
        let text = folder.file("a.txt", text);
        curlew(&["write", &text, "-o", &log]).good();
        curlew(&["plot", &log, "-o", &svg]).good();
        std::fs::read_to_string(&svg).unwrap()
    };
    let (short, long) = (drawn("1100ms"), drawn("9s"));
    assert!(!short.contains(r#"class="cut""#) && !short.contains("cut off"));
    assert!(long.contains(r#"class="cut""#) && long.contains("▲ cut off at 1.25 s"));
    // What is drawn later lies on top.
    let at = |class: &str| long.rfind(&format!(r#"class="{class}""#)).unwrap();
    assert!(at("limit") > at("trace") && at("limit") > at("faint"));
}

#[test]
fn a_long_title_is_cut_to_the_page() {
    let title = "Roadworks ".repeat(60);
    let svg = picture("jam", &["--title", &title]);
    let line = svg.lines().find(|line| line.contains(r#"class="title""#));
    let line = line.unwrap();
    assert!(
        line.contains("Roadworks Roadworks") && line.contains("…</text>"),
        "{line}"
    );
    assert!(line.len() < 200, "{line}");
    assert!(svg.contains(&format!("<title>{title}</title>")));
}

/// The load is drawn, and not the busy count: half of 12,500 probes is as high as half of 1,000.
#[test]
fn the_load_of_any_probes_has_the_same_place() {
    let drawn = |sample: &str| {
        let folder = Folder::new();
        let text = format!("make 1 at 0\n{sample} at +5ms\npoll at +9ms\n");
        let (log, svg) = (folder.path("a.log"), folder.path("a.svg"));
        let text = folder.file("a.txt", text);
        curlew(&["write", &text, "-o", &log]).good();
        curlew(&["plot", &log, "-o", &svg]).good();
        std::fs::read_to_string(&svg).unwrap()
    };
    let half = drawn("sample 500");
    assert_eq!(drawn("sample 6250 of 12500"), half);
    assert_eq!(drawn("sample 1 of 2"), half);
    assert_ne!(drawn("sample 500 of 12500"), half);
}
