//! `curlew report`.

use reference::rng::Rng;

use crate::counted::{assert_well_formed, busy_log, offers, End};
use crate::help::{answers, curlew, example, example_bytes, log_of, Done, Folder, EXAMPLES};

/// The page on a log and its answers, and how the command ended.
fn report(log: &[u8], out: &str, more: &[&str]) -> (String, Done) {
    let folder = Folder::new();
    let (log, out) = (folder.file("my.log", log), folder.file("my.out", out));
    let page = folder.path("my.html");
    let mut words = vec!["report", &log, &out, "-o", &page];
    words.extend(more);
    let done = curlew(&words);
    (std::fs::read_to_string(&page).unwrap_or_default(), done)
}

/// The page on a log, with the right answers.
fn page_of(log: &[u8]) -> String {
    let (page, done) = report(log, &answers(log), &[]);
    assert_eq!(done.err, "");
    assert_well_formed(&page);
    page
}

/// The cells of the tables' rows, without their elements.
fn rows(page: &str) -> Vec<Vec<String>> {
    let lines = page.lines().filter(|line| line.starts_with("<tr><td"));
    let cells = lines.map(|line| line.split("<td").skip(1).map(bare).collect());
    cells.collect()
}

/// A cell's text, which starts inside of its element.
fn bare(cell: &str) -> String {
    let parts = cell
        .split('<')
        .map(|part| part.split_once('>').unwrap_or(("", part)).1);
    parts.collect()
}

#[test]
fn each_example_has_a_page() {
    for name in EXAMPLES {
        let log = example_bytes(name, "log");
        let page = page_of(&log);
        for words in [
            "<h1>my.log</h1>",
            "with the answers in my.out",
            "<h2>Runs</h2>",
            "The figures, beside the label",
            "<h2>Packets, by priority</h2>",
            "<h2>Pictures</h2>",
            "<svg xmlns=",
            "<h2>Warnings that were not sent</h2>",
        ] {
            assert!(page.contains(words), "{name}: no '{words}'");
        }
        let check = curlew(&["check", &example(name, "log"), &example(name, "out")]);
        let verdict = check.text();
        let verdict = verdict
            .lines()
            .last()
            .unwrap()
            .strip_prefix("Verdict: ")
            .unwrap();
        assert!(
            page.contains(&format!(">{verdict}</p>")),
            "{name}: {verdict}"
        );
    }
}

/// The page needs nothing but itself.
#[test]
fn nothing_comes_from_elsewhere() {
    let page = page_of(&example_bytes("jam", "log"));
    for words in [
        "<script", "<link", "<img", "src=", "href=", "@import", "url(",
    ] {
        assert!(!page.contains(words), "{words}");
    }
    let rest = page.replace("http://www.w3.org/2000/svg", "");
    assert!(!rest.contains("://"));
    assert!(page.contains("@page { size: A4;") && page.contains("name=\"viewport\""));
}

/// The counts by priority, and the worst wait, are those of the second program's states.
#[test]
fn the_counts_by_priority() {
    let mut rng = Rng::new(97);
    for records in [50, 400, 400, 400, 9_000] {
        let log = busy_log(&mut rng, records);
        let all = offers(&log);
        let rows = rows(&page_of(&log));
        for priority in 0..4 {
            let name = priority.to_string();
            let row = rows.iter().find(|row| row[0] == name && row.len() == 8);
            let row = row.unwrap();
            let own = || all.iter().filter(|offer| offer.priority == priority);
            let of = |end: End| own().filter(|offer| offer.end == end).count();
            let taken = own().filter(|offer| offer.end != End::Refused).count();
            let counts = [
                own().count(),
                taken,
                of(End::Sent),
                of(End::Expired),
                of(End::Displaced),
                of(End::Refused),
            ];
            let told: Vec<String> = row[1..7].iter().map(|cell| cell.replace(',', "")).collect();
            assert_eq!(
                told,
                counts.map(|count| count.to_string()),
                "{records}: {row:?}"
            );
            let waits = own().filter(|offer| offer.end == End::Sent);
            let worst = waits.max_by_key(|offer| offer.ended - offer.at);
            let id = worst.map_or("–".to_string(), |offer| {
                format!(": packet {}, sent", offer.id)
            });
            assert!(row[7].contains(&id), "{row:?}");
        }
    }
}

/// Each warning that was not sent, in the four ways, and one that was.
const LOST: &str = "\
make 2 at 1000
offer 1 priority 0 ontime 400 lifetime 60s at +1ms
poll at +1ms
offer 2 priority 0 ontime 400 lifetime 30ms at +1ms
offer 3 priority 0 ontime 501 lifetime 1s at +1ms
offer 4 priority 0 ontime 400 lifetime 60s at +47ms
offer 5 priority 0 ontime 400 lifetime 60s at +1ms
offer 6 priority 0 ontime 400 lifetime 60s at +0
offer 7 priority 0 ontime 400 lifetime 60s at +0
offer 8 priority 0 ontime 400 lifetime 60s at +0
offer 9 priority 0 ontime 400 lifetime 60s at +0
poll at +1s
";

#[test]
fn each_lost_warning_is_told() {
    let page = page_of(&log_of(LOST));
    let rows = rows(&page);
    let lost = |id: &str, words: &str| {
        let row = rows.iter().find(|row| row.len() == 5 && row[0] == id);
        assert!(
            row.is_some_and(|row| row[4] == words),
            "{id}: {words}: {rows:?}"
        );
    };
    lost(
        "2",
        "expired: its lifetime of 30 ms was over at 0.033000 s; it came with 0 before it",
    );
    lost("3", "refused with 6, BAD-ON-TIME: it never was in the gate");
    lost(
        "4",
        "displaced at 0.052000 s by packet 9 (record 11), after a wait of 1,000 µs",
    );
    lost("6", "still waiting at 1.052000 s, where the log ends");
    assert!(!rows
        .iter()
        .any(|row| row.len() == 5 && ["1", "5"].contains(&row[0].as_str())));
    let words = "Of priority 0, 7 packets were not sent: 1 expired, 1 displaced, 1 refused, 4 still waiting.";
    assert!(page.contains(words), "{page}");
    // A gate that is made anew has lost what waited; one that is not there takes nothing.
    let text = format!("offer 99 priority 0 ontime 1 lifetime 9 at 0\n{LOST}make 1 at +2s\n");
    let page = page_of(&log_of(&text));
    for words in [
        "refused with 9, NO-STATE: it never was in the gate",
        "still waiting at 1.052000 s, where a new gate was made (record 14)",
        "<td class=\"number\">no gate</td>",
    ] {
        assert!(page.contains(words), "no '{words}'");
    }
    let none = page_of(&log_of(
        "make 1 at 0\noffer 7 priority 0 ontime 9 lifetime 9 at +1\npoll at +1\n",
    ));
    assert!(none.contains("<p>None. 1 warning was sent.</p>"));
}

/// Of many, the first are listed and the rest is counted.
#[test]
fn many_lost_warnings() {
    let mut text = "make 1 at 0\n".to_string();
    for id in 0..1_000 {
        text += &format!("offer {id} priority 0 ontime 900 lifetime 5ms at +9ms\n");
    }
    let page = page_of(&log_of(&text));
    let listed = rows(&page).iter().filter(|row| row.len() == 5).count();
    assert_eq!(listed, 200);
    assert!(page.contains("1,000 packets were not sent: 999 expired, 1 still waiting."));
    assert!(page.contains("And 800 more that are not listed."));
}

#[test]
fn names_and_titles_can_not_break_out() {
    let folder = Folder::new();
    let log = folder.file("a<b>&\"c\".log", example_bytes("sample", "log"));
    let out = folder.file("<i>.out", example_bytes("sample", "out"));
    let page = folder.path("page.html");
    let script = "<script>alert(1)</script>";
    for title in [None, Some(script), Some("</title></style>\u{7}")] {
        let mut words = vec!["report", &log, &out, "-o", &page];
        words.extend(title.iter().flat_map(|title| ["--title", title]));
        curlew(&words).good();
        let page = std::fs::read_to_string(&page).unwrap();
        assert_well_formed(&page);
        assert!(
            page.contains("a&lt;b&gt;&amp;&quot;c&quot;.log") && page.contains("&lt;i&gt;.out")
        );
        assert!(!page.contains("<script") && !page.contains('\u{7}') && !page.contains("<i>"));
    }
}

/// After a wrong answer nothing is counted, and what waited is not known.
#[test]
fn a_wrong_answer() {
    let out = String::from_utf8(example_bytes("jam", "out")).unwrap();
    let log = example_bytes("jam", "log");
    let bent = out.replacen("SENT 106", "IDLE", 1);
    let (page, done) = report(&log, &bent, &[]);
    assert_eq!((done.status, done.err.as_str()), (1, ""));
    assert_well_formed(&page);
    for words in [
        "<p class=\"verdict bad\">NOT KEPT in 1 of 1 run.</p>",
        "<h2>Wrong answers</h2>",
        "1 answer was wrong.",
        "320 calls were there, and nothing of it is counted on this page.",
        "<li class=\"wrong\">record 444 (poll at 10190000): IDLE, but a packet waits</li>",
        "and 10 packets were waiting when an answer was wrong.",
        "not known: from record 444 on the answers are wrong",
        "Of priority 0, 6 packets were not sent: 6 not known.",
        "class=\"unknown\"",
    ] {
        assert!(page.contains(words), "no '{words}'");
    }
}

/// A wrong answer where there is no run, and more of them than are listed.
#[test]
fn many_wrong_answers() {
    let log = log_of(&"poll at 0\n".repeat(70));
    let (page, done) = report(&log, &("IDLE\n".repeat(70) + "END\n"), &[]);
    assert_eq!(done.status, 1);
    assert_well_formed(&page);
    assert_eq!(page.matches("<li class=\"wrong\">").count(), 50);
    for words in [
        "<li>and 20 more</li>",
        "There is no run to draw.",
        "There was no run.",
    ] {
        assert!(page.contains(words), "no '{words}'");
    }
}

/// The runs, and that those with wrong answers are drawn before longer ones.
#[test]
fn many_runs() {
    let mut text = String::new();
    for run in 0..60 {
        text += &format!("make 1 at {}\n", 5_000_000 * run);
        text += &"poll at +1ms\n".repeat(1 + run);
    }
    let log = log_of(&text);
    let out = answers(&log);
    let page = page_of(&log);
    assert!(page.contains("And 10 more runs not listed."));
    assert!(page.contains("6 of 60 runs drawn"));
    let drawn = |page: &str| -> Vec<String> {
        let titles = page.split("class=\"title\"").skip(1);
        let texts = titles.map(|part| part.split(['<', '>']).nth(1).unwrap().to_string());
        texts.collect()
    };
    let longest = ["Run 55", "Run 56", "Run 57", "Run 58", "Run 59", "Run 60"];
    assert_eq!(drawn(&page), longest);
    let bent = out.replacen("READY\nIDLE\n", "READY\nCLOSED 9\n", 1);
    let (page, done) = report(&log, &bent, &[]);
    assert_eq!(done.status, 1);
    assert_eq!(drawn(&page)[0], "Run 1");
}

/// Runs that each keep the label and together do not.
#[test]
fn restarts() {
    let page = page_of(&example_bytes("restarts", "log"));
    for words in [
        "<p class=\"verdict bad\">NOT KEPT across restarts, though each run by itself was.",
        "<b>Second.</b> NOT KEPT: the 28 ms from record 11 (run 3) to record 32 (run 10)",
        "All runs together do not keep them: see above.",
        "<td class=\"number\">250 ms</td>",
        "<td class=\"number\">not known</td>",
    ] {
        assert!(page.contains(words), "no '{words}'");
    }
}

/// The figures beside the label's are those that the example is there to show.
#[test]
fn the_figures_of_the_examples() {
    for (name, words) in [
        ("any-second", "30 ms: the 975 ms from"),
        ("abroad", "28 ms: the 174 ms from 3.000000 s on, run 1"),
        ("abroad", "latest CLOSED: 1.003999 s after the one before"),
        ("jam", "nearest: packet 111 of run 1 went after 2.289 s, where k = 2 and p = 30 ms make 3.093 s"),
        ("jam", "latest CLOSED: 990 ms after the one before"),
    ] {
        let page = page_of(&example_bytes(name, "log"));
        let rows = rows(&page);
        let row = rows.iter().find(|row| row.len() == 4 && row[2].contains(words));
        assert!(row.is_some_and(|row| row[3] == "kept"), "{name}: {words}: {rows:?}");
    }
}

/// A minute in which something waits at each poll has the label's 57 messages at least.
#[test]
fn messages_a_minute() {
    let mut text = "make 1 at 0\n".to_string();
    for at in 0..2_600 {
        if at % 20 == 0 {
            text += &format!(
                "sample 1000 at +0\noffer {at} priority 0 ontime 900 lifetime 60s at +0\n"
            );
        }
        text += "poll at +50ms\n";
    }
    let page = page_of(&log_of(&text));
    let rows = rows(&page);
    let row = rows
        .iter()
        .find(|row| row[0].starts_with("messages a minute"))
        .unwrap();
    assert_eq!((row[1].as_str(), row[3].as_str()), ("57", "kept"));
    assert!(row[2].starts_with("fewest: 57, from "), "{row:?}");
}

/// Whatever the answers are, the page's verdict is that of check, and nothing falls over.
#[test]
fn any_answers() {
    let mut rng = Rng::new(2_604);
    let folder = Folder::new();
    for turn in 0..40 {
        let log = busy_log(&mut rng, 200);
        let right = answers(&log);
        let mut lines: Vec<String> = right.lines().map(str::to_string).collect();
        for _ in 0..rng.below(4) {
            let at = rng.below(lines.len() as u64) as usize;
            let other = [
                "READY",
                "TAKEN",
                "IDLE",
                "SENT 7",
                "CLOSED 5",
                "REFUSED 2",
                "END",
                "x",
            ];
            lines[at] = rng.pick(&other).to_string();
        }
        let out = lines.join("\n") + "\n";
        let (log, out) = (folder.file("a.log", &log), folder.file("a.out", &out));
        let page = folder.path(&format!("{turn}.html"));
        let done = curlew(&["report", &log, &out, "-o", &page]);
        let check = curlew(&["check", &log, &out]);
        assert_eq!(done.status, check.status, "turn {turn}: {}", done.err);
        assert!(!done.err.contains("panicked"), "turn {turn}: {}", done.err);
        assert_eq!(std::fs::exists(&page).unwrap(), done.status < 2);
    }
}

/// Over several runs the sums are those of check, which takes them from the books.
#[test]
fn the_sums_are_those_of_check() {
    let mut rng = Rng::new(2_607);
    let folder = Folder::new();
    for _ in 0..10 {
        let log: Vec<u8> = (0..4).flat_map(|_| busy_log(&mut rng, 150)).collect();
        let page = page_of(&log);
        let out = folder.file("a.out", answers(&log));
        let log = folder.file("a.log", &log);
        let json = curlew(&["check", "--json", &log, &out]).text();
        let sum = |name: &str| -> u64 {
            let key = format!("\"{name}\":");
            let is_run = |line: &&str| line.trim_start().starts_with("{\"run\":");
            let runs = json.lines().filter(is_run);
            let numbers = runs.map(|line| {
                let rest = &line[line.find(&key).unwrap() + key.len()..];
                let end = rest.find(|c: char| !c.is_ascii_digit()).unwrap();
                rest[..end].parse::<u64>().unwrap()
            });
            numbers.sum()
        };
        let rows = rows(&page);
        let all = rows.iter().find(|row| row[0] == "all").unwrap();
        let told = |at: usize| all[at].replace(',', "").parse::<u64>().unwrap();
        for (at, name) in [
            (2, "accepted"),
            (3, "sent"),
            (4, "expired"),
            (5, "displaced"),
        ] {
            assert_eq!(told(at), sum(name), "{name}: {json}");
        }
        let waiting = format!("(displaced); {} packet", sum("waiting"));
        assert!(page.contains(&waiting), "{waiting}");
    }
}

/// A make of a profile that there is not, answered READY: nothing is known of it.
#[test]
fn a_profile_that_there_is_not() {
    for profile in [0, 5, 9, 255] {
        let text = format!(
            "make {profile} at 0\noffer 1 priority 0 ontime 9 lifetime 9 at +9\npoll at +1\n"
        );
        let (page, done) = report(&log_of(&text), "READY\nTAKEN\nSENT 1\nEND\n", &[]);
        assert_eq!((done.status, done.err.as_str()), (1, ""));
        assert_well_formed(&page);
        assert!(
            page.contains("There was no run.") && page.contains("not known"),
            "{page}"
        );
    }
}

/// Any bytes are a log: there is a page and a picture of them, and a life of any packet.
#[test]
fn any_bytes() {
    let mut rng = Rng::new(2_606);
    let folder = Folder::new();
    for turn in 0..30 {
        let mut log: Vec<u8> = (0..16 * 60 + turn).map(|_| rng.below(256) as u8).collect();
        for record in log.chunks_mut(16) {
            record[0] = rng.pick(&[0, 1, 2, 2, 3, 3, 9]);
            if let (Some(priority), true) = (record.get_mut(1), rng.below(2) == 0) {
                *priority %= 5;
            }
        }
        let out = folder.file("a.out", answers(&log));
        let log = folder.file("a.log", &log);
        let page = folder.path("a.html");
        let done = curlew(&["report", &log, &out, "-o", &page]);
        let check = curlew(&["check", &log, &out]);
        assert_eq!(
            (done.status, done.err.as_str()),
            (check.status, ""),
            "turn {turn}"
        );
        assert_well_formed(&std::fs::read_to_string(&page).unwrap());
        curlew(&["trace", "--id", "0", &log, &out]).good();
    }
}

#[test]
fn bad_usage() {
    let folder = Folder::new();
    let (log, out) = (example("jam", "log"), example("jam", "out"));
    let page = folder.path("a.html");
    for (words, said) in [
        (
            &["report", &log, &out][..],
            "-o and the name of the page are missing",
        ),
        (
            &["report", &log, "-o", &page],
            "the name of the ANSWERS is missing",
        ),
        (&["report", "-o", &page], "the name of the LOG is missing"),
        (
            &["report", &log, &out, &out, "-o", &page],
            "is one name too many",
        ),
        (
            &["report", "-", &out, "-o", &page],
            "report reads its input twice",
        ),
        (
            &["report", &log, "-", "-o", &page],
            "report reads its input twice",
        ),
    ] {
        curlew(words).failed(2, said);
    }
    let own = folder.file("own.log", example_bytes("jam", "log"));
    curlew(&["report", &own, &out, "-o", &own])
        .failed(2, "it is an input, and would be overwritten");
    assert_eq!(std::fs::read(&own).unwrap(), example_bytes("jam", "log"));
    assert_eq!(folder.names(), ["own.log"]);
}
