//! `curlew label`, and the label's own tables, which it must agree with.

use std::fs;

use crate::help::{curlew, Folder};

/// The label, as it stands in the documents.
fn label_text() -> String {
    let path = concat!(env!("CARGO_MANIFEST_DIR"), "/../../docs/LABEL.md");
    fs::read_to_string(path).unwrap()
}

/// The label's words, whatever lines they stand on.
fn label_words() -> String {
    label_text()
        .split_whitespace()
        .collect::<Vec<_>>()
        .join(" ")
}

/// The cells of a table's line.
fn cells(line: &str) -> Vec<String> {
    let inner = line.trim_matches('|').split('|');
    inner.map(|cell| cell.trim().to_string()).collect()
}

/// The rows of the label's first table whose head starts with this cell, the head among them.
fn table(head: &str) -> Vec<Vec<String>> {
    let text = label_text();
    let rows: Vec<Vec<String>> = text
        .lines()
        .skip_while(|line| !line.starts_with('|') || cells(line)[0] != head)
        .take_while(|line| line.starts_with('|'))
        .filter(|line| !line.contains("|---"))
        .map(cells)
        .collect();
    assert!(rows.len() > 1, "the label has no table of '{head}'");
    rows
}

/// The row of a table that starts so, without its name.
fn row(table: &[Vec<String>], name: &str) -> Vec<String> {
    let found: Vec<&Vec<String>> = table
        .iter()
        .filter(|row| row[0].starts_with(name))
        .collect();
    assert_eq!(found.len(), 1, "rows that start with '{name}'");
    found[0][1..].to_vec()
}

/// What the tool says of a trailer behind some words.
fn said(options: &[&str], what: &str) -> String {
    let words: Vec<&str> = ["label"].iter().chain(options).copied().collect();
    let text = curlew(&words).good().text();
    let line = text.lines().find(|line| line.starts_with(what));
    let line = line.unwrap_or_else(|| panic!("no '{what}' in: {text}"));
    line[what.len()..].trim().to_string()
}

/// A poll as a table's head has it, "p = 50 ms", as the tool reads it.
fn poll_of(head: &str) -> String {
    head.strip_prefix("p = ").unwrap().replace(' ', "")
}

#[test]
fn the_table_of_waits() {
    let rows = table("waiting before it");
    assert_eq!((rows.len(), rows[0].len()), (6, 5), "five rows, four polls");
    for line in &rows[1..] {
        let before = line[0].strip_prefix("k = ").unwrap();
        for (head, wait) in rows[0][1..].iter().zip(&line[1..]) {
            let poll = poll_of(head);
            let options = ["--profile", "1", "--poll", &poll, "--before", before];
            assert_eq!(
                &said(&options, "A warning waits at most"),
                wait,
                "{options:?}"
            );
        }
    }
}

/// "The first row is 1.0105, .. in profile 2, .. and .. s in profile 4": k = 0 of the other profiles; in profile 5 it is
/// profile 1's.
#[test]
fn the_waits_of_the_other_profiles() {
    let words = label_words();
    for profile in ["2", "3", "4"] {
        let waits = ["10ms", "50ms", "100ms", "1s"].map(|poll| {
            let wait = said(
                &["--profile", profile, "--poll", poll],
                "A warning waits at most",
            );
            wait.strip_suffix(" s").unwrap().to_string()
        });
        let [a, b, c, d] = waits;
        let sentence = format!("{a}, {b}, {c} and {d} s in profile {profile}");
        assert!(
            words.contains(&sentence),
            "the label does not say '{sentence}'"
        );
    }
    for poll in ["10ms", "50ms", "100ms", "1s"] {
        let wait = |profile| {
            let options = ["--profile", profile, "--poll", poll];
            said(&options, "A warning waits at most")
        };
        assert_eq!(wait("5"), wait("1"), "{poll}");
    }
}

#[test]
fn the_table_of_trailers() {
    let rows = table("messages a minute");
    assert_eq!((rows.len(), rows[0].len()), (7, 5), "six rows, four polls");
    for (at, head) in rows[0].iter().enumerate().skip(1) {
        let poll = poll_of(head);
        for line in &rows[1..6] {
            let options = ["--profile", "1", "--poll", &poll, "--messages", &line[0]];
            let what = format!("Trailers for {} messages a minute", line[0]);
            for profile in ["1", "2", "3", "4", "5"] {
                let options = [&["--profile", profile], &options[2..]].concat();
                assert_eq!(said(&options, &what), line[at], "{options:?}");
            }
        }
        let most = said(
            &["--profile", "1", "--poll", &poll],
            "Messages a minute of one trailer, at least",
        );
        assert_eq!(rows[6][at], most, "the most for one trailer, {poll}");
    }
}

#[test]
fn the_figures_of_each_profile() {
    let rows = table("");
    let heads: Vec<&str> = rows[0][1..].iter().map(String::as_str).collect();
    let due = ["1", "2", "3", "4", "5"].map(|profile| format!("profile {profile}"));
    assert_eq!(heads, due);
    for (at, profile) in ["1", "2", "3", "4", "5"].iter().enumerate() {
        let options = ["--profile", profile, "--poll", "50ms"];
        let told = |what| said(&options, what);
        let most = row(&rows, "messages a minute, polled every 50 ms, at least");
        assert_eq!(told("Messages a minute of one trailer, at least"), most[at]);
        let longest = row(&rows, "longest packet on air");
        assert_eq!(micros(&told("Longest packet")), micros(&longest[at]));
        let quiet = row(&rows, "while something waits, a packet goes");
        let wait = micros(&told("A warning waits at most"));
        assert_eq!(wait, micros(&quiet[at]) + 50_000);
    }
}

/// The table of stretches, and the three of the figures, in each profile.
#[test]
fn the_most_of_each_profile() {
    let (stretches, figures) = (table("in any"), table(""));
    for (at, profile) in ["1", "2", "3", "4", "5"].iter().enumerate() {
        for line in &stretches[1..] {
            let stretch = match line[0].as_str() {
                "minute" => "60s".to_string(),
                "hour" => "3600s".to_string(),
                other => other.replace(' ', ""),
            };
            let options = [
                "--profile",
                profile,
                "--poll",
                "50ms",
                "--stretch",
                &stretch,
            ];
            let words: Vec<&str> = ["label"].iter().chain(&options).copied().collect();
            let text = curlew(&words).good().text();
            let told = text
                .lines()
                .rfind(|line| line.starts_with("On air in any"))
                .unwrap();
            let told = told.split("at most").nth(1).unwrap().trim();
            let (told, label) = (micros(told), micros(line[at + 1].trim_matches('*')));
            // 6.999 ms by the ceiling are 7 ms on the label.
            assert!(told <= label && label <= told + 1, "{options:?}: {told}");
        }
        for (what, name) in [
            ("On air in any second, at most", "on air in any second"),
            ("On air in any minute, at most", "in any minute, at most"),
            ("On air in any hour, at most", "in any hour, at most"),
        ] {
            let told = said(&["--profile", profile, "--poll", "1s"], what);
            assert_eq!(micros(&told), micros(&row(&figures, name)[at]), "{what}");
        }
    }
}

/// A length of time as it is written, in µs.
fn micros(text: &str) -> u64 {
    let (number, unit) = text.split_once(' ').unwrap();
    let unit = match unit {
        "µs" => 1,
        "ms" => 1_000,
        "s" => 1_000_000,
        _ => panic!("'{text}'"),
    };
    let (whole, part) = number.split_once('.').unwrap_or((number, ""));
    let part = format!("{part:0<6}").parse::<u64>().unwrap() * unit / 1_000_000;
    whole.replace(',', "").parse::<u64>().unwrap() * unit + part
}

#[test]
fn what_can_not_be_asked_is_refused() {
    let good = ["--profile", "1", "--poll", "50ms", "--before", "4"];
    curlew(&[&["label"], &good[..]].concat()).good();
    for (at, bad, why) in [
        (1, "0", "there is no profile 0"),
        (1, "6", "there is no profile 6"),
        (1, "4294967297", "there is no profile"),
        (1, "one", "--profile needs a number"),
        (3, "0", "--poll is 1 µs to 2,147,483,647 µs"),
        (3, "2147483648", "--poll is 1 µs to 2,147,483,647 µs"),
        (3, "soon", "--poll needs a time"),
        (5, "5", "--before is 0 to 4"),
        (5, "-1", "--before needs a number"),
    ] {
        let mut words = good.to_vec();
        words[at] = bad;
        curlew(&[&["label"], &words[..]].concat()).failed(2, why);
    }
    for bad in ["24999", "1000000000000001"] {
        let words = [&["label", "--stretch", bad], &good[..]].concat();
        curlew(&words).failed(2, "--stretch is 25 ms to");
    }
    curlew(&["label", "--poll", "50ms"]).failed(2, "--profile is missing");
    curlew(&["label", "--profile", "1"]).failed(2, "--poll is missing");
    curlew(&["label", "--page", "x.md"]).failed(2, "-o and the name of the page are missing");
    curlew(&[&["label", "-o", "x"], &good[..]].concat()).failed(2, "-o does not go with");
}

/// A host that polls less than once a minute: no number of trailers is promised to be enough.
#[test]
fn polled_too_seldom_nothing_is_promised() {
    let options = ["--profile", "3", "--poll", "59s", "--messages", "1"];
    let most = "Messages a minute of one trailer, at least";
    assert_eq!(said(&options, most), "0");
    assert_eq!(
        said(&options, "Trailers for 1 message a minute"),
        "no number is promised to be enough"
    );
    let options = ["--profile", "3", "--poll", "58999999", "--messages", "7"];
    assert_eq!(said(&options, most), "1");
    assert_eq!(said(&options, "Trailers for 7 messages a minute"), "7");
}

/// The label as a page: each figure of it stands there, and nothing comes from elsewhere.
#[test]
fn the_page_has_the_whole_label() {
    let folder = Folder::new();
    let out = folder.path("label.html");
    let label = concat!(env!("CARGO_MANIFEST_DIR"), "/../../docs/LABEL.md");
    curlew(&["label", "--page", label, "-o", &out]).good();
    let html = fs::read_to_string(&out).unwrap();
    for foreign in ["<script", "<link", "src=", "@import", "url(", "**", "`"] {
        assert!(!html.contains(foreign), "{foreign}");
    }
    for head in ["waiting before it", "messages a minute"] {
        for row in table(head) {
            let cells: String = row.iter().map(|cell| format!("<td>{cell}</td>")).collect();
            let heads = cells.replace("td>", "th>");
            assert!(html.contains(&cells) || html.contains(&heads), "{cells}");
        }
    }
    let headings = label_text()
        .lines()
        .filter(|line| line.starts_with("## "))
        .count();
    let whole = html.split("<div class=\"whole\">").nth(1).unwrap();
    assert_eq!(whole.matches("<h2>").count(), headings);
}
