//! Header, package and archive are of one edition: version, layout number, limits, refusals and profiles.

use std::collections::BTreeMap;

use presscurlew::floats::BadFloat;
use presscurlew::rules::RuleRefusal;
use presscurlew::{sys, Level, Profile, Refusal};

const HEADER: &str = include_str!("../../../include/presscurlew.h");
const PLAIN_HEADER: &str = include_str!("../../../include/presscurlew_plain.h");
const EDITION: &str = include_str!("../../../examples/c/edition.out");

/// What a line `#define NAME value` has, without the u of an unsigned number, the quotes of a text and what follows.
fn defined<'a>(header: &'a str, name: &str) -> &'a str {
    let start = format!("#define {name} ");
    let line = header.lines().find_map(|line| line.strip_prefix(&start));
    let value = line.and_then(|line| line.split_whitespace().next());
    value.expect(name).trim_matches('"').trim_end_matches('u')
}

/// The names and numbers of an enum of the header.
fn constants(name: &str) -> BTreeMap<u32, String> {
    let (_, body) = HEADER.split_once(&format!("enum {name} {{\n")).expect(name);
    let (body, _) = body.split_once("};").expect("the enum ends");
    let constant = |line: &str| {
        let (name, rest) = line
            .trim()
            .strip_prefix("PRESSCURLEW_")?
            .split_once(" = ")?;
        let digits = rest.split(|c: char| !c.is_ascii_digit()).next()?;
        Some((digits.parse().ok()?, name.replace('_', "-")))
    };
    body.lines().filter_map(constant).collect()
}

/// The names that C gives to the numbers 0 to 16: of the gate's refusals, and of the rules'.
fn names_in_c() -> Vec<(u32, String, String)> {
    let row = |line: &str| {
        let [number, _, gate, _, rule] = line.split_whitespace().collect::<Vec<_>>()[..] else {
            panic!("{line}")
        };
        (number.parse().unwrap(), gate.to_owned(), rule.to_owned())
    };
    EDITION.lines().skip(1).map(row).collect()
}

#[test]
fn version_and_layout_are_the_header_s_and_the_archive_s() {
    let version = env!("CARGO_PKG_VERSION");
    assert_eq!(defined(HEADER, "PRESSCURLEW_VERSION"), version);
    let parts = version.split('.').map(|part| part.parse::<u32>().unwrap());
    let number = parts.fold(0, |sum, part| 1_000 * sum + part);
    let header = defined(HEADER, "PRESSCURLEW_VERSION_NUMBER");
    assert_eq!(header, number.to_string());
    assert_eq!(sys::VERSION_NUMBER, number);
    assert_eq!(sys::presscurlew_version(), number);

    let layout = defined(HEADER, "PRESSCURLEW_LAYOUT");
    assert_eq!(sys::LAYOUT.to_string(), layout);
    assert_eq!(sys::presscurlew_layout(), sys::LAYOUT);
    let layout = defined(PLAIN_HEADER, "PRESSCURLEW_PLAIN_LAYOUT");
    assert_eq!(plainhost::LAYOUT.to_string(), layout);
    assert_eq!(plainhost::presscurlew_plain_layout(), plainhost::LAYOUT);
}

#[test]
fn refusals_have_the_header_s_numbers_and_names() {
    let listed = constants("presscurlew_refusal");
    assert!(!listed.is_empty());
    for number in 0..1_000 {
        let name = Refusal::from_number(number).map(Refusal::name);
        assert_eq!(name, listed.get(&number).map(String::as_str), "{number}");
    }
    for (number, name, _) in names_in_c() {
        let refusal = Refusal::from_number(number);
        assert_eq!(
            refusal.map_or("unknown", Refusal::name),
            if number == 0 { "unknown" } else { &name }
        );
        if let Some(refusal) = refusal {
            assert_eq!(refusal.number(), number);
            assert!(
                refusal.to_string().starts_with(&format!("{name}: ")),
                "{refusal}"
            );
        }
    }
    assert_eq!(names_in_c()[0].1, "ACCEPTED");
}

#[test]
fn refusals_of_the_rules_have_the_header_s_numbers_and_names() {
    use RuleRefusal::{LevelOrDuty, Load, OnTime, Profile};
    let mut listed = constants("presscurlew_rule_refusal");
    let gate = constants("presscurlew_refusal");
    for refusal in [Profile, OnTime] {
        // Both enums have them, by one name.
        listed.insert(refusal.number(), gate[&refusal.number()].clone());
    }
    assert_eq!(listed[&0], "ACCEPTED");
    let mut named = BTreeMap::from([(0, "ACCEPTED".to_owned())]);
    for refusal in [Profile, LevelOrDuty, Load, OnTime] {
        named.insert(refusal.number(), refusal.name().to_owned());
        assert!(refusal
            .to_string()
            .starts_with(&format!("{}: ", refusal.name())));
    }
    named.insert(
        BadFloat::NUMBER,
        BadFloat.to_string().split(':').next().unwrap().to_owned(),
    );
    assert_eq!(named, listed);
    for (number, _, name) in names_in_c() {
        assert_eq!(
            name,
            listed.get(&number).map_or("unknown", String::as_str),
            "{number}"
        );
    }
}

/// A name of Rust, as `ReactiveA1`, as C spells it: `REACTIVE-A1`.
fn spelled_in_c(name: &str) -> String {
    let mut spelled = String::new();
    for c in name.chars() {
        if c.is_ascii_uppercase() && !spelled.is_empty() {
            spelled.push('-');
        }
        spelled.push(c.to_ascii_uppercase());
    }
    spelled
}

#[test]
fn profiles_have_the_header_s_numbers_and_names() {
    let named = |profile: &Profile| {
        let name = spelled_in_c(&format!("{profile:?}"));
        (profile.number(), format!("PROFILE-{name}"))
    };
    let all: BTreeMap<_, _> = Profile::ALL.iter().map(named).collect();
    assert_eq!(all, constants("presscurlew_profile"));
}

/// `examples/c/limits.c` holds all limits of the header to the archive.
#[test]
fn limits_are_the_header_s() {
    let limits = [
        ("PRIORITIES", presscurlew::State::default().queues.len()),
        ("MOST_WAITING", sys::MOST_WAITING),
        ("MOST_PROBES", sys::MOST_PROBES as usize),
        ("MOST_WORDS", sys::MOST_WORDS),
        ("MOST_LEVELS", sys::MOST_LEVELS),
        ("MOST_LOADS", sys::MOST_LOADS),
        ("MOST_ADMISSIONS", sys::MOST_ADMISSIONS),
        ("RECORD_BYTES", sys::RECORD_BYTES),
        ("RECORD_OFFER", usize::from(sys::RECORD_OFFER)),
    ];
    for (name, number) in limits {
        let header = defined(HEADER, &format!("PRESSCURLEW_{name}"));
        assert_eq!(header, number.to_string(), "{name}");
    }
}

#[test]
fn profiles_by_name_are_those_that_make_takes() {
    for number in (0..300).chain([u32::MAX]) {
        let list = sys::Levels::of(
            40_000,
            &[Level {
                threshold: 1,
                wait: 40_000,
            }],
        );
        let mut state = presscurlew::State::default();
        let made = sys::make(&mut state, number, sys::DROP_OLDEST, &list, 0);
        let profile = Profile::try_from(number);
        assert_eq!(profile.is_ok(), made.kind == sys::READY, "{number}");
        if let Ok(profile) = profile {
            assert_eq!((profile.number(), u32::from(profile)), (number, number));
            assert!(profile.to_string().starts_with(&format!("{number}, ")));
        }
    }
    assert!(Profile::ALL.windows(2).all(|two| two[0] < two[1]));
}
