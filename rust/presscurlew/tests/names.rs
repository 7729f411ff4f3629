//! One way to each name: what stands at the root stands nowhere else, and the public modules have names of their own.

use std::collections::BTreeMap;
use std::fs;

const PACKAGE: &str = env!("CARGO_MANIFEST_DIR");

/// The lines of the sources, each with the file's name.
fn lines() -> Vec<(String, String)> {
    let mut lines = vec![];
    for entry in fs::read_dir(format!("{PACKAGE}/src")).unwrap() {
        let path = entry.unwrap().path();
        let file = path.file_name().unwrap().to_str().unwrap().to_owned();
        let text = fs::read_to_string(&path).unwrap();
        lines.extend(text.lines().map(|line| (file.clone(), line.to_owned())));
    }
    lines
}

#[test]
fn three_modules_are_public() {
    let lines = lines();
    let named = lines
        .iter()
        .filter_map(|(file, line)| Some((file.as_str(), line.trim().strip_prefix("pub mod ")?)));
    let mut named: Vec<_> = named.collect();
    named.sort_unstable();
    let due = ["floats;", "rules;", "sys;"].map(|name| ("lib.rs", name));
    assert_eq!(named, due);
}

/// Only the root hands names on, and none of a public module.
#[test]
fn names_are_handed_on_at_the_root_alone() {
    let mut handed = BTreeMap::new();
    for (file, line) in lines() {
        if let Some(rest) = line.trim().strip_prefix("pub use ") {
            assert_eq!(file, "lib.rs", "{line}");
            let module = rest.split("::").next().unwrap().to_owned();
            *handed.entry(module).or_insert(0) += 1;
        }
    }
    let due = ["gate", "profile", "recorder", "state", "stored"];
    assert!(handed.keys().eq(due), "{handed:?}");
}
