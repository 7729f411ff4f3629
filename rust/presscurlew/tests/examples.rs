//! The examples of this package are run, and write what their files say.

use std::env;
use std::ffi::OsStr;
use std::fs;
use std::path::{Path, PathBuf};
use std::process::Command;

const FOLDER: &str = concat!(env!("CARGO_MANIFEST_DIR"), "/examples");

/// Where cargo puts the examples that it builds: beside the folder of this test.
fn built(name: &OsStr) -> PathBuf {
    let test = env::current_exe().expect("this test has a path");
    let deps = test.parent().expect("it stands in a folder");
    let path = deps.with_file_name("examples").join(name);
    assert!(
        path.exists(),
        "{} is missing: `cargo test` builds it, if no single test is asked for",
        path.display()
    );
    path
}

fn hold(source: &Path) {
    let name = source.file_stem().expect("a source has a name");
    let due =
        fs::read_to_string(source.with_extension("out")).expect("its output stands beside it");
    let output = Command::new(built(name)).output().expect("it starts");
    let place = source.display();
    assert!(output.status.success(), "{place}: {}", output.status);
    assert_eq!(String::from_utf8_lossy(&output.stderr), "", "{place}");
    assert_eq!(String::from_utf8_lossy(&output.stdout), due, "{place}");
}

#[test]
fn examples_write_what_their_files_say() {
    let entries = fs::read_dir(FOLDER).expect("there are examples");
    let paths = entries.map(|entry| entry.expect("an entry").path());
    let is_source = |path: &PathBuf| path.extension() == Some(OsStr::new("rs"));
    let sources: Vec<PathBuf> = paths.filter(is_source).collect();
    assert!(sources.len() >= 3, "{sources:?}");
    sources.iter().for_each(|source| hold(source));
}
