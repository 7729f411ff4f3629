//! Evidence stays: no output overwrites an input, a pipe is not read by halves,
//! and an error names the file that it is about.

use std::fs::{self, File, OpenOptions};
use std::os::unix::fs::symlink;
use std::process::{Command, Stdio};

use crate::help::{curlew, curlew_fed, example, example_bytes, log_of, Folder};

/// A folder with a log, its answers, its text, and other names of them.
fn linked() -> Folder {
    let folder = Folder::new();
    for ending in ["log", "out", "txt"] {
        let file = folder.file(&format!("a.{ending}"), example_bytes("sample", ending));
        symlink(&file, folder.path(&format!("soft.{ending}"))).unwrap();
        let soft = format!("soft.{ending}");
        symlink(&soft, folder.path(&format!("softer.{ending}"))).unwrap();
        fs::hard_link(&file, folder.path(&format!("hard.{ending}"))).unwrap();
    }
    folder
}

/// The three files are what they were, under each of their names.
fn untouched(folder: &Folder) {
    for ending in ["log", "out", "txt"] {
        for name in ["a", "soft", "softer", "hard"] {
            let bytes = fs::read(folder.path(&format!("{name}.{ending}"))).unwrap();
            assert_eq!(bytes, example_bytes("sample", ending), "{name}.{ending}");
        }
    }
    assert_eq!(folder.names().len(), 12, "{:?}", folder.names());
}

#[test]
fn no_output_is_an_input() {
    let folder = linked();
    let path = |name: &str, ending: &str| folder.path(&format!("{name}.{ending}"));
    let names = ["a", "soft", "softer", "hard"];
    for input in names {
        for output in names {
            let text = path(input, "txt");
            let words = if input == output {
                "it is an input, and would be overwritten"
            } else {
                "an input, which would be overwritten"
            };
            curlew(&["write", &text, "-o", &path(output, "txt")]).failed(2, words);
            let (log, out) = (path(input, "log"), path(input, "out"));
            for over in [path(output, "log"), path(output, "out")] {
                let done = curlew(&["plot", &log, &out, "-o", &over]).failed(2, words);
                assert!(
                    done.err.starts_with(&format!("curlew: {over}: ")),
                    "{}",
                    done.err
                );
            }
        }
    }
    let far = folder.path("./././a.log");
    curlew(&["plot", &path("a", "log"), "-o", &far]).failed(2, "is the same file as");
    untouched(&folder);
}

/// Standard output that a shell appends to an input would never end.
#[test]
fn standard_output_is_no_input_either() {
    let folder = linked();
    let onto = |words: &[&str], file: &str| {
        let file = OpenOptions::new().append(true).open(folder.path(file));
        let output = Command::new(env!("CARGO_BIN_EXE_curlew"))
            .args(words)
            .stdin(File::open(folder.path("a.txt")).unwrap())
            .stdout(Stdio::from(file.unwrap()))
            .output()
            .unwrap();
        let said = String::from_utf8(output.stderr).unwrap();
        assert_eq!(output.status.code(), Some(2), "{said}");
        assert!(
            said.contains("standard output: it is the same file as"),
            "{said}"
        );
    };
    let (log, out) = (folder.path("a.log"), folder.path("soft.out"));
    onto(&["show", &log], "hard.log");
    onto(&["show", "--plain", &log], "a.log");
    onto(&["show", "--csv", &log, &out], "a.out");
    onto(&["check", &log, &out], "a.out");
    onto(&["check", "--json", &log, &out], "a.log");
    onto(&["write"], "hard.txt"); // standard input is a.txt
    untouched(&folder);
}

/// The file that is half written has a name of its own, and takes none that is there.
#[test]
fn the_half_written_file_is_no_input() {
    let folder = Folder::new();
    let text = example_bytes("sample", "txt");
    let half = folder.file("a.log.half", &text);
    let log = folder.path("a.log");
    curlew(&["write", &half, "-o", &log]).good();
    assert_eq!(fs::read(&half).unwrap(), text);
    assert_eq!(fs::read(&log).unwrap(), example_bytes("sample", "log"));
    assert_eq!(folder.names(), ["a.log", "a.log.half"]);
}

/// An output through a link goes where the link leads, and the link stays.
#[test]
fn an_output_through_a_link() {
    let folder = Folder::new();
    let old = folder.file("old.log", "as it was");
    let link = folder.path("link.log");
    symlink("old.log", &link).unwrap();
    let bad = folder.file("bad.txt", "poll\n");
    curlew(&["write", &bad, "-o", &link]).failed(2, "bad.txt, line 1: ");
    assert_eq!(fs::read(&old).unwrap(), b"as it was");
    curlew(&["write", &example("sample", "txt"), "-o", &link]).good();
    assert!(fs::symlink_metadata(&link).unwrap().is_symlink());
    assert_eq!(fs::read(&old).unwrap(), example_bytes("sample", "log"));
    assert_eq!(folder.names(), ["bad.txt", "link.log", "old.log"]);
}

/// A device takes what comes, and an error names it and nothing else.
#[test]
fn an_error_names_the_right_file() {
    let text = example("sample", "txt");
    let long = "poll at 7\n".repeat(4_000);
    let full = "curlew: /dev/full: no space left on device\n";
    for input in [&example_bytes("sample", "txt")[..], long.as_bytes()] {
        let done = curlew_fed(&["write", "-o", "/dev/full"], input);
        assert_eq!(done.failed(2, "/dev/full").err, full);
    }
    curlew(&["write", &text, "-o", "/dev/null"]).good();
    let folder = Folder::new();
    let far = folder.path("no/a.log");
    let done = curlew(&["write", &text, "-o", &far]);
    let words = format!(
        "curlew: {far}: there is no such folder, {}\n",
        folder.path("no")
    );
    assert_eq!(done.failed(2, "folder").err, words);
    let file = folder.file("file", "");
    let below = format!("{file}/a.log");
    curlew(&["write", &text, "-o", &below]).failed(2, "file/a.log: not a directory");
    curlew(&["write", &text, "-o", &folder.path("")]).failed(2, "it is a folder");
    curlew(&["show", &folder.path("no/a.log")]).failed(2, "a.log: there is no such folder, ");
    assert_eq!(folder.names(), ["file"]);
    for words in [&["show", &example("jam", "log")][..], &["--help"]] {
        let full = OpenOptions::new().write(true).open("/dev/full").unwrap();
        let output = Command::new(env!("CARGO_BIN_EXE_curlew"))
            .args(words)
            .stdout(Stdio::from(full))
            .output()
            .unwrap();
        let said = String::from_utf8(output.stderr).unwrap();
        assert_eq!(said, "curlew: standard output: no space left on device\n");
        assert_eq!(output.status.code(), Some(2));
    }
}

#[test]
fn a_pipe_is_read_once() {
    let (log, bytes) = (example("jam", "log"), example_bytes("jam", "log"));
    let out = example("jam", "out");
    let whole = curlew(&["check", &log, &out]).good().text();
    let told = curlew_fed(&["check", "/dev/stdin", &out], &bytes);
    let told = told.good().text().replace("/dev/stdin", &log);
    assert_eq!(told, whole);
    for words in [
        &["check", "/dev/stdin", "-"][..],
        &["check", "-", "/dev/stdin"],
        &["show", "/dev/stdin", "/dev/stdin"],
        &["show", "--csv", "/dev/fd/0", "-"],
    ] {
        curlew_fed(words, &bytes)
            .failed(2, "are one pipe: LOG and ANSWERS must come from two places");
    }
    let folder = Folder::new();
    let svg = folder.path("a.svg");
    for words in [
        &["plot", "/dev/stdin", "-o", &svg][..],
        &["plot", &log, "/dev/stdin", "-o", &svg],
    ] {
        let done = curlew_fed(words, &bytes);
        done.failed(2, "/dev/stdin: plot reads its input twice, and this can be read only once; write it to a file first");
    }
    assert_eq!(folder.names(), Vec::<String>::new());
    // A file on standard input is no pipe, and has two names.
    let output = Command::new(env!("CARGO_BIN_EXE_curlew"))
        .args(["check", "/dev/stdin", &out])
        .stdin(File::open(&log).unwrap())
        .output()
        .unwrap();
    assert!(output.status.success());
}

/// A reader that has had enough is no failure.
#[test]
fn a_reader_that_leaves() {
    let log = log_of(&("make 1 at 0\n".to_string() + &"poll at +1\n".repeat(50_000)));
    let folder = Folder::new();
    let log = folder.file("a.log", log);
    let mut child = Command::new(env!("CARGO_BIN_EXE_curlew"))
        .args(["show", &log])
        .stdout(Stdio::piped())
        .stderr(Stdio::piped())
        .spawn()
        .unwrap();
    drop(child.stdout.take());
    let output = child.wait_with_output().unwrap();
    assert_eq!((output.status.code(), output.stderr.len()), (Some(0), 0));
}
