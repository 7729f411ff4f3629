//! `curlew write`.

use crate::help::{curlew, curlew_fed, example, example_bytes, Folder};

#[test]
fn from_and_to_files_or_streams() {
    let folder = Folder::new();
    let log = folder.path("a.log");
    let text = example("sample", "txt");
    let bytes = example_bytes("sample", "log");
    assert_eq!(curlew(&["write", &text, "-o", &log]).good().out, b"");
    assert_eq!(std::fs::read(&log).unwrap(), bytes);
    assert_eq!(curlew(&["write", &text]).good().out, bytes);
    let input = example_bytes("sample", "txt");
    assert_eq!(curlew_fed(&["write"], &input).good().out, bytes);
    assert_eq!(
        curlew_fed(&["write", "-", "-o", "-"], &input).good().out,
        bytes
    );
    assert_eq!(folder.names(), ["a.log"]);
}

/// A text without a word on the way is what it was; with one it is a byte more.
#[test]
fn the_way_of_a_make() {
    let written = |text: &str| curlew_fed(&["write"], text.as_bytes()).good().out;
    let plain = written("make 2 at 7\n");
    assert_eq!(plain, [0, 2, 0, 0, 0, 0, 0, 0, 0, 0, 0, 0, 7, 0, 0, 0]);
    assert_eq!(written("make 2 drop-oldest at 7\n"), plain);
    let keeps = [0, 2, 0, 0, 1, 0, 0, 0, 0, 0, 0, 0, 7, 0, 0, 0];
    assert_eq!(written("make 2 keep-oldest at 7\n"), keeps);
    let other = [0, 2, 0, 0, 0, 1, 0, 0, 0, 0, 0, 0, 7, 0, 0, 0];
    assert_eq!(written("make 2 way 256 at 7\n"), other);
}

/// A sample without a word on its probes is what it was, and 1,000 are the same.
#[test]
fn the_probes_of_a_sample() {
    let written = |text: &str| curlew_fed(&["write"], text.as_bytes()).good().out;
    let plain = written("sample 3 at 7\n");
    assert_eq!(plain, [1, 0, 0, 0, 0, 0, 0, 0, 3, 0, 0, 0, 7, 0, 0, 0]);
    assert_eq!(written("sample 3 of 1000 at 7\n"), plain);
    let many = [1, 0, 0, 0, 0xD4, 0x30, 0, 0, 3, 0, 0, 0, 7, 0, 0, 0];
    assert_eq!(written("sample 3 of 12500 at 7\n"), many);
    curlew_fed(&["write"], b"sample 3 of 0 at 7\n").failed(2, "no record says 0 probes");
}

#[test]
fn an_empty_text_is_an_empty_log() {
    assert_eq!(curlew_fed(&["write"], b"").good().out, b"");
    assert_eq!(curlew_fed(&["write"], b"# nothing\n\n").good().out, b"");
}

#[test]
fn the_last_line_needs_no_newline() {
    assert_eq!(curlew_fed(&["write"], b"poll at 7").good().out.len(), 16);
    assert_eq!(
        curlew_fed(&["write"], b"poll at 7\r\npoll at 8\r\n")
            .good()
            .out
            .len(),
        32
    );
}

#[test]
fn errors_have_line_numbers() {
    let folder = Folder::new();
    let text = folder.file("bad.txt", "make 2 at 0\n\n# a comment\npoll at soon\n");
    curlew(&["write", &text]).failed(2, "bad.txt, line 4: 'soon' is no number for the stamp");
    let long = format!("poll at 7\n# {}\n", "x".repeat(5_000));
    curlew_fed(&["write"], long.as_bytes()).failed(
        2,
        "standard input, line 2: the line is longer than 4096 bytes",
    );
    curlew_fed(&["write"], b"poll at 7\n\xFF\xFE\n")
        .failed(2, "line 2: '\\xff\\xfe\\n' is no text");
    curlew_fed(&["write"], b"tail 03\npoll at 7\n")
        .failed(2, "line 2: nothing may come after a tail");
}

#[test]
fn a_bad_text_leaves_the_file_that_was_there() {
    let folder = Folder::new();
    let log = folder.file("a.log", "as it was");
    let text = folder.file("bad.txt", "make 2 at 0\nbad\n");
    curlew(&["write", &text, "-o", &log]).failed(2, "line 2: 'bad' is no call");
    assert_eq!(std::fs::read(&log).unwrap(), b"as it was");
    assert_eq!(folder.names(), ["a.log", "bad.txt"]);
}
