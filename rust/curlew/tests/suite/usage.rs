//! The command line, good and bad.

use crate::help::{curlew, example, Folder};

#[test]
fn help_and_version() {
    let help = curlew(&["--help"]).good().text();
    for word in [
        "write",
        "show",
        "check",
        "plot",
        "report",
        "trace",
        "label",
        "Exit status",
    ] {
        assert!(help.contains(word), "{help}");
    }
    assert_eq!(curlew(&["help"]).good().text(), help);
    for command in ["write", "show", "check", "plot", "report", "trace", "label"] {
        let help = curlew(&[command, "--help"]).good().text();
        assert!(help.starts_with(&format!("curlew {command}")), "{help}");
    }
    let check = curlew(&["check", "--help"]).good().text();
    let counts = "Counts     accepted = sent + expired + displaced + waiting at every record";
    assert!(check.contains(counts), "{check}");
    let third = "plainhost-replay <my.log >plain.out";
    assert!(check.contains(third), "{check}");
    let version = curlew(&["--version"]).good().text();
    assert_eq!(version, format!("curlew {}\n", env!("CARGO_PKG_VERSION")));
}

#[test]
fn bad_usage() {
    let log = example("sample", "log");
    let out = example("sample", "out");
    let cases: [(&[&str], &str); 18] = [
        (&[], "there is no command"),
        (&["draw"], "there is no command 'draw'"),
        (&["write", "a", "b"], "'b' is one name too many"),
        (&["write", "-o"], "-o needs a value"),
        (&["write", "-o", "a", "-o", "b"], "-o is there twice"),
        (&["write", "--run", "1"], "there is no option '--run' here"),
        (&["show"], "the name of the LOG is missing"),
        (
            &["show", "--first", "0", &log],
            "--first needs a number from 1 on, not '0'",
        ),
        (
            &["show", "--from", "x", &log],
            "--from needs a number from 1 on, not 'x'",
        ),
        (
            &["show", "--plain", &log, &out],
            "--plain shows the log alone",
        ),
        (
            &["show", "--plain", "--brief", &log],
            "--plain shows the log alone",
        ),
        (&["show", "-", "-"], "only one of LOG and ANSWERS can be -"),
        (&["check", &log], "the name of the ANSWERS is missing"),
        (&["check", &log, &out, &out], "is one name too many"),
        (
            &["check", "--quiet", &log, &out],
            "there is no option '--quiet' here",
        ),
        (
            &["plot", &log, &out],
            "-o and the name of the picture are missing",
        ),
        (
            &["plot", "-", &out, "-o", "x.svg"],
            "it must be a file, not -",
        ),
        (
            &["plot", &log, "-", "-o", "x.svg"],
            "it must be a file, not -",
        ),
    ];
    for (words, wanted) in cases {
        let done = curlew(words).failed(2, wanted);
        assert!(
            done.err.contains("'curlew --help' says how"),
            "{}",
            done.err
        );
    }
}

#[test]
fn files_that_are_not_there() {
    let folder = Folder::new();
    let none = folder.path("none");
    let log = example("sample", "log");
    let svg = folder.path("a.svg");
    curlew(&["write", &none]).failed(2, "none: there is no such file");
    curlew(&["show", &none]).failed(2, "none: there is no such file");
    curlew(&["show", "--plain", &none]).failed(2, "none: there is no such file");
    curlew(&["show", &log, &none]).failed(2, "none: there is no such file");
    curlew(&["check", &log, &none]).failed(2, "none: there is no such file");
    curlew(&["check", &none, &log]).failed(2, "none: there is no such file");
    curlew(&["plot", &none, "-o", &svg]).failed(2, "none: there is no such file");
    curlew(&["show", &folder.path(".")]).failed(2, "it is a folder");
    let far = folder.path("no/such/a.svg");
    curlew(&["plot", &log, "-o", &far]).failed(2, "a.svg: there is no such folder, ");
    assert_eq!(folder.names(), Vec::<String>::new());
}
