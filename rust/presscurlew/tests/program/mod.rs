//! The proved program `replay`: `PRESSCURLEW_REPLAY` names it; without that, the one of
//! `make target/bin/replay` is taken.

use std::env;
use std::io::Write;
use std::path::PathBuf;
use std::process::{Command, Stdio};
use std::thread;

pub fn program() -> PathBuf {
    let built = concat!(env!("CARGO_MANIFEST_DIR"), "/../../target/bin/replay");
    let path = env::var_os("PRESSCURLEW_REPLAY").map_or(PathBuf::from(built), PathBuf::from);
    assert!(
        path.exists(),
        "{} is missing: run `make target/bin/replay` first",
        path.display()
    );
    path
}

/// What the program writes for a log that is handed over in pieces of the given size.
pub fn replayed(input: &[u8], piece: usize) -> Vec<u8> {
    let mut child = Command::new(program())
        .stdin(Stdio::piped())
        .stdout(Stdio::piped())
        .spawn()
        .expect("the program starts");
    let mut pipe = child.stdin.take().expect("it has a standard input");
    let input = input.to_vec();
    let feeder = thread::spawn(move || {
        for part in input.chunks(piece) {
            pipe.write_all(part)
                .expect("the program reads its input to the end");
        }
    });
    let output = child.wait_with_output().expect("the program ends");
    feeder.join().expect("all input was handed over");
    assert!(
        output.status.success(),
        "the program's status is {}",
        output.status
    );
    output.stdout
}
