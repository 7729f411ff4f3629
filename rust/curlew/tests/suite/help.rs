//! What several modules use.

use std::fs;
use std::io::Write;
use std::path::PathBuf;
use std::process::{Command, Stdio};
use std::sync::atomic::{AtomicU64, Ordering};

use reference::log::replay;

/// What a command did.
pub struct Done {
    pub status: i32,
    pub out: Vec<u8>,
    pub err: String,
}

impl Done {
    /// Standard output as text.
    pub fn text(&self) -> String {
        String::from_utf8(self.out.clone()).unwrap()
    }

    /// The command must have done well, and said nothing on standard error.
    pub fn good(self) -> Done {
        assert_eq!((self.status, self.err.as_str()), (0, ""), "{}", self.text());
        self
    }

    /// The command must have failed with this status and these words, on
    /// standard error for 2 and on standard output for 1.
    pub fn failed(self, status: i32, words: &str) -> Done {
        let said = match status {
            1 => self.text(),
            _ => self.err.clone(),
        };
        assert_eq!(self.status, status, "{said}");
        assert!(said.contains(words), "no '{words}' in: {said}");
        self
    }
}

/// Runs the tool with this standard input.
pub fn curlew_fed(words: &[&str], input: &[u8]) -> Done {
    let mut child = Command::new(env!("CARGO_BIN_EXE_curlew"))
        .args(words)
        .stdin(Stdio::piped())
        .stdout(Stdio::piped())
        .stderr(Stdio::piped())
        .spawn()
        .unwrap();
    let mut stdin = child.stdin.take().unwrap();
    let input = input.to_vec();
    let feeder = std::thread::spawn(move || {
        let _ = stdin.write_all(&input); // a tool that ends early reads no more
    });
    let output = child.wait_with_output().unwrap();
    feeder.join().unwrap();
    Done {
        status: output.status.code().unwrap(),
        out: output.stdout,
        err: String::from_utf8(output.stderr).unwrap(),
    }
}

/// Runs the tool.
pub fn curlew(words: &[&str]) -> Done {
    curlew_fed(words, b"")
}

/// A folder of its own for a test, removed at its end.
pub struct Folder {
    path: PathBuf,
}

impl Folder {
    pub fn new() -> Folder {
        static NEXT: AtomicU64 = AtomicU64::new(0);
        let next = NEXT.fetch_add(1, Ordering::Relaxed);
        let name = format!("curlew-test-{}-{next}", std::process::id());
        let path = std::env::temp_dir().join(name);
        fs::create_dir_all(&path).unwrap();
        Folder { path }
    }

    /// The path of a file in it.
    pub fn path(&self, name: &str) -> String {
        self.path.join(name).to_str().unwrap().to_string()
    }

    /// Writes a file, and gives its path.
    pub fn file(&self, name: &str, bytes: impl AsRef<[u8]>) -> String {
        let path = self.path(name);
        fs::write(&path, bytes).unwrap();
        path
    }

    /// The names of the files in it.
    pub fn names(&self) -> Vec<String> {
        let names = fs::read_dir(&self.path).unwrap();
        let mut names: Vec<String> = names
            .map(|entry| entry.unwrap().file_name().into_string().unwrap())
            .collect();
        names.sort();
        names
    }
}

impl Drop for Folder {
    fn drop(&mut self) {
        let _ = fs::remove_dir_all(&self.path);
    }
}

/// The names of the example logs.
pub const EXAMPLES: [&str; 11] = [
    "sample",
    "quiet-morning",
    "jam",
    "drop-oldest",
    "keep-oldest",
    "any-second",
    "new-radio",
    "abroad",
    "clock-wrap",
    "restarts",
    "damaged-tail",
];

/// The path of an example's file.
pub fn example(name: &str, ending: &str) -> String {
    let folder = concat!(env!("CARGO_MANIFEST_DIR"), "/../../examples/logs");
    format!("{folder}/{name}.{ending}")
}

/// The bytes of an example's file.
pub fn example_bytes(name: &str, ending: &str) -> Vec<u8> {
    let path = example(name, ending);
    fs::read(&path).unwrap_or_else(|error| panic!("{path}: {error}"))
}

/// What the second program writes for a log.
pub fn answers(log: &[u8]) -> String {
    let mut written = Vec::new();
    replay(log, &mut written).unwrap();
    String::from_utf8(written).unwrap()
}

/// The log of a plain text.
pub fn log_of(text: &str) -> Vec<u8> {
    curlew_fed(&["write"], text.as_bytes()).good().out
}
