//! The example logs, played on the plain engine, give the output that a program must write for them. Random ones give what
//! the reference writes.

use std::fs;
use std::io::Write;
use std::path::Path;
use std::process::{Command, Stdio};
use std::thread;

use reference::log::{self, Record, RECORD_BYTES};
use reference::rng::Rng;

/// What `plainhost-replay` writes for a log.
fn played(log: &[u8]) -> Vec<u8> {
    let mut child = Command::new(env!("CARGO_BIN_EXE_plainhost-replay"))
        .stdin(Stdio::piped())
        .stdout(Stdio::piped())
        .spawn()
        .expect("the program starts");
    let (mut pipe, log) = (child.stdin.take().expect("its input"), log.to_vec());
    let feeder = thread::spawn(move || pipe.write_all(&log).expect("it reads to the end"));
    let output = child.wait_with_output().expect("the program ends");
    feeder.join().expect("all input was handed over");
    assert!(output.status.success());
    output.stdout
}

#[test]
fn example_logs() {
    let folder = Path::new(concat!(env!("CARGO_MANIFEST_DIR"), "/../../examples/logs"));
    let mut logs = 0;
    for entry in fs::read_dir(folder).expect("the example logs") {
        let path = entry.expect("an entry").path();
        if path.extension().is_none_or(|extension| extension != "log") {
            continue;
        }
        let log = fs::read(&path).expect("a log");
        let due = fs::read(path.with_extension("out")).expect("its output");
        assert!(played(&log) == due, "{}", path.display());
        logs += 1;
    }
    assert!(logs > 5, "only {logs} logs");
}

/// A record that follows a stamp: mostly a good one, else of random bytes.
fn record(rng: &mut Rng, stamp: u32) -> Record {
    if rng.one_in(20) {
        let bytes = [0; RECORD_BYTES].map(|_: u8| rng.next_u32() as u8);
        return Record::from_bytes(&bytes);
    }
    Record {
        kind: rng.pick(&[1, 2, 2, 3, 3]),
        priority: rng.below(4) as u8,
        ontime: 1 + rng.below(500) as u16,
        lifetime: 1_000 + rng.below(1_000_000) as u32,
        id: rng.below(1_001) as u32,
        stamp,
    }
}

/// Logs that start with a make, and may be torn.
#[test]
fn random_logs() {
    for seed in 0..20 {
        let mut rng = Rng::new(0x97a1 + seed);
        let make = Record {
            priority: 1 + rng.below(4) as u8,
            lifetime: rng.below(2) as u32,
            ..Record::default()
        };
        let unsaid = Record {
            priority: 5,
            ..make
        };
        // A make of profile 5 is refused, and what follows it has no state until the next make.
        let first = [unsaid, record(&mut rng, 0), make];
        let (mut log, mut stamp) = (vec![], 0);
        log.extend(first.iter().flat_map(Record::to_bytes));
        for _ in 0..2_000 {
            stamp += rng.below(40_000) as u32;
            log.extend(record(&mut rng, stamp).to_bytes());
        }
        log.truncate(log.len() - rng.below(RECORD_BYTES as u64) as usize);
        let mut due = Vec::new();
        log::replay(log.as_slice(), &mut due).expect("a slice can be read");
        assert!(played(&log) == due, "seed {seed}");
    }
}
