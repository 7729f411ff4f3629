//! Holds the proved program `replay` to the reference: both read the same logs, and must write the same bytes.

mod program;

use std::fs::File;
use std::io::{ErrorKind, Write};
use std::process::{Command, Stdio};

use program::{program, replayed};
use reference::log::{self, Record};
use reference::rng::Rng;

fn expected(input: &[u8]) -> Vec<u8> {
    let mut out = Vec::new();
    log::replay(input, &mut out).expect("a slice can be read");
    out
}

/// Compares the two on one log, and names the first line that differs.
fn compare(name: &str, input: &[u8], piece: usize) {
    let (ours, theirs) = (replayed(input, piece), expected(input));
    if ours == theirs {
        return;
    }
    let differs = ours
        .split(|&b| b == b'\n')
        .zip(theirs.split(|&b| b == b'\n'))
        .position(|(a, b)| a != b);
    panic!("{name}: the outputs differ, first at line {differs:?} (from 0)");
}

/// A make: in the old way, where a full queue refuses, if `way` is 1; in the new way, where it drops its oldest, if 0.
fn make(profile: u8, way: u32, stamp: u32) -> Record {
    Record {
        kind: 0,
        priority: profile,
        ontime: 0,
        lifetime: way,
        id: 0,
        stamp,
    }
}

fn poll(stamp: u32) -> Record {
    Record {
        kind: 3,
        ..make(0, 0, stamp)
    }
}

/// A record that follows a stamp: mostly good, sometimes hostile.
fn record(rng: &mut Rng, stamp: &mut u32) -> Record {
    let steps = [
        0,
        1,
        500,
        20_000,
        49_600,
        100_000,
        1_000_000,
        70_000_000,
        (1 << 31) - 1,
        1 << 31,
        u32::MAX,
    ];
    let step = if rng.one_in(40) {
        rng.pick(&steps)
    } else {
        rng.below(60_000) as u32
    };
    let next = stamp.wrapping_add(step);
    if step < 1 << 31 {
        *stamp = next;
    }
    let kind = if rng.one_in(300) {
        rng.below(256) as u8
    } else {
        1 + rng.below(3) as u8
    };
    let kind = if rng.one_in(4_000) { 0 } else { kind };
    let priority = if rng.one_in(50) {
        rng.below(256) as u8
    } else {
        rng.below(4) as u8
    };
    let ontime = if rng.one_in(30) {
        rng.next_u32() as u16
    } else {
        1 + rng.below(500) as u16
    };
    let lifetimes = [0, 1, 60_000_000, 60_000_001, u32::MAX];
    let lifetime = if kind == 0 && !rng.one_in(4) {
        rng.below(2) as u32 // the way of a make
    } else if rng.one_in(30) {
        rng.pick(&lifetimes)
    } else if kind == 1 {
        probes(rng)
    } else {
        1 + rng.below(3_000_000) as u32
    };
    let id = if kind == 1 && !rng.one_in(30) {
        let most = if lifetime == 0 { 1_000 } else { lifetime };
        rng.below(u64::from(most) + 2) as u32
    } else {
        rng.next_u32()
    };
    Record {
        kind,
        priority,
        ontime,
        lifetime,
        id,
        stamp: next,
    }
}

/// The probe count of a sample: mostly good, 0 for 1,000.
fn probes(rng: &mut Rng) -> u32 {
    match rng.below(4) {
        0 => 0,
        1 => rng.pick(&[1, 3, 64, 65, 999, 1_000, 1_001, 12_499, 12_500, 12_501]),
        _ => rng.below(12_520) as u32,
    }
}

fn bytes(records: &[Record]) -> Vec<u8> {
    records.iter().flat_map(Record::to_bytes).collect()
}

fn run(seed: u64, count: usize) -> Vec<u8> {
    let mut rng = Rng::new(seed);
    let mut stamp = rng.next_u32();
    let mut records = vec![make(1 + rng.below(4) as u8, rng.below(2) as u32, stamp)];
    while records.len() < count {
        records.push(record(&mut rng, &mut stamp));
    }
    bytes(&records)
}

#[test]
fn random_logs() {
    for seed in 1..=8 {
        compare(&format!("seed {seed}"), &run(seed, 400_000), 1 << 16);
    }
}

#[test]
fn torn_tails_and_block_boundaries() {
    for (seed, count) in [
        (20, 0),
        (21, 1),
        (22, 4_095),
        (23, 4_096),
        (24, 4_097),
        (25, 8_192),
    ] {
        let whole = if count == 0 {
            Vec::new()
        } else {
            run(seed, count)
        };
        for left in 0..16 {
            let mut input = whole.clone();
            input.extend((0..left).map(|b| b as u8 * 17));
            compare(
                &format!("{count} records and {left} bytes"),
                &input,
                1 << 16,
            );
        }
    }
}

#[test]
fn odd_pieces() {
    let input = run(31, 20_000);
    for piece in [1, 7, 15, 17, 4_096, 65_535, 65_537] {
        let input = if piece == 1 {
            &input[..40_003]
        } else {
            &input[..]
        };
        compare(&format!("pieces of {piece}"), input, piece);
    }
}

#[test]
fn noise() {
    for seed in 41..=48 {
        let mut rng = Rng::new(seed);
        let input: Vec<u8> = (0..100_000 + rng.below(64))
            .map(|_| rng.next_u64() as u8)
            .collect();
        compare(&format!("noise, seed {seed}"), &input, 4_099);
    }
}

#[test]
fn makes_again_and_refused_makes() {
    let mut rng = Rng::new(51);
    let mut stamp = 0;
    let mut records = Vec::new();
    for turn in 0..20_000 {
        if turn % 20 == 0 {
            let way = rng.pick(&[0, 0, 0, 1, 1, 1, 2, 256, 1 << 31]);
            records.push(make(rng.below(7) as u8, way, stamp));
        }
        records.push(record(&mut rng, &mut stamp));
    }
    compare("makes in mid-log, seed 51", &bytes(&records), 1 << 16);
}

/// Samples of every probe count, 0 for 1,000 among them, with what they do to the wait: two that count, an offer and a
/// poll after each of four busy counts.
#[test]
fn every_probe_count() {
    for profile in 1..=4 {
        let mut stamp = 0;
        let mut records = vec![make(profile, 0, stamp)];
        for probes in (0..=12_600).chain([1 << 16, (1 << 16) + 1_000, 1 << 31, u32::MAX]) {
            for busy in [0, 1, probes, probes.wrapping_add(1)] {
                stamp += 50;
                let sample = Record {
                    kind: 1,
                    lifetime: probes,
                    id: busy,
                    ..make(0, 0, stamp)
                };
                let offer = Record {
                    kind: 2,
                    priority: 1,
                    ontime: 400,
                    lifetime: 3_000_000,
                    id: probes,
                    stamp,
                };
                records.extend([sample, sample, offer, poll(stamp)]);
            }
        }
        let name = format!("every probe count, profile {profile}");
        compare(&name, &bytes(&records), 1 << 16);
    }
}

/// Queues that are full, in each way: twelve offers of each priority, then polls until nothing waits.
#[test]
fn full_queues() {
    let mut records = Vec::new();
    for way in [0, 1, 2, 255, 256, 1 << 16, u32::MAX] {
        for profile in 0..6 {
            records.push(make(profile, way, 0));
            let offer = |id| Record {
                kind: 2,
                priority: (id % 4) as u8,
                ontime: 400,
                lifetime: 60_000_000,
                id,
                stamp: id,
            };
            records.extend((0..48).map(offer));
            records.extend((1..=22).map(|turn| poll(1_001_000 * turn)));
        }
    }
    compare("full queues", &bytes(&records), 1 << 16);
}

#[test]
fn to_the_end_of_time() {
    let step = (1u32 << 31) - 1;
    let mut stamp = 5u32;
    let mut records = vec![make(3, 0, stamp)];
    for _ in 0..465_700 {
        stamp = stamp.wrapping_add(step);
        records.push(poll(stamp));
    }
    // The end lies within the last steps: polls of ever smaller steps find it to the microsecond.
    for shift in 0..31 {
        records.push(poll(stamp.wrapping_add(step >> shift)));
        stamp = stamp.wrapping_add(step >> shift);
    }
    let mut rng = Rng::new(61);
    for _ in 0..1_000 {
        records.push(record(&mut rng, &mut stamp));
    }
    compare("running time to 10^15, seed 61", &bytes(&records), 1 << 16);
}

/// A folder opens, but cannot be read.
#[test]
fn a_failed_read_has_no_last_line() {
    let folder = File::open(env!("CARGO_MANIFEST_DIR")).expect("the folder opens");
    let output = Command::new(program())
        .stdin(folder)
        .output()
        .expect("the program ends");
    assert_eq!(output.stdout, b"");
    assert_eq!(output.stderr, b"replay: a read failed\n");
}

/// The device takes no byte. The program says so and ends: the log's rest, more than a pipe holds, stays unread.
#[test]
fn a_failed_write_ends_the_program() {
    let full = File::options()
        .write(true)
        .open("/dev/full")
        .expect("the device opens");
    let mut child = Command::new(program())
        .stdin(Stdio::piped())
        .stdout(full)
        .stderr(Stdio::piped())
        .spawn()
        .expect("the program starts");
    let log = bytes(&vec![poll(1); 1 << 16]);
    let unread = child.stdin.take().expect("a pipe").write_all(&log);
    let output = child.wait_with_output().expect("the program ends");
    assert_eq!(output.stderr, b"replay: a write failed\n");
    assert_eq!(
        unread.expect_err("nobody reads").kind(),
        ErrorKind::BrokenPipe
    );
}
