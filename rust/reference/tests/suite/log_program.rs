//! "The call log and its program".

use std::io::{self, Read, Write};
use std::process::{Command, Stdio};

use crate::help::{counts, Answer, ACCEPTED_MOST};
use reference::log::{line, replay, step, Record};
use reference::rng::Rng;
use reference::state::{Packet, State};

const SAMPLE_OUTPUT: &str =
    "READY\nTAKEN\nTAKEN\nSENT 8\nCLOSED 49600\nCLOSED 400\nREFUSED 2\nCLOSED 400\nEND\n";

fn make(profile: u8, stamp: u32) -> Record {
    Record {
        kind: 0,
        priority: profile,
        stamp,
        ..Record::default()
    }
}

/// A make with a number in its lifetime field.
fn make_way(profile: u8, lifetime: u32, stamp: u32) -> Record {
    Record {
        lifetime,
        ..make(profile, stamp)
    }
}

fn sample(busy: u32, stamp: u32) -> Record {
    Record {
        kind: 1,
        id: busy,
        stamp,
        ..Record::default()
    }
}

fn offer(id: u32, priority: u8, ontime: u16, lifetime: u32, stamp: u32) -> Record {
    Record {
        kind: 2,
        priority,
        ontime,
        lifetime,
        id,
        stamp,
    }
}

fn poll(stamp: u32) -> Record {
    Record {
        kind: 3,
        stamp,
        ..Record::default()
    }
}

fn bytes(records: &[Record]) -> Vec<u8> {
    records
        .iter()
        .flat_map(|record| record.to_bytes())
        .collect()
}

fn output(input: &[u8]) -> String {
    let mut written = Vec::new();
    replay(input, &mut written).unwrap();
    String::from_utf8(written).unwrap()
}

/// The records of the paper's sample.
fn sample_log() -> Vec<u8> {
    bytes(&[
        make(2, 4_294_967_000),
        offer(7, 2, 400, 1_000_000, 4_294_967_100),
        offer(8, 1, 400, 60_000, 4_294_967_100),
        poll(4_294_967_200),
        poll(704),
        poll(49_904),
        poll(49_903),
        poll(49_904),
    ])
}

/// Hands its bytes over a few at a time, with interruptions between.
struct Dribble<'a> {
    left: &'a [u8],
    most: u64,
    rng: Rng,
}

impl Read for Dribble<'_> {
    fn read(&mut self, buffer: &mut [u8]) -> io::Result<usize> {
        if self.rng.one_in(4) {
            return Err(io::ErrorKind::Interrupted.into());
        }
        let wanted = 1 + self.rng.below(self.most) as usize;
        let count = wanted.min(buffer.len()).min(self.left.len());
        buffer[..count].copy_from_slice(&self.left[..count]);
        self.left = &self.left[count..];
        Ok(count)
    }
}

#[test]
fn the_papers_sample() {
    assert_eq!(output(&sample_log()), SAMPLE_OUTPUT);
}

#[test]
fn the_papers_sample_byte_by_byte() {
    // Two records written out by hand: the make and the first offer.
    let log = sample_log();
    let by_hand: [u8; 32] = [
        0, 2, 0, 0, 0, 0, 0, 0, 0, 0, 0, 0, 0xD8, 0xFE, 0xFF, 0xFF, //
        2, 2, 0x90, 0x01, 0x40, 0x42, 0x0F, 0, 7, 0, 0, 0, 0x3C, 0xFF, 0xFF, 0xFF,
    ];
    assert_eq!(log[..32], by_hand);
    for most in 1..=40 {
        let left = &log[..];
        let input = Dribble {
            left,
            most,
            rng: Rng::new(most),
        };
        let mut written = Vec::new();
        replay(input, &mut written).unwrap();
        assert_eq!(written, SAMPLE_OUTPUT.as_bytes());
    }
}

#[test]
fn the_program_itself() {
    let mut child = Command::new(env!("CARGO_BIN_EXE_reference-replay"))
        .stdin(Stdio::piped())
        .stdout(Stdio::piped())
        .spawn()
        .unwrap();
    child
        .stdin
        .take()
        .unwrap()
        .write_all(&sample_log())
        .unwrap();
    let done = child.wait_with_output().unwrap();
    assert!(done.status.success());
    assert_eq!(done.stdout, SAMPLE_OUTPUT.as_bytes());
}

#[test]
fn empty_and_torn_input() {
    assert_eq!(output(&[]), "END\n");
    let log = bytes(&[make(1, 0), poll(0)]);
    for length in 0..=32 {
        let lines = ["", "READY\n", "READY\nIDLE\n"][length / 16];
        let last = if length % 16 == 0 { "END\n" } else { "TORN\n" };
        assert_eq!(output(&log[..length]), format!("{lines}{last}"));
    }
}

#[test]
fn kinds_above_3_come_before_anything_else() {
    for kind in 4..=255 {
        let odd = Record {
            kind,
            priority: 255,
            ontime: 9,
            lifetime: 0,
            id: 5,
            stamp: 1 << 31,
        };
        let log = bytes(&[odd, make(1, 0), odd, poll(0)]);
        assert_eq!(output(&log), "REFUSED 10\nREADY\nREFUSED 10\nIDLE\nEND\n");
        let (state, _) = step(State::default(), &make(3, 8));
        assert_eq!(step(state, &odd), (state, Answer::Refused(10)));
    }
}

#[test]
fn before_a_make_there_is_no_state() {
    let log = bytes(&[sample(0, 0), offer(1, 0, 1, 1, 0), poll(0)]);
    assert_eq!(output(&log), "REFUSED 9\nREFUSED 9\nREFUSED 9\nEND\n");
}

#[test]
fn a_make_starts_afresh_and_a_refused_one_leaves_nothing() {
    let log = bytes(&[
        make(1, 500),
        offer(1, 0, 1, 1_000, 500),
        make(2, 7), // no clock check
        poll(7),
        make(0, 7),
        poll(7),
        make(5, 7),
        sample(0, 7),
        make(255, 7),
        offer(1, 0, 1, 1_000, 7),
        make(3, 0),
        poll(0),
    ]);
    let lines = [
        "READY",
        "TAKEN",
        "READY",
        "IDLE",
        "REFUSED 1",
        "REFUSED 9",
        "REFUSED 1",
        "REFUSED 9",
        "REFUSED 1",
        "REFUSED 9",
        "READY",
        "IDLE",
        "END",
        "",
    ];
    assert_eq!(output(&log), lines.join("\n"));
    let (state, _) = step(State::default(), &make(1, 500));
    assert_eq!(
        step(state, &make(9, 1)),
        (State::default(), Answer::Refused(1))
    );
}

/// The lifetime field of a make: 0 and 1 are the ways, over its whole 32 bits.
#[test]
fn a_make_says_its_way() {
    let six = |make: Record| {
        let mut records = vec![make];
        records.extend((1..=6).map(|id| offer(id, 3, 1, 9, 7)));
        records.push(poll(7));
        output(&bytes(&records))
    };
    let five = "READY\nTAKEN\nTAKEN\nTAKEN\nTAKEN\nTAKEN\n";
    assert_eq!(six(make(1, 7)), format!("{five}TAKEN\nSENT 2\nEND\n"));
    assert_eq!(six(make_way(1, 0, 7)), six(make(1, 7)));
    let refused = format!("{five}REFUSED 8\nSENT 1\nEND\n");
    assert_eq!(six(make_way(1, 1, 7)), refused);
    let none = format!("REFUSED 1\n{}END\n", "REFUSED 9\n".repeat(7));
    for other in [2, 9, 256, 65_536, 1 << 31, u32::MAX] {
        assert_eq!(six(make_way(1, other, 7)), none, "{other}");
        let (state, _) = step(State::default(), &make(2, 5));
        let refused = (State::default(), Answer::Refused(1));
        assert_eq!(step(state, &make_way(2, other, 5)), refused);
    }
}

#[test]
fn a_busy_count_is_judged_over_its_32_bits() {
    let log = bytes(&[
        make(1, 0),
        sample(1_000, 0),
        sample(1_001, 0),
        sample(65_536, 0),
        sample(u32::MAX, 0),
    ]);
    let lines = "READY\nTAKEN\nREFUSED 4\nREFUSED 4\nREFUSED 4\nEND\n";
    assert_eq!(output(&log), lines);
}

/// W-208: a sample's lifetime field is the probe count, and 0 means 1,000.
#[test]
fn a_sample_tells_its_probes() {
    let of = |busy: u32, probes: u32| Record {
        lifetime: probes,
        ..sample(busy, 0)
    };
    let (state, _) = step(State::default(), &make(3, 0));
    for (busy, probes, load) in [
        (620, 0, 620_000),
        (620, 1_000, 620_000),
        (7_751, 12_500, 620_080),
        (1, 3, 333_333),
        (1, 1, 1_000_000),
    ] {
        let (next, answer) = step(state, &of(busy, probes));
        assert_eq!((next.kept, answer), (load, Answer::Taken));
    }
    for (busy, probes) in [
        (1_001, 0),
        (1_001, 1_000),
        (2, 1),
        (12_501, 12_500),
        (0, 12_501),
        (0, 1 << 16),
        (1, 1 << 31),
        (0, u32::MAX),
    ] {
        let refused = (state, Answer::Refused(4));
        assert_eq!(step(state, &of(busy, probes)), refused);
    }
}

#[test]
fn other_fields_are_ignored() {
    let full = Record {
        kind: 0,
        priority: 3,
        ontime: 9,
        lifetime: 0,
        id: 9,
        stamp: 4,
    };
    assert_eq!(
        step(State::default(), &full),
        step(State::default(), &make(3, 4))
    );
    let oldway = Record {
        lifetime: 1,
        ..full
    };
    assert_eq!(
        step(State::default(), &oldway),
        step(State::default(), &make_way(3, 1, 4))
    );
    let (state, _) = step(State::default(), &full);
    let noisy = Record {
        kind: 1,
        priority: 77,
        ontime: 9,
        lifetime: 0,
        id: 400,
        stamp: 6,
    };
    assert_eq!(step(state, &noisy), step(state, &sample(400, 6)));
    let noisy = Record {
        kind: 3,
        priority: 77,
        ontime: 9,
        lifetime: 9,
        id: 400,
        stamp: 6,
    };
    assert_eq!(step(state, &noisy), step(state, &poll(6)));
}

#[test]
fn lines_of_answers() {
    let packet = Packet {
        id: u32::MAX,
        ..Packet::default()
    };
    assert_eq!(line(&Answer::Ready), "READY");
    assert_eq!(line(&Answer::Taken), "TAKEN");
    assert_eq!(line(&Answer::Sent(packet)), "SENT 4294967295");
    assert_eq!(line(&Answer::Sent(Packet::default())), "SENT 0");
    assert_eq!(line(&Answer::Idle), "IDLE");
    assert_eq!(line(&Answer::Closed(1_001_000)), "CLOSED 1001000");
    assert_eq!(line(&Answer::Refused(10)), "REFUSED 10");
    assert_eq!(line(&Answer::Refused(11)), "REFUSED 11");
}

/// No log is long enough to spend its offers, so the state is made by hand.
#[test]
fn an_offer_record_may_meet_spent() {
    let (state, _) = step(State::default(), &make(1, 0));
    let state = state.with_accepted(ACCEPTED_MOST);
    let refused = step(state, &offer(1, 0, 1, 1, 5));
    assert_eq!(refused, (state, Answer::Refused(11)));
    // A make gives a fresh state, whose counts are 0.
    let (fresh, answer) = step(state, &make(1, 5));
    assert_eq!((fresh.counts, answer), (counts(0, 0, 0), Answer::Ready));
    assert_eq!(step(fresh, &offer(1, 0, 1, 1, 5)).1, Answer::Taken);
}

#[test]
fn records_read_back() {
    let mut rng = Rng::new(8);
    for _ in 0..10_000 {
        let mut any = [0u8; 16];
        any[..8].copy_from_slice(&rng.next_u64().to_le_bytes());
        any[8..].copy_from_slice(&rng.next_u64().to_le_bytes());
        assert_eq!(Record::from_bytes(&any).to_bytes(), any);
    }
}

#[test]
fn any_bytes_give_one_line_a_record() {
    let mut rng = Rng::new(99);
    let mut log = Vec::new();
    for _ in 0..20_000 {
        let mut record = Record::from_bytes(&[0; 16]);
        record.kind = rng.pick(&[0, 1, 1, 2, 2, 2, 3, 3, 3, 7]);
        record.priority = rng.below(5) as u8;
        record.ontime = rng.below(600) as u16;
        record.lifetime = match record.kind {
            0 => rng.below(3) as u32,
            _ => rng.below(1 << 27) as u32,
        };
        record.id = rng.below(1_100) as u32;
        record.stamp = rng.below(1 << 22) as u32;
        log.extend(record.to_bytes());
    }
    let text = output(&log);
    assert_eq!(text.lines().count(), 20_001);
    assert!(text.ends_with("\nEND\n"));
}
