//! A gate that records its own calls: its log, played by the proved program, gives the answers that the host got; and
//! what a log has in it when the sink fails or the host crashes.

#[path = "gate/help.rs"]
#[allow(dead_code)]
mod help;
mod program;

use std::collections::HashSet;
use std::io::{self, ErrorKind, Write};
use std::mem::discriminant;
use std::panic::{catch_unwind, AssertUnwindSafe};

use help::{
    edge_or, gates, random_count, random_words, EDGE_LIFETIMES, EDGE_STEPS, LOGGED, WHEN_FULL,
};
use presscurlew::sys::RECORD_BYTES;
use presscurlew::{Answer, Gate, Offer, RecordError, Recorder, Refusal, WhenFull};
use program::replayed;
use reference::rng::Rng;

/// What a host does in one call.
#[derive(Clone, Debug)]
enum Deed {
    Words((u32, Vec<u64>), u32),
    Count((u32, u32), u32),
    Offer(Offer, u32),
    Burst(Vec<(Offer, u32)>),
    Poll(u32),
}

impl Deed {
    /// How many records it has.
    fn records(&self) -> usize {
        match self {
            Deed::Burst(offers) => offers.len(),
            _ => 1,
        }
    }
}

const EDGE_PRIORITIES: [u32; 6] = [0, 3, 4, 255, 256, u32::MAX];
const EDGE_ONTIMES: [u32; 9] = [
    0,
    1,
    500,
    501,
    1_000,
    65_535,
    65_536,
    65_536 + 400,
    u32::MAX,
];

/// Mostly what a gate takes, now and then a number at an edge or too wide for a record.
fn any_offer(rng: &mut Rng) -> Offer {
    let hostile = rng.one_in(4);
    Offer {
        id: rng.next_u32(),
        priority: match hostile {
            true => edge_or(rng, &EDGE_PRIORITIES, 3),
            false => rng.below(4) as u32,
        },
        ontime: match hostile {
            true => edge_or(rng, &EDGE_ONTIMES, 4_000),
            false => 1 + rng.below(500) as u32,
        },
        lifetime: match hostile {
            true => edge_or(rng, &EDGE_LIFETIMES, 60_000_000),
            false => 1 + rng.below(2_000_000) as u32,
        },
    }
}

fn stamp_after(rng: &mut Rng, last: u32) -> u32 {
    let step = match rng.below(30) {
        0 => rng.pick(&EDGE_STEPS),
        _ => rng.below(30_000) as u32,
    };
    last.wrapping_add(step)
}

fn any_deed(rng: &mut Rng, last: u32) -> Deed {
    let stamp = stamp_after(rng, last);
    match rng.below(10) {
        0 => Deed::Words(random_words(rng), stamp),
        1 => Deed::Count(random_count(rng), stamp),
        2..=4 => Deed::Offer(any_offer(rng), stamp),
        5 => {
            let many = rng.below(9);
            let one = |_| (any_offer(rng), stamp_after(rng, last));
            Deed::Burst((0..many).map(one).collect())
        }
        _ => Deed::Poll(stamp),
    }
}

/// A line of `replay` for what a sample or an offer was answered.
fn taken(answer: Result<(), Refusal>) -> String {
    match answer {
        Ok(()) => "TAKEN".to_string(),
        Err(refusal) => format!("REFUSED {}", refusal.number()),
    }
}

fn polled(answer: Result<Answer, Refusal>) -> String {
    match answer {
        Ok(answer) => answer.to_string(),
        Err(refusal) => format!("REFUSED {}", refusal.number()),
    }
}

/// The gate's part of an answer, unless the log failed.
fn of_gate<T>(answer: Result<T, RecordError>) -> io::Result<Result<T, Refusal>> {
    match answer {
        Ok(answer) => Ok(Ok(answer)),
        Err(RecordError::Refused(refusal)) => Ok(Err(refusal)),
        Err(RecordError::Log(error)) => Err(error),
    }
}

/// The lines of a deed on a recorder.
fn recorded<W: Write>(gate: &mut Recorder<W>, deed: &Deed) -> io::Result<Vec<String>> {
    Ok(match deed {
        Deed::Words((probes, words), stamp) => {
            vec![taken(of_gate(gate.sample_words(*probes, words, *stamp))?)]
        }
        Deed::Count((busy, probes), stamp) => {
            vec![taken(of_gate(gate.sample_count(*busy, *probes, *stamp))?)]
        }
        Deed::Offer(offer, stamp) => vec![taken(of_gate(gate.offer(*offer, *stamp))?)],
        Deed::Burst(offers) => gate.offer_burst(offers)?.into_iter().map(taken).collect(),
        Deed::Poll(stamp) => vec![polled(of_gate(gate.poll(*stamp))?)],
    })
}

/// The same on a gate without a log.
fn done(gate: &mut Gate, deed: &Deed) -> Vec<String> {
    match deed {
        Deed::Words((probes, words), stamp) => {
            vec![taken(gate.sample_words(*probes, words, *stamp))]
        }
        Deed::Count((busy, probes), stamp) => {
            vec![taken(gate.sample_count(*busy, *probes, *stamp))]
        }
        Deed::Offer(offer, stamp) => vec![taken(gate.offer(*offer, *stamp))],
        Deed::Burst(offers) => gate.offer_burst(offers).into_iter().map(taken).collect(),
        Deed::Poll(stamp) => vec![polled(gate.poll(*stamp))],
    }
}

/// Holds what the program says to the host's own lines, and names the first that differs.
fn hold_played(log: &[u8], lines: &[String], origin: &str) {
    let played = String::from_utf8(replayed(log, 1 << 16)).expect("the program writes ASCII");
    let played: Vec<&str> = played.lines().collect();
    let own = lines.iter().map(String::as_str).chain(["END"]);
    for (index, (program, host)) in played.iter().zip(own).enumerate() {
        assert_eq!(*program, host, "{origin}: record {index}");
    }
    assert_eq!(played.len(), lines.len() + 1, "{origin}: lines");
}

/// A random run, bursts and hostile numbers in it: the recorder is a gate, its log has a record for each call, and the
/// program gives the host's answers line by line.
#[test]
fn a_recorded_run_plays_back() {
    for (profile, way) in gates().filter(|(profile, _)| LOGGED.contains(profile)) {
        let seed = 0x206e + u64::from(profile);
        let origin = format!("profile {profile}, way {way}, seed {seed:#x}");
        let mut rng = Rng::new(seed);
        let (stamp, way) = (rng.next_u32(), WHEN_FULL[way as usize]);
        let mut log = Vec::new();
        let mut gate = Recorder::new(profile, way, stamp, &mut log).expect("a good profile");
        let mut bare = Gate::of_number(profile, way, stamp).expect("a good profile");
        let mut lines = vec!["READY".to_string()];
        for index in 0..60_000 {
            let deed = any_deed(&mut rng, bare.state().stamp);
            let said = recorded(&mut gate, &deed).expect("a Vec takes all");
            assert_eq!(said, done(&mut bare, &deed), "{origin}, deed {index}");
            assert_eq!(*gate.gate(), bare, "{origin}, deed {index}: {deed:?}");
            lines.extend(said);
        }
        assert_eq!(log.len(), RECORD_BYTES * lines.len(), "{origin}");
        hold_played(&log, &lines, &origin);
        hold_seen(&lines, way, &origin);
    }
}

/// The run had every kind of answer in it that its gate gives.
fn hold_seen(lines: &[String], way: WhenFull, origin: &str) {
    let words = ["TAKEN", "SENT ", "IDLE", "CLOSED "].map(String::from);
    let numbers = [2, 4, 5, 6, 7].map(|number| format!("REFUSED {number}"));
    for word in words.iter().chain(&numbers) {
        let times = lines.iter().filter(|line| line.starts_with(word)).count();
        assert!(times > 100, "{origin}: {word} came {times} times");
    }
    let full = lines.iter().filter(|line| *line == "REFUSED 8").count();
    assert_eq!(full > 100, way == WhenFull::RefuseNew, "{origin}: {full}");
}

/// Calls of which no record has room for some number, and what a gate of profile 1 refuses them with.
fn unfit(stamp: u32) -> Vec<(Deed, Vec<u32>)> {
    let mut stray = vec![0; 196];
    stray[195] = 1 << 20;
    let wide = |priority, ontime| Offer {
        id: 7,
        priority,
        ontime,
        lifetime: 60_000,
    };
    let offers = [
        (wide(256, 400), 5),
        (wide(u32::MAX, 400), 5),
        (wide(256, 65_536), 5),
        (wide(1, 65_536), 6),
        (wide(1, 65_536 + 400), 6),
        (wide(1, u32::MAX), 6),
    ];
    let burst = offers.map(|(offer, _)| (offer, stamp)).to_vec();
    let mut deeds = vec![
        (Deed::Words((0, vec![]), stamp), vec![4]),
        (Deed::Words((1_000, vec![0; 17]), stamp), vec![4]),
        (Deed::Words((12_500, stray), stamp), vec![4]),
        (Deed::Words((12_501, vec![0; 196]), stamp), vec![4]),
        (Deed::Count((0, 0), stamp), vec![4]),
        (Deed::Count((u32::MAX, 0), stamp), vec![4]),
        (
            Deed::Burst(burst),
            offers.map(|(_, number)| number).to_vec(),
        ),
    ];
    deeds.extend(offers.map(|(offer, number)| (Deed::Offer(offer, stamp), vec![number])));
    deeds
}

/// What no record has room for is in the log all the same, and gets the same answer: at a good stamp, and at one that
/// the clock refuses first.
#[test]
fn what_does_not_fit_is_refused_alike() {
    let (mut log, mut lines) = (Vec::new(), vec!["READY".to_string()]);
    let mut gate = Recorder::new(1, WhenFull::DropOldest, 500, &mut log).expect("profile 1");
    let before = *gate.gate().state();
    for stamp in [500, 499] {
        for (deed, numbers) in unfit(stamp) {
            let due = |number| if stamp < 500 { 2 } else { number };
            let due = numbers.into_iter().map(due);
            let due: Vec<_> = due.map(|number| format!("REFUSED {number}")).collect();
            let said = recorded(&mut gate, &deed).expect("a Vec takes all");
            assert_eq!(said, due, "{deed:?}");
            lines.extend(said);
        }
    }
    assert_eq!(*gate.gate().state(), before);
    hold_played(&log, &lines, "what does not fit");
}

/// A make that is refused is in the log, whatever the profile, and is refused when it is played.
#[test]
fn a_refused_make_is_recorded() {
    for profile in [0, 5, 77, 255, 256, 257, 65_537, u32::MAX] {
        for way in WHEN_FULL {
            let mut log = Vec::new();
            let made = Recorder::new(profile, way, 9, &mut log);
            let error = made.expect_err("no such profile");
            assert!(matches!(error, RecordError::Refused(Refusal::BadProfile)));
            assert_eq!(log.len(), RECORD_BYTES);
            hold_played(&log, &["REFUSED 1".to_string()], &format!("{profile}"));
        }
    }
}

/// A sink that takes so many bytes, a few at a time, and so many flushes, and is interrupted now and then; then it
/// fails.
#[derive(Default)]
struct Disk {
    room: usize,
    flushes: usize,
    bytes: Vec<u8>,
    turns: usize,
}

impl Write for Disk {
    fn write(&mut self, bytes: &[u8]) -> io::Result<usize> {
        self.turns += 1;
        if self.turns % 3 == 0 {
            return Err(ErrorKind::Interrupted.into());
        }
        let some = bytes.len().min(7).min(self.room - self.bytes.len());
        if some == 0 && !bytes.is_empty() {
            return Err(io::Error::other("the disk is full"));
        }
        self.bytes.extend(&bytes[..some]);
        Ok(some)
    }

    fn flush(&mut self) -> io::Result<()> {
        if self.flushes == 0 {
            return Err(io::Error::other("the disk is gone"));
        }
        self.flushes -= 1;
        Ok(())
    }
}

/// Deeds of a run, for a gate of profile 1 that is made at stamp 0.
fn some_deeds(seed: u64) -> Vec<Deed> {
    let mut rng = Rng::new(seed);
    let mut deeds: Vec<Deed> = (0..30).map(|k| any_deed(&mut rng, k * 20_000)).collect();
    deeds.insert(3, Deed::Burst([(any_offer(&mut rng), 70_000); 4].to_vec()));
    let kinds: HashSet<_> = deeds.iter().map(discriminant).collect();
    assert_eq!(kinds.len(), 5, "seed {seed:#x} has calls of each kind");
    deeds
}

/// Runs the deeds on a recorder until its log fails, and holds it to a gate without a log: what was made is what the
/// sink took and flushed whole, and after a failure nothing is made and nothing written. The bytes of the sink.
fn follow(disk: Disk, deeds: &[Deed], origin: &str) -> Vec<u8> {
    let (room, flushes) = (disk.room, disk.flushes);
    let mut gate = match Recorder::new(1, WhenFull::DropOldest, 0, disk) {
        Ok(gate) => gate,
        Err(RecordError::Log(_)) if room < RECORD_BYTES || flushes == 0 => return vec![],
        Err(error) => panic!("{origin}: {error}"),
    };
    let mut bare = Gate::of_number(1, WhenFull::DropOldest, 0).expect("profile 1");
    let (mut records, mut failed) = (1, false);
    for (index, deed) in deeds.iter().enumerate() {
        let said = recorded(&mut gate, deed);
        records += deed.records();
        // The make's flush is one of them.
        failed |= records * RECORD_BYTES > room || index + 2 > flushes;
        assert_eq!(said.is_err(), failed, "{origin}, deed {index}");
        if let Ok(said) = said {
            assert_eq!(said, done(&mut bare, deed), "{origin}, deed {index}");
        }
        assert_eq!(*gate.gate(), bare, "{origin}, deed {index}");
    }
    let (_, disk) = gate.into_parts();
    disk.bytes
}

/// Sinks that are full after each number of bytes, and sinks whose flush fails after each number of calls.
#[test]
fn a_call_that_is_not_in_the_log_is_not_made() {
    let deeds = some_deeds(0x206f);
    let disk = |room, flushes| Disk {
        room,
        flushes,
        ..Disk::default()
    };
    let whole = follow(disk(1 << 20, 1 << 20), &deeds, "no failure");
    for room in 0..=whole.len() {
        let origin = format!("room for {room} bytes");
        let bytes = follow(disk(room, 1 << 20), &deeds, &origin);
        // The log is the run's, as far as it goes.
        assert!(whole.starts_with(&bytes), "{origin}");
        assert!(bytes.len() == room || room < RECORD_BYTES, "{origin}");
    }
    for flushes in 1..=deeds.len() {
        let origin = format!("{flushes} flushes");
        let bytes = follow(disk(1 << 20, flushes), &deeds, &origin);
        assert!(whole.starts_with(&bytes), "{origin}");
        // The make's, and those of the calls up to the one whose flush failed.
        let records: usize = deeds[..flushes].iter().map(Deed::records).sum();
        assert_eq!(bytes.len(), RECORD_BYTES * (1 + records), "{origin}");
    }
    follow(disk(1 << 20, 0), &deeds, "no flush");
}

/// A sink in which the host crashes: at the flush of its last call.
struct Crash<'a> {
    disk: &'a mut Vec<u8>,
    calls: usize,
}

impl Write for Crash<'_> {
    fn write(&mut self, bytes: &[u8]) -> io::Result<usize> {
        self.disk.write(bytes)
    }

    fn flush(&mut self) -> io::Result<()> {
        assert!(self.calls > 0, "the host crashes here");
        self.calls -= 1;
        Ok(())
    }
}

/// A host that crashes between record and call: the log has the call in it, and the gate has not made it. The record
/// comes first.
#[test]
fn the_log_of_a_crash_has_the_last_call() {
    for calls in 1..6 {
        let mut disk = Vec::new();
        let sink = Crash {
            disk: &mut disk,
            calls,
        };
        let mut gate = Recorder::new(1, WhenFull::DropOldest, 0, sink).expect("profile 1");
        let crash = catch_unwind(AssertUnwindSafe(|| {
            for stamp in 1..10 {
                assert_eq!(gate.poll(stamp).expect("a poll is taken"), Answer::Idle);
            }
        }));
        assert!(crash.is_err());
        assert_eq!(gate.gate().state().time, calls as u64 - 1);
        // What the sink took of the last call is not known: there is no further one.
        assert!(matches!(gate.poll(20), Err(RecordError::Log(_))));
        // The make, the calls that were made, and the one that was not.
        assert_eq!(disk.len(), RECORD_BYTES * (calls + 1));
        let last = disk.len() - RECORD_BYTES;
        assert_eq!((disk[last], disk[last + 12]), (3, calls as u8));
    }
}

/// What a host sees of the two kinds of errors.
#[test]
fn errors_say_what_it_was() {
    let mut gate = Recorder::new(1, WhenFull::DropOldest, 5, io::sink()).expect("profile 1");
    let refused = gate.poll(4).expect_err("the clock went back");
    assert_eq!(refused.to_string(), "CLOCK-BACK: the clock went back");
    let mut gate = Recorder::new(
        1,
        WhenFull::DropOldest,
        5,
        Disk {
            room: 20,
            flushes: 9,
            ..Disk::default()
        },
    )
    .expect("profile 1");
    let lost = gate.poll(6).expect_err("the disk is full");
    assert_eq!(lost.to_string(), "the call log: the disk is full");
    let ended = gate.poll(6).expect_err("it has ended");
    assert_eq!(
        ended.to_string(),
        "the call log: it failed before, and has ended"
    );
}
