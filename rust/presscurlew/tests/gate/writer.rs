//! Calls written to a log by the archive, held to the reference's writer and read back by its reader.

use crate::help::{
    archive_write, edge_or, first_busy, hold_write, random_count, random_words, Call, LogCall,
    EDGE_LIFETIMES, EDGE_PROBES,
};
use presscurlew::{sys, Offer};
use reference::levels::Levels;
use reference::lists;
use reference::log::{read, Record, RECORD_BYTES};
use reference::rng::Rng;

fn make(profile: u32, oldway: u32, stamp: u32) -> LogCall {
    let levels = Levels::default();
    LogCall::Make {
        profile,
        oldway,
        levels,
        stamp,
    }
}

fn by_words(probes: u32, words: Vec<u64>, stamp: u32) -> LogCall {
    LogCall::On(Call::SampleWords {
        probes,
        words,
        stamp,
    })
}

fn by_count(busy: u32, probes: u32, stamp: u32) -> LogCall {
    LogCall::On(Call::SampleCount {
        busy,
        probes,
        stamp,
    })
}

fn offer(offer: Offer, stamp: u32) -> LogCall {
    let Offer {
        id,
        priority,
        ontime,
        lifetime,
    } = offer;
    LogCall::On(Call::Offer {
        id,
        priority,
        ontime,
        lifetime,
        stamp,
    })
}

fn poll(stamp: u32) -> LogCall {
    LogCall::On(Call::Poll { stamp })
}

/// An offer with another number in each byte.
const ODD: Offer = Offer {
    id: 0x1413_1211,
    priority: 3,
    ontime: 0x0605,
    lifetime: 0x0a09_0807,
};

/// The 16 bytes of a call that must be written.
fn written(call: &LogCall) -> [u8; RECORD_BYTES] {
    let mut bytes = [0xa5; RECORD_BYTES];
    assert_eq!(archive_write(call, &mut bytes, 0), 0, "{call:?}");
    bytes
}

/// The bytes of each kind, by hand: what a kind does not use is zero.
#[test]
fn the_bytes_of_each_call() {
    let stamp = 0x0403_0201;
    let cases = [
        (
            make(2, sys::DROP_OLDEST, stamp),
            [0, 2, 0, 0, 0, 0, 0, 0, 0, 0, 0, 0, 1, 2, 3, 4],
        ),
        (
            make(3, sys::REFUSE_NEW, stamp),
            [0, 3, 0, 0, 1, 0, 0, 0, 0, 0, 0, 0, 1, 2, 3, 4],
        ),
        (
            by_count(0x1413_1211, 1_000, stamp),
            [1, 0, 0, 0, 0, 0, 0, 0, 17, 18, 19, 20, 1, 2, 3, 4],
        ),
        (
            by_count(0x1413_1211, 0x0a09_0807, stamp),
            [1, 0, 0, 0, 7, 8, 9, 10, 17, 18, 19, 20, 1, 2, 3, 4],
        ),
        (
            by_words(1_000, first_busy(1_000, 515), stamp),
            [1, 0, 0, 0, 0, 0, 0, 0, 3, 2, 0, 0, 1, 2, 3, 4],
        ),
        (
            by_words(12_500, first_busy(12_500, 7_751), stamp),
            [1, 0, 0, 0, 0xd4, 0x30, 0, 0, 0x47, 0x1e, 0, 0, 1, 2, 3, 4],
        ),
        (
            offer(ODD, stamp),
            [2, 3, 5, 6, 7, 8, 9, 10, 17, 18, 19, 20, 1, 2, 3, 4],
        ),
        (
            poll(stamp),
            [3, 0, 0, 0, 0, 0, 0, 0, 0, 0, 0, 0, 1, 2, 3, 4],
        ),
    ];
    for (call, bytes) in cases {
        assert_eq!(written(&call), bytes, "{call:?}");
    }
}

/// The numbers that a call is refused with, by hand; 0 where it fits, whatever it is worth.
fn numbers() -> Vec<(LogCall, u32)> {
    let makes = [
        (0, 0, 0),
        (77, 1, 0),
        (255, 1, 0),
        (4, 0, 0),
        (5, 0, 1),
        (5, 1, 1),
        (6, 1, 0),
        (256, 0, 1),
        (257, 1, 1),
        (u32::MAX, 0, 1),
        (1, 2, 1),
        (1, 256, 1),
        (255, u32::MAX, 1),
        (256, 2, 1),
    ];
    let offers = [
        (255, 65_535, 0),
        (200, 0, 0),
        (256, 1, 5),
        (u32::MAX, 1, 5),
        (256, 65_536, 5),
        (255, 65_536, 6),
        (0, 65_537, 6),
        (0, u32::MAX, 6),
    ];
    let mut all = vec![(poll(7), 0)];
    all.extend(makes.map(|(profile, way, number)| (make(profile, way, 7), number)));
    all.extend(offers.map(|(priority, ontime, number)| {
        let odd = Offer {
            priority,
            ontime,
            ..ODD
        };
        (offer(odd, 7), number)
    }));
    for probes in [1, 1_000, 20_000, u32::MAX] {
        all.extend([0, 5_000, u32::MAX].map(|busy| (by_count(busy, probes, 7), 0)));
    }
    all.extend([0, 1_000, u32::MAX].map(|busy| (by_count(busy, 0, 7), 4)));
    all.extend(samples());
    all
}

fn samples() -> [(LogCall, u32); 12] {
    let mut stray = first_busy(1_000, 400);
    stray[15] |= 1 << 40;
    [
        (1_000, first_busy(1_000, 0), 0),
        (1_000, first_busy(1_000, 1_000), 0),
        (1, first_busy(1, 1), 0),
        (12_500, first_busy(12_500, 12_500), 0),
        (1_000, vec![], 4),
        (1_000, vec![0; 15], 4),
        (1_000, vec![0; 17], 4),
        (1_000, stray, 4),
        (0, vec![], 4),
        (0, vec![0; 16], 4),
        (12_501, vec![0; 196], 4),
        (u32::MAX, vec![], 4),
    ]
    .map(|(probes, words, number)| (by_words(probes, words, 7), number))
}

/// Every place near the start and the end of logs of 0 to 60 bytes, and places near 2^64, of each call: what is refused
/// for a number gets that number also where there is no room.
#[test]
fn every_place() {
    let far = [0, 1, 14, 15, 16, 17, 31, 32, 60].map(|less| usize::MAX - less);
    let middle = [1 << 32, (1 << 63) - 16, (1 << 63) - 1, 1 << 63];
    for (call, due) in numbers() {
        for room in 0..=60 {
            for at in (0..room + 20).chain(far).chain(middle) {
                let fits = at <= room && room - at >= RECORD_BYTES;
                let number = hold_write(&call, room, at, &"every place");
                let due = if due == 0 && !fits { 12 } else { due };
                assert_eq!(number, due, "{call:?} at {at} of {room} bytes");
            }
        }
    }
}

/// A log of many records, one after the other: each keeps what those before it wrote.
#[test]
fn a_log_is_written_record_by_record() {
    let calls: Vec<LogCall> = numbers()
        .into_iter()
        .filter_map(|(call, number)| (number == 0).then_some(call))
        .collect();
    let mut log = vec![0xa5; calls.len() * RECORD_BYTES + 15];
    for (index, call) in calls.iter().enumerate() {
        assert_eq!(archive_write(call, &mut log, index * RECORD_BYTES), 0);
    }
    assert_eq!(
        archive_write(&poll(0), &mut log, calls.len() * RECORD_BYTES),
        12
    );
    let mut expected: Vec<u8> = calls.iter().flat_map(written).collect();
    expected.extend([0xa5; 15]);
    assert_eq!(log, expected);
}

/// Every profile and every way that fits, and those just above.
#[test]
fn every_make() {
    for profile in 0..=300 {
        for way in (0..=300).chain([1 << 16, 1 << 24, u32::MAX]) {
            let number = hold_write(&make(profile, way, !profile), 16, 0, &"makes");
            let unsaid = profile == 5 || profile > 255 || way > 1;
            assert_eq!(number, u32::from(unsaid), "profile {profile}, way {way}");
        }
    }
}

/// Probe counts of one word, of whole words and of the most words.
const SOME_PROBES: [u32; 8] = [1, 63, 64, 65, 1_000, 1_024, 12_480, 12_500];

/// Every single probe, every number of busy probes and every length.
#[test]
fn samples_by_words() {
    for probes in SOME_PROBES {
        for k in 0..probes as usize {
            let mut words = first_busy(probes, 0);
            words[k / 64] |= 1 << (k % 64);
            let (one, count) = (by_words(probes, words, 9), by_count(1, probes, 9));
            assert_eq!(written(&one), written(&count), "probe {k} of {probes}");
        }
        for busy in 0..=probes {
            let first = by_words(probes, first_busy(probes, busy), 9);
            let count = by_count(busy, probes, 9);
            assert_eq!(written(&first), written(&count), "{busy} of {probes}");
        }
        for length in 0..400 {
            let zeros = by_words(probes, vec![0; length], 9);
            let number = hold_write(&zeros, 16, 0, &"a length");
            let enough = length == probes.div_ceil(64) as usize;
            let due = if enough { 0 } else { 4 };
            assert_eq!(number, due, "{length} words of {probes} probes");
        }
    }
}

/// Every probe count that a sample may have and some more: its record beside the reference, by count and by words, and
/// every bit of the last word that is no probe.
#[test]
fn every_probe_count() {
    let edges = EDGE_PROBES.into_iter().filter(|&probes| probes > 12_600);
    for probes in (0..=12_600).chain(edges) {
        for busy in [0, 1, probes, probes.wrapping_add(1)] {
            let number = hold_write(&by_count(busy, probes, 9), 16, 0, &"by count");
            assert_eq!(
                number,
                if probes == 0 { 4 } else { 0 },
                "{busy} of {probes}"
            );
        }
        let good = (1..=12_500).contains(&probes);
        let words = first_busy(probes.min(13_000), 0);
        let number = hold_write(&by_words(probes, words.clone(), 9), 16, 0, &"by words");
        assert_eq!(number, if good { 0 } else { 4 }, "{probes} probes");
        let strays = if good && probes % 64 != 0 {
            probes % 64..64
        } else {
            0..0
        };
        for bit in strays {
            let mut stray = words.clone();
            *stray.last_mut().expect("a word") |= 1 << bit;
            let number = hold_write(&by_words(probes, stray, 9), 16, 0, &"a stray bit");
            assert_eq!(number, 4, "bit {bit} of {probes} probes");
        }
    }
}

/// The call of a record, written again.
fn there_and_back(bytes: &[u8; RECORD_BYTES]) -> Option<[u8; RECORD_BYTES]> {
    let call = read(&Record::from_bytes(bytes)).expect("a kind of 0 to 3");
    let mut back = [0xa5; RECORD_BYTES];
    (archive_write(&call, &mut back, 0) == 0).then_some(back)
}

/// Whether a record has zeros in what its kind does not use, 0 or 1 as a make's lifetime, and no 1,000 as a sample's; and
/// is no make of profile 5, whose list it has no room for.
fn comes_back(bytes: &[u8; RECORD_BYTES]) -> bool {
    let zero = |from: usize, to: usize| bytes[from..to].iter().all(|&byte| byte == 0);
    match bytes[0] {
        0 => bytes[1] != 5 && zero(2, 4) && bytes[4] < 2 && zero(5, 12),
        1 => zero(1, 4) && bytes[4..8] != 1_000u32.to_le_bytes(),
        2 => true,
        _ => zero(1, 12),
    }
}

/// All 65,536 values of each pair of bytes that stand side by side, in each kind, the others zero; and of any two bytes
/// of an offer. A record comes back as it was exactly if it has zeros in what its kind does not use; a sample that says
/// 1,000 comes back as one that says 0.
#[test]
fn every_two_bytes_of_a_record() {
    for kind in 0..4 {
        for one in 1..RECORD_BYTES {
            for other in one + 1..RECORD_BYTES {
                if kind == 2 || other == one + 1 {
                    two_bytes(kind, one, other);
                }
            }
        }
    }
}

fn two_bytes(kind: u8, one: usize, other: usize) {
    let mut bytes = [0; RECORD_BYTES];
    bytes[0] = kind;
    for pair in 0..=u16::MAX {
        [bytes[one], bytes[other]] = pair.to_le_bytes();
        let same = there_and_back(&bytes) == Some(bytes);
        assert_eq!(same, comes_back(&bytes), "{bytes:?}");
    }
}

#[test]
fn random_records_there_and_back() {
    let mut rng = Rng::new(0x206a);
    let mut counts = [[0; 2]; 4];
    for _ in 0..400_000 {
        let mut bytes = [0; RECORD_BYTES];
        bytes[0] = rng.below(4) as u8;
        let dense = rng.below(3);
        for byte in &mut bytes[1..] {
            if dense == 2 || rng.one_in(30) && dense == 1 {
                *byte = rng.next_u32() as u8;
            }
        }
        let stamp = rng.next_u32().to_le_bytes();
        bytes[12..].copy_from_slice(&stamp);
        let same = there_and_back(&bytes) == Some(bytes);
        assert_eq!(same, comes_back(&bytes), "{bytes:?}");
        counts[usize::from(bytes[0])][usize::from(same)] += 1;
    }
    // Offers use every byte; of the other kinds both come.
    assert_eq!(counts[2][0], 0);
    for kind in [0, 1, 3] {
        assert!(counts[kind].iter().all(|&n| n > 10_000), "{counts:?}");
    }
}

const EDGE_BYTES: [u32; 9] = [0, 3, 4, 5, 255, 256, 257, 65_536, u32::MAX];
const EDGE_TWO_BYTES: [u32; 8] = [0, 1, 4_000, 65_535, 65_536, 65_537, 1 << 24, u32::MAX];

fn any_call(rng: &mut Rng) -> LogCall {
    let stamp = rng.next_u32();
    match rng.below(5) {
        // Whatever its list, a make is written without it.
        0 => LogCall::Make {
            profile: edge_or(rng, &EDGE_BYTES, 255),
            oldway: rng.pick(&[0, 0, 0, 1, 1, 1, 2, 256, u32::MAX]),
            levels: lists::good(rng),
            stamp,
        },
        1 => {
            let (probes, words) = random_words(rng);
            by_words(probes, words, stamp)
        }
        2 => {
            let (busy, probes) = random_count(rng);
            match rng.below(4) {
                0 => by_count(rng.next_u32(), rng.next_u32(), stamp),
                _ => by_count(busy, probes, stamp),
            }
        }
        3 => offer(any_offer(rng), stamp),
        _ => poll(stamp),
    }
}

fn any_offer(rng: &mut Rng) -> Offer {
    Offer {
        id: rng.next_u32(),
        priority: edge_or(rng, &EDGE_BYTES, 255),
        ontime: edge_or(rng, &EDGE_TWO_BYTES, 65_535),
        lifetime: edge_or(rng, &EDGE_LIFETIMES, u32::MAX),
    }
}

/// What a record carries of a call: of a sample by words its count, of a make all but its list, of any other all.
fn carried(call: &LogCall) -> LogCall {
    match call {
        LogCall::Make {
            profile,
            oldway,
            stamp,
            ..
        } => make(*profile, *oldway, *stamp),
        LogCall::On(Call::SampleWords {
            probes,
            words,
            stamp,
        }) => {
            let busy = words.iter().map(|word| word.count_ones()).sum();
            by_count(busy, *probes, *stamp)
        }
        other => other.clone(),
    }
}

/// Random calls at random places: beside the reference, and what was written reads back as the call.
#[test]
fn random_calls_there_and_back() {
    let mut rng = Rng::new(0x206b);
    let mut seen = [0; 13];
    for index in 0..400_000 {
        let call = any_call(&mut rng);
        let room = rng.below(80) as usize;
        let at = match rng.below(10) {
            0 => usize::MAX - rng.below(80) as usize,
            _ => rng.below(80) as usize,
        };
        let number = hold_write(&call, room, at, &format!("call {index}"));
        seen[number as usize] += 1;
        if number == 0 {
            let back = read(&Record::from_bytes(&written(&call)));
            assert_eq!(back, Ok(carried(&call)), "call {index}: {call:?}");
        }
    }
    for (number, &times) in seen.iter().enumerate() {
        let due = [0, 1, 4, 5, 6, 12].contains(&number);
        assert_eq!(times > 1_000, due, "{number} came {times} times");
        assert_eq!(times > 0, due, "{number} came {times} times");
    }
}

/// The records of a burst are those of the log: `Offer::record` gives what the archive writes, and where that refuses,
/// what it writes of the most that fits.
#[test]
fn a_bursts_records_are_those_of_the_log() {
    let mut rng = Rng::new(0x206c);
    let mut wide = 0;
    for index in 0..200_000 {
        let (offered, stamp) = (any_offer(&mut rng), rng.next_u32());
        let fitting = Offer {
            priority: offered.priority.min(255),
            ontime: offered.ontime.min(65_535),
            ..offered
        };
        let bytes = written(&offer(fitting, stamp));
        assert_eq!(offered.record(stamp), bytes, "offer {index}: {offered:?}");
        wide += u32::from(offered != fitting);
    }
    assert!(wide > 10_000, "{wide} did not fit");
}
