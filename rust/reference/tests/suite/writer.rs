//! W-206: calls written to a log, there and back.

use crate::help::{four_levels, fresh, made, words, words_of, Answer, Call, PROFILES};
use crate::runs::Caller;
use reference::gate;
use reference::lists;
use reference::log::{line, read, replay, LogCall, Record};
use reference::rng::Rng;
use reference::state::Levels;
use reference::writer::{record_of, write};

/// What a buffer holds before a call is written.
const UNTOUCHED: u8 = 0xA5;

fn make(profile: u32, oldway: u32, stamp: u32) -> LogCall {
    LogCall::Make {
        profile,
        oldway,
        levels: Levels::default(),
        stamp,
    }
}

fn by_words(probes: u32, words: &[u64], stamp: u32) -> LogCall {
    let words = words.to_vec();
    LogCall::On(Call::SampleWords {
        probes,
        words,
        stamp,
    })
}

fn by_count(busy: u32, probes: u32, stamp: u32) -> LogCall {
    LogCall::On(Call::SampleCount {
        busy,
        probes,
        stamp,
    })
}

fn offer(id: u32, priority: u32, ontime: u32, lifetime: u32, stamp: u32) -> LogCall {
    LogCall::On(Call::Offer {
        id,
        priority,
        ontime,
        lifetime,
        stamp,
    })
}

fn poll(stamp: u32) -> LogCall {
    LogCall::On(Call::Poll { stamp })
}

/// The 16 bytes of a call that must be written.
fn written(call: &LogCall) -> [u8; 16] {
    let mut bytes = [UNTOUCHED; 16];
    assert_eq!(write(call, &mut bytes, 0), 0, "{call:?}");
    bytes
}

/// A call that must be refused with the number, with and without room for it.
fn refused(call: &LogCall, number: u32) {
    assert_eq!(record_of(call), Err(number), "{call:?}");
    for (room, at) in [
        (0, 0),
        (15, 0),
        (16, 0),
        (40, 7),
        (40, 25),
        (40, usize::MAX),
    ] {
        let mut buffer = vec![UNTOUCHED; room];
        assert_eq!(write(call, &mut buffer, at), number, "{call:?}");
        assert_eq!(buffer, vec![UNTOUCHED; room], "{call:?}");
    }
}

/// The bytes of each kind, by hand: ignored fields are zero.
#[test]
fn the_bytes_of_each_call() {
    let cases = [
        (
            make(2, 0, 0x0403_0201),
            [0, 2, 0, 0, 0, 0, 0, 0, 0, 0, 0, 0, 1, 2, 3, 4],
        ),
        (
            make(3, 1, 0x0403_0201),
            [0, 3, 0, 0, 1, 0, 0, 0, 0, 0, 0, 0, 1, 2, 3, 4],
        ),
        (
            by_count(0x1413_1211, 1_000, 0x0403_0201),
            [1, 0, 0, 0, 0, 0, 0, 0, 17, 18, 19, 20, 1, 2, 3, 4],
        ),
        (
            by_count(0x1413_1211, 0x0A09_0807, 0x0403_0201),
            [1, 0, 0, 0, 7, 8, 9, 10, 17, 18, 19, 20, 1, 2, 3, 4],
        ),
        (
            by_words(1_000, &words(515), 0x0403_0201),
            [1, 0, 0, 0, 0, 0, 0, 0, 3, 2, 0, 0, 1, 2, 3, 4],
        ),
        (
            by_words(12_500, &words_of(515, 12_500), 0x0403_0201),
            [1, 0, 0, 0, 0xD4, 0x30, 0, 0, 3, 2, 0, 0, 1, 2, 3, 4],
        ),
        (
            offer(0x1413_1211, 3, 0x0605, 0x0A09_0807, 0x0403_0201),
            [2, 3, 5, 6, 7, 8, 9, 10, 17, 18, 19, 20, 1, 2, 3, 4],
        ),
        (
            poll(0x0403_0201),
            [3, 0, 0, 0, 0, 0, 0, 0, 0, 0, 0, 0, 1, 2, 3, 4],
        ),
    ];
    for (call, bytes) in cases {
        assert_eq!(written(&call), bytes, "{call:?}");
    }
}

/// Numbers that the gate refuses are written: they fit.
#[test]
fn width_is_judged_and_not_worth() {
    for (call, at, byte) in [
        (make(77, 0, 0), 1, 77),
        (make(0, 1, 0), 1, 0),
        (make(255, 1, 0), 1, 255),
        (by_count(5_000, 1_000, 0), 9, 19),
        (by_count(u32::MAX, 1_000, 0), 11, 255),
        (by_count(0, 12_501, 0), 4, 0xD5),
        (by_count(2, 1, 0), 4, 1),
        (by_count(0, u32::MAX, 0), 7, 255),
        (offer(0, 200, 0, 0, 0), 1, 200),
        (offer(0, 255, 65_535, u32::MAX, 0), 3, 255),
        (offer(0, 0, 0, u32::MAX, 0), 7, 255),
    ] {
        assert_eq!(written(&call)[at], byte, "{call:?}");
    }
}

#[test]
fn what_is_too_wide_is_refused_with_its_own_number() {
    for profile in [256, 257, 65_536, u32::MAX] {
        refused(&make(profile, 0, 7), 1);
    }
    for oldway in [2, 255, 256, 1 << 31, u32::MAX] {
        refused(&make(1, oldway, 7), 1);
        refused(&make(256, oldway, 7), 1);
    }
    for wide in [256, 65_536, u32::MAX] {
        refused(&offer(1, wide, 1, 1, 7), 5);
        // The lowest number first.
        refused(&offer(1, wide, 65_536, 1, 7), 5);
    }
    for wide in [65_536, 65_537, u32::MAX] {
        refused(&offer(1, 255, wide, 1, 7), 6);
    }
}

/// W-213: a log can't carry a list, so profile 5 has no record, whatever its
/// list; another profile's make is written without it.
#[test]
fn profile_5_has_no_record_and_no_make_writes_its_list() {
    for levels in [four_levels(), Levels::default()] {
        let with = |profile| LogCall::Make {
            profile,
            oldway: 1,
            levels,
            stamp: 7,
        };
        refused(&with(5), 1);
        for profile in [0, 1, 2, 3, 4, 6, 77, 255] {
            let bare = make(profile, 1, 7);
            assert_eq!(written(&with(profile)), written(&bare));
            assert_eq!(read_back(&with(profile)), bare);
        }
        refused(&with(256), 1);
    }
}

#[test]
fn a_bad_sample_by_words_is_refused_with_4() {
    let good = words(400);
    refused(&by_words(1_000, &good[..15], 7), 4);
    refused(&by_words(1_000, &[], 7), 4);
    let mut longer = good.clone();
    longer.push(0);
    refused(&by_words(1_000, &longer, 7), 4);
    for bit in 40..64 {
        let mut bent = good.clone();
        bent[15] |= 1 << bit;
        refused(&by_words(1_000, &bent, 7), 4);
    }
    let mut last = good;
    last[15] |= 1 << 39;
    let same = by_count(401, 1_000, 7);
    assert_eq!(read_back(&by_words(1_000, &last, 7)), same);
    refused(&by_words(65, &[0, 2], 7), 4);
    refused(&by_words(64, &[0, 0], 7), 4);
    refused(&by_words(12_501, &[0; 196], 7), 4);
    let same = by_count(65, 65, 7);
    assert_eq!(read_back(&by_words(65, &[u64::MAX, 1], 7)), same);
}

/// W-208: the record's 0 means 1,000, so that no probes at all have no record;
/// one that says 1,000 reads alike, and is not what is written.
#[test]
fn a_thousand_probes_are_written_as_0_and_0_is_refused() {
    for busy in [0, 1, 1_000, u32::MAX] {
        refused(&by_count(busy, 0, 7), 4);
    }
    for length in [0, 1, 16] {
        refused(&by_words(0, &vec![0; length], 7), 4);
    }
    let bytes = written(&by_count(620, 1_000, 7));
    assert_eq!(bytes[4..8], [0; 4]);
    let mut says = bytes;
    says[4..8].copy_from_slice(&1_000u32.to_le_bytes());
    let read = read(&Record::from_bytes(&says)).unwrap();
    assert_eq!(read, by_count(620, 1_000, 7));
    assert_eq!(written(&read), bytes);
}

/// The call of what was written.
fn read_back(call: &LogCall) -> LogCall {
    read(&Record::from_bytes(&written(call))).unwrap()
}

/// A call with any numbers, many of them at edges; some do not fit.
fn any_call(rng: &mut Rng) -> LogCall {
    let stamp = rng.next_u32();
    match rng.below(5) {
        0 => {
            let profile = rng.pick(&[0, 1, 2, 3, 4, 5, 6, 254, 255, 256, u32::MAX]);
            let oldway = rng.pick(&[0, 0, 1, 1, 2, u32::MAX]);
            let list = lists::good(rng);
            let levels = rng.pick(&[Levels::default(), list]);
            LogCall::Make {
                profile,
                oldway,
                levels,
                stamp,
            }
        }
        1 => {
            let any = 1 + rng.below(12_500) as u32;
            let probes = rng.pick(&[0, 1, 64, 65, 1_000, 12_500, 12_501, any]);
            let mut words = words_of(0, probes);
            words.iter_mut().for_each(|word| *word = rng.next_u64());
            if let (Some(last), 1..) = (words.last_mut(), probes % 64) {
                *last &= (1 << (probes % 64)) - 1;
            }
            match rng.below(8) {
                0 => words.truncate(rng.below(16) as usize),
                1 => words.push(0),
                2 if probes % 64 > 0 => words[probes as usize / 64] |= 1 << 63,
                _ => {}
            }
            by_words(probes, &words, stamp)
        }
        2 => {
            let any = rng.next_u32();
            let busy = rng.pick(&[0, 1, 1_000, 1_001, 65_536, any, u32::MAX]);
            let probes = rng.pick(&[0, 1, 1_000, 12_500, 12_501, any, u32::MAX]);
            by_count(busy, probes, stamp)
        }
        3 => {
            let id = rng.next_u32();
            let priority = rng.pick(&[0, 1, 2, 3, 4, 255, 256, u32::MAX]);
            let ontime = rng.pick(&[0, 1, 255, 256, 4_000, 65_535, 65_536, u32::MAX]);
            offer(id, priority, ontime, rng.next_u32(), stamp)
        }
        _ => poll(stamp),
    }
}

/// Whether each number of a call fits its field, told anew.
fn fits(call: &LogCall) -> bool {
    match call {
        LogCall::Make {
            profile, oldway, ..
        } => *profile < 256 && *profile != 5 && *oldway < 2,
        LogCall::On(Call::SampleWords { probes, words, .. }) => {
            let enough = words.len() == probes.div_ceil(64) as usize;
            let rest = probes % 64;
            let clean = rest == 0 || words.last().is_some_and(|last| last >> rest == 0);
            (1..=12_500).contains(probes) && enough && clean
        }
        LogCall::On(Call::SampleCount { probes, .. }) => *probes > 0,
        LogCall::On(Call::Offer {
            priority, ontime, ..
        }) => *priority < 256 && *ontime < 65_536,
        LogCall::On(_) => true,
    }
}

/// Reading what was written gives back the call, a sample by words as one by
/// its count, and a make with an empty list.
#[test]
fn calls_go_there_and_back() {
    let mut rng = Rng::new(206);
    let mut refusals = 0;
    for _ in 0..50_000 {
        let call = any_call(&mut rng);
        if !fits(&call) {
            assert!(record_of(&call).is_err(), "{call:?}");
            refusals += 1;
            continue;
        }
        let same = match &call {
            LogCall::On(Call::SampleWords {
                probes,
                words,
                stamp,
            }) => {
                let busy = words.iter().map(|word| word.count_ones()).sum();
                by_count(busy, *probes, *stamp)
            }
            LogCall::Make {
                profile,
                oldway,
                stamp,
                ..
            } => make(*profile, *oldway, *stamp),
            other => other.clone(),
        };
        assert_eq!(read_back(&call), same, "{call:?}");
    }
    assert!(refusals > 5_000);
}

/// Whether a record of kind 0 to 3 has zeros in what its kind ignores, 0 or 1
/// as a make's lifetime and no 5 as its profile, and not 1,000 as a sample's
/// lifetime.
fn goes_back(bytes: &[u8; 16]) -> bool {
    let zero = |from: usize, to: usize| bytes[from..to].iter().all(|byte| *byte == 0);
    match bytes[0] {
        0 => bytes[1] != 5 && zero(2, 4) && bytes[4] < 2 && zero(5, 8) && zero(8, 12),
        1 => zero(1, 4) && bytes[4..8] != 1_000u32.to_le_bytes(),
        2 => true,
        _ => zero(1, 12),
    }
}

/// Such records read and write back to the same bytes, and no others do.
#[test]
fn records_go_there_and_back() {
    let mut rng = Rng::new(207);
    let (mut same, mut others) = (0, 0);
    for _ in 0..100_000 {
        let mut bytes = [0u8; 16];
        bytes[..8].copy_from_slice(&rng.next_u64().to_le_bytes());
        bytes[8..].copy_from_slice(&rng.next_u64().to_le_bytes());
        bytes[0] = rng.below(4) as u8;
        for byte in &mut bytes[1..12] {
            if rng.below(8) > 0 {
                *byte = u8::from(rng.one_in(30));
            }
        }
        if rng.one_in(20) {
            bytes[4..8].copy_from_slice(&1_000u32.to_le_bytes());
        }
        if rng.one_in(20) {
            bytes[1] = rng.pick(&[4, 5, 6]);
        }
        let back = record_of(&read(&Record::from_bytes(&bytes)).unwrap());
        let back = back.map(|record| record.to_bytes());
        assert_eq!(back == Ok(bytes), goes_back(&bytes), "{bytes:?}");
        if goes_back(&bytes) {
            same += 1;
        } else {
            others += 1;
        }
    }
    assert!(same > 20_000 && others > 20_000, "{same}, {others}");
}

/// Each field that a kind ignores, each byte of it alone.
#[test]
fn one_byte_that_is_ignored_does_not_come_back() {
    for (call, ignored) in [
        (make(1, 0, 9), vec![2, 3, 8, 9, 10, 11]),
        (make(1, 1, 9), vec![2, 3, 5, 6, 7, 8, 9, 10, 11]),
        (by_count(400, 1_000, 9), vec![1, 2, 3]),
        (by_count(400, 12_500, 9), vec![1, 2, 3]),
        (poll(9), (1..12).collect()),
    ] {
        let bytes = written(&call);
        for at in ignored {
            let mut bent = bytes;
            bent[at] = 4;
            let read = read(&Record::from_bytes(&bent)).unwrap();
            match record_of(&read) {
                Ok(record) => assert_eq!(record.to_bytes(), bytes, "{call:?}, byte {at}"),
                Err(number) => assert_eq!((bytes[0], number), (0, 1), "{call:?}, byte {at}"),
            }
        }
    }
}

#[test]
fn kinds_above_3_are_no_calls() {
    for kind in 4..=255 {
        let odd = Record {
            kind,
            ..Record::default()
        };
        assert_eq!(read(&odd), Err(10));
    }
}

/// Every place of small buffers, and places near the end of all numbers.
#[test]
fn a_place_without_16_bytes_is_refused_with_12() {
    let call = offer(7, 1, 400, 1_000_000, 9);
    let bytes = written(&call);
    for room in 0..60usize {
        let mut places: Vec<usize> = (0..=room + 20).collect();
        let far = [0, 1, 14, 15, 16, 17, 40, 59].map(|less| usize::MAX - less);
        places.extend(far);
        places.extend([usize::MAX / 2, usize::MAX / 2 + 1, 1 << 32]);
        for at in places {
            let mut buffer: Vec<u8> = (0..room).map(|at| at as u8 ^ UNTOUCHED).collect();
            let mut expected = buffer.clone();
            let fits = room >= 16 && at <= room - 16;
            if fits {
                expected[at..at + 16].copy_from_slice(&bytes);
            }
            let number = if fits { 0 } else { 12 };
            assert_eq!(write(&call, &mut buffer, at), number, "{room}, {at}");
            assert_eq!(buffer, expected, "{room}, {at}");
        }
    }
}

/// Words with so many busy probes, anywhere.
fn scattered(rng: &mut Rng, busy: u32, probes: u32) -> Vec<u64> {
    let mut words = words_of(0, probes);
    let mut left = busy;
    while left > 0 {
        let k = rng.below(u64::from(probes)) as usize;
        let bit = 1 << (k % 64);
        if words[k / 64] & bit == 0 {
            words[k / 64] |= bit;
            left -= 1;
        }
    }
    words
}

/// Two good samples with the same count, probe count and stamp share a record;
/// from the same state, with the same calls after, the answers are the same.
#[test]
fn samples_of_one_record_are_alike() {
    for profile in PROFILES {
        let seed = 260 + u64::from(profile);
        let (mut rng, mut caller) = (Rng::new(seed), Caller::new(profile, seed));
        let mut state = fresh(profile);
        for _ in 0..60 {
            for _ in 0..rng.below(10) {
                state = gate::call(state, &caller.call(state.stamp)).0;
            }
            let any = 1 + rng.below(12_500) as u32;
            let (probes, stamp) = (rng.pick(&[1_000, 12_500, any]), state.stamp);
            let busy = rng.below(u64::from(probes) + 1) as u32;
            let [one, other] = [0; 2].map(|_| scattered(&mut rng, busy, probes));
            let [one, other] = [one, other].map(|words| by_words(probes, &words, stamp));
            assert_eq!(written(&one), written(&other), "seed {seed}");
            let counted = by_count(busy, probes, stamp);
            let mut states = [one, other, counted].map(|sample| match sample {
                LogCall::On(call) => gate::call(state, &call),
                LogCall::Make { .. } => panic!("a sample is no make"),
            });
            for _ in 0..40 {
                let [(first, answer), rest @ ..] = states;
                assert!(
                    rest.iter().all(|same| *same == (first, answer)),
                    "seed {seed}"
                );
                let call = caller.call(first.stamp);
                states = states.map(|(state, _)| gate::call(state, &call));
            }
        }
    }
}

/// A run that records its own calls; its log, played, gives its own answers.
#[test]
fn a_recorded_run_plays_back() {
    for profile in [1, 2, 3, 4] {
        for oldway in [0, 1] {
            let seed = 270 + u64::from(profile);
            let mut caller = Caller::new(profile, seed);
            let (mut state, answer) = made(profile, oldway, 99);
            let mut log = written(&make(profile, oldway, 99)).to_vec();
            let mut lines = line(&answer) + "\n";
            for _ in 0..5_000 {
                let call = caller.call(state.stamp);
                let (next, answer) = gate::call(state, &call);
                state = next;
                let mut bytes = [UNTOUCHED; 16];
                if write(&LogCall::On(call), &mut bytes, 0) == 0 {
                    log.extend(bytes);
                    lines += &(line(&answer) + "\n");
                } else {
                    // What has no record was refused, and changed nothing.
                    assert!(matches!(answer, Answer::Refused(_)));
                }
            }
            let mut played = Vec::new();
            replay(&log[..], &mut played).unwrap();
            assert_eq!(String::from_utf8(played).unwrap(), lines + "END\n");
        }
    }
}
