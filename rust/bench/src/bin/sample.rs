//! Measures a sample by words, of as many probes as there may be, of 1,000 and of 64, beside plain Rust doing the same in
//! place with the same test of soundness: the C call, the record of the call, and what the words cost, which is the call by
//! words less the call by count. The sides take turns in one run; calls must end in the same state, and records must be
//! the same.

#[path = "../places.rs"]
mod places;
#[path = "../plain.rs"]
#[allow(dead_code)]
mod plain;

use places::{median, rounds, Run, PLACES};
use plain::{busy_of, tested};
use presscurlew::{sys, State};

const ROUNDS: usize = 13 * PLACES;
const CALLS: usize = 1_000;
const SAMPLES: usize = 64;
const PROBES: [u32; 3] = [12_500, 1_000, 64];

/// A call: which sample it makes, and its stamp.
type Call = [u32; 2];

/// Samples to choose from, their words one behind the other, with the probes that each has and, for the calls by count,
/// how many are busy.
struct Samples {
    probes: u32,
    words: Vec<u64>,
    busy: Vec<u32>,
}

impl Samples {
    fn words_of(&self, which: u32) -> &[u64] {
        let size = self.probes.div_ceil(64) as usize;
        &self.words[which as usize * size..][..size]
    }
}

/// The state that a row starts from.
#[derive(Clone, Copy)]
struct Start {
    state: State,
    samples: &'static Samples,
}

/// What a row ends in: the state, and the last record.
#[derive(Debug, Default, PartialEq, Eq)]
struct End {
    state: State,
    record: [u8; sys::RECORD_BYTES],
}

impl End {
    fn of_state(state: State) -> End {
        End {
            state,
            ..End::default()
        }
    }

    fn of_record(record: [u8; sys::RECORD_BYTES]) -> End {
        End {
            record,
            ..End::default()
        }
    }
}

fn archive_by_words(start: Start, row: &[Call]) -> End {
    let (mut state, samples) = (start.state, start.samples);
    for &[which, stamp] in row {
        let words = samples.words_of(which);
        let _ = sys::sample_words(&mut state, samples.probes, words, stamp);
    }
    End::of_state(state)
}

fn plain_by_words(start: Start, row: &[Call]) -> End {
    let (mut state, samples) = (start.state, start.samples);
    for &[which, stamp] in row {
        let words = samples.words_of(which);
        tested::sample_words(&mut state, samples.probes, words, stamp);
    }
    End::of_state(state)
}

fn archive_by_count(start: Start, row: &[Call]) -> End {
    let (mut state, samples) = (start.state, start.samples);
    for &[which, stamp] in row {
        let busy = samples.busy[which as usize];
        let _ = sys::sample_count(&mut state, busy, samples.probes, stamp);
    }
    End::of_state(state)
}

fn plain_by_count(start: Start, row: &[Call]) -> End {
    let (mut state, samples) = (start.state, start.samples);
    for &[which, stamp] in row {
        let busy = samples.busy[which as usize];
        tested::sample(&mut state, busy, samples.probes, stamp);
    }
    End::of_state(state)
}

fn archive_record(start: Start, row: &[Call]) -> End {
    let (mut record, samples) = ([0; sys::RECORD_BYTES], start.samples);
    for &[which, stamp] in row {
        let words = samples.words_of(which);
        let _ = sys::write_sample_words(samples.probes, words, stamp, &mut record, 0);
    }
    End::of_record(record)
}

fn plain_record(start: Start, row: &[Call]) -> End {
    let (mut record, samples) = ([0; sys::RECORD_BYTES], start.samples);
    for &[which, stamp] in row {
        let words = samples.words_of(which);
        write_plain(samples.probes, words, stamp, &mut record, 0);
    }
    End::of_record(record)
}

/// The record of a sample by words in plain Rust, at a place of a log.
#[inline(never)]
fn write_plain(probes: u32, words: &[u64], stamp: u32, log: &mut [u8], at: usize) -> u32 {
    let Some(busy) = busy_of(probes, words) else {
        return 4;
    };
    let end = at.checked_add(sys::RECORD_BYTES);
    let Some(place) = end.and_then(|end| log.get_mut(at..end)) else {
        return 12;
    };
    let told = if probes == 1_000 { 0 } else { probes };
    place.fill(0);
    place[0] = 1;
    place[4..8].copy_from_slice(&told.to_le_bytes());
    place[8..12].copy_from_slice(&busy.to_le_bytes());
    place[12..].copy_from_slice(&stamp.to_le_bytes());
    0
}

/// Samples of any density.
fn samples(probes: u32) -> &'static Samples {
    let sample = |index: usize| {
        let busy = index as u32 * probes / SAMPLES as u32;
        let mut words = vec![0; probes.div_ceil(64) as usize];
        for k in (0..probes).filter(|k| k * 7_919 % probes < busy) {
            words[k as usize / 64] |= 1 << (k % 64);
        }
        words
    };
    let each: Vec<Vec<u64>> = (0..SAMPLES).map(sample).collect();
    let busy = each.iter().map(|words| busy_of(probes, words));
    let busy = busy.map(|busy| busy.expect("a sample")).collect();
    Box::leak(Box::new(Samples {
        probes,
        words: each.concat(),
        busy,
    }))
}

/// The µs from one sample to the next.
const STEP: u32 = 100_000;

const SIDES: [Run<Start, End, Call>; 6] = [
    archive_by_words,
    plain_by_words,
    archive_by_count,
    plain_by_count,
    archive_record,
    plain_record,
];

fn start(profile: u32, samples: &'static Samples) -> Start {
    let mut state = State::default();
    let made = sys::make(&mut state, profile, sys::DROP_OLDEST, &sys::Levels::NONE, 0);
    assert_eq!(made.kind, sys::READY);
    Start { state, samples }
}

fn row() -> Vec<Call> {
    let calls = (0..CALLS as u32).map(|i| [i % SAMPLES as u32, (i + 1) * STEP]);
    calls.collect()
}

/// A comparison of speed means something only between runs that end alike.
fn ends_alike(start: Start, row: &[Call]) {
    let ends = SIDES.map(|run| run(start, row));
    let states = ends[..4].iter();
    assert!(
        states.into_iter().all(|end| *end == ends[0]),
        "the states differ"
    );
    assert_eq!(ends[4], ends[5], "the records differ");
}

fn measure(profile: u32, samples: &'static Samples) {
    let (start, row) = (start(profile, samples), row());
    ends_alike(start, &row);
    let [words, plain, count, plain_count, record, plain_record] =
        rounds(SIDES, start, &row, ROUNDS).map(median);
    let line = |name: &str, ours: f64, theirs: f64| {
        let probes = samples.probes;
        println!(
            "{name:<18}{probes:>7}{profile:>9}{ours:>10.1}{theirs:>12.1}{:>8.2}",
            ours / theirs
        );
    };
    line("sample by words", words, plain);
    line("sample by count", count, plain_count);
    line("words less count", words - count, plain - plain_count);
    line("record of words", record, plain_record);
}

fn main() {
    println!("ns a call across C, median of {ROUNDS} rounds of {CALLS} calls each, in turn");
    println!("call               probes  profile    Rattle  plain Rust   ratio");
    for probes in PROBES {
        let samples = samples(probes);
        for profile in [1, 3] {
            measure(profile, samples);
        }
    }
}

#[cfg(test)]
mod tests {
    use super::*;

    #[test]
    fn sides_end_alike() {
        for probes in PROBES {
            (1..=3).for_each(|profile| ends_alike(start(profile, samples(probes)), &row()));
        }
    }
}
