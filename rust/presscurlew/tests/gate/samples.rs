//! The load of a sample. Profile 3 keeps that of a first sample, so it can be read from the state. Here probes are counted
//! one by one, and the load is worked out apart from the reference.

use crate::help::{archive, first_busy, hold, Call, Turn, EDGE_PROBES};
use presscurlew::sys;
use reference::rng::Rng;
use reference::state::State;

const MOST: u32 = 12_500;

/// Probe counts of one word, of whole words, of the old sample and of the most words.
const SOME_PROBES: [u32; 9] = [1, 3, 63, 64, 65, 1_000, 1_024, 12_480, MOST];

fn fresh() -> presscurlew::State {
    let mut state = presscurlew::State::default();
    let made = sys::make(&mut state, 3, sys::DROP_OLDEST, &sys::Levels::NONE, 0);
    assert_eq!(made.kind, sys::READY);
    state
}

/// Probe k is bit k mod 64 of word k / 64.
fn count(probes: u32, words: &[u64]) -> u32 {
    let busy = |k: &usize| words[k / 64] >> (k % 64) & 1 == 1;
    (0..probes as usize).filter(busy).count() as u32
}

/// What a first sample of this load leaves.
fn kept(load: u64) -> presscurlew::State {
    let mut state = fresh();
    state.pairing = 1;
    state.kept = load as u32;
    state
}

/// A first sample by count.
fn counted(busy: u32, probes: u32) -> Turn {
    let stamp = 0;
    let call = Call::SampleCount {
        busy,
        probes,
        stamp,
    };
    archive(fresh(), &call)
}

/// Holds a sample by count to the load that is due.
fn hold_load(busy: u32, probes: u32) {
    let load = 1_000_000 * u64::from(busy) / u64::from(probes);
    let turn = counted(busy, probes);
    let given = (turn.state, turn.reply.kind);
    assert_eq!(given, (kept(load), sys::TAKEN), "{busy} of {probes}");
}

/// Holds a sample by words to the one by its count, and that to the load.
fn hold_words(probes: u32, words: &[u64], origin: &str) {
    let busy = count(probes, words);
    hold_load(busy, probes);
    let turn = archive(fresh(), &by_words(probes, words.to_vec()));
    let due = counted(busy, probes);
    assert_eq!(turn, due, "{origin}, {probes} probes: {words:x?}");
}

fn by_words(probes: u32, words: Vec<u64>) -> Call {
    let stamp = 0;
    Call::SampleWords {
        probes,
        words,
        stamp,
    }
}

/// Holds a sample to the refusal 4, beside the reference, with the state as it was.
fn hold_refused(call: &Call, origin: &str) {
    let state = State::fresh(3, sys::DROP_OLDEST, 0);
    let (_, answer) = hold(&state, call, &origin);
    assert_eq!(answer, crate::help::Answer::Refused(4), "{origin}");
}

/// Document 02, W-208: loads by hand. Of 1,000 probes each is 1,000, and a load is rounded down.
#[test]
fn loads_by_hand() {
    for (busy, probes, load) in [
        (0, 1, 0),
        (1, 1, 1_000_000),
        (1, 3, 333_333),
        (2, 3, 666_666),
        (63, 64, 984_375),
        (64, 64, 1_000_000),
        (64, 65, 984_615),
        (620, 1_000, 620_000),
        (1, 12_500, 80),
        (7_750, 12_500, 620_000),
        (7_751, 12_500, 620_080),
        (12_499, 12_500, 999_920),
        (12_500, 12_500, 1_000_000),
    ] {
        for turn in [
            counted(busy, probes),
            archive(fresh(), &by_words(probes, first_busy(probes, busy))),
        ] {
            assert_eq!(turn.state, kept(load), "{busy} of {probes}");
        }
    }
}

/// Every probe count: words of every length around just enough, none busy and all, each beside the reference.
#[test]
fn words_around_just_enough() {
    let state = State::fresh(3, sys::DROP_OLDEST, 0);
    for probes in 1..=MOST {
        let enough = probes.div_ceil(64) as usize;
        for length in [0].into_iter().chain(enough.saturating_sub(3)..=enough + 3) {
            if length == enough {
                continue;
            }
            hold_refused(&by_words(probes, vec![0; length]), "a wrong length");
            // The words that there are have no stray bit.
            let mut busy = first_busy(probes, probes);
            busy.resize(length, 0);
            hold_refused(&by_words(probes, busy), "a wrong length, all busy");
        }
        for busy in [0, 1, probes] {
            let words = first_busy(probes, busy);
            hold_words(probes, &words, "the first");
            hold(&state, &by_words(probes, words), &"the first");
        }
    }
}

/// Every probe count: each bit of the last word, a probe or not.
#[test]
fn each_bit_of_the_last_word() {
    for probes in 1..=MOST {
        let (enough, used) = (probes.div_ceil(64) as usize, (probes - 1) % 64 + 1);
        for bit in 0..64 {
            let mut words = vec![0; enough];
            words[enough - 1] |= 1 << bit;
            if bit < used {
                let turn = archive(fresh(), &by_words(probes, words));
                let load = 1_000_000 / u64::from(probes);
                assert_eq!(turn.state, kept(load), "bit {bit} of {probes} probes");
                continue;
            }
            hold_refused(&by_words(probes, words), "a stray bit");
            let mut words = first_busy(probes, probes);
            words[enough - 1] |= 1 << bit;
            hold_refused(&by_words(probes, words), "a stray bit, all busy");
        }
    }
}

/// Every probe count: busy 0, 1, in the middle, probes and above.
#[test]
fn counts_of_every_probe_count() {
    let state = State::fresh(3, sys::DROP_OLDEST, 0);
    for probes in 1..=MOST {
        for busy in [0, 1, probes / 2, probes - 1, probes] {
            hold_load(busy, probes);
        }
        for busy in [0, 1, probes, probes + 1, probes + (1 << 16), u32::MAX] {
            let stamp = 0;
            let call = Call::SampleCount {
                busy,
                probes,
                stamp,
            };
            let (_, answer) = hold(&state, &call, &"by count");
            let refused = answer == crate::help::Answer::Refused(4);
            assert_eq!(refused, busy > probes, "{busy} of {probes}");
        }
    }
}

/// Every busy count of some probe counts.
#[test]
fn every_count() {
    for probes in SOME_PROBES.into_iter().chain([7, 999, 12_499]) {
        (0..=probes).for_each(|busy| hold_load(busy, probes));
    }
}

/// No probes, too many, and numbers that are good modulo 2^16 or make no words modulo 2^32: with any number of words, and
/// by any count.
#[test]
fn probe_counts_outside() {
    let far = [16, 24, 31].map(|shift| (1 << shift) + 1_000);
    let wrapping = [62, 63, 64].map(|less| u32::MAX - less);
    let edges = EDGE_PROBES.into_iter().filter(|&probes| probes > MOST);
    let above = (MOST + 1..MOST + 200).chain(edges);
    for probes in [0].into_iter().chain(above).chain(far).chain(wrapping) {
        for length in (0..40).chain(190..210) {
            hold_refused(&by_words(probes, vec![0; length]), "probes outside");
        }
        for busy in [0, 1, 1_000, MOST, probes] {
            let stamp = 0;
            let call = Call::SampleCount {
                busy,
                probes,
                stamp,
            };
            hold_refused(&call, "probes outside");
        }
    }
}

#[test]
fn each_probe_alone_and_each_probe_missing() {
    for probes in SOME_PROBES {
        for k in 0..probes as usize {
            let mut one = first_busy(probes, 0);
            one[k / 64] |= 1 << (k % 64);
            hold_words(probes, &one, "one probe");
            let mut others = first_busy(probes, probes);
            others[k / 64] &= !(1 << (k % 64));
            hold_words(probes, &others, "all but one");
        }
    }
}

#[test]
fn the_first_probes_and_the_last() {
    for probes in SOME_PROBES {
        let all = first_busy(probes, probes);
        for busy in 0..=probes {
            let first = first_busy(probes, busy);
            hold_words(probes, &first, "the first");
            let last: Vec<u64> = all.iter().zip(first).map(|(a, b)| a ^ b).collect();
            hold_words(probes, &last, "the last");
        }
    }
}

#[test]
fn random_words_are_counted() {
    let mut rng = Rng::new(0xb175);
    for _ in 0..50_000 {
        let mask = match rng.below(3) {
            0 => 0xffff,
            1 => rng.next_u64(),
            _ => u64::MAX,
        };
        let probes = match rng.below(3) {
            0 => rng.pick(&SOME_PROBES),
            1 => 1 + rng.below(200) as u32,
            _ => 1 + rng.below(u64::from(MOST)) as u32,
        };
        let all = first_busy(probes, probes);
        let words = all.iter().map(|used| used & rng.next_u64() & mask);
        let words: Vec<u64> = words.collect();
        hold_words(probes, &words, "random");
    }
}
