//! Measures recording a call beside the call across C, in one run: the calls alone, their records alone, and both as a
//! host does it, the record first. Calls with and without records must end in the same state.

#[path = "../places.rs"]
mod places;

use places::{median, rounds, Call, Run, PLACES};
use presscurlew::{sys, Offer, State};

const ROUNDS: usize = 13 * PLACES;
const CALLS: usize = 3000;

/// The kinds are the call log's, and two more: a sample by words, whose first number says which words, and one that is
/// made by the count in its record if it is recorded.
const WORDS: u32 = 4;
const COUNTED: u32 = 5;
const SAMPLES: usize = 64;
const PROBES: u32 = 1_000;

/// What the host records to: it is written round and round.
const LOG_BYTES: usize = 256 * sys::RECORD_BYTES;

/// Samples to choose from, made once.
type Samples = &'static [[u64; 16]; SAMPLES];

#[derive(Clone, Copy)]
struct Start {
    state: State,
    samples: Samples,
}

struct End {
    state: State,
    log: [u8; LOG_BYTES],
}

impl End {
    fn from(start: &Start) -> End {
        let (state, log) = (start.state, [0; LOG_BYTES]);
        End { state, log }
    }

    fn call(&mut self, start: &Start, call: &Call) {
        let &[kind, a, b, c, d, stamp] = call;
        let state = &mut self.state;
        let offer = Offer {
            id: a,
            priority: b,
            ontime: c,
            lifetime: d,
        };
        let _ = match kind {
            0 => sys::make(state, a, b, &sys::Levels::NONE, stamp),
            1 => sys::sample_count(state, a, PROBES, stamp),
            2 => sys::offer(state, offer, stamp),
            WORDS | COUNTED => sys::sample_words(state, PROBES, &start.samples[a as usize], stamp),
            _ => sys::poll(state, stamp),
        };
    }

    /// A sample by the busy count in the record of its words.
    fn sample_recorded(&mut self, stamp: u32, index: usize) {
        let at = index * sys::RECORD_BYTES % LOG_BYTES + 8;
        let bytes = self.log[at..at + 4].try_into().expect("4 bytes");
        let busy = u32::from_le_bytes(bytes);
        let _ = sys::sample_count(&mut self.state, busy, PROBES, stamp);
    }

    fn record(&mut self, start: &Start, call: &Call, index: usize) {
        let &[kind, a, priority, ontime, lifetime, stamp] = call;
        let (log, at) = (&mut self.log, index * sys::RECORD_BYTES % LOG_BYTES);
        let offer = Offer {
            id: a,
            priority,
            ontime,
            lifetime,
        };
        let number = match kind {
            0 => sys::write_make(a, priority, stamp, log, at),
            1 => sys::write_sample_count(a, PROBES, stamp, log, at),
            2 => sys::write_offer(offer, stamp, log, at),
            WORDS | COUNTED => {
                sys::write_sample_words(PROBES, &start.samples[a as usize], stamp, log, at)
            }
            _ => sys::write_poll(stamp, log, at),
        };
        assert_eq!(number, 0);
    }
}

fn calls(start: Start, row: &[Call]) -> End {
    let mut end = End::from(&start);
    for call in row {
        end.call(&start, call);
    }
    end
}

fn records(start: Start, row: &[Call]) -> End {
    let mut end = End::from(&start);
    for (index, call) in row.iter().enumerate() {
        end.record(&start, call, index);
    }
    end
}

fn recorded_calls(start: Start, row: &[Call]) -> End {
    let mut end = End::from(&start);
    for (index, call) in row.iter().enumerate() {
        end.record(&start, call, index);
        match *call {
            [COUNTED, .., stamp] => end.sample_recorded(stamp, index),
            _ => end.call(&start, call),
        }
    }
    end
}

/// A row of calls, and the µs from one to the next.
struct Mix {
    name: &'static str,
    call: fn(u32) -> [u32; 5],
    step: u32,
}

const MIXES: [Mix; 9] = [
    Mix {
        name: "make",
        call: |i| [0, 1 + i % 4, i % 2, 0, 0],
        step: 1_000,
    },
    Mix {
        name: "sample by words",
        call: |i| [WORDS, i % SAMPLES as u32, 0, 0, 0],
        step: 100_000,
    },
    Mix {
        name: ".. made by its count",
        call: |i| [COUNTED, i % SAMPLES as u32, 0, 0, 0],
        step: 100_000,
    },
    Mix {
        name: "sample by count",
        call: |i| [1, i * 7 % 1_001, 0, 0, 0],
        step: 100_000,
    },
    Mix {
        name: "offer",
        call: |i| offered(i, 1_000_000),
        step: 100_000,
    },
    Mix {
        name: "poll, nothing waits",
        call: |_| POLL,
        step: 100_000,
    },
    // An offer, then two polls: few wait.
    Mix {
        name: "few waiting",
        call: |i| {
            if i % 3 == 0 {
                offered(i, 1_000_000)
            } else {
                POLL
            }
        },
        step: 70_000,
    },
    // Two offers a poll, long lifetimes: all slots are full soon.
    Mix {
        name: "full",
        call: |i| {
            if i % 3 == 2 {
                POLL
            } else {
                offered(i, 60_000_000)
            }
        },
        step: 30_000,
    },
    Mix {
        name: "with samples",
        call: |i| match i % 3 {
            0 => offered(i, 1_000_000),
            1 => [WORDS, i % SAMPLES as u32, 0, 0, 0],
            _ => POLL,
        },
        step: 70_000,
    },
];

fn offered(i: u32, lifetime: u32) -> [u32; 5] {
    [2, i, i / 3 % 4, 400, lifetime]
}

const POLL: [u32; 5] = [3, 0, 0, 0, 0];

fn row(mix: &Mix) -> Vec<Call> {
    (0..CALLS as u32)
        .map(|i| {
            let [kind, a, b, c, d] = (mix.call)(i);
            [kind, a, b, c, d, (i + 1).wrapping_mul(mix.step)]
        })
        .collect()
}

/// Samples of any density.
fn samples() -> Samples {
    let mut samples = Box::new([[0; 16]; SAMPLES]);
    for (index, words) in samples.iter_mut().enumerate() {
        let busy = index * 1_000 / SAMPLES;
        for k in (0..1_000).filter(|k| k * 7_919 % 1_000 < busy) {
            words[k / 64] |= 1 << (k % 64);
        }
    }
    Box::leak(samples)
}

fn measure(mix: &Mix, profile: u32, samples: Samples) {
    let (row, name) = (row(mix), mix.name);
    let mut state = State::default();
    let made = sys::make(&mut state, profile, sys::DROP_OLDEST, &sys::Levels::NONE, 0);
    assert_eq!(made.kind, sys::READY);
    let sides: [Run<Start, End>; 3] = [calls, records, recorded_calls];
    let start = Start { state, samples };
    let [bare, log, both] = sides.map(|run| run(start, &row));
    assert!(bare.state == both.state, "{name}: the states differ");
    assert!(log.log == both.log, "{name}: the logs differ");
    let [call, record, both] = rounds(sides, start, &row, ROUNDS).map(median);
    let [alone, together] = [record / call, both / call - 1.0].map(|share| share * 100.0);
    println!("{name:<20}{profile:>7}{call:>10.1}{record:>10.1}{both:>10.1}{alone:>10.1} %{together:>10.1} %");
}

fn main() {
    println!("ns a call across C, median of {ROUNDS} rounds of {CALLS} calls each, in turn");
    println!("row                 profile      call    record      both record/call both - call");
    let samples = samples();
    for mix in &MIXES {
        for profile in [1, 3] {
            measure(mix, profile, samples);
        }
    }
}
