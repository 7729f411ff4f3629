//! Measures a burst of 20 offers across C beside 20 single offers across C, in one run. Both start from the same state,
//! and must give the same answers and end in the same state.

#[path = "../places.rs"]
mod places;

use places::{median, rounds, Call, Run, PLACES};
use presscurlew::{sys, Offer, State};

const ROUNDS: usize = 13 * PLACES;
/// Offers in a burst.
const BURST: usize = 20;
const BURSTS: usize = 150;

/// What a side ends with.
struct End {
    state: State,
    /// All answers, in their order, as one number.
    answers: u64,
}

impl End {
    fn at(state: State) -> End {
        End { state, answers: 0 }
    }

    fn note(&mut self, answer: u64) {
        self.answers = self.answers.wrapping_mul(31).wrapping_add(answer + 1);
    }
}

/// One C call an offer.
fn singles(start: State, row: &[Call]) -> End {
    let mut end = End::at(start);
    for &[_, id, priority, ontime, lifetime, stamp] in row {
        let offer = Offer {
            id,
            priority,
            ontime,
            lifetime,
        };
        let reply = sys::offer(&mut end.state, offer, stamp);
        end.note(reply.number); // 0 for TAKEN
    }
    end
}

/// One C call for 20 offers. That the host writes the records is in the time.
fn bursts(start: State, row: &[Call]) -> End {
    let mut end = End::at(start);
    for calls in row.chunks_exact(BURST) {
        let mut records = [[0; sys::RECORD_BYTES]; BURST];
        for (record, &[_, id, priority, ontime, lifetime, stamp]) in records.iter_mut().zip(calls) {
            let offer = Offer {
                id,
                priority,
                ontime,
                lifetime,
            };
            *record = offer.record(stamp);
        }
        let mut answers = [0; BURST];
        let number = sys::burst(&mut end.state, records.as_flattened(), &mut answers);
        assert_eq!(number, 0);
        answers.iter().for_each(|&answer| end.note(answer.into()));
    }
    end
}

/// A mix of bursts: the µs from one to the next, the lifetime of their packets, and how the gate is made.
struct Mix {
    name: &'static str,
    step: u32,
    lifetime: u32,
    when_full: u32,
}

const MIXES: [Mix; 4] = [
    // The packets of a burst have expired when the next one comes.
    Mix {
        name: "all taken",
        step: 100_000,
        lifetime: 50_000,
        when_full: sys::DROP_OLDEST,
    },
    // So have those of every other burst.
    Mix {
        name: "half taken",
        step: 60_000,
        lifetime: 100_000,
        when_full: sys::REFUSE_NEW,
    },
    // The first burst fills all 20 slots, and nothing expires: each offer after it displaces one, or is refused.
    Mix {
        name: "full, dropping",
        step: 10,
        lifetime: 60_000_000,
        when_full: sys::DROP_OLDEST,
    },
    Mix {
        name: "full, refusing",
        step: 10,
        lifetime: 60_000_000,
        when_full: sys::REFUSE_NEW,
    },
];

fn row(mix: &Mix) -> Vec<Call> {
    let call = |i: u32| {
        let stamp = (i / BURST as u32 + 1) * mix.step;
        [2, i, i % 4, 400, mix.lifetime, stamp]
    };
    (0..(BURST * BURSTS) as u32).map(call).collect()
}

const SIDES: [Run<State, End>; 2] = [singles, bursts];

fn measure(mix: &Mix, profile: u32) {
    let (row, name) = (row(mix), mix.name);
    let mut start = State::default();
    let made = sys::make(&mut start, profile, mix.when_full, &sys::Levels::NONE, 0);
    assert_eq!(made.kind, sys::READY);
    let [one, other] = SIDES.map(|run| run(start, &row));
    assert!(one.state == other.state, "{name}: the states differ");
    assert_eq!(one.answers, other.answers, "{name}: the answers differ");
    let times = rounds(SIDES, start, &row, ROUNDS).map(median);
    let [single, burst] = times.map(|time| time * BURST as f64);
    let ratio = burst / single;
    println!("{name:<15}{profile:>7}{single:>12.0}{burst:>10.0}{ratio:>8.2}");
}

fn main() {
    println!("ns for {BURST} offers across C, median of {ROUNDS} rounds of {BURSTS} bursts each, in turn");
    println!("mix            profile  20 singles   a burst   ratio");
    for mix in &MIXES {
        (1..=3).for_each(|profile| measure(mix, profile));
    }
}
