//! Measures polls of profile 4, which finds its factor in a table, beside plain Rust that works the formula out at each poll:
//! in polls a second, and in ns. The three sides are those of the bench `gate`, and must end in the same state.

#[path = "../places.rs"]
mod places;
#[path = "../plain.rs"]
#[allow(dead_code)]
mod plain;
#[path = "../sides.rs"]
mod sides;

use places::{median, rounds, Call, PLACES};
use presscurlew::{sys, Offer, State};
use sides::{ends_alike, SIDES};

/// Rounds of each side: as many at each place of the stack.
const ROUNDS: usize = 13 * PLACES;
const CALLS: usize = 3_000;
const PROBES: u32 = 12_500;

/// Polls of a gate that is closed: a packet waits behind one that went on air when the channel was so busy.
struct Mix {
    name: &'static str,
    busy: u32,
    ontime: u32,
    /// The µs from one poll to the next: none finds the gate open.
    step: u32,
}

const MIXES: [Mix; 3] = [
    Mix {
        name: "calm, closed",
        busy: 0,
        ontime: 4_000,
        step: 9,
    },
    Mix {
        name: "loud, closed",
        busy: 8_000, // factor 124
        ontime: 4_000,
        step: 100,
    },
    Mix {
        name: "full, closed",
        busy: PROBES,
        ontime: 4_000,
        step: 100,
    },
];

fn start(mix: &Mix) -> State {
    let mut state = State::default();
    let made = sys::make(&mut state, 4, sys::DROP_OLDEST, &sys::Levels::NONE, 0);
    assert_eq!(made.kind, sys::READY);
    let taken = sys::sample_count(&mut state, mix.busy, PROBES, 0);
    assert_eq!(taken.kind, sys::TAKEN);
    for id in [1, 2] {
        let offer = Offer {
            id,
            priority: 0,
            ontime: mix.ontime,
            lifetime: 60_000_000,
        };
        assert_eq!(sys::offer(&mut state, offer, 0).kind, sys::TAKEN);
    }
    assert_eq!(sys::poll(&mut state, 0).kind, sys::SENT);
    state
}

fn polls(mix: &Mix) -> Vec<Call> {
    let polls = (1..=CALLS as u32).map(|i| [3, 0, 0, 0, 0, i * mix.step]);
    polls.collect()
}

/// A sample of any load before each poll, so that no two polls have the same factor.
fn sampled() -> Vec<Call> {
    let calls = (0..CALLS as u32).map(|i| match i % 2 {
        0 => [1, i * 4_987 % (PROBES + 1), PROBES, 0, 0, i * 8],
        _ => [3, 0, 0, 0, 0, i * 8],
    });
    calls.collect()
}

/// Prints a line: millions of calls a second of each side, and the ratios of the times.
fn measure(name: &str, start: State, row: &[Call]) {
    ends_alike(start, row, name);
    let [c, a, b] = rounds(SIDES, start, row, ROUNDS).map(median);
    let [by_c, tested, untested] = [c, a, b].map(|ns| 1_000.0 / ns);
    println!(
        "{name:<15}{by_c:>10.2}{tested:>10.2}{untested:>10.2}{c:>10.1}{a:>10.1}{:>8.2}",
        c / a
    );
}

fn main() {
    println!("profile 4: millions of calls a second by the median of {ROUNDS} rounds of {CALLS} calls each, in turn;");
    println!("ns of a C call and of (a), and the ratio of the two");
    println!("row                C call       (a)       (b) ns C call    ns (a)   / (a)");
    for mix in &MIXES {
        measure(mix.name, start(mix), &polls(mix));
    }
    measure("sample, poll", start(&MIXES[0]), &sampled());
}

#[cfg(test)]
mod tests {
    use super::*;

    #[test]
    fn sides_end_alike() {
        for mix in &MIXES {
            ends_alike(start(mix), &polls(mix), mix.name);
        }
        ends_alike(start(&MIXES[0]), &sampled(), "sample, poll");
    }
}
