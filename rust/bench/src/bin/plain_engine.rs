//! Measures what the plain engine, with its one list by value, costs beside the gate with its four queues in place: one C
//! call after the other on both, the same rows in turn, which must end in the same state. There is no bar.

#[path = "../places.rs"]
mod places;

use places::{median, rounds, Call, Run, PLACES};
use presscurlew::{sys, Offer};

const ROUNDS: usize = 13 * PLACES;
const CALLS: usize = 1_000;

/// The states that a row starts from: the same, in both engines.
#[derive(Clone, Copy)]
struct Start {
    gate: presscurlew::State,
    plain: plainhost::State,
}

/// Where a row ends, as the gate has it, and how many packets it sent.
#[derive(Debug, PartialEq, Eq)]
struct End {
    state: presscurlew::State,
    sent: u64,
}

fn by_gate(start: Start, row: &[Call]) -> End {
    let (mut state, mut sent) = (start.gate, 0);
    for &[kind, a, b, c, d, stamp] in row {
        let offer = Offer {
            id: a,
            priority: b,
            ontime: c,
            lifetime: d,
        };
        let reply = match kind {
            2 => sys::offer(&mut state, offer, stamp),
            _ => sys::poll(&mut state, stamp),
        };
        sent += u64::from(reply.kind == sys::SENT);
    }
    End { state, sent }
}

fn by_plain(start: Start, row: &[Call]) -> End {
    let (mut state, mut sent) = (start.plain, 0);
    for &[kind, a, b, c, d, stamp] in row {
        let turn = match kind {
            2 => plainhost::presscurlew_plain_offer(state, a, b, c, d, stamp),
            _ => plainhost::presscurlew_plain_poll(state, stamp),
        };
        state = turn.state;
        sent += u64::from(turn.reply.kind == sys::SENT);
    }
    let state = state.parted().expect("a sound list");
    End { state, sent }
}

const SIDES: [Run<Start, End>; 2] = [by_gate, by_plain];

/// Rows by name, with the µs from one call to the next: what call `i` is.
type Mix = (&'static str, fn(u32) -> [u32; 5], u32);

const MIXES: [Mix; 2] = [("few waiting", few, 70_000), ("20 waiting", full, 30_000)];

const POLL: [u32; 5] = [3, 0, 0, 0, 0];

/// An offer, then two polls: few wait.
fn few(i: u32) -> [u32; 5] {
    match i % 3 {
        0 => [2, i, i / 3 % 4, 400, 1_000_000],
        _ => POLL,
    }
}

/// Two offers a poll, long lifetimes: 20 wait soon.
fn full(i: u32) -> [u32; 5] {
    match i % 3 {
        2 => POLL,
        _ => [2, i, i / 3 % 4, 400, 60_000_000],
    }
}

fn start(profile: u32) -> Start {
    // Profile 5's; the others look at none.
    let level = presscurlew::Level {
        threshold: 500_000,
        wait: 1_000_000,
    };
    let list = sys::Levels::of(100_000, &[level]);
    let mut gate = presscurlew::State::default();
    let made = sys::make(&mut gate, profile, sys::DROP_OLDEST, &list, 0);
    assert_eq!(made.kind, sys::READY);
    let plain = plainhost::presscurlew_plain_make(profile, sys::DROP_OLDEST, list.into(), 0);
    Start {
        gate,
        plain: plain.state,
    }
}

fn row(mix: &Mix) -> Vec<Call> {
    let &(_, call, step) = mix;
    (0..CALLS as u32)
        .map(|i| {
            let [kind, a, b, c, d] = call(i);
            [kind, a, b, c, d, (i + 1).wrapping_mul(step)]
        })
        .collect()
}

/// Both sides end alike. A comparison of speed means something only then.
fn ends_alike(mix: &Mix, profile: u32) {
    let [gate, plain] = SIDES.map(|run| run(start(profile), &row(mix)));
    assert_eq!(plain, gate, "{}", mix.0);
}

fn main() {
    println!("ns a C call, median of {ROUNDS} rounds of {CALLS} calls each, in turn");
    println!("mix            profile      gate     plain  plain / gate");
    for profile in [1, 3] {
        for mix in &MIXES {
            ends_alike(mix, profile);
            let times = rounds(SIDES, start(profile), &row(mix), ROUNDS);
            let [gate, plain] = times.map(median);
            let (name, ratio) = (mix.0, plain / gate);
            println!("{name:<15}{profile:>7}{gate:>10.1}{plain:>10.1}{ratio:>14.2}");
        }
    }
}

#[cfg(test)]
mod tests {
    use super::*;

    #[test]
    fn sides_end_alike() {
        for profile in 1..=5 {
            MIXES.iter().for_each(|mix| ends_alike(mix, profile));
        }
    }
}
