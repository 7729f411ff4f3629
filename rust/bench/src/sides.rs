//! A row of calls on the gate, in place: by C calls of the archive, and in plain Rust (a) with the test of soundness at
//! every call and (b) with none. All three are calls of functions that stand by themselves, on states that lie alike.

use presscurlew::{sys, Offer, State};

use crate::places::{Call, Run};
use crate::plain::{tested, untested, Answer};

/// Where a row ends, and how many packets it sent.
#[derive(Clone, Copy, Debug, PartialEq, Eq)]
pub struct Tally {
    pub state: State,
    pub sent: u64,
}

fn by_c_calls(start: State, row: &[Call]) -> Tally {
    let (mut state, mut sent) = (start, 0);
    for &[kind, a, b, c, d, stamp] in row {
        let reply = match kind {
            1 => sys::sample_count(&mut state, a, b, stamp),
            2 => {
                let offer = Offer {
                    id: a,
                    priority: b,
                    ontime: c,
                    lifetime: d,
                };
                sys::offer(&mut state, offer, stamp)
            }
            _ => sys::poll(&mut state, stamp),
        };
        sent += u64::from(reply.kind == sys::SENT);
    }
    Tally { state, sent }
}

fn with_test(start: State, row: &[Call]) -> Tally {
    let (mut state, mut sent) = (start, 0);
    for &[kind, a, b, c, d, stamp] in row {
        let answer = match kind {
            1 => tested::sample(&mut state, a, b, stamp),
            2 => tested::offer(&mut state, [a, b, c, d], stamp),
            _ => tested::poll(&mut state, stamp),
        };
        sent += u64::from(matches!(answer, Answer::Sent(_)));
    }
    Tally { state, sent }
}

fn without_test(start: State, row: &[Call]) -> Tally {
    let (mut state, mut sent) = (start, 0);
    for &[kind, a, b, c, d, stamp] in row {
        let answer = match kind {
            1 => untested::sample(&mut state, a, b, stamp),
            2 => untested::offer(&mut state, [a, b, c, d], stamp),
            _ => untested::poll(&mut state, stamp),
        };
        sent += u64::from(matches!(answer, Answer::Sent(_)));
    }
    Tally { state, sent }
}

/// C calls, (a) and (b).
pub const SIDES: [Run<State, Tally>; 3] = [by_c_calls, with_test, without_test];

/// A comparison of speed means something only between runs that end alike.
pub fn ends_alike(start: State, row: &[Call], name: &str) {
    let ends = SIDES.map(|run| run(start, row));
    for other in &ends[1..] {
        assert_eq!(ends[0].state, other.state, "{name}: the states differ");
        assert_eq!(ends[0].sent, other.sent, "{name}: the admissions differ");
    }
}
