//! Counts that don't add up, for tests: given a state whose counts do.

use crate::rng::Rng;
use crate::rules::ACCEPTED_MOST;
use crate::state::{Counts, State};

/// A place in the counts.
type Place = fn(&mut Counts) -> &mut u64;

/// The four counts, accepted first.
const PLACES: [Place; 4] = [
    |counts| &mut counts.accepted,
    |counts| &mut counts.sent,
    |counts| &mut counts.expired,
    |counts| &mut counts.displaced,
];

/// Each count one off, up and down; two and three of those that left, and all
/// four, one up; a sum that leaves out those that wait, or one of the counts.
pub fn one_off(state: &State) -> Vec<Counts> {
    let mut off = Vec::new();
    for place in PLACES {
        let mut counts = state.counts;
        *place(&mut counts) += 1;
        off.push(counts);
        let mut counts = state.counts;
        if *place(&mut counts) > 0 {
            *place(&mut counts) -= 1;
            off.push(counts);
        }
    }
    for together in [&PLACES[1..3], &PLACES[2..4], &PLACES[1..4], &PLACES[..]] {
        let mut counts = state.counts;
        for place in together {
            *place(&mut counts) += 1;
        }
        off.push(counts);
    }
    let waiting = state.waiting() as u64;
    let Counts {
        accepted,
        sent,
        expired,
        displaced,
    } = state.counts;
    let sums = [waiting, sent, expired, displaced].into_iter();
    off.extend(sums.filter(|part| *part > 0).map(|part| Counts {
        accepted: accepted - part,
        ..state.counts
    }));
    off
}

/// Sums that are right modulo 2^64 and wrong as whole numbers: more was sent,
/// has expired, or was displaced than was accepted. Some are at edges, some
/// random; each of two counts stands in each two of the three places, and the
/// third is 0 or takes a part.
pub fn wrapping(state: &State, rng: &mut Rng) -> Vec<Counts> {
    let waiting = state.waiting() as u64;
    let mut more = vec![
        (0, 1 << 63),
        (0, u64::MAX),
        (waiting, u64::MAX),
        (ACCEPTED_MOST, ACCEPTED_MOST + 1),
        (ACCEPTED_MOST, u64::MAX - waiting),
        (ACCEPTED_MOST, u64::MAX),
    ];
    if waiting > 0 {
        more.push((0, u64::MAX - waiting + 1)); // the other is 0
    }
    if waiting > 1 {
        more.push((waiting - 2, u64::MAX)); // so is the other: it wraps twice
    }
    for _ in 0..50 {
        let accepted = rng.below(ACCEPTED_MOST + 1);
        more.push((accepted, accepted + 1 + rng.below(u64::MAX - accepted)));
    }
    let mut sums = Vec::new();
    for accepted in [0, waiting, ACCEPTED_MOST] {
        // All three may be large: it wraps twice or more.
        let third = accepted.wrapping_sub(waiting).wrapping_add(2);
        sums.extend(turned([u64::MAX, u64::MAX, third]).map(|parts| counts(accepted, parts)));
    }
    for (accepted, one) in more {
        let other = accepted.wrapping_sub(one).wrapping_sub(waiting);
        let part = rng.below(other.saturating_add(1));
        for rest in [0, part] {
            let parts = [one, other - rest, rest];
            sums.extend(turned(parts).map(|parts| counts(accepted, parts)));
        }
    }
    sums
}

fn counts(accepted: u64, [sent, expired, displaced]: [u64; 3]) -> Counts {
    Counts {
        accepted,
        sent,
        expired,
        displaced,
    }
}

/// Three numbers in all their orders.
fn turned([a, b, c]: [u64; 3]) -> [[u64; 3]; 6] {
    [
        [a, b, c],
        [a, c, b],
        [b, a, c],
        [b, c, a],
        [c, a, b],
        [c, b, a],
    ]
}
