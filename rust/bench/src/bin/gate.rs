//! Measures the gate's C calls, which change a state in place, beside plain Rust that does so: (a) with the same test of
//! soundness at every call, (b) with none. The three run the same row of calls in turn, and must end in the same state.

#[path = "../places.rs"]
mod places;
#[path = "../plain.rs"]
#[allow(dead_code)]
mod plain;
#[path = "../sides.rs"]
mod sides;

use places::{median, rounds, Call, PLACES};
use presscurlew::{sys, State};
use sides::{ends_alike, SIDES};

/// Rounds of each side: as many at each place of the stack.
const ROUNDS: usize = 13 * PLACES;
const CALLS: usize = 3000;

/// A mix of calls, on a gate made so.
struct Mix {
    name: &'static str,
    profiles: &'static [u32],
    /// A call by its number in the row; the kinds are the call log's.
    call: fn(u32) -> [u32; 5],
    /// The µs from one call to the next.
    step: u32,
    when_full: u32,
    /// Samples of an idle channel before the row.
    quiet: u32,
}

const MIXES: [Mix; 6] = [
    Mix {
        name: "few waiting",
        profiles: &[1, 3, 5],
        call: few,
        step: 70_000,
        when_full: sys::DROP_OLDEST,
        quiet: 0,
    },
    Mix {
        name: "full, dropping",
        profiles: &[1, 3],
        call: full,
        step: 30_000,
        when_full: sys::DROP_OLDEST,
        quiet: 0,
    },
    Mix {
        name: "full, refusing",
        profiles: &[1, 3],
        call: full,
        step: 30_000,
        when_full: sys::REFUSE_NEW,
        quiet: 0,
    },
    Mix {
        name: "offer, SENT",
        profiles: &[1, 3],
        call: sending,
        step: 600_000,
        when_full: sys::DROP_OLDEST,
        quiet: 0,
    },
    Mix {
        name: "with samples",
        profiles: &[1, 3, 5],
        call: sampled,
        step: 70_000,
        when_full: sys::DROP_OLDEST,
        quiet: 0,
    },
    Mix {
        name: "40 held",
        profiles: &[3],
        call: at_the_ceiling,
        step: 12_500,
        when_full: sys::DROP_OLDEST,
        quiet: 1_000,
    },
];

fn offered(i: u32, lifetime: u32) -> [u32; 5] {
    [2, i, i / 3 % 4, 400, lifetime]
}

const POLL: [u32; 5] = [3, 0, 0, 0, 0];

/// An offer, then two polls: few wait.
fn few(i: u32) -> [u32; 5] {
    if i % 3 == 0 {
        offered(i, 1_000_000)
    } else {
        POLL
    }
}

/// Two offers a poll, long lifetimes: all slots are full soon, and then the gate drops or refuses.
fn full(i: u32) -> [u32; 5] {
    if i % 3 == 2 {
        POLL
    } else {
        offered(i, 60_000_000)
    }
}

/// An offer, then a poll that sends it.
fn sending(i: u32) -> [u32; 5] {
    if i % 2 == 0 {
        offered(i, 1_000_000)
    } else {
        POLL
    }
}

/// An offer, a sample, a poll.
fn sampled(i: u32) -> [u32; 5] {
    match i % 3 {
        0 => offered(i, 1_000_000),
        1 => [1, i % 1001, 1_000, 0, 0],
        _ => POLL,
    }
}

/// An offer of 750 µs, then a poll that sends it, each 25 ms: with the highest duty the ledger is full after a second,
/// and from then on each poll drops its oldest and notes another.
fn at_the_ceiling(i: u32) -> [u32; 5] {
    if i % 2 == 0 {
        [2, i, i / 2 % 4, 750, 1_000_000]
    } else {
        POLL
    }
}

/// Profile 5's list: six levels, as those of profile 1 and two more.
fn list_of(profile: u32) -> sys::Levels {
    let listed = [
        (150_000, 60_000),
        (300_000, 200_000),
        (400_000, 400_000),
        (500_000, 500_000),
        (600_000, 800_000),
        (900_000, 1_000_000),
    ];
    match profile {
        5 => sys::Levels::of(
            40_000,
            &listed.map(|(threshold, wait)| presscurlew::Level { threshold, wait }),
        ),
        _ => sys::Levels::NONE,
    }
}

fn start(mix: &Mix, profile: u32) -> State {
    let mut state = State::default();
    let made = sys::make(&mut state, profile, mix.when_full, &list_of(profile), 0);
    assert_eq!(made.kind, sys::READY);
    for _ in 0..mix.quiet {
        let taken = sys::sample_count(&mut state, 0, 1_000, 0);
        assert_eq!(taken.kind, sys::TAKEN);
    }
    state
}

fn row(mix: &Mix) -> Vec<Call> {
    (0..CALLS as u32)
        .map(|i| {
            let [kind, a, b, c, d] = (mix.call)(i);
            [kind, a, b, c, d, (i + 1).wrapping_mul(mix.step)]
        })
        .collect()
}

/// The least and the greatest median of a place. Round by round the places take turns.
fn spread(times: &[f64]) -> [f64; 2] {
    let mut places: Vec<f64> = (0..PLACES)
        .map(|k| {
            let rounds = times.iter().skip(k).step_by(PLACES);
            median(rounds.copied().collect())
        })
        .collect();
    places.sort_by(f64::total_cmp);
    [places[0], places[PLACES - 1]]
}

/// Prints a line, and hands back the spread of each side over the places.
fn measure(mix: &Mix, profile: u32) -> [[f64; 2]; 3] {
    let (row, name) = (row(mix), mix.name);
    let start = start(mix, profile);
    ends_alike(start, &row, name);
    let times = rounds(SIDES, start, &row, ROUNDS);
    let spreads = times.each_ref().map(|side| spread(side));
    let [c, a, b] = times.map(median);
    println!(
        "{name:<15}{profile:>7}{c:>10.1}{a:>10.1}{b:>10.1}{:>8.2}{:>8.2}",
        c / a,
        c / b
    );
    spreads
}

fn main() {
    println!("ns a call, median of {ROUNDS} rounds of {CALLS} calls each, in turn");
    println!("mix            profile    C call       (a)       (b)   / (a)   / (b)");
    let mut by_place = Vec::new();
    for profile in [1, 3, 5] {
        let mixes = MIXES.iter().filter(|mix| mix.profiles.contains(&profile));
        by_place.extend(mixes.map(|mix| measure(mix, profile)));
    }
    print!("first line, by the place in the stack:");
    for (side, [least, greatest]) in ["C call", "(a)", "(b)"].iter().zip(by_place[0]) {
        print!("  {side} {least:.1} to {greatest:.1}");
    }
    println!();
}

#[cfg(test)]
mod tests {
    use super::*;

    #[test]
    fn sides_end_alike() {
        for mix in &MIXES {
            let profiles = mix.profiles.iter();
            profiles.for_each(|&profile| ends_alike(start(mix, profile), &row(mix), mix.name));
        }
    }
}
