//! Rounds of a row of calls, timed at several places of the stack.

use std::hint::black_box;
use std::time::Instant;

/// A call as plain numbers: its kind, which is the call log's, four numbers and its stamp.
pub type Call = [u32; 6];

/// One side of a comparison: it runs a row of calls from a state.
pub type Run<S, T, C = Call> = fn(S, &[C]) -> T;

/// Times one round, in ns a call, `N` bytes further down the stack. Copies of a state take longer where they straddle
/// cache lines, so that a process whose stack lies well for one side would favour it.
#[inline(never)]
fn timed<const N: usize, S, T, C>(run: Run<S, T, C>, start: S, row: &[C]) -> f64 {
    let mut room = [0u8; N];
    black_box(&mut room);
    let began = Instant::now();
    black_box(run(black_box(start), black_box(row)));
    began.elapsed().as_nanos() as f64 / row.len() as f64
}

type Timed<S, T, C> = fn(Run<S, T, C>, S, &[C]) -> f64;

pub const PLACES: usize = 16;

/// Places over a page of the stack, four at each offset in a cache line that a stack can have.
fn places<S, T, C>() -> [Timed<S, T, C>; PLACES] {
    [
        timed::<16, S, T, C>,
        timed::<288, S, T, C>,
        timed::<560, S, T, C>,
        timed::<832, S, T, C>,
        timed::<1104, S, T, C>,
        timed::<1376, S, T, C>,
        timed::<1648, S, T, C>,
        timed::<1920, S, T, C>,
        timed::<2192, S, T, C>,
        timed::<2464, S, T, C>,
        timed::<2736, S, T, C>,
        timed::<3008, S, T, C>,
        timed::<3280, S, T, C>,
        timed::<3552, S, T, C>,
        timed::<3824, S, T, C>,
        timed::<4096, S, T, C>,
    ]
}

/// The times of each side in ns a call. Round by round the sides take turns in who goes first, and the places too.
pub fn rounds<S: Copy, T, C, const N: usize>(
    sides: [Run<S, T, C>; N],
    start: S,
    row: &[C],
    rounds: usize,
) -> [Vec<f64>; N] {
    let mut times = sides.map(|_| Vec::new());
    for turn in 0..rounds {
        let place = places()[turn % PLACES];
        for k in 0..N {
            let side = (turn + k) % N;
            times[side].push(place(sides[side], start, row));
        }
    }
    times
}

pub fn median(mut times: Vec<f64>) -> f64 {
    times.sort_by(f64::total_cmp);
    times[times.len() / 2]
}
