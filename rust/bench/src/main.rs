//! Measures the archives' four calls and the floating update beside the same calls in plain Rust.
//!
//! Both sides have the same calling convention, the same loop around them and the same inputs, in the
//! same run. Rounds of the two take turns, so that a busy machine slows both; the medians are printed.

mod draw;
mod inputs;
mod peers;

use std::hint::black_box;
use std::time::Instant;

use presscurlew::sys;

/// Rounds of each side, odd, so that the median is one of them. They are many and short (well below a
/// millisecond), so that most are not interrupted on a busy machine.
const ROUNDS: usize = 1001;

/// ns a call of one round, in which `pass` calls once for each input.
fn round(calls: usize, pass: &dyn Fn()) -> f64 {
    let start = Instant::now();
    pass();
    start.elapsed().as_nanos() as f64 / calls as f64
}

fn median(mut times: Vec<f64>) -> f64 {
    times.sort_by(f64::total_cmp);
    times[times.len() / 2]
}

/// Prints a line: ns a call of the archive, of plain Rust, and the first over the second.
fn compare(name: &str, calls: usize, rattle: &dyn Fn(), plain: &dyn Fn()) {
    let (mut rattle_times, mut plain_times) = (Vec::new(), Vec::new());
    round(calls, rattle);
    round(calls, plain);
    for turn in 0..ROUNDS {
        // Who goes first alternates too.
        if turn % 2 == 0 {
            rattle_times.push(round(calls, rattle));
            plain_times.push(round(calls, plain));
        } else {
            plain_times.push(round(calls, plain));
            rattle_times.push(round(calls, rattle));
        }
    }
    let (rattle, plain) = (median(rattle_times), median(plain_times));
    println!(
        "{name:<14}{rattle:>12.2}{plain:>12.2}{:>10.2}",
        rattle / plain
    );
}

// The loop around a call is the same code for the archive and for its peer, which it calls by pointer.

fn pass_two<A>(call: extern "C" fn(u32, u32) -> A, inputs: &[[u32; 2]]) {
    let call = black_box(call);
    for &[a, b] in inputs {
        black_box(call(a, b));
    }
}

fn pass_three<A>(call: extern "C" fn(u32, u32, u32) -> A, inputs: &[[u32; 3]]) {
    let call = black_box(call);
    for &[a, b, c] in inputs {
        black_box(call(a, b, c));
    }
}

fn pass_four<N: Copy, A>(call: extern "C" fn(N, N, N, N) -> A, inputs: &[[N; 4]]) {
    let call = black_box(call);
    for &[a, b, c, d] in inputs {
        // By reference: an answer that comes back in memory is not copied right after it was written.
        black_box(&call(a, b, c, d));
    }
}

fn pass_five<A>(call: extern "C" fn(u32, u32, u32, u32, u32) -> A, inputs: &[[u32; 5]]) {
    let call = black_box(call);
    for &[a, b, c, d, e] in inputs {
        black_box(call(a, b, c, d, e));
    }
}

fn wanted_level() {
    let inputs = inputs::wanted_level();
    let rattle = || pass_two(sys::presscurlew_wanted_level, &inputs);
    let plain = || pass_two(peers::wanted_level, &inputs);
    compare("wanted level", inputs.len(), &rattle, &plain);
}

fn level_step() {
    let inputs = inputs::level_step();
    let rattle = || pass_three(sys::presscurlew_level_step, &inputs);
    let plain = || pass_three(peers::level_step, &inputs);
    compare("level step", inputs.len(), &rattle, &plain);
}

fn duty_update() {
    let inputs = inputs::duty_update();
    let rattle = || pass_four(sys::presscurlew_duty_update, &inputs);
    let plain = || pass_four(peers::duty_update, &inputs);
    compare("duty update", inputs.len(), &rattle, &plain);
}

fn wait(name: &str, first: u32, last: u32) {
    let inputs = inputs::wait(first, last);
    let rattle = || pass_five(sys::presscurlew_wait, &inputs);
    let plain = || pass_five(peers::wait, &inputs);
    compare(name, inputs.len(), &rattle, &plain);
}

fn float_update() {
    let inputs = inputs::float_update();
    let rattle = || pass_four(sys::presscurlew_float_update, &inputs);
    let plain = || pass_four(peers::float_update, &inputs);
    compare("float update", inputs.len(), &rattle, &plain);
}

/// Prints what the loop and an empty call cost: a part of every time printed.
fn overhead() {
    let inputs = inputs::wait(1, 4);
    let empty = || pass_five(peers::nothing, &inputs);
    let times = (0..ROUNDS).map(|_| round(inputs.len(), &empty)).collect();
    println!("loop and an empty call: {:.2} ns of each", median(times));
}

fn main() {
    println!("ns a call, median of {ROUNDS} rounds; ratio = Rattle / plain Rust");
    println!(
        "{:<14}{:>12}{:>12}{:>10}",
        "", "Rattle", "plain Rust", "ratio"
    );
    wanted_level();
    level_step();
    duty_update();
    wait("wait, 1 to 3", 1, 3);
    wait("wait, 4", 4, 4);
    float_update();
    overhead();
}

#[cfg(test)]
mod tests {
    use super::{inputs, peers, sys};

    /// A comparison of speed means something only between calls that answer the same.
    #[test]
    fn peers_answer_as_the_archive_does() {
        for [profile, load] in inputs::wanted_level() {
            let expected = sys::presscurlew_wanted_level(profile, load);
            assert_eq!(peers::wanted_level(profile, load), expected);
        }
        for [profile, load, level] in inputs::level_step() {
            let expected = sys::presscurlew_level_step(profile, load, level);
            assert_eq!(peers::level_step(profile, load, level), expected);
        }
        for [duty, smoothed, kept, new] in inputs::duty_update() {
            let expected = sys::presscurlew_duty_update(duty, smoothed, kept, new);
            assert_eq!(peers::duty_update(duty, smoothed, kept, new), expected);
        }
        for [profile, level, duty, ontime, load] in inputs::wait(1, 4) {
            let expected = sys::presscurlew_wait(profile, level, duty, ontime, load);
            assert_eq!(peers::wait(profile, level, duty, ontime, load), expected);
        }
        for [duty, smoothed, kept, new] in inputs::float_update() {
            let expected = sys::presscurlew_float_update(duty, smoothed, kept, new);
            let answer = peers::float_update(duty, smoothed, kept, new);
            assert_eq!(answer.smoothed.to_bits(), expected.smoothed.to_bits());
            assert_eq!(answer.duty.to_bits(), expected.duty.to_bits());
            assert_eq!((answer.refusal, expected.refusal), (0, 0));
        }
    }
}
