//! Writes a call log to measure `replay` with: a make of profile 2, then random samples, offers and polls as
//! 1 : 2 : 3. The same for the same number of records, which is the one argument.

#[path = "../draw.rs"]
mod draw;

use std::env;
use std::io::{self, BufWriter, Write};

use draw::Draw;

/// A record as four little-endian words: the first has kind, priority and on-time.
fn words([kind, priority, ontime, lifetime, id, stamp]: [u32; 6]) -> [u32; 4] {
    [kind | priority << 8 | ontime << 16, lifetime, id, stamp]
}

fn offer(draw: &mut Draw, stamp: u32) -> [u32; 6] {
    let (priority, ontime) = (draw.between(0, 3), draw.between(1, 500));
    let (lifetime, id) = (draw.between(1, 3_000_000), draw.between(0, 1 << 31));
    [2, priority, ontime, lifetime, id, stamp]
}

fn main() -> io::Result<()> {
    let count = env::args().nth(1).and_then(|word| word.parse::<u64>().ok());
    let count = count.expect("usage: mixed_log RECORDS >LOG");
    let mut out = BufWriter::new(io::stdout().lock());
    let mut draw = Draw::new();
    let mut stamp = 0u32;
    for i in 0..count {
        stamp = stamp.wrapping_add(draw.between(0, 60_000));
        let numbers = match draw.between(0, 5) {
            _ if i == 0 => [0, 2, 0, 0, 0, stamp],
            0 => [1, 0, 0, 0, draw.between(0, 1_000), stamp],
            1 | 2 => offer(&mut draw, stamp),
            _ => [3, 0, 0, 0, 0, stamp],
        };
        for word in words(numbers) {
            out.write_all(&word.to_le_bytes())?;
        }
    }
    out.flush()
}
