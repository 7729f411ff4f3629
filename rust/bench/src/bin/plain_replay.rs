//! The job of the program `replay` in plain Rust: a call log on standard input, one line a record, with the
//! whole soundness test at each record. To be timed beside the proved program.

#[path = "../plain.rs"]
#[allow(dead_code)]
mod plain;

use std::io::{self, Read, Write};

use plain::Answer;
use presscurlew::State;

fn word(bytes: &[u8], at: usize) -> u32 {
    u32::from_le_bytes([bytes[at], bytes[at + 1], bytes[at + 2], bytes[at + 3]])
}

/// Writes a word, and a number behind it.
fn numbered(out: &mut Vec<u8>, word: &[u8], mut number: u64) {
    let mut digits = [0u8; 20];
    let mut at = digits.len();
    loop {
        at -= 1;
        digits[at] = b'0' + (number % 10) as u8;
        number /= 10;
        if number == 0 {
            break;
        }
    }
    out.extend_from_slice(word);
    out.extend_from_slice(&digits[at..]);
    out.push(b'\n');
}

fn line(out: &mut Vec<u8>, answer: Answer) {
    match answer {
        Answer::Taken => out.extend_from_slice(b"TAKEN\n"),
        Answer::Sent(p) => numbered(out, b"SENT ", p.id as u64),
        Answer::Idle => out.extend_from_slice(b"IDLE\n"),
        Answer::Closed(left) => numbered(out, b"CLOSED ", left),
        Answer::Refused(number) => numbered(out, b"REFUSED ", number as u64),
    }
}

fn record(state: &mut State, bytes: &[u8], out: &mut Vec<u8>) {
    let stamp = word(bytes, 12);
    let answer = match bytes[0] {
        0 if (1..=4).contains(&bytes[1]) && word(bytes, 4) <= 1 => {
            *state = plain::fresh(bytes[1] as u32, word(bytes, 4), stamp);
            out.extend_from_slice(b"READY\n");
            return;
        }
        0 => {
            *state = State::default();
            Answer::Refused(1)
        }
        4.. => Answer::Refused(10),
        _ if !plain::is_sound(state) => Answer::Refused(9),
        1 => {
            let probes = match word(bytes, 4) {
                0 => 1_000,
                told => told,
            };
            plain::sample(state, word(bytes, 8), probes, stamp)
        }
        2 => {
            let ontime = u16::from_le_bytes([bytes[2], bytes[3]]) as u32;
            let numbers = [word(bytes, 8), bytes[1] as u32, ontime, word(bytes, 4)];
            plain::offer(state, numbers, stamp)
        }
        _ => plain::poll(state, stamp),
    };
    line(out, answer);
}

/// Fills a buffer as far as the input goes.
fn fill(input: &mut impl Read, buffer: &mut [u8]) -> io::Result<usize> {
    let mut got = 0;
    while got < buffer.len() {
        match input.read(&mut buffer[got..])? {
            0 => break,
            n => got += n,
        }
    }
    Ok(got)
}

fn main() -> io::Result<()> {
    let (mut input, mut output) = (io::stdin().lock(), io::stdout().lock());
    let mut buffer = vec![0; 65536];
    let mut out = Vec::with_capacity(131072);
    let mut state = State::default();
    loop {
        let got = fill(&mut input, &mut buffer)?;
        out.clear();
        for bytes in buffer[..got].chunks_exact(16) {
            record(&mut state, bytes, &mut out);
        }
        if got < buffer.len() {
            let last: &[u8] = if got % 16 == 0 { b"END\n" } else { b"TORN\n" };
            out.extend_from_slice(last);
        }
        output.write_all(&out)?;
        if got < buffer.len() {
            return output.flush();
        }
    }
}
