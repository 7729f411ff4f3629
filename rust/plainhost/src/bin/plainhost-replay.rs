//! Plays a call log on the plain engine: a third opinion beside `replay` and `reference-replay`, with the same output.
//! Standard input is read to its end first.

use std::io::{self, BufWriter, Read, Write};

use plainhost::{Levels, State, Turn};
use presscurlew::sys;
use reference::gate::Call;
use reference::log::{read, LogCall, Record, RECORD_BYTES};

fn main() -> io::Result<()> {
    let mut log = Vec::new();
    io::stdin().lock().read_to_end(&mut log)?;
    let mut output = BufWriter::new(io::stdout().lock());
    let records = log.chunks_exact(RECORD_BYTES);
    let rest = records.remainder();
    let mut state = State::default();
    for bytes in records {
        let turn = play(state, bytes.try_into().expect("16 bytes"));
        state = turn.state;
        writeln!(output, "{}", line(&turn.reply))?;
    }
    writeln!(output, "{}", if rest.is_empty() { "END" } else { "TORN" })?;
    output.flush()
}

/// One record on a state.
fn play(state: State, bytes: &[u8; RECORD_BYTES]) -> Turn {
    match read(&Record::from_bytes(bytes)) {
        Ok(LogCall::Make {
            profile,
            oldway,
            stamp,
            ..
        }) => plainhost::presscurlew_plain_make(said(profile), oldway, Levels::NONE, stamp),
        Ok(LogCall::On(call)) => on(state, &call),
        Err(number) => refused(state, number),
    }
}

/// The profile of a make: one that says 5, whose list a log can't carry, is refused as 0 is.
fn said(profile: u32) -> u32 {
    match profile {
        5 => 0,
        other => other,
    }
}

fn on(state: State, call: &Call) -> Turn {
    match *call {
        Call::SampleWords {
            probes,
            ref words,
            stamp,
        } => plainhost::sample_words(state, probes, words, stamp),
        Call::SampleCount {
            busy,
            probes,
            stamp,
        } => plainhost::presscurlew_plain_sample_count(state, busy, probes, stamp),
        Call::Offer {
            id,
            priority,
            ontime,
            lifetime,
            stamp,
        } => plainhost::presscurlew_plain_offer(state, id, priority, ontime, lifetime, stamp),
        Call::Poll { stamp } => plainhost::presscurlew_plain_poll(state, stamp),
    }
}

/// A record that is no call does nothing.
fn refused(state: State, number: u32) -> Turn {
    let reply = sys::Reply {
        number: u64::from(number),
        kind: sys::REFUSED,
        ..sys::Reply::default()
    };
    Turn { state, reply }
}

/// The line of an answer.
fn line(reply: &sys::Reply) -> String {
    match reply.kind {
        sys::READY => "READY".to_string(),
        sys::TAKEN => "TAKEN".to_string(),
        sys::SENT => format!("SENT {}", reply.packet.id),
        sys::IDLE => "IDLE".to_string(),
        sys::CLOSED => format!("CLOSED {}", reply.number),
        _ => format!("REFUSED {}", reply.number),
    }
}
