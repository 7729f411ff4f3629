//! W-204: a burst of offers in one call.

use crate::calls::{BAD_KIND, NO_ROOM, TORN_LOG};
use crate::gate::Answer;
use crate::log::{step, Record, RECORD_BYTES};
use crate::state::State;

/// The kind of record that a burst takes: an offer.
const OFFER: u8 = 2;

/// Offers in one call: the next state and 0, or 13 or 12 with state and answers
/// unchanged. 13 is judged before 12, and the state before neither. Each record
/// has one answer byte; bytes past the last record are not written.
pub fn burst(state: State, records: &[u8], answers: &mut [u8]) -> (State, u32) {
    if records.len() % RECORD_BYTES != 0 {
        return (state, TORN_LOG);
    }
    if answers.len() < records.len() / RECORD_BYTES {
        return (state, NO_ROOM);
    }
    let mut state = state;
    for (sixteen, byte) in records.chunks_exact(RECORD_BYTES).zip(answers) {
        let mut bytes = [0; RECORD_BYTES];
        bytes.copy_from_slice(sixteen);
        (state, *byte) = one(state, &Record::from_bytes(&bytes));
    }
    (state, 0)
}

/// One record of a burst: an offer is the single call, 0 for TAKEN, else its
/// refusal number. A record of another kind gets 10 and does nothing.
fn one(state: State, record: &Record) -> (State, u8) {
    if record.kind != OFFER {
        return (state, BAD_KIND as u8);
    }
    match step(state, record) {
        (next, Answer::Refused(number)) => (next, number as u8), // at most 13
        (next, _) => (next, 0),
    }
}
