//! The call log and its program ("The call log and its program").

use std::io::{self, ErrorKind, Read, Write};

use crate::calls::{BAD_KIND, BAD_PROFILE};
use crate::gate::{self, Answer, Call};
use crate::levels::Levels;
use crate::rules;
use crate::state::State;

/// The bytes of a record.
pub const RECORD_BYTES: usize = 16;

/// The fields of a record, in their order.
#[derive(Clone, Copy, Debug, Default, PartialEq, Eq)]
pub struct Record {
    /// 0 make, 1 sample, 2 offer, 3 poll.
    pub kind: u8,
    /// The priority; of a make the profile.
    pub priority: u8,
    /// The on-time.
    pub ontime: u16,
    /// The lifetime; of a make the old way, 1 for yes and 0 for no; of a sample
    /// the probe count, where 0 means 1,000.
    pub lifetime: u32,
    /// The identifier; of a sample the busy count.
    pub id: u32,
    /// The stamp.
    pub stamp: u32,
}

impl Record {
    /// The fields of 16 bytes, little-endian.
    pub fn from_bytes(bytes: &[u8; RECORD_BYTES]) -> Record {
        let word = |at: usize| {
            u32::from_le_bytes([bytes[at], bytes[at + 1], bytes[at + 2], bytes[at + 3]])
        };
        Record {
            kind: bytes[0],
            priority: bytes[1],
            ontime: u16::from_le_bytes([bytes[2], bytes[3]]),
            lifetime: word(4),
            id: word(8),
            stamp: word(12),
        }
    }

    /// The 16 bytes of the fields.
    pub fn to_bytes(&self) -> [u8; RECORD_BYTES] {
        let mut bytes = [0; RECORD_BYTES];
        bytes[0] = self.kind;
        bytes[1] = self.priority;
        bytes[2..4].copy_from_slice(&self.ontime.to_le_bytes());
        bytes[4..8].copy_from_slice(&self.lifetime.to_le_bytes());
        bytes[8..12].copy_from_slice(&self.id.to_le_bytes());
        bytes[12..16].copy_from_slice(&self.stamp.to_le_bytes());
        bytes
    }

    /// W-208: the probe count that a sample's lifetime field tells.
    pub fn probes(&self) -> u32 {
        match self.lifetime {
            0 => rules::PROBES,
            told => told,
        }
    }
}

/// What a log can say: a make, or a call on the state.
#[derive(Clone, Debug, PartialEq, Eq)]
pub enum LogCall {
    /// A make.
    Make {
        /// The profile.
        profile: u32,
        /// The old way: 1 for yes and 0 for no.
        oldway: u32,
        /// The list of levels, which a log can't carry: one that was read is empty.
        levels: Levels,
        /// The radio's count.
        stamp: u32,
    },
    /// A call on the state.
    On(Call),
}

/// The call of a record, whatever its numbers are worth; fields that the kind
/// does not use are ignored. A kind above 3 is none, and gets 10.
pub fn read(record: &Record) -> Result<LogCall, u32> {
    let Record {
        lifetime,
        id,
        stamp,
        ..
    } = *record;
    let priority = u32::from(record.priority);
    let ontime = u32::from(record.ontime);
    match record.kind {
        0 => Ok(LogCall::Make {
            profile: priority,
            oldway: lifetime,
            levels: Levels::default(),
            stamp,
        }),
        1 => Ok(LogCall::On(Call::SampleCount {
            busy: id,
            probes: record.probes(),
            stamp,
        })),
        2 => Ok(LogCall::On(Call::Offer {
            id,
            priority,
            ontime,
            lifetime,
            stamp,
        })),
        3 => Ok(LogCall::On(Call::Poll { stamp })),
        _ => Err(BAD_KIND),
    }
}

/// A make that a log says. W-213: a profile that needs a list is refused.
pub fn make(profile: u32, oldway: u32, stamp: u32) -> (State, Answer) {
    if rules::needs_list(profile) {
        return (State::default(), Answer::Refused(BAD_PROFILE));
    }
    gate::make(profile, oldway, &Levels::default(), stamp)
}

/// One step of the program: a record on a state.
pub fn step(state: State, record: &Record) -> (State, Answer) {
    match read(record) {
        Ok(LogCall::Make {
            profile,
            oldway,
            stamp,
            ..
        }) => make(profile, oldway, stamp),
        Ok(LogCall::On(call)) => gate::call(state, &call),
        Err(number) => (state, Answer::Refused(number)),
    }
}

/// The line of an answer, without its newline byte.
pub fn line(answer: &Answer) -> String {
    match answer {
        Answer::Ready => "READY".to_string(),
        Answer::Taken => "TAKEN".to_string(),
        Answer::Sent(packet) => format!("SENT {}", packet.id),
        Answer::Idle => "IDLE".to_string(),
        Answer::Closed(left) => format!("CLOSED {left}"),
        Answer::Refused(number) => format!("REFUSED {number}"),
    }
}

/// The program: a log in, one line a record out, then END or TORN. It holds
/// one record and one state at a time, however the input hands its bytes over.
pub fn replay(mut input: impl Read, mut output: impl Write) -> io::Result<()> {
    // Before a successful make there is the not live state.
    let mut state = State::default();
    let mut bytes = [0; RECORD_BYTES];
    loop {
        let got = fill(&mut input, &mut bytes)?;
        if got < RECORD_BYTES {
            let last: &[u8] = if got == 0 { b"END\n" } else { b"TORN\n" };
            output.write_all(last)?;
            return output.flush();
        }
        let (next, answer) = step(state, &Record::from_bytes(&bytes));
        state = next;
        output.write_all(line(&answer).as_bytes())?;
        output.write_all(b"\n")?;
    }
}

/// Reads until the buffer is full or the input ends; how many bytes came.
fn fill(input: &mut impl Read, bytes: &mut [u8]) -> io::Result<usize> {
    let mut got = 0;
    while got < bytes.len() {
        match input.read(&mut bytes[got..]) {
            Ok(0) => break,
            Ok(more) => got += more,
            Err(error) if error.kind() == ErrorKind::Interrupted => {}
            Err(error) => return Err(error),
        }
    }
    Ok(got)
}
