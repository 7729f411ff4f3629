//! A call on the state, and the answer to a call.

use crate::state::Packet;

/// "Refusal numbers" and W-213: profile not 1 to 5, in a log not 1 to 4. W-205: or
/// an old way that is neither yes nor no.
pub const BAD_PROFILE: u32 = 1;
/// "Refusal numbers": step of 2,147,483,648 or more.
pub const CLOCK_BACK: u32 = 2;
/// "Refusal numbers": running time would pass 10^15.
pub const CLOCK_END: u32 = 3;
/// "Refusal numbers": not a sample. W-208: a probe count outside 1 to 12,500,
/// a wrong number of words, a stray bit, or busy above probes.
pub const BAD_SAMPLE: u32 = 4;
/// "Refusal numbers": priority above 3.
pub const BAD_PRIORITY: u32 = 5;
/// "Refusal numbers": on-time not allowed by the profile.
pub const BAD_ON_TIME: u32 = 6;
/// "Refusal numbers": lifetime 0 or above 60,000,000.
pub const BAD_LIFETIME: u32 = 7;
/// "Refusal numbers": 5 unexpired packets wait in that queue at the new time.
/// W-205: given only by a gate made in the old way.
pub const QUEUE_FULL: u32 = 8;
/// "Refusal numbers": the state isn't sound.
pub const NO_STATE: u32 = 9;
/// "Refusal numbers": log record kind above 3.
pub const BAD_KIND: u32 = 10;
/// W-201: an offer when 10^15 were accepted already.
pub const SPENT: u32 = 11;
/// W-204: fewer answer bytes than records. W-206: a place without 16 bytes.
pub const NO_ROOM: u32 = 12;
/// W-204: record bytes that are not a multiple of 16.
pub const TORN_LOG: u32 = 13;
/// W-211: a load that does not compare as 0.0 to 1.0, or a duty that does not as
/// 0.0006 to 0.03.
pub const BAD_FLOAT: u32 = 14;
/// W-213: a make of profile 5 with a list of levels that breaks a rule.
pub const BAD_LIST: u32 = 15;

/// The names of the refusal numbers, from 1 on.
const NAMES: [&str; BAD_LIST as usize] = [
    "BAD-PROFILE",
    "CLOCK-BACK",
    "CLOCK-END",
    "BAD-SAMPLE",
    "BAD-PRIORITY",
    "BAD-ON-TIME",
    "BAD-LIFETIME",
    "QUEUE-FULL",
    "NO-STATE",
    "BAD-KIND",
    "SPENT",
    "NO-ROOM",
    "TORN-LOG",
    "BAD-FLOAT",
    "BAD-LIST",
];

/// The name of a refusal number, if it is one.
pub fn refusal_name(number: u32) -> Option<&'static str> {
    let at = number.checked_sub(1)?;
    NAMES.get(at as usize).copied()
}

/// A call on the state: everything but make.
#[derive(Clone, Debug, PartialEq, Eq)]
pub enum Call {
    /// A sample by words.
    SampleWords {
        /// The number of probes.
        probes: u32,
        /// The words lent; a good sample has just enough for its probes.
        words: Vec<u64>,
        /// The radio's count.
        stamp: u32,
    },
    /// A sample by busy count.
    SampleCount {
        /// The number of busy probes.
        busy: u32,
        /// The number of probes.
        probes: u32,
        /// The radio's count.
        stamp: u32,
    },
    /// An offer of one packet.
    Offer {
        /// The packet's identifier.
        id: u32,
        /// The packet's priority.
        priority: u32,
        /// The packet's on-time in µs.
        ontime: u32,
        /// The packet's lifetime in µs.
        lifetime: u32,
        /// The radio's count.
        stamp: u32,
    },
    /// A poll.
    Poll {
        /// The radio's count.
        stamp: u32,
    },
}

impl Call {
    /// The stamp of the call.
    pub fn stamp(&self) -> u32 {
        match *self {
            Call::SampleWords { stamp, .. } => stamp,
            Call::SampleCount { stamp, .. } => stamp,
            Call::Offer { stamp, .. } => stamp,
            Call::Poll { stamp } => stamp,
        }
    }
}

/// The answer to a call.
#[derive(Clone, Copy, Debug, PartialEq, Eq)]
pub enum Answer {
    /// A make gave a fresh state.
    Ready,
    /// An offer or a sample was taken.
    Taken,
    /// A poll sent this packet.
    Sent(Packet),
    /// A poll found nothing waiting.
    Idle,
    /// A poll found the gate closed for so many µs.
    Closed(u64),
    /// The call was refused with this number.
    Refused(u32),
}
