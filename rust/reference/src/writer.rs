//! W-206: from a call with its arguments to the 16 bytes of its record.
//!
//! The writer judges width, not worth: a number that the gate refuses is
//! written if its field has room for it. Lifetime, busy count, identifier and
//! stamp are as wide as their fields, and always fit; so does a probe count but
//! for 0, which the field has another meaning for (W-208).

use crate::calls::{BAD_ON_TIME, BAD_PRIORITY, BAD_PROFILE, BAD_SAMPLE, NO_ROOM};
use crate::gate::Call;
use crate::log::{LogCall, Record, RECORD_BYTES};
use crate::rules;

/// Writes the call's record at a place of the buffer; other bytes keep what
/// they had. The answer is 0, or the number of a refusal, which writes nothing:
/// those of the call first, then 12 for a place without 16 bytes.
pub fn write(call: &LogCall, buffer: &mut [u8], at: usize) -> u32 {
    let record = match record_of(call) {
        Ok(record) => record,
        Err(number) => return number,
    };
    let end = at.checked_add(RECORD_BYTES);
    match end.and_then(|end| buffer.get_mut(at..end)) {
        Some(place) => {
            place.copy_from_slice(&record.to_bytes());
            0
        }
        None => NO_ROOM,
    }
}

/// The record of a call, fields that its kind ignores zero; or the number of
/// what does not fit, the lowest first.
pub fn record_of(call: &LogCall) -> Result<Record, u32> {
    match *call {
        LogCall::Make {
            profile,
            oldway,
            stamp,
            ..
        } => make(profile, oldway, stamp),
        LogCall::On(Call::SampleWords {
            probes,
            ref words,
            stamp,
        }) => sample_words(probes, words, stamp),
        LogCall::On(Call::SampleCount {
            busy,
            probes,
            stamp,
        }) => sample_count(busy, probes, stamp),
        LogCall::On(Call::Offer {
            id,
            priority,
            ontime,
            lifetime,
            stamp,
        }) => Ok(Record {
            kind: 2,
            priority: u8::try_from(priority).map_err(|_| BAD_PRIORITY)?,
            ontime: u16::try_from(ontime).map_err(|_| BAD_ON_TIME)?,
            lifetime,
            id,
            stamp,
        }),
        LogCall::On(Call::Poll { stamp }) => Ok(Record {
            kind: 3,
            stamp,
            ..Record::default()
        }),
    }
}

/// A make: its field has room for a yes and a no alone. W-213: a list has no
/// field, so a profile that needs one is refused, and others go without.
fn make(profile: u32, oldway: u32, stamp: u32) -> Result<Record, u32> {
    if !rules::way_known(oldway) || rules::needs_list(profile) {
        return Err(BAD_PROFILE);
    }
    Ok(Record {
        kind: 0,
        priority: u8::try_from(profile).map_err(|_| BAD_PROFILE)?,
        lifetime: oldway,
        stamp,
        ..Record::default()
    })
}

/// A sample by words, by its busy count; a bad one is refused.
fn sample_words(probes: u32, words: &[u64], stamp: u32) -> Result<Record, u32> {
    if !rules::words_good(probes, words) {
        return Err(BAD_SAMPLE);
    }
    sample_count(rules::busy_count(words) as u32, probes, stamp) // at most 12,500
}

/// A sample by its busy count. W-208: 1,000 probes are written as 0, and a
/// probe count of 0 is refused.
fn sample_count(busy: u32, probes: u32, stamp: u32) -> Result<Record, u32> {
    let lifetime = match probes {
        0 => return Err(BAD_SAMPLE),
        rules::PROBES => 0,
        other => other,
    };
    Ok(Record {
        kind: 1,
        lifetime,
        id: busy,
        stamp,
        ..Record::default()
    })
}
