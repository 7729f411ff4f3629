//! A state as bytes, to be stored and read back.

use core::error::Error;
use core::fmt;
use core::iter;
use core::mem;

use crate::state::{Queue, State, Waiting};
use crate::sys;

/// What a stored state begins with.
const MARK: [u8; 4] = *b"PCST";
/// Where the check sum ends, and what it is of begins.
const SUMMED: usize = 8;
/// Where the numbers of the state begin: before them are mark, check sum, version and layout.
const HEAD: usize = 16;

impl State {
    /// The bytes that a stored state has.
    pub const BYTES: usize = HEAD + size_of::<State>();

    /// The state as bytes, which [`State::from_bytes`] reads. They are little-endian, whatever the processor is:
    ///
    /// | bytes | what |
    /// |---|---|
    /// | 0 to 3 | the letters `PCST` |
    /// | 4 to 7 | the check sum of all that is behind it, the CRC-32 of zlib |
    /// | 8 to 11 | the version that stored it, [`sys::VERSION_NUMBER`] |
    /// | 12 to 15 | its layout, [`sys::LAYOUT`] |
    /// | 16 to 967 | the numbers of the state in the order of its fields, those of a queue packet by packet |
    ///
    /// **When to store it.** After each call; or after each [`Answer::Sent`](crate::Answer::Sent) at the least, and then
    /// a restart forgets what was sampled and offered since, but nothing that was sent. In both cases before the packet
    /// goes on air: a host that restarts between the two would else go on with a state that doesn't know of it.
    ///
    /// ```
    /// use presscurlew::{Answer, Gate, Offer, Profile, State, WhenFull};
    /// # let mut on_air = Vec::new();
    /// # let mut transmit = |id| on_air.push(id);
    ///
    /// let mut gate = Gate::new(Profile::ReactiveA1, WhenFull::DropOldest, 0)?;
    /// gate.offer(Offer { id: 7, priority: 1, ontime: 400, lifetime: 60_000 }, 1_000_000)?;
    /// let answer = gate.poll(1_000_000)?;
    /// let stored: [u8; State::BYTES] = gate.state().to_bytes(); // in flash, or in a file
    /// if let Answer::Sent(packet) = answer {
    ///     transmit(packet.id);
    /// }
    /// drop(gate);
    ///
    /// // The host has restarted, and the radio's clock has run on.
    /// let mut gate = Gate::resume(State::from_bytes(&stored)?)?;
    /// gate.offer(Offer { id: 8, priority: 1, ontime: 400, lifetime: 200_000 }, 1_010_000)?;
    /// assert_eq!(gate.poll(1_010_000)?, Answer::Closed { micros: 90_400 });
    /// # assert_eq!(on_air, [7]);
    /// # Ok::<(), Box<dyn std::error::Error>>(())
    /// ```
    pub fn to_bytes(&self) -> [u8; State::BYTES] {
        let mut bytes = [0; State::BYTES];
        let (head, mut rest) = bytes.split_at_mut(HEAD);
        let mut state = *self;
        each_number(&mut state, |number| match number {
            Number::Wide(number) => put(&mut rest, &number.to_le_bytes()),
            Number::Narrow(number) => put(&mut rest, &number.to_le_bytes()),
        });
        let edition = [sys::VERSION_NUMBER, sys::LAYOUT].map(u32::to_le_bytes);
        head[SUMMED..].copy_from_slice(edition.as_flattened());
        let sum = check_sum(&bytes[SUMMED..]);
        let front = [MARK, sum.to_le_bytes()];
        bytes[..SUMMED].copy_from_slice(front.as_flattened());
        bytes
    }

    /// The state of bytes that [`State::to_bytes`] gave. Bytes that went bad, or were written in part, are refused by their
    /// check sum, and what another version stored by its number. Whether the state is sound is judged by
    /// [`Gate::resume`](crate::Gate::resume); whether it is that of the last call, nobody can see.
    ///
    /// A host that gets no gate in this way makes a fresh one, and polls it for the first time
    /// [`Gate::SILENCE`](crate::Gate::SILENCE) µs later.
    ///
    /// ```
    /// use presscurlew::{State, StateError};
    ///
    /// let mut bytes = State::default().to_bytes();
    /// assert_eq!(State::from_bytes(&bytes), Ok(State::default()));
    /// assert_eq!(State::from_bytes(&bytes[..500]), Err(StateError::BadLength { bytes: 500 }));
    /// bytes[500] ^= 1;
    /// assert_eq!(State::from_bytes(&bytes), Err(StateError::BadSum));
    /// ```
    ///
    /// # Errors
    ///
    /// The first that holds: fewer than 16 bytes ([`StateError::BadLength`]), [`StateError::BadMark`],
    /// [`StateError::OtherEdition`], [`StateError::BadLength`], [`StateError::BadSum`].
    pub fn from_bytes(bytes: &[u8]) -> Result<State, StateError> {
        let bad_length = StateError::BadLength { bytes: bytes.len() };
        if bytes.len() < HEAD {
            return Err(bad_length);
        }
        let mut rest = bytes;
        let mark: [u8; 4] = take(&mut rest);
        let [sum, version, layout] = [(); 3].map(|()| u32::from_le_bytes(take(&mut rest)));
        if mark != MARK {
            return Err(StateError::BadMark);
        }
        // Before the length, which may be another one in another edition.
        if (version, layout) != (sys::VERSION_NUMBER, sys::LAYOUT) {
            return Err(StateError::OtherEdition { version, layout });
        }
        if bytes.len() != State::BYTES {
            return Err(bad_length);
        }
        if sum != check_sum(&bytes[SUMMED..]) {
            return Err(StateError::BadSum);
        }
        let mut state = State::default();
        each_number(&mut state, |number| match number {
            Number::Wide(number) => *number = u64::from_le_bytes(take(&mut rest)),
            Number::Narrow(number) => *number = u32::from_le_bytes(take(&mut rest)),
        });
        Ok(state)
    }
}

/// Why bytes are no stored state ([`State::from_bytes`]).
#[non_exhaustive]
#[derive(Clone, Copy, Debug, PartialEq, Eq, Hash)]
pub enum StateError {
    /// They don't begin as a stored state does.
    BadMark,
    /// Another version of this package stored it, or one of another layout.
    OtherEdition {
        /// The number of that version, as [`sys::VERSION_NUMBER`].
        version: u32,
        /// The number of that layout, as [`sys::LAYOUT`].
        layout: u32,
    },
    /// A part is missing, or there is something behind.
    BadLength {
        /// How many bytes there are, in place of [`State::BYTES`].
        bytes: usize,
    },
    /// Their check sum is another one: a byte went bad, or they were written in part.
    BadSum,
}

impl fmt::Display for StateError {
    fn fmt(&self, f: &mut fmt::Formatter<'_>) -> fmt::Result {
        match *self {
            StateError::BadMark => f.write_str("the bytes are no stored state"),
            StateError::OtherEdition { version, layout } => {
                let [theirs, ours] = [version, sys::VERSION_NUMBER].map(Version);
                write!(f, "version {theirs} (layout {layout}) stored the state, ")?;
                write!(f, "and this is version {ours} (layout {})", sys::LAYOUT)
            }
            StateError::BadLength { bytes } => {
                let due = State::BYTES;
                write!(f, "a stored state has {due} bytes, and there are {bytes}")
            }
            StateError::BadSum => {
                f.write_str("the stored state is damaged: its check sum is wrong")
            }
        }
    }
}

impl Error for StateError {}

/// A version by its number.
struct Version(u32);

impl fmt::Display for Version {
    fn fmt(&self, f: &mut fmt::Formatter<'_>) -> fmt::Result {
        let Version(number) = self;
        let (major, minor, patch) = (number / 1_000_000, number / 1_000 % 1_000, number % 1_000);
        write!(f, "{major}.{minor}.{patch}")
    }
}

/// A number of a state.
enum Number<'a> {
    Wide(&'a mut u64),
    Narrow(&'a mut u32),
}

/// Hands over each number of a state, in the order of its fields. All are named, so that a new one is not forgotten.
fn each_number(state: &mut State, mut hand: impl FnMut(Number<'_>)) {
    let State {
        time,
        last_at,
        accepted,
        sent,
        expired,
        displaced,
        arrivals,
        stamp,
        last_ontime,
        admitted,
        level,
        duty,
        smoothed,
        kept,
        pairing,
        latest,
        admissions,
        load_count,
        profile,
        when_full,
        live,
        level_count,
        base_wait,
        queues,
        air,
        loads,
        thresholds,
        waits,
    } = state;
    let wide = [time, last_at, accepted, sent, expired, displaced];
    let wide = wide.into_iter().chain(arrivals.as_flattened_mut());
    wide.for_each(|number| hand(Number::Wide(number)));
    let narrow = [
        stamp,
        last_ontime,
        admitted,
        level,
        duty,
        smoothed,
        kept,
        pairing,
        latest,
        admissions,
        load_count,
        profile,
        when_full,
        live,
        level_count,
        base_wait,
    ];
    let queues = queues.iter_mut().flat_map(numbers_of);
    let rows = air.iter_mut().chain(loads).chain(thresholds).chain(waits);
    let narrow = narrow.into_iter().chain(queues).chain(rows);
    narrow.for_each(|number| hand(Number::Narrow(number)));
}

/// The numbers of a queue.
fn numbers_of(queue: &mut Queue) -> impl Iterator<Item = &mut u32> {
    let Queue { len, packets } = queue;
    let packets = packets.iter_mut().flat_map(|packet| {
        let Waiting {
            id,
            ontime,
            lifetime,
        } = packet;
        [id, ontime, lifetime]
    });
    iter::once(len).chain(packets)
}

/// Writes bytes at the front of a place, which then is what is behind them.
fn put(place: &mut &mut [u8], bytes: &[u8]) {
    let (front, rest) = mem::take(place).split_at_mut(bytes.len());
    front.copy_from_slice(bytes);
    *place = rest;
}

/// Takes the front bytes off a slice, which has them.
fn take<const N: usize>(bytes: &mut &[u8]) -> [u8; N] {
    let (front, rest) = bytes.split_first_chunk().expect("the length was judged");
    *bytes = rest;
    *front
}

/// The CRC-32 of zlib, of Ethernet and of many others.
fn check_sum(bytes: &[u8]) -> u32 {
    const POLYNOMIAL: u32 = 0xedb8_8320;
    let mut sum = u32::MAX;
    for byte in bytes {
        sum ^= u32::from(*byte);
        for _ in 0..8 {
            let odd = sum % 2 == 1;
            sum = (sum / 2) ^ if odd { POLYNOMIAL } else { 0 };
        }
    }
    !sum
}

#[cfg(test)]
mod tests {
    use super::*;
    use std::string::ToString;

    /// The sum of the nine digits is the one that the literature gives.
    #[test]
    fn the_check_sum_is_that_of_zlib() {
        assert_eq!(check_sum(b"123456789"), 0xcbf4_3926);
        assert_eq!(check_sum(b""), 0);
    }

    /// Each number is handed over once.
    #[test]
    fn each_number_of_a_state_is_handed_over() {
        let mut bytes = 0;
        each_number(&mut State::default(), |number| {
            bytes += match number {
                Number::Wide(_) => 8,
                Number::Narrow(_) => 4,
            }
        });
        assert_eq!(bytes, size_of::<State>());
    }

    #[test]
    fn another_version_is_named() {
        let error = StateError::OtherEdition {
            version: 9_012,
            layout: 17,
        };
        let ours = Version(sys::VERSION_NUMBER).to_string();
        assert_eq!(ours, env!("CARGO_PKG_VERSION"));
        let due = std::format!(
            "version 0.9.12 (layout 17) stored the state, and this is version {ours} (layout {})",
            sys::LAYOUT
        );
        assert_eq!(error.to_string(), due);
        assert_eq!(Version(1_234_567).to_string(), "1.234.567");
    }
}
