//! The plain engine's calls as C sees them: the gate with one list of packets in order of arrival in place of four
//! queues. `include/presscurlew_plain.h` declares the same.
//!
//! It is for tests and for the assessor; a host keeps to the package `presscurlew`, which does not link this archive. That
//! both give the same answers is proved; the tests of `presscurlew` run the two archives side by side.
//!
//! ```
//! use plainhost::Levels;
//! use presscurlew::{sys, Offer, State};
//!
//! let mut gate = State::default();
//! assert_eq!(sys::make(&mut gate, 2, sys::DROP_OLDEST, &sys::Levels::NONE, 0).kind, sys::READY);
//! let mut plain = plainhost::presscurlew_plain_make(2, sys::DROP_OLDEST, Levels::NONE, 0);
//! for (id, priority) in [(7, 2), (8, 1), (9, 2)] {
//!     let reply = sys::offer(&mut gate, Offer { id, priority, ontime: 400, lifetime: 60_000 }, 100);
//!     plain = plainhost::presscurlew_plain_offer(plain.state, id, priority, 400, 60_000, 100);
//!     assert_eq!(plain.reply, reply);
//! }
//! let waiting = plain.state.line.packets[..3].iter().map(|packet| packet.id);
//! assert_eq!(waiting.collect::<Vec<_>>(), [7, 8, 9]);
//!
//! let reply = sys::poll(&mut gate, 200);
//! plain = plainhost::presscurlew_plain_poll(plain.state, 200);
//! assert_eq!((plain.reply.kind, plain.reply.packet.id), (sys::SENT, 8));
//! assert_eq!(plain.reply, reply);
//! assert_eq!(plain.state.parted(), Some(gate));
//! ```

#![deny(missing_docs)]
#![deny(unsafe_code)]

use presscurlew::sys::{self, Reply, MOST_ADMISSIONS, MOST_LEVELS, MOST_LOADS, MOST_WAITING};
use presscurlew::{Packet, Queue, Waiting};

/// The most packets that wait.
pub const PLACES: usize = 20;

/// The packets that wait, of all priorities.
#[repr(C)]
#[derive(Clone, Copy, Debug, Default, PartialEq, Eq, Hash)]
pub struct Line {
    /// How many wait, 0 to 20; the archive's lengths have 64 bits.
    pub len: u64,
    /// The first `len` wait, in order of arrival; the others are all zero.
    pub packets: [Packet; PLACES],
}

impl Line {
    /// A line of these packets, in this order; packets past the twentieth have no place and are left out.
    pub fn of(packets: &[Packet]) -> Line {
        let mut line = Line::default();
        for (place, packet) in line.packets.iter_mut().zip(packets) {
            *place = *packet;
            line.len += 1;
        }
        line
    }

    /// The packets that wait. A length above 20 is judged on the length itself, and nothing is read with it.
    pub fn waiting(&self) -> &[Packet] {
        match usize::try_from(self.len) {
            Ok(len) if len <= PLACES => &self.packets[..len],
            _ => &[],
        }
    }

    /// Whether the line is one in order of arrival, of known priorities, five to each at most, with nothing in unused
    /// places. Those are the rules of soundness that are the list's own: all others can be read on its parts.
    pub fn is_in_order(&self) -> bool {
        let waiting = self.waiting();
        let mut unused = self.packets[waiting.len()..].iter();
        self.len == waiting.len() as u64
            && waiting.iter().all(|packet| packet.priority < 4)
            && (0..4).all(|priority| of_priority(waiting, priority).len() <= 5)
            && waiting
                .windows(2)
                .all(|two| two[0].arrival <= two[1].arrival)
            && unused.all(|packet| *packet == Packet::default())
    }

    /// The queues that are the line's parts, and the arrivals of what waits in them, if it is in order.
    pub fn parted(&self) -> Option<([Queue; 4], [[u64; MOST_WAITING]; 4])> {
        if !self.is_in_order() {
            return None;
        }
        let (mut queues, mut arrivals) = ([Queue::default(); 4], [[0; MOST_WAITING]; 4]);
        for packet in self.waiting() {
            let priority = packet.priority as usize;
            let queue = &mut queues[priority];
            let place = queue.len as usize;
            queue.packets[place] = Waiting {
                id: packet.id,
                ontime: packet.ontime,
                lifetime: packet.lifetime,
            };
            queue.len += 1;
            arrivals[priority][place] = packet.arrival;
        }
        Some((queues, arrivals))
    }
}

/// The packets of a priority, in their order.
fn of_priority(packets: &[Packet], priority: u32) -> Vec<Packet> {
    let packets = packets.iter().copied();
    packets
        .filter(|packet| packet.priority == priority)
        .collect()
}

/// The running time, and the stamp that it was reached with.
#[repr(C)]
#[derive(Clone, Copy, Debug, Default, PartialEq, Eq, Hash)]
pub struct Clock {
    /// The running time in µs.
    pub time: u64,
    /// The stamp of the last call that was not refused.
    pub stamp: u32,
}

/// The admissions of the last second, in the words of [`presscurlew::State::air`].
#[repr(C)]
#[derive(Clone, Copy, Debug, PartialEq, Eq, Hash)]
pub struct Ledger {
    /// How many it holds, 0 to 40; the archive's lengths have 64 bits.
    pub len: u64,
    /// The first `len` are their words, the oldest first; the others are 0.
    pub slots: [u32; MOST_ADMISSIONS],
}

impl Default for Ledger {
    /// A ledger without admissions.
    fn default() -> Ledger {
        Ledger {
            len: 0,
            slots: [0; MOST_ADMISSIONS],
        }
    }
}

/// The loads of the last samples that were taken, in profile 5; in the state of any other profile there are none.
#[repr(C)]
#[derive(Clone, Copy, Debug, PartialEq, Eq, Hash)]
pub struct Loads {
    /// How many it holds, 0 to 50.
    pub len: u64,
    /// The first `len`, the oldest first, in parts per 1,000,000; the others are 0.
    pub slots: [u32; MOST_LOADS],
}

impl Default for Loads {
    /// No loads.
    fn default() -> Loads {
        Loads {
            len: 0,
            slots: [0; MOST_LOADS],
        }
    }
}

/// Profile 5's list of levels; in the state of any other profile it is [`Levels::NONE`]. [`sys::Levels`] says what a good
/// list is.
#[repr(C)]
#[derive(Clone, Copy, Debug, Default, PartialEq, Eq, Hash)]
pub struct Levels {
    /// How many levels there are above level 0, 1 to 8.
    pub len: u64,
    /// The wait of level 0 in µs.
    pub base_wait: u32,
    /// The thresholds of levels 1 to `len`, as loads.
    pub thresholds: [u32; MOST_LEVELS],
    /// Their waits in µs.
    pub waits: [u32; MOST_LEVELS],
}

impl Levels {
    /// No list, for profiles 1 to 4.
    pub const NONE: Levels = Levels {
        len: 0,
        base_wait: 0,
        thresholds: [0; MOST_LEVELS],
        waits: [0; MOST_LEVELS],
    };
}

impl From<sys::Levels> for Levels {
    fn from(list: sys::Levels) -> Levels {
        Levels {
            len: u64::from(list.count),
            base_wait: list.base_wait,
            thresholds: list.thresholds,
            waits: list.waits,
        }
    }
}

/// The last admission, however long ago. Before the first one all fields are 0.
#[repr(C)]
#[derive(Clone, Copy, Debug, Default, PartialEq, Eq, Hash)]
pub struct Last {
    /// The running time at which it was made.
    pub at: u64,
    /// The on-time of its packet.
    pub ontime: u32,
    /// 1 once something was admitted, else 0.
    pub admitted: u32,
}

/// What was counted, as [`presscurlew::Counts`].
#[repr(C)]
#[derive(Clone, Copy, Debug, Default, PartialEq, Eq, Hash)]
pub struct Counts {
    /// Offers accepted, at most 10^15.
    pub accepted: u64,
    /// Packets sent.
    pub sent: u64,
    /// Packets removed as expired.
    pub expired: u64,
    /// Packets dropped for a newer one of their priority, where 5 waited.
    pub displaced: u64,
}

/// What samples steer. The profile, which says how, stands beside it in the state.
#[repr(C)]
#[derive(Clone, Copy, Debug, Default, PartialEq, Eq, Hash)]
pub struct Tuning {
    /// The level, 0 to 4; in profile 5 one of its list, 0 to 8.
    pub level: u32,
    /// The duty, in parts per 1,000,000,000.
    pub duty: u32,
    /// The smoothed load, in parts per 1,000,000.
    pub smoothed: u32,
    /// The load of the sample that is kept, 0 if none is.
    pub kept: u32,
    /// 1 while a sample is kept, else 0.
    pub pairing: u32,
    /// In profile 4 the load of the latest sample, in parts per 1,000,000; 0 before any, and in the other profiles.
    pub latest: u32,
}

/// The state of one engine. Any values at all may stand in it: the calls refuse a state that is not sound.
#[repr(C)]
#[derive(Clone, Copy, Debug, Default, PartialEq, Eq, Hash)]
pub struct State {
    /// The packets that wait.
    pub line: Line,
    /// The admissions of the last second.
    pub ledger: Ledger,
    /// Profile 5's last loads.
    pub loads: Loads,
    /// Profile 5's list of levels; no call changes it.
    pub levels: Levels,
    /// The running time.
    pub clock: Clock,
    /// The last admission.
    pub last: Last,
    /// What was counted.
    pub counts: Counts,
    /// What samples steer.
    pub tuning: Tuning,
    /// 1 to 5; no call changes it.
    pub profile: u32,
    /// [`sys::DROP_OLDEST`] or [`sys::REFUSE_NEW`]; no call changes it.
    pub when_full: u32,
    /// 1; 0 in the all-zero state that a refused make hands back.
    pub live: u32,
}

impl State {
    /// The gate's state of the same meaning: the line is parted by priority, all else is as it is. There is none where
    /// the line is not in order, or where a length has more than the 32 bits that the gate's lengths have.
    pub fn parted(&self) -> Option<presscurlew::State> {
        let (queues, arrivals) = self.line.parted()?;
        Some(presscurlew::State {
            time: self.clock.time,
            last_at: self.last.at,
            accepted: self.counts.accepted,
            sent: self.counts.sent,
            expired: self.counts.expired,
            displaced: self.counts.displaced,
            arrivals,
            stamp: self.clock.stamp,
            last_ontime: self.last.ontime,
            admitted: self.last.admitted,
            level: self.tuning.level,
            duty: self.tuning.duty,
            smoothed: self.tuning.smoothed,
            kept: self.tuning.kept,
            pairing: self.tuning.pairing,
            latest: self.tuning.latest,
            admissions: u32::try_from(self.ledger.len).ok()?,
            load_count: u32::try_from(self.loads.len).ok()?,
            profile: self.profile,
            when_full: self.when_full,
            live: self.live,
            level_count: u32::try_from(self.levels.len).ok()?,
            base_wait: self.levels.base_wait,
            queues,
            air: self.ledger.slots,
            loads: self.loads.slots,
            thresholds: self.levels.thresholds,
            waits: self.levels.waits,
        })
    }

    /// The gate's state with a line in place of its queues.
    pub fn with_line(gate: &presscurlew::State, line: Line) -> State {
        State {
            line,
            ledger: Ledger {
                len: u64::from(gate.admissions),
                slots: gate.air,
            },
            loads: Loads {
                len: u64::from(gate.load_count),
                slots: gate.loads,
            },
            levels: gate.levels().into(),
            clock: Clock {
                time: gate.time,
                stamp: gate.stamp,
            },
            last: Last {
                at: gate.last_at,
                ontime: gate.last_ontime,
                admitted: gate.admitted,
            },
            counts: Counts {
                accepted: gate.accepted,
                sent: gate.sent,
                expired: gate.expired,
                displaced: gate.displaced,
            },
            tuning: Tuning {
                level: gate.level,
                duty: gate.duty,
                smoothed: gate.smoothed,
                kept: gate.kept,
                pairing: gate.pairing,
                latest: gate.latest,
            },
            profile: gate.profile,
            when_full: gate.when_full,
            live: gate.live,
        }
    }
}

/// What a call hands back.
#[must_use]
#[repr(C)]
#[derive(Clone, Copy, Debug, Default, PartialEq, Eq, Hash)]
pub struct Turn {
    /// The next state.
    pub state: State,
    /// The answer.
    pub reply: Reply,
}

/// What a burst hands back.
#[must_use]
#[repr(C)]
#[derive(Clone, Copy, Debug, Default, PartialEq, Eq, Hash)]
pub struct BurstTurn {
    /// The next state.
    pub state: State,
    /// 0, or 13 or 12 if the whole burst was refused. A record's own refusal stands in its answer byte.
    pub number: u32,
}

/// The number of the layout that this package declares; an archive of another one must not be called.
pub const LAYOUT: u32 = 3_524_407_202;

// Safe to call, but for those that take pointers: any numbers and any state at all are answered.
#[allow(unsafe_code)]
unsafe extern "C" {
    /// The archive's [`LAYOUT`].
    pub safe fn presscurlew_plain_layout() -> u32;

    /// A fresh state; `when_full` is [`sys::DROP_OLDEST`] or [`sys::REFUSE_NEW`], and the list is profile 5's.
    pub safe fn presscurlew_plain_make(
        profile: u32,
        when_full: u32,
        list: Levels,
        stamp: u32,
    ) -> Turn;

    /// A sample by words; [`sample_words`] is the same of a slice.
    ///
    /// # Safety
    ///
    /// `words` points to `count` words that can be read; with `count` 0 it may be null.
    pub fn presscurlew_plain_sample_words(
        state: State,
        probes: u32,
        words: *const u64,
        count: usize,
        stamp: u32,
    ) -> Turn;

    /// A sample by its busy count of so many probes.
    pub safe fn presscurlew_plain_sample_count(
        state: State,
        busy: u32,
        probes: u32,
        stamp: u32,
    ) -> Turn;

    /// A packet to send.
    pub safe fn presscurlew_plain_offer(
        state: State,
        id: u32,
        priority: u32,
        ontime: u32,
        lifetime: u32,
        stamp: u32,
    ) -> Turn;

    /// Whether a packet may go, and which.
    pub safe fn presscurlew_plain_poll(state: State, stamp: u32) -> Turn;

    /// Many offers in one call; [`burst`] is the same of slices.
    ///
    /// # Safety
    ///
    /// `records` points to `bytes` bytes that can be read, and `answers` to `room` bytes that can be written, none of
    /// which is a byte of the records. With a count of 0 its pointer may be null.
    pub fn presscurlew_plain_burst(
        state: State,
        records: *const u8,
        bytes: usize,
        answers: *mut u8,
        room: usize,
    ) -> BurstTurn;
}

/// A sample by words, of a slice: 1 to [`sys::MOST_PROBES`] probes, 64 in a word.
#[allow(unsafe_code)]
pub fn sample_words(state: State, probes: u32, words: &[u64], stamp: u32) -> Turn {
    // SAFETY: the slice has `words.len()` words, and the archive only reads them.
    unsafe { presscurlew_plain_sample_words(state, probes, words.as_ptr(), words.len(), stamp) }
}

/// Many offers in one call, of slices, as [`sys::burst`].
#[allow(unsafe_code)]
pub fn burst(state: State, records: &[u8], answers: &mut [u8]) -> BurstTurn {
    let (bytes, room) = (records.len(), answers.len());
    // SAFETY: the slices have so many bytes, and one that can be written lies apart from all others.
    unsafe { presscurlew_plain_burst(state, records.as_ptr(), bytes, answers.as_mut_ptr(), room) }
}

#[cfg(test)]
#[allow(unsafe_code)]
mod tests {
    use super::*;
    use std::ptr;

    #[test]
    fn no_words_no_records_and_no_answers_may_be_null_pointers() {
        let fresh = presscurlew_plain_make(1, sys::DROP_OLDEST, Levels::NONE, 0).state;
        for probes in [0, 1, 64, u32::MAX] {
            // SAFETY: with a count of 0 nothing is read.
            let turn = unsafe { presscurlew_plain_sample_words(fresh, probes, ptr::null(), 0, 0) };
            assert_eq!((turn.reply.kind, turn.reply.number), (sys::REFUSED, 4));
            assert_eq!(turn.state, fresh);
        }
        let record = [sys::RECORD_OFFER; sys::RECORD_BYTES];
        for (bytes, number) in [(0, 0), (15, 13), (16, 12)] {
            let records = match bytes {
                0 => ptr::null(),
                _ => record.as_ptr(),
            };
            // SAFETY: a null pointer has a count of 0, and the record has 16 bytes.
            let turn =
                unsafe { presscurlew_plain_burst(fresh, records, bytes, ptr::null_mut(), 0) };
            let state = fresh;
            assert_eq!(turn, BurstTurn { state, number });
        }
    }
}
