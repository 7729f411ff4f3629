//! The archives' calls as C sees them; `include/presscurlew.h` declares the same, and says more.
//!
//! The gate's calls change a [`State`] in place, and answer with a [`Reply`]. They are for hosts that store states
//! themselves, and for tests; [`crate::Gate`] keeps its state safe. A refused call leaves every byte of the state as it
//! was. A copy of a state is another gate: two that go on from one state would each admit packets for itself. A burst is
//! many offers in one call, as bytes.
//!
//! The functions [`make`], [`sample_words`], [`sample_count`], [`offer`], [`poll`], [`burst`] and [`is_sound`] hand on
//! pointers to the parts of a state, as C's do, and do nothing else.
//!
//! The writers ([`write_make`] to [`write_poll`]) write a call's record for the log, and leave the call itself to the
//! host; [`crate::Recorder`] does both.
//!
//! The rules' answers, and that of the floating update, have their refusal number first, 0 for none. A refusal's other
//! numbers are 0.
//!
//! ```
//! use presscurlew::{sys, Offer, State};
//!
//! let mut state = State::default();
//! assert_eq!(sys::make(&mut state, 2, sys::DROP_OLDEST, &sys::Levels::NONE, 0).kind, sys::READY);
//! let warning = Offer { id: 7, priority: 1, ontime: 400, lifetime: 60_000 };
//! assert_eq!(sys::offer(&mut state, warning, 1_000_000).kind, sys::TAKEN);
//! let reply = sys::poll(&mut state, 1_000_100);
//! assert_eq!((reply.kind, reply.packet.id), (sys::SENT, 7));
//!
//! // A state that was changed from outside is refused with 9, and stays as it is.
//! let mut bent = state;
//! bent.queues[0].len = 6;
//! let before = bent;
//! let reply = sys::poll(&mut bent, 1_000_200);
//! assert_eq!((reply.kind, reply.number), (sys::REFUSED, 9));
//! assert_eq!(bent, before);
//! ```

use core::mem::offset_of;
use core::ptr;

use crate::state::{Level, Packet, State};

/// What the wanted level and the level step answer.
#[repr(C)]
#[derive(Clone, Copy, Debug, PartialEq, Eq)]
pub struct LevelAnswer {
    /// 0, or the number of the refusal.
    pub refusal: u32,
    /// The level.
    pub level: u32,
}

/// What the duty update answers.
#[repr(C)]
#[derive(Clone, Copy, Debug, PartialEq, Eq)]
pub struct DutyAnswer {
    /// 0, or the number of the refusal.
    pub refusal: u32,
    /// The smoothed load after the update.
    pub smoothed: u32,
    /// The duty after the update.
    pub duty: u32,
}

/// What the wait answers.
#[repr(C)]
#[derive(Clone, Copy, Debug, PartialEq, Eq)]
pub struct WaitAnswer {
    /// 0, or the number of the refusal.
    pub refusal: u32,
    /// The wait in µs.
    pub wait: u32,
}

/// What the floating update answers.
#[repr(C)]
#[derive(Clone, Copy, Debug, PartialEq)]
pub struct FloatAnswer {
    /// 0, or 14, the number of the refusal.
    pub refusal: u32,
    /// The smoothed load after the update; +0.0 with a refusal.
    pub smoothed: f64,
    /// The duty after the update; +0.0 with a refusal.
    pub duty: f64,
}

/// The version of this package as the archive's [`presscurlew_version`] has it: a million for each major and a thousand
/// for each minor number.
pub const VERSION_NUMBER: u32 = 11_000;
/// The number of the layout that this module declares. An archive whose [`presscurlew_layout`] is another one has
/// other structs or other calls, and must not be called; every [`crate::Gate`] sees to it when it is made.
pub const LAYOUT: u32 = 2_252_050_035;

// Safe to call: these answer any numbers at all, and touch no memory of the caller's.
#[allow(unsafe_code)]
unsafe extern "C" {
    /// The archive's [`VERSION_NUMBER`].
    pub safe fn presscurlew_version() -> u32;

    /// The archive's [`LAYOUT`].
    pub safe fn presscurlew_layout() -> u32;

    /// The level that a load wants, in profile 1 or 2.
    pub safe fn presscurlew_wanted_level(profile: u32, load: u32) -> LevelAnswer;

    /// The level after one sample of this load, in profile 1 or 2.
    pub safe fn presscurlew_level_step(profile: u32, load: u32, level: u32) -> LevelAnswer;

    /// Profile 3's smoothed load and duty after a pair of samples.
    pub safe fn presscurlew_duty_update(
        duty: u32,
        smoothed: u32,
        kept: u32,
        new: u32,
    ) -> DutyAnswer;

    /// The wait after a packet of this on-time, the latest sample having this load: from the packet's end in profiles
    /// 1, 2 and 4, from its start in profile 3. Profile 5, whose waits stand in a list, is refused with 1.
    pub safe fn presscurlew_wait(
        profile: u32,
        level: u32,
        duty: u32,
        ontime: u32,
        load: u32,
    ) -> WaitAnswer;

    /// Profile 3's smoothed load and duty after a pair of samples, in f64.
    pub safe fn presscurlew_float_update(
        duty: f64,
        smoothed: f64,
        kept: f64,
        new: f64,
    ) -> FloatAnswer;
}

/// The most packets that wait in a queue.
pub const MOST_WAITING: usize = 5;

/// The most admissions that a state holds.
pub const MOST_ADMISSIONS: usize = 40;

/// The most levels that a list has above level 0.
pub const MOST_LEVELS: usize = 8;

/// Profile 5's list of levels, which a make is given; no other profile looks at it. Level 0 has threshold 0 and the wait
/// `base_wait`, and level k, from 1 to `count`, threshold `thresholds[k - 1]` and wait `waits[k - 1]`.
///
/// A good list has 1 to 8 levels above level 0, waits of 40,000 to 1,000,000 µs, which may rise or fall, and thresholds
/// that are at most 1,000,000 and rise strictly, the first above 0. What a list has past its count isn't looked at
/// when a gate is made; in a state it is 0.
#[repr(C)]
#[derive(Clone, Copy, Debug, Default, PartialEq, Eq, Hash)]
pub struct Levels {
    /// How many levels there are above level 0, 1 to 8.
    pub count: u32,
    /// The wait of level 0 in µs.
    pub base_wait: u32,
    /// The thresholds of levels 1 to `count`, as loads.
    pub thresholds: [u32; MOST_LEVELS],
    /// Their waits in µs.
    pub waits: [u32; MOST_LEVELS],
}

impl Levels {
    /// No list, for profiles 1 to 4.
    pub const NONE: Levels = Levels {
        count: 0,
        base_wait: 0,
        thresholds: [0; MOST_LEVELS],
        waits: [0; MOST_LEVELS],
    };

    /// A list of the wait of level 0 and of the levels above it. More than [`MOST_LEVELS`] have no room, and the list's
    /// count says that there were more: no gate is made of it.
    ///
    /// ```
    /// use presscurlew::sys::{self, Levels};
    /// use presscurlew::{Level, State};
    ///
    /// let list = Levels::of(60_000, &[Level { threshold: 500_000, wait: 400_000 }]);
    /// assert_eq!((list.count, list.thresholds[0], list.waits[0]), (1, 500_000, 400_000));
    /// let mut state = State::default();
    /// assert_eq!(sys::make(&mut state, 5, sys::DROP_OLDEST, &list, 0).kind, sys::READY);
    /// assert_eq!(state.levels(), list);
    ///
    /// let steps: Vec<Level> = (1..=9).map(|k| Level { threshold: 100_000 * k, wait: 100_000 }).collect();
    /// let longer = Levels::of(60_000, &steps);
    /// assert_eq!(sys::make(&mut state, 5, sys::DROP_OLDEST, &longer, 0).number, 15);
    /// ```
    pub fn of(base_wait: u32, listed: &[Level]) -> Levels {
        let mut list = Levels {
            count: u32::try_from(listed.len()).unwrap_or(u32::MAX),
            base_wait,
            ..Levels::NONE
        };
        for (place, level) in listed.iter().take(MOST_LEVELS).enumerate() {
            list.thresholds[place] = level.threshold;
            list.waits[place] = level.wait;
        }
        list
    }
}

/// The most loads that a state of profile 5 holds.
pub const MOST_LOADS: usize = 50;

// A target that aligns numbers otherwise has no archive. `examples/c/layout.out` has the place of every field.
const _: () = assert!(size_of::<State>() == 952 && size_of::<Reply>() == 40);

/// Made so, a gate drops the front packet of a full queue for a new one.
pub const DROP_OLDEST: u32 = 0;
/// Made so, a gate refuses an offer to a full queue.
pub const REFUSE_NEW: u32 = 1;

/// The kind of the answer READY: the state is fresh.
pub const READY: u32 = 0;
/// The kind of the answer TAKEN: the sample or the packet was taken.
pub const TAKEN: u32 = 1;
/// The kind of the answer SENT: the packet goes on air now.
pub const SENT: u32 = 2;
/// The kind of the answer IDLE: nothing waits.
pub const IDLE: u32 = 3;
/// The kind of the answer CLOSED: the gate is closed for so many µs.
pub const CLOSED: u32 = 4;
/// The kind of the answer REFUSED: the call changed nothing.
pub const REFUSED: u32 = 5;

/// The answer to a call. What its kind does not use is 0.
#[must_use]
#[repr(C)]
#[derive(Clone, Copy, Debug, Default, PartialEq, Eq, Hash)]
pub struct Reply {
    /// SENT: the packet.
    pub packet: Packet,
    /// CLOSED: the µs left; REFUSED: the number of the refusal.
    pub number: u64,
    /// The kind of the answer.
    pub kind: u32,
}

/// The most probes that a sample has.
pub const MOST_PROBES: u32 = 12_500;
/// The words of a sample of [`MOST_PROBES`] probes.
pub const MOST_WORDS: usize = 196;

/// The bytes of a record, of a burst or of the log.
pub const RECORD_BYTES: usize = 16;
/// The kind of a record that is an offer, its first byte.
pub const RECORD_OFFER: u8 = 2;

/// What [`presscurlew_gate_call`] is asked by: a sample by its busy count.
pub const CALL_SAMPLE: u32 = 1;
/// What [`presscurlew_gate_call`] is asked by: an offer.
pub const CALL_OFFER: u32 = 2;
/// What [`presscurlew_gate_call`] is asked by: a poll.
pub const CALL_POLL: u32 = 3;

// Any numbers and any state at all are answered. What a caller has to see to is its pointers.
#[allow(unsafe_code)]
unsafe extern "C" {
    /// Makes a gate; [`make`] is the same of a state.
    ///
    /// # Safety
    ///
    /// The first eight point to 6, 16, 64, 20, 40, 50, 8 and 8 numbers that can be written, none of which is one of the
    /// others, and the two of the list to 8 numbers each that can be read.
    pub fn presscurlew_gate_make(
        wide: *mut u64,
        narrow: *mut u32,
        queues: *mut u32,
        arrivals: *mut u64,
        air: *mut u32,
        loads: *mut u32,
        thresholds: *mut u32,
        waits: *mut u32,
        profile: u32,
        when_full: u32,
        count: u32,
        base_wait: u32,
        list_thresholds: *const u32,
        list_waits: *const u32,
        stamp: u32,
    ) -> Reply;

    /// One call on a gate; [`sample_count`], [`offer`] and [`poll`] are the same of a state. `kind` is [`CALL_SAMPLE`] (the
    /// numbers are busy and probes), [`CALL_OFFER`] (identifier, priority, on-time, lifetime) or [`CALL_POLL`]; any
    /// other is refused with 10. Numbers that a kind has no use for are not looked at.
    ///
    /// # Safety
    ///
    /// The first eight point to 6, 16, 64, 20, 40, 50, 8 and 8 numbers. The last two can be read, and the others written;
    /// none that is written is one of the others.
    pub fn presscurlew_gate_call(
        wide: *mut u64,
        narrow: *mut u32,
        queues: *mut u32,
        arrivals: *mut u64,
        air: *mut u32,
        loads: *mut u32,
        thresholds: *const u32,
        waits: *const u32,
        kind: u32,
        first: u32,
        second: u32,
        third: u32,
        fourth: u32,
        stamp: u32,
    ) -> Reply;

    /// 1 if a state is sound, else 0; [`is_sound`] is the same of a state.
    ///
    /// # Safety
    ///
    /// They point to 6, 16, 64, 20, 40, 50, 8 and 8 numbers that can be read.
    pub fn presscurlew_gate_sound(
        wide: *const u64,
        narrow: *const u32,
        queues: *const u32,
        arrivals: *const u64,
        air: *const u32,
        loads: *const u32,
        thresholds: *const u32,
        waits: *const u32,
    ) -> u32;

    /// The busy probes of a sample by words, or 4,294,967,295 if it is none; [`busy`] is the same of a slice.
    ///
    /// # Safety
    ///
    /// `words` points to `count` words that can be read; with `count` 0 it may be null.
    pub fn presscurlew_busy(probes: u32, words: *const u64, count: usize) -> u32;

    /// Many offers in one call; [`burst`] is the same of a state and slices.
    ///
    /// # Safety
    ///
    /// The first eight are as those of [`presscurlew_gate_call`]. `records` points to `bytes` bytes that can be read, and
    /// `answers` to `room` bytes that can be written, none of which is a byte of the records or of the state. With a
    /// count of 0 its pointer may be null.
    pub fn presscurlew_gate_burst(
        wide: *mut u64,
        narrow: *mut u32,
        queues: *mut u32,
        arrivals: *mut u64,
        air: *mut u32,
        loads: *mut u32,
        thresholds: *const u32,
        waits: *const u32,
        records: *const u8,
        bytes: usize,
        answers: *mut u8,
        room: usize,
    ) -> u32;

    /// Writes a make's record; [`write_make`] is the same of a slice.
    ///
    /// # Safety
    ///
    /// `log` points to `bytes` bytes that can be written; with `bytes` 0 it may be null.
    pub fn presscurlew_write_make(
        profile: u32,
        when_full: u32,
        stamp: u32,
        log: *mut u8,
        bytes: usize,
        at: usize,
    ) -> u32;

    /// Writes the record of a sample by words; [`write_sample_words`] is the same of slices.
    ///
    /// # Safety
    ///
    /// `words` points to `count` words that can be read, and `log` to `bytes` bytes that can be written, none of which
    /// is a byte of the words. With a count of 0 its pointer may be null.
    pub fn presscurlew_write_sample_words(
        probes: u32,
        words: *const u64,
        count: usize,
        stamp: u32,
        log: *mut u8,
        bytes: usize,
        at: usize,
    ) -> u32;

    /// Writes the record of a sample by its busy count; [`write_sample_count`] is the same of a slice.
    ///
    /// # Safety
    ///
    /// `log` points to `bytes` bytes that can be written; with `bytes` 0 it may be null.
    pub fn presscurlew_write_sample_count(
        busy: u32,
        probes: u32,
        stamp: u32,
        log: *mut u8,
        bytes: usize,
        at: usize,
    ) -> u32;

    /// Writes an offer's record; [`write_offer`] is the same of a slice.
    ///
    /// # Safety
    ///
    /// `log` points to `bytes` bytes that can be written; with `bytes` 0 it may be null.
    pub fn presscurlew_write_offer(
        id: u32,
        priority: u32,
        ontime: u32,
        lifetime: u32,
        stamp: u32,
        log: *mut u8,
        bytes: usize,
        at: usize,
    ) -> u32;

    /// Writes a poll's record; [`write_poll`] is the same of a slice.
    ///
    /// # Safety
    ///
    /// `log` points to `bytes` bytes that can be written; with `bytes` 0 it may be null.
    pub fn presscurlew_write_poll(stamp: u32, log: *mut u8, bytes: usize, at: usize) -> u32;
}

/// Pointers to the parts of a state, as the calls take them. Each has the whole state's provenance.
struct Parts {
    wide: *mut u64,
    narrow: *mut u32,
    queues: *mut u32,
    arrivals: *mut u64,
    air: *mut u32,
    loads: *mut u32,
    thresholds: *mut u32,
    waits: *mut u32,
}

impl Parts {
    #[inline]
    fn of(state: *mut State) -> Parts {
        Parts {
            wide: state.wrapping_byte_add(offset_of!(State, time)).cast(),
            narrow: state.wrapping_byte_add(offset_of!(State, stamp)).cast(),
            queues: state.wrapping_byte_add(offset_of!(State, queues)).cast(),
            arrivals: state.wrapping_byte_add(offset_of!(State, arrivals)).cast(),
            air: state.wrapping_byte_add(offset_of!(State, air)).cast(),
            loads: state.wrapping_byte_add(offset_of!(State, loads)).cast(),
            thresholds: state
                .wrapping_byte_add(offset_of!(State, thresholds))
                .cast(),
            waits: state.wrapping_byte_add(offset_of!(State, waits)).cast(),
        }
    }
}

/// Makes a gate: the state is overwritten, whatever stood in it. `when_full` is [`DROP_OLDEST`] or [`REFUSE_NEW`], and the
/// list is profile 5's: no other profile looks at it. A refused make leaves the all-zero state.
///
/// ```
/// use presscurlew::sys::{self, Levels};
/// use presscurlew::State;
///
/// let mut state = State::default();
/// assert_eq!(sys::make(&mut state, 1, sys::REFUSE_NEW, &Levels::NONE, 0).kind, sys::READY);
/// assert!(sys::is_sound(&state));
/// assert_eq!(sys::make(&mut state, 6, sys::REFUSE_NEW, &Levels::NONE, 0).number, 1);
/// assert_eq!(state, State::default());
/// ```
#[allow(unsafe_code)]
#[inline]
pub fn make(state: &mut State, profile: u32, when_full: u32, list: &Levels, stamp: u32) -> Reply {
    let parts = Parts::of(state);
    // SAFETY: the parts are those of one state that is lent for the call, and lie apart; the list is read alone.
    unsafe {
        presscurlew_gate_make(
            parts.wide,
            parts.narrow,
            parts.queues,
            parts.arrivals,
            parts.air,
            parts.loads,
            parts.thresholds,
            parts.waits,
            profile,
            when_full,
            list.count,
            list.base_wait,
            list.thresholds.as_ptr(),
            list.waits.as_ptr(),
            stamp,
        )
    }
}

/// One call on a state.
#[allow(unsafe_code)]
#[inline]
fn call(state: &mut State, kind: u32, numbers: [u32; 4], stamp: u32) -> Reply {
    let parts = Parts::of(state);
    let [first, second, third, fourth] = numbers;
    // SAFETY: the parts are those of one state that is lent for the call, and lie apart.
    unsafe {
        presscurlew_gate_call(
            parts.wide,
            parts.narrow,
            parts.queues,
            parts.arrivals,
            parts.air,
            parts.loads,
            parts.thresholds,
            parts.waits,
            kind,
            first,
            second,
            third,
            fourth,
            stamp,
        )
    }
}

/// The busy probes of a sample by words, 1 to [`MOST_PROBES`] probes, 64 in a word; 4,294,967,295 if it is none, which is
/// more than any sample has.
#[allow(unsafe_code)]
#[inline]
pub fn busy(probes: u32, words: &[u64]) -> u32 {
    // SAFETY: the slice has `words.len()` words, and the archive only reads them.
    unsafe { presscurlew_busy(probes, words.as_ptr(), words.len()) }
}

/// A sample by words: 1 to [`MOST_PROBES`] probes, 64 in a word.
#[inline]
pub fn sample_words(state: &mut State, probes: u32, words: &[u64], stamp: u32) -> Reply {
    sample_count(state, busy(probes, words), probes, stamp)
}

/// A sample by its busy count of so many probes.
#[inline]
pub fn sample_count(state: &mut State, busy: u32, probes: u32, stamp: u32) -> Reply {
    call(state, CALL_SAMPLE, [busy, probes, 0, 0], stamp)
}

/// A packet to send.
#[inline]
pub fn offer(state: &mut State, offer: crate::Offer, stamp: u32) -> Reply {
    let crate::Offer {
        id,
        priority,
        ontime,
        lifetime,
    } = offer;
    call(state, CALL_OFFER, [id, priority, ontime, lifetime], stamp)
}

/// Whether a packet may go, and which.
#[inline]
pub fn poll(state: &mut State, stamp: u32) -> Reply {
    call(state, CALL_POLL, [0; 4], stamp)
}

/// Whether a state is sound. Calls on any other are refused with 9.
///
/// ```
/// use presscurlew::sys::{self, Levels};
/// use presscurlew::State;
///
/// let mut state = State::default();
/// assert!(!sys::is_sound(&state));
/// assert_eq!(sys::make(&mut state, 3, sys::DROP_OLDEST, &Levels::NONE, 0).kind, sys::READY);
/// assert!(sys::is_sound(&state));
/// state.sent = 1; // and nothing was accepted
/// assert!(!sys::is_sound(&state));
/// ```
#[allow(unsafe_code)]
pub fn is_sound(state: &State) -> bool {
    let parts = Parts::of(ptr::from_ref(state).cast_mut());
    // SAFETY: the parts are those of one state, and are only read.
    let sound = unsafe {
        presscurlew_gate_sound(
            parts.wide,
            parts.narrow,
            parts.queues,
            parts.arrivals,
            parts.air,
            parts.loads,
            parts.thresholds,
            parts.waits,
        )
    };
    sound == 1
}

/// Many offers in one call: 16 bytes a record, as [`crate::Offer::record`] gives them, and one byte for each answer, 0 for
/// TAKEN or the number of the refusal. Bytes past the last answer are not written.
///
/// The number is 0, or 13 or 12 if the whole burst is refused. A record's own refusal stands in its answer byte.
///
/// ```
/// use presscurlew::{sys, Offer, State};
///
/// let mut state = State::default();
/// assert_eq!(sys::make(&mut state, 1, sys::DROP_OLDEST, &sys::Levels::NONE, 0).kind, sys::READY);
/// let mut single = state;
/// let offer = Offer { id: 7, priority: 1, ontime: 400, lifetime: 60_000 };
/// let bad = Offer { priority: 4, ..offer };
/// let records = [offer.record(100), bad.record(100)];
/// let mut answers = [255; 3];
/// assert_eq!(sys::burst(&mut state, records.as_flattened(), &mut answers), 0);
/// assert_eq!(answers, [0, 5, 255]);
/// assert_eq!(sys::offer(&mut single, offer, 100).kind, sys::TAKEN);
/// assert_eq!(state, single);
/// ```
#[allow(unsafe_code)]
#[must_use]
pub fn burst(state: &mut State, records: &[u8], answers: &mut [u8]) -> u32 {
    let parts = Parts::of(state);
    // SAFETY: the parts are those of one state that is lent for the call, and lie apart; the slices have so many bytes,
    // and one that can be written lies apart from all others.
    unsafe {
        presscurlew_gate_burst(
            parts.wide,
            parts.narrow,
            parts.queues,
            parts.arrivals,
            parts.air,
            parts.loads,
            parts.thresholds,
            parts.waits,
            records.as_ptr(),
            records.len(),
            answers.as_mut_ptr(),
            answers.len(),
        )
    }
}

/// Writes a make's record, 16 bytes at `at` of the log, and answers 0. Other bytes of the log keep what they had.
///
/// The answer is 1 if the profile is 5, whose list no record has room for, or above 255, or `when_full` is above 1,
/// else 12 if there are no 16 bytes at `at`, and then nothing is written. Any other profile up to 255 is written,
/// whatever it is worth.
///
/// ```
/// use presscurlew::sys;
///
/// let mut log = [255; 20];
/// assert_eq!(sys::write_make(3, sys::REFUSE_NEW, 0x0403_0201, &mut log, 4), 0);
/// assert_eq!(log[..4], [255; 4]);
/// assert_eq!(log[4..], [0, 3, 0, 0, 1, 0, 0, 0, 0, 0, 0, 0, 1, 2, 3, 4]);
///
/// assert_eq!(sys::write_make(256, sys::REFUSE_NEW, 0, &mut log, 5), 1);
/// assert_eq!(sys::write_make(5, sys::REFUSE_NEW, 0, &mut log, 4), 1);
/// assert_eq!(sys::write_make(255, sys::REFUSE_NEW, 0, &mut log, 5), 12);
/// ```
#[allow(unsafe_code)]
#[must_use]
pub fn write_make(profile: u32, when_full: u32, stamp: u32, log: &mut [u8], at: usize) -> u32 {
    // SAFETY: the slice has `log.len()` bytes.
    unsafe { presscurlew_write_make(profile, when_full, stamp, log.as_mut_ptr(), log.len(), at) }
}

/// Writes the record of a sample by words, which is that of its busy count of so many probes: 16 bytes at `at` of the
/// log. The answer is 0, or 4 for a bad sample, else 12 if there are no 16 bytes at `at`; a refusal writes nothing.
///
/// ```
/// use presscurlew::sys;
///
/// let mut words = [0; 196];
/// words[3] = 0b1011;
/// let [mut one, mut other] = [[255; 16]; 2];
/// assert_eq!(sys::write_sample_words(12_500, &words, 77, &mut one, 0), 0);
/// assert_eq!(sys::write_sample_count(3, 12_500, 77, &mut other, 0), 0);
/// assert_eq!(one, other);
/// assert_eq!(sys::write_sample_words(12_500, &words[1..], 77, &mut one, 0), 4);
/// ```
#[allow(unsafe_code)]
#[must_use]
pub fn write_sample_words(
    probes: u32,
    words: &[u64],
    stamp: u32,
    log: &mut [u8],
    at: usize,
) -> u32 {
    let (first, count) = (words.as_ptr(), words.len());
    let (place, bytes) = (log.as_mut_ptr(), log.len());
    // SAFETY: the slices have so many words and bytes, and one that can be written lies apart from all others.
    unsafe { presscurlew_write_sample_words(probes, first, count, stamp, place, bytes, at) }
}

/// Writes the record of a sample by its busy count, any at all, of any number of probes but 0: 16 bytes at `at` of the
/// log. The answer is 0, or 4 for 0 probes, else 12 if there are no 16 bytes at `at`; a refusal writes nothing.
///
/// Of 1,000 probes the record says 0.
///
/// ```
/// use presscurlew::sys;
///
/// let mut log = [255; 16];
/// assert_eq!(sys::write_sample_count(3, 999, 77, &mut log, 0), 0);
/// assert_eq!(log, [1, 0, 0, 0, 231, 3, 0, 0, 3, 0, 0, 0, 77, 0, 0, 0]);
/// assert_eq!(sys::write_sample_count(3, 1_000, 77, &mut log, 0), 0);
/// assert_eq!(log, [1, 0, 0, 0, 0, 0, 0, 0, 3, 0, 0, 0, 77, 0, 0, 0]);
/// assert_eq!(sys::write_sample_count(3, 0, 77, &mut log, 0), 4);
/// ```
#[allow(unsafe_code)]
#[must_use]
pub fn write_sample_count(busy: u32, probes: u32, stamp: u32, log: &mut [u8], at: usize) -> u32 {
    let (place, bytes) = (log.as_mut_ptr(), log.len());
    // SAFETY: the slice has so many bytes.
    unsafe { presscurlew_write_sample_count(busy, probes, stamp, place, bytes, at) }
}

/// Writes an offer's record: 16 bytes at `at` of the log. The answer is 0, or 5 if the priority is above 255, else 6 if
/// the on-time is above 65,535, else 12 if there are no 16 bytes at `at`; a refusal writes nothing.
///
/// [`Offer::record`](crate::Offer::record) gives the same 16 bytes, and never refuses: it is for bursts, in which each
/// offer has its place.
///
/// ```
/// use presscurlew::{sys, Offer};
///
/// let mut log = [255; 16];
/// let offer = Offer { id: 7, priority: 200, ontime: 65_535, lifetime: 0 };
/// assert_eq!(sys::write_offer(offer, 77, &mut log, 0), 0);
/// assert_eq!(log, offer.record(77));
/// assert_eq!(sys::write_offer(Offer { ontime: 65_536, ..offer }, 77, &mut log, 0), 6);
/// ```
#[allow(unsafe_code)]
#[must_use]
pub fn write_offer(offer: crate::Offer, stamp: u32, log: &mut [u8], at: usize) -> u32 {
    let crate::Offer {
        id,
        priority,
        ontime,
        lifetime,
    } = offer;
    let (pointer, bytes) = (log.as_mut_ptr(), log.len());
    // SAFETY: the slice has so many bytes.
    unsafe { presscurlew_write_offer(id, priority, ontime, lifetime, stamp, pointer, bytes, at) }
}

/// Writes a poll's record: 16 bytes at `at` of the log. The answer is 0, or 12 if there are no 16 bytes at `at`; then
/// nothing is written.
#[allow(unsafe_code)]
#[must_use]
pub fn write_poll(stamp: u32, log: &mut [u8], at: usize) -> u32 {
    // SAFETY: the slice has `log.len()` bytes.
    unsafe { presscurlew_write_poll(stamp, log.as_mut_ptr(), log.len(), at) }
}

#[cfg(test)]
#[allow(unsafe_code)]
mod tests {
    use super::*;

    /// A fresh state of profile 1.
    fn fresh() -> State {
        let mut state = State::default();
        let made = make(&mut state, 1, DROP_OLDEST, &Levels::NONE, 0);
        assert_eq!(made.kind, READY);
        state
    }

    #[test]
    fn no_words_may_be_a_null_pointer() {
        for probes in [0, 1, 64, u32::MAX] {
            // SAFETY: with a count of 0 nothing is read.
            let busy = unsafe { presscurlew_busy(probes, ptr::null(), 0) };
            assert_eq!(busy, u32::MAX);
            let mut state = fresh();
            let reply = sample_count(&mut state, busy, probes, 0);
            assert_eq!((reply.kind, reply.number), (REFUSED, 4));
            assert_eq!(state, fresh());
        }
    }

    #[test]
    fn no_records_and_no_answers_may_be_null_pointers() {
        let record = [RECORD_OFFER; RECORD_BYTES];
        for (bytes, number) in [(0, 0), (15, 13), (16, 12)] {
            let records = if bytes == 0 {
                ptr::null()
            } else {
                record.as_ptr()
            };
            let mut state = fresh();
            let parts = Parts::of(&mut state);
            // SAFETY: a null pointer has a count of 0, and the record has 16 bytes.
            let given = unsafe {
                presscurlew_gate_burst(
                    parts.wide,
                    parts.narrow,
                    parts.queues,
                    parts.arrivals,
                    parts.air,
                    parts.loads,
                    parts.thresholds,
                    parts.waits,
                    records,
                    bytes,
                    ptr::null_mut(),
                    0,
                )
            };
            assert_eq!((given, state), (number, fresh()));
        }
    }

    /// The call of a kind that there is none of does nothing.
    #[test]
    fn kinds_of_no_call_are_refused_with_10() {
        for kind in [0, 4, 5, 255, 256 + CALL_POLL, 1 << 31, u32::MAX] {
            let mut state = fresh();
            let reply = call(&mut state, kind, [1; 4], 5);
            let due = Reply {
                number: 10,
                kind: REFUSED,
                ..Reply::default()
            };
            assert_eq!((reply, state), (due, fresh()), "kind {kind}");
        }
    }

    #[test]
    fn no_log_and_no_words_may_be_null_pointers() {
        let none = ptr::null_mut();
        for at in [0, 1, usize::MAX - 15, usize::MAX] {
            // SAFETY: with counts of 0 nothing is read, and nothing written.
            let numbers = unsafe {
                [
                    presscurlew_write_make(1, 0, 0, none, 0, at),
                    presscurlew_write_sample_words(0, ptr::null(), 0, 0, none, 0, at),
                    presscurlew_write_sample_words(999, [0; 16].as_ptr(), 16, 0, none, 0, at),
                    presscurlew_write_sample_count(0, 1, 0, none, 0, at),
                    presscurlew_write_offer(0, 0, 0, 0, 0, none, 0, at),
                    presscurlew_write_poll(0, none, 0, at),
                ]
            };
            assert_eq!(numbers, [12, 4, 12, 12, 12, 12]);
        }
    }
}
