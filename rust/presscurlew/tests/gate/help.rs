//! States and calls of the archive beside those of the reference.

use std::fmt::Display;

use presscurlew::{sys, Gate, Level, Offer, WhenFull};
use reference::burst;
use reference::gate;
use reference::levels::{Levels, Loads};
use reference::log::{Record, RECORD_BYTES};
use reference::rng::Rng;
use reference::rules;
use reference::state::{sound, Admission, Counts, Ledger, Packet, Queue, State, SLOTS};
use reference::writer;

pub use reference::gate::{Answer, Call};
pub use reference::log::LogCall;

pub const PROFILES: [u32; 5] = [1, 2, 3, 4, 5];
/// Those that a log can say: no record has room for profile 5's list.
pub const LOGGED: [u32; 4] = [1, 2, 3, 4];
/// What a gate does when a queue is full.
pub const WAYS: [u32; 2] = [sys::DROP_OLDEST, sys::REFUSE_NEW];
/// The same, as `Gate` has it.
pub const WHEN_FULL: [WhenFull; 2] = [WhenFull::DropOldest, WhenFull::RefuseNew];

/// Each profile in each way.
pub fn gates() -> impl Iterator<Item = (u32, u32)> {
    let profiles = PROFILES.into_iter();
    profiles.flat_map(|profile| WAYS.map(|way| (profile, way)))
}

/// A list of levels, up to 4, for profile 5; the others look at none.
pub fn levels_of(profile: u32) -> Levels {
    let listed = [
        (300_000, 100_000),
        (400_000, 200_000),
        (500_000, 400_000),
        (650_000, 1_000_000),
    ];
    match profile {
        5 => Levels::of(50_000, &listed),
        _ => Levels::default(),
    }
}

/// A fresh state of the reference, in profile 5 with that list.
pub fn fresh(profile: u32, way: u32, stamp: u32) -> State {
    let (state, answer) = gate::make(profile, way, &levels_of(profile), stamp);
    assert_eq!(answer, Answer::Ready, "profile {profile}, way {way}");
    state
}

/// A `Gate` that is fresh, in profile 5 with that list.
pub fn gate_of(profile: u32, way: WhenFull, stamp: u32) -> Gate {
    let gate = match profile {
        5 => {
            let list = levels_of(profile);
            let level = |(threshold, wait): &(u32, u32)| Level {
                threshold: *threshold,
                wait: *wait,
            };
            let levels: Vec<Level> = list.listed().iter().map(level).collect();
            Gate::first_edition(list.wait, &levels, way, stamp)
        }
        _ => Gate::of_number(profile, way, stamp),
    };
    gate.expect("a good profile, and a good list")
}

pub const TIME_END: u64 = 1_000_000_000_000_000;
/// The most offers that a state accepts.
pub const ACCEPTED_MOST: u64 = 1_000_000_000_000_000;

/// Numbers at which a priority, an on-time, a lifetime, a busy count or a probe count turns good or bad.
pub const EDGE_PRIORITIES: [u32; 8] = [0, 1, 2, 3, 4, 5, 1 << 31, u32::MAX];
pub const EDGE_ONTIMES: [u32; 11] = [0, 1, 2, 499, 500, 501, 1_000, 1_001, 4_000, 4_001, u32::MAX];
pub const EDGE_LIFETIMES: [u32; 8] = [
    0,
    1,
    2,
    59_999_999,
    60_000_000,
    60_000_001,
    1 << 31,
    u32::MAX,
];
pub const EDGE_COUNTS: [u32; 18] = [
    0,
    1,
    299,
    300,
    399,
    400,
    499,
    500,
    600,
    601,
    650,
    651,
    680,
    999,
    1_000,
    1_001,
    1_002,
    u32::MAX,
];
pub const EDGE_PROBES: [u32; 24] = [
    0,
    1,
    2,
    3,
    63,
    64,
    65,
    127,
    128,
    129,
    960,
    961,
    999,
    1_000,
    1_001,
    1_024,
    12_479,
    12_480,
    12_481,
    12_499,
    12_500,
    12_501,
    1 << 31,
    u32::MAX,
];
/// Steps at which the clock wraps, stands still, or goes back.
pub const EDGE_STEPS: [u32; 7] = [
    0,
    1,
    (1 << 31) - 2,
    (1 << 31) - 1,
    1 << 31,
    (1 << 31) + 1,
    u32::MAX,
];

/// A packet of the reference as the archive has it.
pub fn raw_packet(packet: &Packet) -> presscurlew::Packet {
    presscurlew::Packet {
        id: packet.id,
        priority: packet.priority,
        ontime: packet.ontime,
        lifetime: packet.lifetime,
        arrival: packet.arrival,
    }
}

/// The priority that a place of queue `k` stands for. In the archive's state it isn't stored: a packet that waits is of its
/// queue's, and an unused place is all zero. Where more are said to wait than there are places nothing is read, and a
/// place that has numbers is taken for one of the queue's.
fn due_priority(queue: &Queue, k: u32, place: usize) -> u32 {
    let unread = queue.len > SLOTS as u64;
    let numbers = Packet {
        priority: 0,
        ..queue.slots[place]
    };
    let waits = place < queue.waiting().len() || (unread && numbers != Packet::default());
    if waits {
        k
    } else {
        0
    }
}

/// A queue with its arrivals. There is none for a packet of another priority, and none for a length above 32 bits.
fn raw_queue(queue: &Queue, k: u32) -> Option<(presscurlew::Queue, [u64; SLOTS])> {
    let mut raw = presscurlew::Queue {
        len: u32::try_from(queue.len).ok()?,
        ..presscurlew::Queue::default()
    };
    let mut arrivals = [0; SLOTS];
    for (place, packet) in queue.slots.iter().enumerate() {
        if packet.priority != due_priority(queue, k, place) {
            return None;
        }
        raw.packets[place] = presscurlew::Waiting {
            id: packet.id,
            ontime: packet.ontime,
            lifetime: packet.lifetime,
        };
        arrivals[place] = packet.arrival;
    }
    Some((raw, arrivals))
}

/// A queue of the archive as the reference has it.
pub fn read_queue(state: &presscurlew::State, k: usize) -> Queue {
    let raw = &state.queues[k];
    let mut queue = Queue {
        len: u64::from(raw.len),
        ..Queue::default()
    };
    for place in 0..SLOTS {
        let presscurlew::Waiting {
            id,
            ontime,
            lifetime,
        } = raw.packets[place];
        queue.slots[place] = Packet {
            id,
            priority: 0,
            ontime,
            lifetime,
            arrival: state.arrivals[k][place],
        };
    }
    for place in 0..SLOTS {
        queue.slots[place].priority = due_priority(&queue, k as u32, place);
    }
    queue
}

/// A word of the archive's ledger: made so long before the last admission, with this on-time.
pub fn word(age: u32, ontime: u32) -> u32 {
    assert!(age < 1 << 20 && ontime < 1 << 12, "{age}, {ontime}");
    age << 12 | ontime
}

/// How long before the last admission a word says that one was made.
pub fn age_of(word: u32) -> u32 {
    word >> 12
}

/// The on-time that a word says.
pub fn ontime_of(word: u32) -> u32 {
    word & 0xfff
}

/// The words of a ledger, where the last admission was made at `last`. There are none for one that was made later, or too
/// long before, or with too long an on-time. What stands past the length is no admission: its time goes for an age.
fn raw_air(ledger: &Ledger, last: u64) -> Option<[u32; sys::MOST_ADMISSIONS]> {
    let mut air = [0; sys::MOST_ADMISSIONS];
    let held = ledger.held().len();
    for (place, &Admission { at, ontime }) in ledger.slots.iter().enumerate() {
        let age = if place < held {
            last.checked_sub(at)?
        } else {
            at
        };
        if age >= 1 << 20 || ontime >= 1 << 12 {
            return None;
        }
        air[place] = word(age as u32, ontime);
    }
    Some(air)
}

/// The ledger that words say. There is none where a word says more than there was before the last admission.
fn read_ledger(state: &presscurlew::State) -> Option<Ledger> {
    let mut ledger = Ledger {
        len: u64::from(state.admissions),
        ..Ledger::default()
    };
    let held = ledger.held().len();
    for (place, &word) in state.air.iter().enumerate() {
        let age = u64::from(age_of(word));
        ledger.slots[place] = Admission {
            at: if place < held {
                state.last_at.checked_sub(age)?
            } else {
                age
            },
            ontime: ontime_of(word),
        };
    }
    Some(ledger)
}

/// A list of the reference as the archive has it.
pub fn raw_levels(levels: &Levels) -> sys::Levels {
    raw_levels_if(levels).unwrap_or_else(|| panic!("a count above 32 bits: {levels:?}"))
}

/// The same, if its count has 32 bits.
pub fn raw_levels_if(levels: &Levels) -> Option<sys::Levels> {
    Some(sys::Levels {
        count: u32::try_from(levels.len).ok()?,
        base_wait: levels.wait,
        thresholds: levels.above,
        waits: levels.waits,
    })
}

/// A state of the reference as the archive has it.
pub fn raw(state: &State) -> presscurlew::State {
    raw_if(state).unwrap_or_else(|| panic!("the archive's state has no place for it: {state:?}"))
}

/// The same, if the archive's state has a place for all of it. For a sound state it has. It has none for some ledgers, for
/// a packet in a queue of another priority, and for a length above 32 bits.
pub fn raw_if(state: &State) -> Option<presscurlew::State> {
    let (mut queues, mut arrivals) = ([presscurlew::Queue::default(); 4], [[0; SLOTS]; 4]);
    for (k, queue) in (0..).zip(&state.queues) {
        (queues[k as usize], arrivals[k as usize]) = raw_queue(queue, k)?;
    }
    let levels = raw_levels_if(&state.levels)?;
    Some(presscurlew::State {
        time: state.time,
        last_at: state.at,
        accepted: state.counts.accepted,
        sent: state.counts.sent,
        expired: state.counts.expired,
        displaced: state.counts.displaced,
        arrivals,
        stamp: state.stamp,
        last_ontime: state.ontime,
        admitted: u32::from(state.any),
        level: state.level,
        duty: state.duty,
        smoothed: state.smoothed,
        kept: state.kept,
        pairing: u32::from(state.haskept),
        latest: state.latest,
        admissions: u32::try_from(state.ledger.len).ok()?,
        load_count: u32::try_from(state.loads.len).ok()?,
        profile: state.profile,
        when_full: state.oldway,
        live: u32::from(state.live),
        level_count: levels.count,
        base_wait: levels.base_wait,
        queues,
        air: raw_air(&state.ledger, state.at)?,
        loads: state.loads.slots,
        thresholds: levels.thresholds,
        waits: levels.waits,
    })
}

fn read_flag(flag: u32) -> Option<bool> {
    match flag {
        0 => Some(false),
        1 => Some(true),
        _ => None,
    }
}

/// A state of the archive as the reference has it, which says whether it is sound. None is where a flag is above 1, or
/// a word of the ledger says more than there was before the last admission.
pub fn read_state(state: &presscurlew::State) -> Option<State> {
    Some(State {
        live: read_flag(state.live)?,
        profile: state.profile,
        oldway: state.when_full,
        stamp: state.stamp,
        time: state.time,
        level: state.level,
        duty: state.duty,
        smoothed: state.smoothed,
        kept: state.kept,
        haskept: read_flag(state.pairing)?,
        latest: state.latest,
        any: read_flag(state.admitted)?,
        at: state.last_at,
        ontime: state.last_ontime,
        ledger: read_ledger(state)?,
        loads: Loads {
            len: u64::from(state.load_count),
            slots: state.loads,
        },
        levels: Levels {
            len: u64::from(state.level_count),
            wait: state.base_wait,
            above: state.thresholds,
            waits: state.waits,
        },
        queues: [0, 1, 2, 3].map(|k| read_queue(state, k)),
        counts: Counts {
            accepted: state.accepted,
            sent: state.sent,
            expired: state.expired,
            displaced: state.displaced,
        },
    })
}

/// Counts of the reference as the archive has them.
pub fn raw_counts(counts: &Counts) -> presscurlew::Counts {
    presscurlew::Counts {
        accepted: counts.accepted,
        sent: counts.sent,
        expired: counts.expired,
        displaced: counts.displaced,
    }
}

/// An answer of the reference as the archive has it.
pub fn raw_reply(answer: &Answer) -> sys::Reply {
    let (kind, number, packet) = match answer {
        Answer::Ready => (0, 0, Packet::default()),
        Answer::Taken => (1, 0, Packet::default()),
        Answer::Sent(packet) => (2, 0, *packet),
        Answer::Idle => (3, 0, Packet::default()),
        Answer::Closed(left) => (4, *left, Packet::default()),
        Answer::Refused(number) => (5, u64::from(*number), Packet::default()),
    };
    sys::Reply {
        packet: raw_packet(&packet),
        number,
        kind,
    }
}

/// What a call leaves: the state after it, and the answer.
#[derive(Clone, Copy, Debug, PartialEq, Eq)]
pub struct Turn {
    pub state: presscurlew::State,
    pub reply: sys::Reply,
}

/// The bytes of a state. It has no gaps.
pub fn bytes_of(state: &presscurlew::State) -> [u8; size_of::<presscurlew::State>()] {
    // SAFETY: the state is numbers of 4 and 8 bytes, which fill it.
    unsafe { std::mem::transmute(*state) }
}

/// A state with a fence around it: what a call writes beside it is seen.
#[repr(C)]
struct Fenced {
    before: [u64; 8],
    state: presscurlew::State,
    after: [u64; 8],
}

const FENCE: [u64; 8] = [0xa5a5_5a5a_c3c3_3c3c; 8];

/// What is done to a state in place, as a function of it. Nothing is written beside it.
fn in_place<T>(
    state: &presscurlew::State,
    act: impl FnOnce(&mut presscurlew::State) -> T,
) -> (presscurlew::State, T) {
    let mut fenced = Fenced {
        before: FENCE,
        state: *state,
        after: FENCE,
    };
    let answer = act(&mut fenced.state);
    let Fenced {
        before,
        state,
        after,
    } = fenced;
    assert_eq!([before, after], [FENCE; 2], "written beside the state");
    (state, answer)
}

/// A make of the archive, over a state of any numbers.
pub fn archive_make(profile: u32, way: u32, list: &sys::Levels, stamp: u32) -> Turn {
    let mut littered = presscurlew::State {
        live: 1,
        profile: 77,
        air: [0xdead_beef; sys::MOST_ADMISSIONS],
        loads: [u32::MAX; sys::MOST_LOADS],
        thresholds: [5; sys::MOST_LEVELS],
        waits: [6; sys::MOST_LEVELS],
        arrivals: [[7; SLOTS]; 4],
        ..presscurlew::State::default()
    };
    littered.queues[1].packets[4].lifetime = 9;
    let lent = *list;
    let (state, reply) = in_place(&littered, |state| {
        sys::make(state, profile, way, &lent, stamp)
    });
    assert_eq!(lent, *list, "the lent list was written to");
    let (again, other) = in_place(&presscurlew::State::default(), |state| {
        sys::make(state, profile, way, list, stamp)
    });
    assert_eq!(
        (again, other),
        (state, reply),
        "a make looked at what was there"
    );
    if reply.kind == sys::REFUSED {
        assert_eq!(bytes_of(&state), [0; size_of::<presscurlew::State>()]);
    }
    Turn { state, reply }
}

/// A call on the archive. Words that it is lent stay as they are, and a refused call leaves every byte of the state so.
pub fn archive(given: presscurlew::State, call: &Call) -> Turn {
    let (state, reply) = in_place(&given, |state| match *call {
        Call::SampleWords {
            probes,
            ref words,
            stamp,
        } => {
            let lent = words.clone();
            let reply = sys::sample_words(state, probes, &lent, stamp);
            assert_eq!(lent, *words, "lent words were written to");
            reply
        }
        Call::SampleCount {
            busy,
            probes,
            stamp,
        } => sys::sample_count(state, busy, probes, stamp),
        Call::Offer {
            id,
            priority,
            ontime,
            lifetime,
            stamp,
        } => {
            let offer = Offer {
                id,
                priority,
                ontime,
                lifetime,
            };
            sys::offer(state, offer, stamp)
        }
        Call::Poll { stamp } => sys::poll(state, stamp),
    });
    if reply.kind == sys::REFUSED {
        assert!(
            bytes_of(&state) == bytes_of(&given),
            "refused {call:?} changed {given:?} to {state:?}"
        );
    }
    Turn { state, reply }
}

/// Holds one call on a state to the reference: the answer and every field of the next state. `origin` says
/// where the call comes from.
pub fn hold(state: &State, call: &Call, origin: &dyn Display) -> (State, Answer) {
    let given = raw(state);
    let (next, answer) = gate::call(*state, call);
    let turn = archive(given, call);
    let expected = Turn {
        state: raw(&next),
        reply: raw_reply(&answer),
    };
    assert_eq!(turn, expected, "{origin}: {call:?} on {state:?}");
    (next, answer)
}

/// Holds a call to the refusal 9, with the state as it was.
pub fn hold_no_state(state: &presscurlew::State, call: &Call, origin: &dyn Display) {
    let expected = Turn {
        state: *state,
        reply: raw_reply(&Answer::Refused(9)),
    };
    assert_eq!(archive(*state, call), expected, "{origin}: {call:?}");
    assert!(!sys::is_sound(state), "{origin}: judged sound");
}

/// Holds a call on any state of the archive to the reference: to its answer and next state where the state is sound, and
/// to 9 where it isn't. Whether it is.
pub fn hold_any(state: &presscurlew::State, call: &Call, origin: &dyn Display) -> bool {
    match read_state(state).filter(sound) {
        Some(read) => {
            assert_eq!(raw(&read), *state, "{origin}: read as {read:?}");
            assert!(sys::is_sound(state), "{origin}: judged not sound");
            hold(&read, call, origin);
            true
        }
        None => {
            hold_no_state(state, call, origin);
            false
        }
    }
}

/// What no answer byte of a burst is.
pub const BLANK: u8 = 0xa5;

/// A burst, what is behind its pointers included.
#[derive(Debug, PartialEq, Eq)]
pub struct Burst {
    pub state: presscurlew::State,
    pub number: u32,
    /// All answer bytes that were lent, blank at first.
    pub answers: Vec<u8>,
}

/// A burst on the archive with so many answer bytes. The records, and what lies around them and around the answers, stay
/// as they are. Where the bytes start in memory differs with their number.
pub fn archive_burst(state: presscurlew::State, records: &[u8], room: usize) -> Burst {
    let fence = 1 + (records.len() / RECORD_BYTES + room) % 17;
    let fenced = |inner: &[u8]| [&vec![BLANK; fence], inner, &vec![BLANK; fence]].concat();
    let (lent, mut answers) = (fenced(records), fenced(&vec![BLANK; room]));
    let (next, number) = in_place(&state, |state| {
        sys::burst(
            state,
            &lent[fence..fence + records.len()],
            &mut answers[fence..fence + room],
        )
    });
    assert_eq!(lent, fenced(records), "the records were written to");
    let inner = answers[fence..fence + room].to_vec();
    assert_eq!(answers, fenced(&inner), "written beside the answers");
    if number != 0 {
        let kept = bytes_of(&next) == bytes_of(&state);
        assert!(kept, "a refused burst changed {state:?}");
    }
    Burst {
        state: next,
        number,
        answers: inner,
    }
}

/// The same by the archive's single calls, one record after the other: what a burst has to equal, if it is not refused.
pub fn archive_singles(state: presscurlew::State, records: &[u8], room: usize) -> Burst {
    let (mut state, mut answers) = (state, vec![BLANK; room]);
    for (bytes, answer) in records.chunks_exact(RECORD_BYTES).zip(&mut answers) {
        let record = Record::from_bytes(bytes.try_into().expect("16 bytes"));
        if record.kind != sys::RECORD_OFFER {
            *answer = 10;
            continue;
        }
        let turn = archive(state, &offer_of(&record));
        state = turn.state;
        *answer = match turn.reply.kind {
            sys::TAKEN => 0,
            _ => turn.reply.number as u8,
        };
    }
    let number = 0;
    Burst {
        state,
        number,
        answers,
    }
}

/// The single call of a record of kind 2.
pub fn offer_of(record: &Record) -> Call {
    Call::Offer {
        id: record.id,
        priority: u32::from(record.priority),
        ontime: u32::from(record.ontime),
        lifetime: record.lifetime,
        stamp: record.stamp,
    }
}

/// Holds a burst to the one that is due. Of the answers, the first that differs is named.
fn hold_same(turn: &Burst, due: &Burst, state: &State, origin: &dyn Display) {
    let pairs = turn.answers.iter().zip(&due.answers).enumerate();
    let differs = pairs.into_iter().find(|(_, (given, due))| given != due);
    assert_eq!(differs, None, "{origin}: an answer on {state:?}");
    assert_eq!(turn.number, due.number, "{origin}: the number on {state:?}");
    assert_eq!(turn, due, "{origin}: the next state on {state:?}");
}

/// Holds a burst on a state to the reference: the number, every answer byte that was lent and every field of the next
/// state. One that is not refused is held to the single calls of the archive as well.
pub fn hold_burst(
    state: &State,
    records: &[u8],
    room: usize,
    origin: &dyn Display,
) -> (State, Vec<u8>) {
    let given = raw(state);
    let mut answers = vec![BLANK; room];
    let (next, number) = burst::burst(*state, records, &mut answers);
    let expected = Burst {
        state: raw(&next),
        number,
        answers,
    };
    let turn = archive_burst(given, records, room);
    hold_same(&turn, &expected, state, origin);
    if number == 0 {
        let singles = archive_singles(given, records, room);
        hold_same(&turn, &singles, state, origin);
    }
    (next, turn.answers)
}

/// Holds a burst on a state that is not sound to 9 at each record of kind 2, with the state as it was.
pub fn hold_no_state_burst(state: &presscurlew::State, stamp: u32, origin: &dyn Display) {
    let kinds = [2, 3, 0, 2, 1, 255, 2];
    let records = kinds.map(|kind| Record {
        kind,
        priority: 1,
        ontime: 1,
        lifetime: 1,
        id: 9,
        stamp,
    });
    let bytes: Vec<u8> = records.iter().flat_map(Record::to_bytes).collect();
    let expected = Burst {
        state: *state,
        number: 0,
        answers: vec![9, 10, 10, 9, 10, 10, 9, BLANK],
    };
    assert_eq!(archive_burst(*state, &bytes, 8), expected, "{origin}");
}

/// A call written by the archive. Words that it is lent stay as they are.
pub fn archive_write(call: &LogCall, log: &mut [u8], at: usize) -> u32 {
    match *call {
        LogCall::Make {
            profile,
            oldway,
            stamp,
            ..
        } => sys::write_make(profile, oldway, stamp, log, at),
        LogCall::On(Call::SampleWords {
            probes,
            ref words,
            stamp,
        }) => {
            let lent = words.clone();
            let number = sys::write_sample_words(probes, &lent, stamp, log, at);
            assert_eq!(lent, *words, "lent words were written to");
            number
        }
        LogCall::On(Call::SampleCount {
            busy,
            probes,
            stamp,
        }) => sys::write_sample_count(busy, probes, stamp, log, at),
        LogCall::On(Call::Offer {
            id,
            priority,
            ontime,
            lifetime,
            stamp,
        }) => {
            let offer = Offer {
                id,
                priority,
                ontime,
                lifetime,
            };
            sys::write_offer(offer, stamp, log, at)
        }
        LogCall::On(Call::Poll { stamp }) => sys::write_poll(stamp, log, at),
    }
}

/// Holds a call that is written at a place of a log of so many bytes to the reference: the number, every byte of the
/// log and those around it. Where the log starts in memory differs with its length.
pub fn hold_write(call: &LogCall, room: usize, at: usize, origin: &dyn Display) -> u32 {
    let fence = 16 + room % 17;
    // No byte is as its neighbours, nor as most that are written.
    let mut log: Vec<u8> = (0..fence + room + fence)
        .map(|k| (k * 37 + 11) as u8 | 0x80)
        .collect();
    let mut expected = log.clone();
    let due = writer::write(call, &mut expected[fence..fence + room], at);
    let number = archive_write(call, &mut log[fence..fence + room], at);
    assert_eq!(number, due, "{origin}: {call:?} at {at} of {room} bytes");
    assert_eq!(log, expected, "{origin}: {call:?} at {at} of {room} bytes");
    number
}

/// Just enough words for so many probes, of which the first `busy` are busy.
pub fn first_busy(probes: u32, busy: u32) -> Vec<u64> {
    let mut words = vec![0; probes.div_ceil(64) as usize];
    for k in 0..busy as usize {
        words[k / 64] |= 1 << (k % 64);
    }
    words
}

/// Every kind of call at one stamp, with good and bad numbers.
pub fn calls_at(profile: u32, stamp: u32) -> Vec<Call> {
    let ontime = rules::on_time_max(profile).unwrap_or(1);
    let mut calls = vec![
        Call::Poll { stamp },
        Call::SampleWords {
            probes: 1_000,
            words: first_busy(1_000, 700),
            stamp,
        },
        Call::SampleWords {
            probes: 1_000,
            words: vec![0; 15],
            stamp,
        },
    ];
    for (busy, probes) in [(550, 1_000), (1_001, 1_000), (7_751, 12_500), (0, 0)] {
        calls.push(Call::SampleCount {
            busy,
            probes,
            stamp,
        });
    }
    for priority in 0..5 {
        calls.push(Call::Offer {
            id: 9,
            priority,
            ontime,
            lifetime: 60_000_000,
            stamp,
        });
    }
    calls.push(Call::Offer {
        id: 9,
        priority: 0,
        ontime: ontime + 1,
        lifetime: 1,
        stamp,
    });
    calls.push(Call::Offer {
        id: 9,
        priority: 3,
        ontime: 1,
        lifetime: 0,
        stamp,
    });
    calls
}

/// A number: now and then one of the edges, else any up to `most`.
pub fn edge_or(rng: &mut Rng, edges: &[u32], most: u32) -> u32 {
    if rng.one_in(3) {
        rng.pick(edges)
    } else {
        rng.below(u64::from(most) + 1) as u32
    }
}

/// A probe count: mostly a good one, few or 1,000, now and then up to the most.
fn random_probes(rng: &mut Rng) -> u32 {
    match rng.below(16) {
        0 => rng.pick(&EDGE_PROBES),
        1 => 1 + rng.below(12_500) as u32,
        2..=8 => 1_000,
        _ => 1 + rng.below(200) as u32,
    }
}

/// A sample by count, busy and probes: mostly a good one.
pub fn random_count(rng: &mut Rng) -> (u32, u32) {
    let probes = random_probes(rng);
    let edges = [0, 1, probes, probes.wrapping_add(1), u32::MAX];
    let busy = match rng.below(8) {
        0 => rng.pick(&edges),
        1 | 2 => rng.pick(&EDGE_COUNTS),
        _ => rng.below(u64::from(probes) + 1) as u32,
    };
    (busy, probes)
}

/// A sample by words, with its probe count: mostly a good one of any density, else of a bad length or with stray bits.
pub fn random_words(rng: &mut Rng) -> (u32, Vec<u64>) {
    let probes = random_probes(rng);
    let enough = probes.div_ceil(64).min(300) as usize;
    let length = match rng.below(24) {
        0 => rng.below(40) as usize,
        1 => enough + 1,
        2 => enough.saturating_sub(1),
        _ => enough,
    };
    let density = rng.below(5);
    let mut words: Vec<u64> = (0..length).map(|_| random_word(rng, density)).collect();
    if let (Some(last), false, 1..) = (words.last_mut(), rng.one_in(12), probes % 64) {
        *last &= (1 << (probes % 64)) - 1;
    }
    (probes, words)
}

fn random_word(rng: &mut Rng, density: u64) -> u64 {
    match density {
        0 => rng.next_u64() & rng.next_u64(),
        1 => rng.next_u64() | rng.next_u64(),
        2 => 0,
        3 => u64::MAX,
        _ => rng.next_u64(),
    }
}
