//! The plain engine's archive beside the gate's. What is due of a call on the plain engine is the gate's answer on the
//! parts of its list; where the list has no parts, it is 9.

use std::fmt::Display;

use crate::help::{
    archive, archive_burst, archive_make, levels_of, raw, raw_levels_if, raw_packet, raw_reply,
    read_queue, Answer, Burst, Call, BLANK,
};
use plainhost::{Line, State, Turn, PLACES};
use presscurlew::{sys, Packet};
use reference::gate;
use reference::levels::Levels;
use reference::log::{Record, RECORD_BYTES};
use reference::rng::Rng;

/// A call on the plain engine. Words that it is lent stay as they are.
pub fn plain(state: State, call: &Call) -> Turn {
    match *call {
        Call::SampleWords {
            probes,
            ref words,
            stamp,
        } => {
            let lent = words.clone();
            let turn = plainhost::sample_words(state, probes, &lent, stamp);
            assert_eq!(lent, *words, "lent words were written to");
            turn
        }
        Call::SampleCount {
            busy,
            probes,
            stamp,
        } => plainhost::presscurlew_plain_sample_count(state, busy, probes, stamp),
        Call::Offer {
            id,
            priority,
            ontime,
            lifetime,
            stamp,
        } => plainhost::presscurlew_plain_offer(state, id, priority, ontime, lifetime, stamp),
        Call::Poll { stamp } => plainhost::presscurlew_plain_poll(state, stamp),
    }
}

/// A list of the reference as the plain engine has it.
fn plain_levels(list: &Levels) -> plainhost::Levels {
    plainhost::Levels {
        len: list.len,
        base_wait: list.wait,
        thresholds: list.above,
        waits: list.waits,
    }
}

/// Holds a make of the plain engine to the gate's.
pub fn made(profile: u32, way: u32, stamp: u32) -> State {
    made_with(profile, way, &levels_of(profile), stamp)
}

/// The same with a list of levels, good or bad.
pub fn made_with(profile: u32, way: u32, list: &Levels, stamp: u32) -> State {
    let turn = plainhost::presscurlew_plain_make(profile, way, plain_levels(list), stamp);
    let origin = format!("make({profile}, {way}, {list:?}, {stamp})");
    // A count above 32 bits has no place in the gate's list: what is due is what the reference says.
    let (state, reply) = match raw_levels_if(list) {
        Some(list) => {
            let gate = archive_make(profile, way, &list, stamp);
            (gate.state, gate.reply)
        }
        None => {
            let (state, answer) = gate::make(profile, way, list, stamp);
            (raw(&state), raw_reply(&answer))
        }
    };
    assert_eq!(turn.reply, reply, "{origin}");
    assert_eq!(turn.state.parted(), Some(state), "{origin}");
    turn.state
}

/// Holds a call on any state of the plain engine, sound or not: every field of the answer and of the next state.
pub fn hold_alike(state: &State, call: &Call, origin: &dyn Display) -> Turn {
    let Some(parts) = state.parted() else {
        return hold_no_state(state, call, origin);
    };
    let (turn, gate) = (plain(*state, call), archive(parts, call));
    assert_eq!(turn.reply, gate.reply, "{origin}: {call:?} on {state:?}");
    if turn.reply.kind == sys::REFUSED {
        assert_eq!(turn.state, *state, "{origin}: refused {call:?} changed it");
        return turn;
    }
    assert_eq!(
        turn.state.parted(),
        Some(gate.state),
        "{origin}: {call:?} on {state:?}"
    );
    let joined = usize::from(matches!(call, Call::Offer { .. }));
    hold_order(&state.line, &turn.state.line, joined, origin);
    turn
}

/// Packets that came at the same time stay in the order of coming: but for the `joined` last ones, what waits after a
/// call waited before it, in the same order.
fn hold_order(before: &Line, after: &Line, joined: usize, origin: &dyn Display) {
    let mut before = before.waiting().iter();
    let stayed = after.waiting().len() - joined;
    for packet in &after.waiting()[..stayed] {
        let found = before.any(|earlier| earlier == packet);
        assert!(found, "{origin}: {packet:?} is out of order in {after:?}");
    }
}

/// Holds a call to the refusal 9, with the state as it was.
pub fn hold_no_state(state: &State, call: &Call, origin: &dyn Display) -> Turn {
    let (turn, reply) = (plain(*state, call), raw_reply(&Answer::Refused(9)));
    let due = Turn {
        state: *state,
        reply,
    };
    assert_eq!(turn, due, "{origin}: {call:?}");
    turn
}

/// A burst on the plain engine: the next state, the number and all answer bytes that were lent. The records, and what
/// lies around them and around the answers, stay as they are.
pub fn plain_burst(state: State, records: &[u8], room: usize) -> (State, u32, Vec<u8>) {
    let fence = 1 + (records.len() / RECORD_BYTES + room) % 17;
    let fenced = |inner: &[u8]| [&vec![BLANK; fence], inner, &vec![BLANK; fence]].concat();
    let (lent, mut answers) = (fenced(records), fenced(&vec![BLANK; room]));
    let turn = plainhost::burst(
        state,
        &lent[fence..fence + records.len()],
        &mut answers[fence..fence + room],
    );
    assert_eq!(lent, fenced(records), "the records were written to");
    let inner = answers[fence..fence + room].to_vec();
    assert_eq!(answers, fenced(&inner), "written beside the answers");
    (turn.state, turn.number, inner)
}

/// Holds a burst on any state of the plain engine, sound or not, to the gate's: the number, every answer byte that was
/// lent and every field of the next state. One that is not refused is held to the plain engine's single calls as well.
pub fn hold_alike_burst(
    state: &State,
    records: &[u8],
    room: usize,
    origin: &dyn Display,
) -> (State, Vec<u8>) {
    let (next, number, answers) = plain_burst(*state, records, room);
    if let Some(parts) = state.parted() {
        let gate = archive_burst(parts, records, room);
        let turn = Burst {
            state: next.parted().unwrap_or_default(),
            number,
            answers: answers.clone(),
        };
        assert_eq!(turn, gate, "{origin}: a burst on {state:?}");
    }
    if number == 0 {
        hold_singles(state, records, &next, &answers, origin);
    } else {
        assert_eq!(next, *state, "{origin}: a refused burst changed it");
    }
    (next, answers)
}

/// Holds a burst that was not refused to the single calls, one record after the other.
fn hold_singles(state: &State, records: &[u8], next: &State, answers: &[u8], origin: &dyn Display) {
    let mut single = *state;
    for (bytes, &answer) in records.chunks_exact(RECORD_BYTES).zip(answers) {
        let record = Record::from_bytes(bytes.try_into().expect("16 bytes"));
        let due = match record.kind {
            sys::RECORD_OFFER => {
                let turn = hold_alike(&single, &crate::help::offer_of(&record), origin);
                single = turn.state;
                turn.reply.number
            }
            _ => 10,
        };
        assert_eq!(u64::from(answer), due, "{origin}: {record:?} on {single:?}");
    }
    assert_eq!(single, *next, "{origin}: the state after a burst");
    let unused = &answers[records.len() / RECORD_BYTES..];
    assert!(unused.iter().all(|&byte| byte == BLANK), "{origin}");
}

/// A line of the packets of a gate's state, in order of arrival. Those that came at the same time stand in any order,
/// but for those of one priority.
pub fn lined(gate: &presscurlew::State, rng: &mut Rng) -> State {
    let mut queues = [0, 1, 2, 3].map(|k| {
        let queue = read_queue(gate, k);
        let waiting = queue.slots.iter().take(queue.len as usize);
        waiting.map(raw_packet).collect::<Vec<_>>()
    });
    let mut packets: Vec<Packet> = Vec::new();
    while let Some(least) = queues.iter().flatten().map(|packet| packet.arrival).min() {
        let fronts = 0..queues.len();
        let next: Vec<usize> = fronts
            .filter(|&k| {
                queues[k]
                    .first()
                    .is_some_and(|front| front.arrival == least)
            })
            .collect();
        packets.push(queues[rng.pick(&next)].remove(0));
    }
    assert!(packets.len() <= PLACES);
    State::with_line(gate, Line::of(&packets))
}
