//! W-204: a burst is the single offers in their order.

use crate::help::{fresh, late, old, Answer, Call, ACCEPTED_MOST, PROFILES, WAYS};
use crate::runs::Caller;
use reference::book::Book;
use reference::burst::burst;
use reference::gate;
use reference::log::Record;
use reference::rng::Rng;
use reference::rules;
use reference::state::{sound, State};

/// What answer bytes hold before a burst; no record is answered with it.
const UNTOUCHED: u8 = 0xA5;

fn bytes(records: &[Record]) -> Vec<u8> {
    records
        .iter()
        .flat_map(|record| record.to_bytes())
        .collect()
}

/// An offer of priority 1, on-time 1, that lives for a second.
fn offer(id: u32, stamp: u32) -> Record {
    Record {
        kind: 2,
        priority: 1,
        ontime: 1,
        lifetime: 1_000_000,
        id,
        stamp,
    }
}

/// The single calls, one after the other: the state and the answers.
fn singly(state: State, records: &[Record]) -> (State, Vec<u8>) {
    let mut state = state;
    let mut answers = Vec::new();
    for record in records {
        if record.kind != 2 {
            answers.push(10);
            continue;
        }
        let (priority, ontime) = (u32::from(record.priority), u32::from(record.ontime));
        let (id, lifetime, stamp) = (record.id, record.lifetime, record.stamp);
        let (next, answer) = gate::offer(state, id, priority, ontime, lifetime, stamp);
        answers.push(match answer {
            Answer::Taken => 0,
            Answer::Refused(number) => number as u8,
            other => panic!("an offer answered {other:?}"),
        });
        state = next;
    }
    (state, answers)
}

/// A burst into a buffer with so many bytes more than records: it must be the
/// single calls, and nothing past the last record may be written.
fn holds(state: State, records: &[Record], more: usize) -> Vec<u8> {
    let mut answers = vec![UNTOUCHED; records.len() + more];
    let (next, number) = burst(state, &bytes(records), &mut answers);
    assert_eq!(number, 0);
    let (last, each) = singly(state, records);
    assert_eq!(next, last);
    assert_eq!(answers[..records.len()], each);
    assert_eq!(answers[records.len()..], vec![UNTOUCHED; more]);
    each
}

/// A burst must be refused with the number, state and answers unchanged.
fn refused(state: State, records: &[u8], room: usize, number: u32) {
    let mut answers = vec![UNTOUCHED; room];
    assert_eq!(burst(state, records, &mut answers), (state, number));
    assert_eq!(answers, vec![UNTOUCHED; room]);
}

/// States of every kind, sound or not.
fn states() -> Vec<State> {
    let mut states = vec![State::default()];
    for profile in PROFILES {
        let state = late(profile, [5, 4, 3, 0]);
        states.push(fresh(profile));
        states.push(state);
        states.push(old(state));
        states.push(state.with_accepted(ACCEPTED_MOST));
        states.push(State { level: 9, ..state });
    }
    states
}

#[test]
fn a_burst_of_three() {
    let records = [offer(1, 5), offer(2, 5), offer(3, 9)];
    let mut answers = [UNTOUCHED; 3];
    let (state, number) = burst(fresh(1), &bytes(&records), &mut answers);
    assert_eq!(answers, [0, 0, 0]);
    assert_eq!(number, 0);
    let waits: Vec<(u32, u64)> = (state.queues[1].waiting().iter())
        .map(|packet| (packet.id, packet.arrival))
        .collect();
    assert_eq!(waits, [(1, 5), (2, 5), (3, 9)]);
    assert_eq!((state.time, state.counts.accepted), (9, 3));
}

/// The second record meets what the first one left.
#[test]
fn each_record_meets_the_state_before_it() {
    let mut records = vec![offer(1, 0); 5];
    records.push(offer(6, 0)); // five wait by now
    records.push(offer(7, 1_000_000)); // and have expired
    records.push(offer(8, 999_999)); // the clock goes back
    let answers = holds(old(fresh(2)), &records, 0);
    assert_eq!(answers, [0, 0, 0, 0, 0, 8, 0, 2]);
    // W-205: the burst follows the state that it is given.
    let answers = holds(fresh(2), &records, 0);
    assert_eq!(answers, [0, 0, 0, 0, 0, 0, 0, 2]);
    let (state, _) = singly(fresh(2), &records[..6]);
    assert_eq!((state.counts.accepted, state.counts.displaced), (6, 1));
}

#[test]
fn no_records_at_all() {
    for state in states() {
        for more in [0, 1, 9] {
            holds(state, &[], more);
        }
    }
}

#[test]
fn torn_lengths_are_refused_with_13_before_anything() {
    let whole = bytes(&[offer(1, 5), offer(2, 5), offer(3, 5)]);
    for state in states() {
        for length in (0..=48).filter(|length| length % 16 != 0) {
            for room in [0, 1, 2, 3, 4, 50] {
                refused(state, &whole[..length], room, 13);
            }
        }
    }
}

#[test]
fn too_little_room_is_refused_with_12() {
    let records = [offer(1, 5), offer(2, 5), offer(3, 5)];
    for state in states() {
        for room in 0..3 {
            refused(state, &bytes(&records), room, 12);
        }
        for more in [0, 1, 100] {
            holds(state, &records, more);
        }
    }
}

/// The state isn't judged as a whole: 9 shows at records of kind 2 alone.
#[test]
fn an_unsound_state_shows_at_each_offer() {
    let mut records = [offer(1, 5); 4];
    (records[1].kind, records[2].kind) = (3, 200);
    for state in states().into_iter().filter(|state| !sound(state)) {
        assert_eq!(holds(state, &records, 2), [9, 10, 10, 9]);
        assert_eq!(singly(state, &records).0, state);
    }
}

/// A record of another kind does nothing: its fields are those of calls that
/// would make, sample or poll, and move the clock.
#[test]
fn other_kinds_get_10_and_do_nothing() {
    for kind in (0..=255).filter(|&kind| kind != 2) {
        let odd = Record {
            kind,
            priority: 1,
            id: 7,
            ..offer(7, 500)
        };
        for state in states() {
            let mut answers = [UNTOUCHED; 2];
            let done = burst(state, &bytes(&[odd, odd]), &mut answers);
            assert_eq!((done, answers), ((state, 0), [10, 10]));
        }
    }
}

/// A state whose clock is near its end and that has few offers left.
fn nearly_over(profile: u32) -> State {
    let mut state = fresh(profile);
    state.time = rules::TIME_END - 200_000;
    state.with_accepted(ACCEPTED_MOST - 30)
}

/// A record of any kind, most of them offers that are good or nearly so.
fn record(rng: &mut Rng, profile: u32, stamp: &mut u32) -> Record {
    let most = rules::on_time_max(profile).unwrap_or(4_000) as u16;
    *stamp = stamp.wrapping_add(rng.below(2_000) as u32);
    let back = rng.one_in(30);
    Record {
        kind: rng.pick(&[2, 2, 2, 2, 2, 2, 2, 2, 2, 0, 1, 3, 4, 255]),
        priority: rng.pick(&[0, 1, 1, 2, 3, 3, 3, 3, 3, 3, 4]),
        ontime: rng.pick(&[1, most / 2, most, most, most, most, 0, most + 1]),
        lifetime: rng.pick(&[1, 3_000, 3_000, 50_000, 60_000_000, 0, 60_000_001]),
        id: rng.next_u32(),
        stamp: if back {
            stamp.wrapping_sub(1 << 20)
        } else {
            *stamp
        },
    }
}

#[test]
fn random_bursts_are_the_single_calls() {
    let mut rng = Rng::new(204);
    let mut seen = [0u32; 14];
    for round in 0..1_500 {
        let profile = rng.pick(&PROFILES);
        let state = match rng.below(5) {
            0 => fresh(profile),
            1 => late(profile, [5, 0, 2, 4]),
            2 => nearly_over(profile),
            3 => rng.pick(&states()),
            _ => late(profile, [1, 2, 3, 4]).with_accepted(ACCEPTED_MOST - 5),
        };
        let oldway = rng.pick(&WAYS);
        let state = State { oldway, ..state };
        let many = if round <= 300 { round } else { rng.below(40) };
        let mut stamp = state.stamp;
        let records: Vec<Record> = (0..many)
            .map(|_| record(&mut rng, profile, &mut stamp))
            .collect();
        let more = rng.below(3) as usize;
        for byte in holds(state, &records, more) {
            seen[usize::from(byte)] += 1;
        }
    }
    for number in [0, 2, 3, 5, 6, 7, 8, 9, 10, 11] {
        assert!(seen[number] > 100, "{number}: {seen:?}");
    }
    for number in [1, 4, 12, 13] {
        assert_eq!(seen[number], 0, "{seen:?}");
    }
}

/// A run with bursts in it is a run of the single calls, and keeps demand 3.
#[test]
fn runs_with_bursts_keep_the_claim() {
    for profile in PROFILES {
        let seed = 240 + u64::from(profile);
        let (mut rng, mut caller) = (Rng::new(seed), Caller::new(profile, seed));
        let (mut state, mut book) = (fresh(profile), Book::new(profile, 0));
        state.oldway = u32::from(profile == 2);
        for _ in 0..4_000 {
            let call = caller.call(state.stamp);
            let (next, answer) = gate::call(state, &call);
            book.feed(&call, &answer).unwrap();
            caller.heard(&answer);
            state = next;
            let mut stamp = state.stamp;
            let records: Vec<Record> = (0..rng.below(8))
                .map(|_| record(&mut rng, profile, &mut stamp))
                .collect();
            let mut answers = vec![UNTOUCHED; records.len()];
            (state, _) = burst(state, &bytes(&records), &mut answers);
            feed_offers(&mut book, &records, &answers);
            assert!(sound(&state));
            assert_eq!(book.compare(&state.counts), Ok(()), "seed {seed}");
            assert_eq!((book.time(), book.stamp()), (state.time, state.stamp));
        }
        assert!(book.counts().accepted > 2_000, "{:?}", book.counts());
    }
}

/// Feeds the book the single offers of a burst. Records of another kind are no
/// calls, so the book does not hear of them.
fn feed_offers(book: &mut Book, records: &[Record], answers: &[u8]) {
    for (record, byte) in records.iter().zip(answers) {
        if record.kind != 2 {
            continue;
        }
        let call = Call::Offer {
            id: record.id,
            priority: u32::from(record.priority),
            ontime: u32::from(record.ontime),
            lifetime: record.lifetime,
            stamp: record.stamp,
        };
        let answer = match byte {
            0 => Answer::Taken,
            number => Answer::Refused(u32::from(*number)),
        };
        book.feed(&call, &answer).unwrap();
    }
}
