//! Bursts of offers. Each is held to the reference's burst and to the single calls of the archive, with a fence around
//! records and answers: nothing is written but one byte for each record. Tables of numbers stand here apart from the
//! reference.

use crate::broken_states::broken_states;
use crate::help::{
    archive, archive_burst, archive_singles, edge_or, fresh, gate_of, gates, hold, hold_burst,
    offer_of, raw, Answer, Burst, Call, ACCEPTED_MOST, BLANK, EDGE_LIFETIMES, EDGE_STEPS, PROFILES,
    TIME_END, WAYS, WHEN_FULL,
};
use crate::refusals::late;
use crate::sound_states::sound_state;
use presscurlew::{sys, Gate, Offer, Profile, Refusal, WhenFull};
use reference::book::Book;
use reference::burst::burst;
use reference::log::Record;
use reference::rng::Rng;
use reference::rules;
use reference::state::{sound, Counts, State};

const RECORD: usize = sys::RECORD_BYTES;

/// An offer that every profile takes.
fn good(priority: u8, stamp: u32) -> Record {
    Record {
        kind: 2,
        priority,
        ontime: 400,
        lifetime: 60_000_000,
        id: 7,
        stamp,
    }
}

pub fn bytes(records: &[Record]) -> Vec<u8> {
    records.iter().flat_map(Record::to_bytes).collect()
}

/// Holds a burst to these answers, and hands back the next state.
fn hold_answers(state: &State, records: &[Record], answers: &[u8]) -> State {
    let (next, given) = hold_burst(state, &bytes(records), records.len(), &"table");
    for (record, (given, due)) in records.iter().zip(given.iter().zip(answers)) {
        assert_eq!(given, due, "{record:?} on {state:?}");
    }
    next
}

/// Holds a burst to a refusal as a whole: the state as it was, and no answer written.
fn hold_refused(state: presscurlew::State, records: &[u8], room: usize, number: u32) {
    let expected = Burst {
        state,
        number,
        answers: vec![BLANK; room],
    };
    let turn = archive_burst(state, records, room);
    let length = records.len();
    assert_eq!(turn, expected, "{length} bytes, room {room} on {state:?}");
}

/// Sound states and such that are not.
fn states() -> Vec<presscurlew::State> {
    let mut rng = Rng::new(0x204);
    let mut states = vec![presscurlew::State::default()];
    for (profile, way) in gates() {
        for accepted in [5, ACCEPTED_MOST] {
            let state = raw(&late(profile, way, accepted));
            let mut unsound = state;
            unsound.level = 5;
            let mut flagged = state;
            flagged.admitted = 2;
            states.extend([state, unsound, flagged]);
        }
        states.push(raw(&fresh(profile, way, 0)));
        states.push(raw(&sound_state(&mut rng, profile)));
    }
    states
}

/// Every number that a record can get, each from the state that the records before it left. What finds a full queue is
/// refused with 8, or taken.
#[test]
fn every_number_of_a_record() {
    for (profile, way) in gates() {
        let state = late(profile, way, 5);
        let eight = if way == sys::REFUSE_NEW { 8 } else { 0 };
        let (now, longest) = (state.stamp, rules::on_time_max(profile).unwrap() as u16);
        let one = good(0, now);
        let stamp = |step| now.wrapping_add(step);
        #[rustfmt::skip]
        let rows = [
            (one, 0),
            (Record { stamp: stamp(1 << 31), ..one }, 2),
            (Record { stamp: stamp(u32::MAX), ..one }, 2),
            (Record { stamp: stamp(1_001), ..one }, 3),
            (Record { priority: 4, ..one }, 5),
            (Record { priority: 255, ..one }, 5),
            (Record { ontime: 0, ..one }, 6),
            (Record { ontime: longest + 1, ..one }, 6),
            (Record { ontime: u16::MAX, ..one }, 6),
            (Record { lifetime: 0, ..one }, 7),
            (Record { lifetime: 60_000_001, ..one }, 7),
            (Record { priority: 1, ..one }, eight),
            (Record { kind: 3, ..one }, 10),
            (Record { priority: 2, ontime: longest, stamp: stamp(1_000), ..one }, 0),
            (one, 2),
            (Record { priority: 3, ontime: 1, lifetime: 1, stamp: stamp(1_000), ..one }, 0),
        ];
        let (records, answers): (Vec<_>, Vec<_>) = rows.into_iter().unzip();
        let next = hold_answers(&state, &records, &answers);
        let accepted = 5 + answers.iter().filter(|&&answer| answer == 0).count() as u64;
        assert_eq!((next.time, next.counts.accepted), (TIME_END, accepted));
        let nearly = late(profile, way, ACCEPTED_MOST - 1);
        let full = good(1, now);
        let spent = if way == sys::REFUSE_NEW { 8 } else { 11 };
        hold_answers(&nearly, &[one, one, full, one], &[0, 11, spent, 11]);
        let unsound = State { level: 5, ..state };
        let poll = Record { kind: 3, ..one };
        hold_answers(&unsound, &[one, poll, full], &[9, 10, 9]);
    }
}

/// All priorities and on-times that a record can hold. Each packet has expired when the next one comes.
#[test]
fn every_priority_and_every_on_time() {
    for (profile, way) in gates() {
        let longest = rules::on_time_max(profile).unwrap() as u16;
        let brief = Record {
            lifetime: 1,
            ..good(0, 0)
        };
        let mut rows = vec![];
        for priority in 0..=u8::MAX {
            let five = if priority < 4 { 0 } else { 5 };
            rows.push((Record { priority, ..brief }, five));
        }
        for ontime in 0..=u16::MAX {
            let six = if (1..=longest).contains(&ontime) {
                0
            } else {
                6
            };
            rows.push((Record { ontime, ..brief }, six));
        }
        for (row, stamp) in rows.iter_mut().zip(1..) {
            row.0.stamp = stamp;
        }
        let (records, answers): (Vec<_>, Vec<_>) = rows.into_iter().unzip();
        hold_answers(&fresh(profile, way, 0), &records, &answers);
    }
}

/// Six of one priority at once, one before the first five have expired and one after.
#[test]
fn a_record_meets_what_those_before_it_left() {
    for (profile, way) in gates() {
        let short = |stamp| Record {
            lifetime: 1_000,
            ..good(2, stamp)
        };
        let mut records = vec![short(0); 6];
        records.extend([short(999), short(1_000), short(999)]);
        let fresh = fresh(profile, way, 0);
        if way == sys::DROP_OLDEST {
            let next = hold_answers(&fresh, &records, &[0, 0, 0, 0, 0, 0, 0, 0, 2]);
            let Counts {
                accepted,
                expired,
                displaced,
                ..
            } = next.counts;
            // Two are displaced, four of the same age expire, the one of 999 µs and the last wait.
            assert_eq!(
                (accepted, displaced, expired, next.queues[2].len),
                (8, 2, 4, 2)
            );
            continue;
        }
        let next = hold_answers(&fresh, &records, &[0, 0, 0, 0, 0, 8, 8, 0, 2]);
        let counts = (
            next.counts.accepted,
            next.counts.expired,
            next.queues[2].len,
        );
        assert_eq!(counts, (6, 5, 1));
    }
}

/// Kinds 0, 1 and 3 would make, sample and poll, and move the clock: in a burst all kinds but 2 do nothing.
#[test]
fn every_kind() {
    for (profile, way) in gates() {
        let state = late(profile, way, 5);
        let now = state.stamp;
        let both = [good(0, now), good(3, now)];
        let expected = archive_singles(raw(&state), &bytes(&both), 2);
        assert_eq!(expected.answers, [0, 0]);
        for kind in (0..=255).filter(|&kind| kind != 2) {
            let odd = Record {
                kind,
                ..good(profile as u8, now.wrapping_add(500))
            };
            let records = bytes(&[odd, both[0], odd, both[1], odd]);
            let turn = archive_burst(raw(&state), &records, 5);
            assert_eq!(turn.answers, [10, 0, 10, 0, 10], "kind {kind}");
            assert_eq!(turn.state, expected.state, "kind {kind}");
            assert_eq!(turn.number, 0, "kind {kind}");
        }
    }
}

/// 13 comes first, whatever the room and the state.
#[test]
fn torn_lengths() {
    let whole = bytes(&[good(0, 0); 301]);
    let lengths = (1..200).chain(4_790..4_816);
    for length in lengths.filter(|length| length % RECORD != 0) {
        for state in states() {
            for room in [0, 1, length / RECORD, length / RECORD + 1, 400] {
                hold_refused(state, &whole[..length], room, 13);
            }
        }
    }
}

/// 12 if one answer byte is missing or more; with just enough and with more the burst goes through.
#[test]
fn room_for_the_answers() {
    for state in states() {
        let mut records = vec![good(0, state.stamp); 20];
        records[3].kind = 9;
        for many in 0..=records.len() {
            let given = bytes(&records[..many]);
            for room in 0..many {
                hold_refused(state, &given, room, 12);
            }
            for room in [many, many + 1, many + 15, many * 16, 400] {
                let turn = archive_burst(state, &given, room);
                assert_eq!(turn, archive_singles(state, &given, room), "{state:?}");
                assert!(turn.answers[..many].iter().all(|&answer| answer <= 11));
                assert_eq!(turn.answers[many..], vec![BLANK; room - many]);
            }
        }
    }
}

/// No record: nothing is refused and nothing changes, also in a state that is not sound.
#[test]
fn no_records() {
    for state in states() {
        for room in [0, 1, 17] {
            hold_refused(state, &[], room, 0);
        }
    }
}

/// A record that follows a stamp: mostly a good offer, else one with numbers at an edge, or of another kind.
fn any_record(rng: &mut Rng, last: u32) -> Record {
    let step = match rng.below(40) {
        0 => rng.pick(&EDGE_STEPS),
        1..=20 => 0,
        _ => rng.below(3_000) as u32,
    };
    let kind = if rng.one_in(10) {
        rng.below(256) as u8
    } else {
        2
    };
    Record {
        kind,
        priority: rng.pick(&[0, 0, 1, 1, 2, 2, 3, 3, 4, 255]),
        ontime: rng.pick(&[1, 400, 400, 500, 500, 501, 1_000, 4_000, 4_001, u16::MAX, 0]),
        lifetime: edge_or(rng, &EDGE_LIFETIMES, 20_000),
        id: rng.next_u32(),
        stamp: last.wrapping_add(step),
    }
}

/// Records, each with an eye on the state that those before it lead to.
pub fn any_records(rng: &mut Rng, many: usize, state: &State) -> Vec<Record> {
    let mut state = *state;
    let mut next = || {
        let record = any_record(rng, state.stamp);
        (state, _) = burst(state, &record.to_bytes(), &mut [BLANK]);
        record
    };
    (0..many).map(|_| next()).collect()
}

/// A state to begin a burst with: mostly a sound one.
fn any_state(rng: &mut Rng, profile: u32, broken: &[(&str, State)]) -> State {
    let way = rng.pick(&WAYS);
    match rng.below(6) {
        0 => fresh(profile, way, rng.next_u32()),
        1 => late(profile, way, 5),
        2 => late(profile, way, ACCEPTED_MOST - rng.below(4)),
        3 => broken[rng.below(broken.len() as u64) as usize].1,
        _ => sound_state(rng, profile),
    }
}

/// 0 to 300 records, with just enough room and with more; each number that a record can get comes often.
#[test]
fn bursts_of_0_to_300_records() {
    let mut seen = [0; 256];
    let broken = broken_states();
    let mut rng = Rng::new(0xb0457);
    for many in 0..=300 {
        for profile in PROFILES {
            for more in [0, 1, rng.below(300) as usize] {
                let state = any_state(&mut rng, profile, &broken);
                let records = any_records(&mut rng, many, &state);
                let origin = format!("{many} records, profile {profile}");
                let (_, answers) = hold_burst(&state, &bytes(&records), many + more, &origin);
                answers[..many]
                    .iter()
                    .for_each(|&n| seen[usize::from(n)] += 1);
            }
        }
    }
    for (number, &times) in seen.iter().enumerate() {
        let due = [0, 2, 3, 5, 6, 7, 8, 9, 10, 11].contains(&number);
        assert!(times > 500 || !due, "{number} came {times} times only");
        assert!(times == 0 || due, "{number} came {times} times");
    }
}

/// More records than 16 bits count.
#[test]
fn a_burst_of_70_000_records() {
    let mut rng = Rng::new(0xb0458);
    let state = State::fresh(3, sys::DROP_OLDEST, 5);
    let records = bytes(&any_records(&mut rng, 70_000, &state));
    let (next, answers) = hold_burst(&state, &records, 70_001, &"70,000 records");
    let taken = answers.iter().filter(|&&answer| answer == 0).count();
    assert!(taken > 1_000, "only {taken} taken");
    assert_eq!(next.counts.accepted, taken as u64);
    assert!(next.counts.displaced > 1_000, "{:?}", next.counts);
}

/// Random bytes as records and any room: whatever comes of it, it is what the reference says.
#[test]
fn bursts_of_random_bytes() {
    let broken = broken_states();
    let mut rng = Rng::new(0xb0459);
    for index in 0..20_000 {
        let profile = rng.pick(&PROFILES);
        let state = any_state(&mut rng, profile, &broken);
        let length = match rng.below(3) {
            0 => rng.below(200) as usize,
            _ => RECORD * rng.below(12) as usize,
        };
        let mut records: Vec<u8> = (0..length).map(|_| rng.next_u32() as u8).collect();
        if rng.one_in(2) {
            records
                .iter_mut()
                .step_by(RECORD)
                .for_each(|kind| *kind = 2);
        }
        let room = rng.below(20) as usize;
        hold_burst(
            &state,
            &records,
            room,
            &format_args!("random bytes {index}"),
        );
    }
}

/// A run with bursts in it is a run of the single calls: the book of it hears of the offers one by one, and agrees on
/// time and counts.
#[test]
fn runs_with_bursts() {
    for (profile, way) in gates() {
        let mut rng = Rng::new(0xb045a + u64::from(profile));
        let start = rng.next_u32();
        let (mut state, mut book) = (fresh(profile, way, start), Book::new(profile, start));
        let mut sent = 0;
        for index in 0..15_000 {
            let origin = format!("profile {profile}, way {way}, turn {index}");
            let stamp = state.stamp.wrapping_add(rng.below(60_000) as u32);
            let busy = rng.below(1_001) as u32;
            let call = match rng.below(4) {
                0 => Call::SampleCount {
                    busy,
                    probes: 1_000,
                    stamp,
                },
                _ => Call::Poll { stamp },
            };
            let (next, answer) = hold(&state, &call, &origin);
            book.feed(&call, &answer).unwrap();
            sent += u32::from(matches!(answer, Answer::Sent(_)));
            let many = rng.below(12) as usize;
            let records = any_records(&mut rng, many, &next);
            let (next, answers) = hold_burst(&next, &bytes(&records), many, &origin);
            feed_offers(&mut book, &records, &answers);
            assert!(sound(&next), "{origin}: {next:?}");
            assert_eq!(book.compare(&next.counts), Ok(()), "{origin}");
            assert_eq!(
                (book.time(), book.stamp()),
                (next.time, next.stamp),
                "{origin}"
            );
            state = next;
        }
        assert!(
            sent > 1_000 && state.counts.expired > 1_000,
            "{:?}",
            state.counts
        );
    }
}

/// What the book hears of a burst: its offers. A record of another kind is no call.
fn feed_offers(book: &mut Book, records: &[Record], answers: &[u8]) {
    for (record, &answer) in records.iter().zip(answers) {
        if record.kind != 2 {
            continue;
        }
        let answer = match answer {
            0 => Answer::Taken,
            number => Answer::Refused(u32::from(number)),
        };
        book.feed(&offer_of(record), &answer).unwrap();
    }
}

const WIDE_PRIORITIES: [u32; 12] = [
    0,
    1,
    3,
    4,
    254,
    255,
    256,
    257,
    259,
    1 << 16,
    1 << 31,
    u32::MAX,
];
const WIDE_ONTIMES: [u32; 13] = [
    0,
    1,
    400,
    4_000,
    4_001,
    65_534,
    65_535,
    65_536,
    65_537,
    65_936,
    1 << 17,
    1 << 31,
    u32::MAX,
];

/// An offer as a record is answered as the single call with the offer's own numbers, also where they do not fit the
/// record: on every state and at every stamp.
#[test]
fn an_offer_as_a_record_is_the_single_call() {
    let mut seen = [0; 12];
    for state in states() {
        for step in [0, 1_000, 1_001, 1 << 31] {
            let stamp = state.stamp.wrapping_add(step);
            for priority in WIDE_PRIORITIES {
                for ontime in WIDE_ONTIMES {
                    for lifetime in [0, 1_000] {
                        let offer = Offer {
                            id: 0x0102_0304,
                            priority,
                            ontime,
                            lifetime,
                        };
                        let number = hold_record(state, offer, stamp);
                        seen[usize::from(number)] += 1;
                    }
                }
            }
        }
    }
    for number in [0, 2, 3, 5, 6, 7, 8, 9, 11] {
        assert!(seen[number] > 0, "{number} never came");
    }
}

/// Holds a burst of one offer to the single call, and hands back its answer.
fn hold_record(state: presscurlew::State, offer: Offer, stamp: u32) -> u8 {
    let Offer {
        id,
        priority,
        ontime,
        lifetime,
    } = offer;
    let call = Call::Offer {
        id,
        priority,
        ontime,
        lifetime,
        stamp,
    };
    let single = archive(state, &call);
    let answer = match single.reply.kind {
        sys::TAKEN => 0,
        _ => single.reply.number as u8,
    };
    let expected = Burst {
        state: single.state,
        number: 0,
        answers: vec![answer],
    };
    let turn = archive_burst(state, &offer.record(stamp), 1);
    assert_eq!(turn, expected, "{offer:?} at {stamp} on {state:?}");
    answer
}

fn any_offer(rng: &mut Rng, last: u32) -> (Offer, u32) {
    let step = match rng.below(30) {
        0 => rng.pick(&EDGE_STEPS),
        _ => rng.below(2_000) as u32,
    };
    let offer = Offer {
        id: rng.next_u32(),
        priority: edge_or(rng, &WIDE_PRIORITIES, 3),
        ontime: edge_or(rng, &WIDE_ONTIMES, 500),
        lifetime: edge_or(rng, &EDGE_LIFETIMES, 50_000),
    };
    (offer, last.wrapping_add(step))
}

/// Three gates, by bursts, by bursts without a heap and by single offers: the same answers, the same states.
#[test]
fn a_gate_takes_bursts_as_single_offers() {
    let mut seen = [0; 14];
    for (profile, way) in gates() {
        let mut rng = Rng::new(0xb045e + u64::from(profile));
        let (start, way) = (rng.next_u32(), WHEN_FULL[way as usize]);
        let mut bursting = gate_of(profile, way, start);
        let mut heapless = gate_of(profile, way, start);
        let mut single = gate_of(profile, way, start);
        for index in 0..10_000 {
            let (mut offers, mut expected) = (vec![], vec![]);
            for _ in 0..rng.below(25) {
                let (offer, stamp) = any_offer(&mut rng, single.state().stamp);
                offers.push((offer, stamp));
                expected.push(single.offer(offer, stamp));
            }
            let answers = bursting.offer_burst(&offers);
            assert_eq!(
                answers, expected,
                "profile {profile}, burst {index}: {offers:?}"
            );
            let mut places = vec![Err(Refusal::TornLog); offers.len() + 1];
            assert_eq!(heapless.offer_burst_into(&offers, &mut places), Ok(()));
            assert_eq!(places.pop(), Some(Err(Refusal::TornLog)));
            assert_eq!(places, expected, "profile {profile}, burst {index}");
            let stamp = single.state().stamp.wrapping_add(20_000);
            let polled = single.poll(stamp);
            assert_eq!(heapless.poll(stamp), polled);
            assert_eq!(bursting.poll(stamp), polled);
            assert_eq!(heapless, single, "profile {profile}, burst {index}");
            assert_eq!(bursting, single, "profile {profile}, burst {index}");
            let number = |answer: Result<(), Refusal>| answer.map_or_else(Refusal::number, |()| 0);
            (answers.into_iter()).for_each(|answer| seen[number(answer) as usize] += 1);
        }
    }
    for number in [0, 2, 5, 6, 7, 8] {
        assert!(seen[number] > 1_000, "{number} came {} times", seen[number]);
    }
}

/// A burst without a heap that has too few places offers nothing.
#[test]
fn a_burst_without_places_is_refused() {
    let mut rng = Rng::new(0xb045f);
    for count in 1..50 {
        let mut gate = Gate::new(Profile::ReactiveA1, WhenFull::DropOldest, 0).unwrap();
        let offers: Vec<_> = (0..count).map(|_| any_offer(&mut rng, 0)).collect();
        let mut places = vec![Err(Refusal::TornLog); count - 1];
        let answer = gate.offer_burst_into(&offers, &mut places);
        assert_eq!(answer, Err(Refusal::NoRoom), "{count} offers");
        assert!(places.iter().all(|place| *place == Err(Refusal::TornLog)));
        assert_eq!(
            gate,
            Gate::new(Profile::ReactiveA1, WhenFull::DropOldest, 0).unwrap()
        );
    }
}
