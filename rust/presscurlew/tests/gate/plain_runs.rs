//! Both archives through the same random runs, from makes with the same numbers: at every step the same answer, counts,
//! clock, ledger and tuning, and the list parted by priority is the queues. The reference goes along, and at times both
//! are asked with a damaged state.

use crate::bursts::{any_records, bytes};
use crate::help::{
    calls_at, hold, hold_burst, raw, raw_reply, read_state, Answer, ACCEPTED_MOST, PROFILES, WAYS,
};
use crate::plain::{self, hold_alike, hold_alike_burst};
use crate::runs::{self, run_list, Caller, Place, Tally, STYLES};
use plainhost::{Counts, State, Tuning};
use presscurlew::sys;
use reference::log::RECORD_BYTES;
use reference::rng::Rng;
use reference::state::{self, sound};

/// A number of a state, to be changed.
enum Number<'a> {
    Narrow(&'a mut u32),
    Wide(&'a mut u64),
}

use Number::{Narrow, Wide};

/// Every number of a state.
fn numbers(state: &mut State) -> Vec<Number<'_>> {
    let State {
        line,
        ledger,
        loads,
        levels,
        clock,
        last,
        counts,
        tuning,
        profile,
        when_full,
        live,
    } = state;
    let lengths = [
        &mut line.len,
        &mut ledger.len,
        &mut loads.len,
        &mut levels.len,
    ];
    let mut all: Vec<Number> = lengths.map(Wide).into();
    for packet in &mut line.packets {
        let presscurlew::Packet {
            id,
            priority,
            ontime,
            lifetime,
            arrival,
        } = packet;
        all.extend([id, priority, ontime, lifetime].map(Narrow));
        all.push(Wide(arrival));
    }
    all.extend(ledger.slots.iter_mut().map(Narrow));
    all.extend(loads.slots.iter_mut().map(Narrow));
    all.push(Narrow(&mut levels.base_wait));
    let listed = levels.thresholds.iter_mut().chain(&mut levels.waits);
    all.extend(listed.map(Narrow));
    all.extend([&mut clock.time, &mut last.at].map(Wide));
    all.extend([&mut clock.stamp, &mut last.ontime, &mut last.admitted].map(Narrow));
    let Counts {
        accepted,
        sent,
        expired,
        displaced,
    } = counts;
    all.extend([accepted, sent, expired, displaced].map(Wide));
    let Tuning {
        level,
        duty,
        smoothed,
        kept,
        pairing,
        latest,
    } = tuning;
    all.extend([level, duty, smoothed, kept, pairing, latest].map(Narrow));
    all.extend([profile, when_full, live].map(Narrow));
    all
}

/// A number near the given one, or far off.
fn bent(rng: &mut Rng, given: u64, bits: u64) -> u64 {
    match rng.below(6) {
        0 => 0,
        1 => given.wrapping_add(1),
        2 => given.wrapping_sub(1),
        3 => u64::MAX,
        4 => rng.below(30),
        _ => given ^ 1 << rng.below(bits),
    }
}

/// The state with a few numbers changed, or with two packets that have changed places. It may be sound still.
fn damaged(state: &State, rng: &mut Rng) -> State {
    let mut state = *state;
    if rng.one_in(4) && state.line.len > 1 {
        let [one, other] = [0; 2].map(|_| rng.below(state.line.len) as usize);
        state.line.packets.swap(one, other);
        return state;
    }
    for _ in 0..1 + rng.below(3) / 2 {
        let mut all = numbers(&mut state);
        let index = rng.below(all.len() as u64) as usize;
        match &mut all[index] {
            Narrow(number) => **number = bent(rng, u64::from(**number), 32) as u32,
            Wide(number) => **number = bent(rng, **number, 64),
        }
    }
    state
}

/// Every kind of call, and a burst, on a damaged copy of a state. `asked` counts the calls, and apart those that got 9.
fn ask_damaged(state: &State, rng: &mut Rng, place: &Place, asked: &mut [u64; 2]) {
    let state = damaged(state, rng);
    let read = state.parted().and_then(|parts| read_state(&parts));
    let is_sound = read.is_some_and(|state| sound(&state));
    let stamp = state.clock.stamp.wrapping_add(rng.below(200_000) as u32);
    for call in calls_at(place.profile, stamp) {
        let turn = hold_alike(&state, &call, &format_args!("{place}, damaged"));
        let unsound = turn.reply.kind == sys::REFUSED && turn.reply.number == 9;
        assert_eq!(
            unsound, !is_sound,
            "{place}, damaged: {call:?} on {state:?}"
        );
        asked[usize::from(unsound)] += 1;
    }
    let records = random_bytes(rng, 3 * RECORD_BYTES);
    hold_alike_burst(&state, &records, 3, &format_args!("{place}, damaged"));
}

/// Bytes of any kind, of which half of the records are offers.
fn random_bytes(rng: &mut Rng, length: usize) -> Vec<u8> {
    let mut bytes: Vec<u8> = (0..length).map(|_| rng.next_u32() as u8).collect();
    for kind in bytes.iter_mut().step_by(RECORD_BYTES) {
        *kind = rng.pick(&[2, *kind]);
    }
    bytes
}

/// The records of a burst, and the room for its answers: mostly good ones, else torn, with too little room, or of random
/// bytes.
fn any_burst(rng: &mut Rng, state: &state::State) -> (Vec<u8>, usize) {
    let many = rng.below(30) as usize;
    let mut records = bytes(&any_records(rng, many, state));
    match rng.below(8) {
        0 => records.truncate((records.len() + 15).saturating_sub(rng.below(32) as usize)),
        1 => return (records, rng.below(30) as usize),
        2 => records = random_bytes(rng, RECORD_BYTES * many),
        _ => {}
    }
    let room = many + rng.below(3) as usize;
    (records, room)
}

/// One run on both archives and on the reference, which `start` has come to.
fn run(mut place: Place, start: (state::State, State), tally: &mut Tally, asked: &mut [u64; 2]) {
    let (mut state, mut plain) = start;
    let mut caller = Caller::new(place.seed, place.style);
    for call in 0..CALLS {
        place.call = call;
        if caller.rng.one_in(12) {
            let (records, room) = any_burst(&mut caller.rng, &state);
            let (next, answers) = hold_burst(&state, &records, room, &place);
            let (plain_next, given) = hold_alike_burst(&plain, &records, room, &place);
            assert_eq!(given, answers, "{place}: a burst on {state:?}");
            (state, plain) = (next, plain_next);
        } else {
            let call = caller.call(&state);
            let (next, answer) = hold(&state, &call, &place);
            let turn = hold_alike(&plain, &call, &place);
            assert_eq!(turn.reply, raw_reply(&answer), "{place}: on {state:?}");
            tally.count(&answer);
            tally.note_move(state.level, next.level);
            (state, plain) = (next, turn.state);
        }
        assert_eq!(plain.parted(), Some(raw(&state)), "{place}");
        if caller.rng.one_in(20) {
            ask_damaged(&plain, &mut caller.rng, &place, asked);
        }
    }
    tally.displaced += state.counts.displaced;
}

/// The calls and bursts of a run.
const CALLS: u64 = 20_000;

/// Runs of every style in one profile, of which every answer must have come often.
fn runs_of(profile: u32) {
    for way in WAYS {
        let (mut tally, mut asked) = (Tally::default(), [0; 2]);
        for (index, style) in (0u64..).zip(STYLES) {
            for seed in 0..2 {
                let place = Place {
                    seed: 0x11e_0000 + u64::from(profile) * 0x1000 + index * 0x100 + seed,
                    profile,
                    way,
                    style,
                    call: 0,
                };
                let stamp = (place.seed as u32).wrapping_mul(0x9E37_79B9);
                let list = run_list(place.seed);
                let start = (
                    runs::made_with(profile, way, &list, stamp),
                    plain::made_with(profile, way, &list, stamp),
                );
                run(place, start, &mut tally, &mut asked);
            }
        }
        let answers = [tally.taken, tally.sent, tally.idle, tally.closed];
        assert!(answers.iter().all(|&count| count > 5_000), "{tally:?}");
        for number in [2, 4, 5, 6, 7] {
            assert!(tally.refused[number] > 200, "{number}: {tally:?}");
        }
        let full = [tally.displaced, tally.refused[8]];
        assert!(full[way as usize] > 1_000, "way {way}: {tally:?}");
        // Of the damaged states some are sound still.
        assert!(asked.iter().all(|&count| count > 5_000), "{asked:?}");
        if profile == 5 {
            tally.hold_moves(0);
        }
    }
}

#[test]
fn both_archives_in_profile_1() {
    runs_of(1);
}

#[test]
fn both_archives_in_profile_2() {
    runs_of(2);
}

#[test]
fn both_archives_in_profile_3() {
    runs_of(3);
}

#[test]
fn both_archives_in_profile_4() {
    runs_of(4);
}

#[test]
fn both_archives_in_profile_5() {
    runs_of(5);
}

/// Runs that begin with few offers left, and soon with none.
#[test]
fn both_archives_when_offers_are_spent() {
    for profile in PROFILES {
        for (style, left) in STYLES.into_iter().zip([0, 1, 2, 50, 200, 500]) {
            let way = (left % 2) as u32;
            let place = Place {
                seed: 0x11f_0000 + u64::from(profile) * 0x1000 + left,
                profile,
                way,
                style,
                call: 0,
            };
            let state = runs::made(profile, way, 7).with_accepted(ACCEPTED_MOST - left);
            let plain = State::with_line(&raw(&state), plain::made(profile, way, 7).line);
            let (mut tally, mut asked) = (Tally::default(), [0; 2]);
            run(place, (state, plain), &mut tally, &mut asked);
            assert!(tally.refused[11] > 100, "{tally:?}");
        }
    }
}

/// A make of any profile, way and stamp.
#[test]
fn both_archives_make_alike() {
    let ready = |state: &State| state.live == 1;
    for profile in (0..300).chain([1 << 31, u32::MAX - 1, u32::MAX]) {
        for way in [0, 1, 2, 3, 255, 256, 257, 1 << 16, 1 << 31, u32::MAX] {
            for stamp in [0, 1, 1 << 31, u32::MAX] {
                let state = plain::made(profile, way, stamp);
                let good = PROFILES.contains(&profile) && WAYS.contains(&way);
                assert_eq!(ready(&state), good, "make({profile}, {way}, {stamp})");
                assert_eq!(state == State::default(), !good);
            }
        }
    }
}

/// Document 02, W-212, by example: packets of all priorities in one list, in order of arrival. The sixth of a priority
/// displaces the first of its own, wherever that stands; a poll takes the first of the lowest number.
#[test]
fn one_list_by_example() {
    let mut state = plain::made(1, sys::DROP_OLDEST, 0);
    let ids = |state: &State| -> Vec<u32> {
        let waiting = state.line.waiting().iter();
        waiting.map(|packet| packet.id).collect()
    };
    let offer = |state: &State, id, priority, lifetime, stamp| {
        let turn = plainhost::presscurlew_plain_offer(*state, id, priority, 400, lifetime, stamp);
        assert_eq!(turn.reply, raw_reply(&Answer::Taken));
        turn.state
    };
    let rows = [3, 1, 3, 3, 1, 3, 3, 2];
    for (id, priority) in (0..).zip(rows) {
        state = offer(&state, id, priority, 60_000_000, 10);
    }
    assert_eq!(ids(&state), [0, 1, 2, 3, 4, 5, 6, 7]);
    state = offer(&state, 8, 3, 60_000_000, 10);
    assert_eq!(ids(&state), [1, 2, 3, 4, 5, 6, 7, 8]);
    assert_eq!(state.counts.displaced, 1);
    state = offer(&state, 9, 2, 20, 10);
    state = offer(&state, 10, 3, 60_000_000, 30);
    // 9 has expired, in the middle of the list; 2 is displaced, the first of priority 3.
    assert_eq!(ids(&state), [1, 3, 4, 5, 6, 7, 8, 10]);
    assert_eq!((state.counts.displaced, state.counts.expired), (2, 1));
    let sent = plainhost::presscurlew_plain_poll(state, 30);
    assert_eq!((sent.reply.kind, sent.reply.packet.id), (sys::SENT, 1));
    let closed = plainhost::presscurlew_plain_poll(sent.state, 30);
    assert_eq!(closed.reply, raw_reply(&Answer::Closed(100_400)));
    let sent = plainhost::presscurlew_plain_poll(sent.state, 100_430);
    assert_eq!((sent.reply.kind, sent.reply.packet.id), (sys::SENT, 4));
    assert_eq!(ids(&sent.state), [3, 5, 6, 7, 8, 10]);
}
