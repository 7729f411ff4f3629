//! W-207: thirty milliseconds in any second.

use crate::help::{
    admission, assert_refused, fresh, late, made, offered, sampled, words, Answer, Call, PROFILES,
};
use crate::runs::told;
use reference::book::Book;
use reference::ledgers::{good, row};
use reference::rng::Rng;
use reference::state::{sound, Admission, Packet, Queue, State};
use reference::{gate, rules};

/// A sound state of the greatest duty with these admissions, and one packet of
/// priority 2 that waits for long.
fn waiting(profile: u32, ontime: u32, admissions: &[Admission]) -> State {
    let mut state = late(profile, [0; 4]);
    state.duty = 30_000_000;
    let packet = Packet {
        id: 7,
        priority: 2,
        ontime,
        lifetime: 60_000_000,
        arrival: state.time,
    };
    state.queues[2] = Queue::of(&[packet]);
    let state = state
        .counted(700, 40, 9)
        .with_admissions(&moved(admissions, state.time));
    assert!(sound(&state), "{state:?}");
    state
}

/// Admissions given by their times before now, as a state of this time has them.
fn moved(admissions: &[Admission], time: u64) -> Vec<Admission> {
    let at = |held: &Admission| admission(time - held.at, held.ontime);
    admissions.iter().map(at).collect()
}

/// So many µs ago.
fn ago(age: u64, ontime: u32) -> Admission {
    admission(age, ontime)
}

/// The poll so many µs later: CLOSED with this number, or SENT for 0.
fn polls(state: State, later: u32, left: u64) {
    let (_, answer) = gate::poll(state, state.stamp + later);
    match answer {
        Answer::Sent(packet) => assert_eq!((packet.id, left), (7, 0), "{later}"),
        other => assert_eq!(other, Answer::Closed(left), "{later}"),
    }
}

/// A run of profile 3 whose duty is the greatest from the start.
fn quick() -> (State, Book) {
    let duty = 30_000_000;
    (State { duty, ..fresh(3) }, Book::new(3, 0))
}

/// An offer that lives for long.
fn offer(id: u32, priority: u32, ontime: u32, stamp: u32) -> Call {
    Call::Offer {
        id,
        priority,
        ontime,
        lifetime: 60_000_000,
        stamp,
    }
}

fn poll(stamp: u32) -> Call {
    Call::Poll { stamp }
}

fn is_sent(answer: Answer, id: u32) -> bool {
    matches!(answer, Answer::Sent(packet) if packet.id == id)
}

/// The request's own example: the eighth packet of 4,000 µs has to wait.
#[test]
fn eight_packets_of_4_000() {
    let mut run = quick();
    for id in 0..8 {
        let stamp = id * 133_334;
        assert_eq!(told(&mut run, offer(id, 0, 4_000, stamp)), Answer::Taken);
        let answer = told(&mut run, poll(stamp));
        match id {
            7 => assert_eq!(answer, Answer::Closed(66_662)),
            _ => assert!(is_sent(answer, id)),
        }
    }
    assert_eq!(told(&mut run, poll(999_999)), Answer::Closed(1));
    assert!(is_sent(told(&mut run, poll(1_000_000)), 7));
    let (_, book) = run;
    assert_eq!((book.on_air(), book.stretch().len()), (28_000, 7));
}

/// Forty of 750 µs at 25,000 µs fill a second to the last µs, and go on so.
#[test]
fn forty_of_750_fill_the_second() {
    let mut run = quick();
    for id in 0..200 {
        let stamp = id * 25_000;
        told(&mut run, offer(id, 3, 750, stamp));
        assert!(is_sent(told(&mut run, poll(stamp)), id));
        assert_eq!(run.0.ledger.len, u64::from(id + 1).min(40));
        assert!(sound(&run.0));
    }
    assert_eq!(run.1.closest().fullest_stretch, 30_000);
}

#[test]
fn thirty_thousand_is_good_and_one_more_is_not() {
    // 29,250 in 39 admissions, the oldest 975,000 µs old.
    let held: Vec<Admission> = (1..=39).rev().map(|n| ago(n * 25_000, 750)).collect();
    polls(waiting(3, 750, &held), 0, 0);
    polls(waiting(3, 751, &held), 0, 25_000);
    polls(waiting(3, 751, &held), 24_999, 1);
    polls(waiting(3, 751, &held), 25_000, 0);
    polls(waiting(1, 750, &held), 100_000, 0);
}

/// An admission is in the second up to 999,999 µs of age.
#[test]
fn exactly_a_second_old_is_left_out() {
    let held: Vec<Admission> = (1..8).rev().map(|n| ago(n * 135_000, 4_000)).collect();
    for (later, left) in [(0, 55_000), (54_999, 1), (55_000, 0)] {
        polls(waiting(3, 4_000, &held), later, left);
    }
}

/// Several have to age where the first alone leaves too little.
#[test]
fn two_that_must_age() {
    let mut held = vec![ago(990_000, 10), ago(960_000, 1_500)];
    held.extend((1..=7).rev().map(|n| ago(4_000 + n * 131_000, 4_000)));
    // 29,510: 490 fit now, 500 once the first is gone, 2,000 once both are.
    for (ontime, left) in [
        (490, 0),
        (491, 10_000),
        (500, 10_000),
        (501, 40_000),
        (2_000, 40_000),
        (2_001, 79_000),
        (4_000, 79_000),
    ] {
        let state = waiting(3, ontime, &held);
        polls(state, 0, left);
        if left > 0 {
            polls(state, left as u32 - 1, 1);
            polls(state, left as u32, 0);
        }
    }
}

/// CLOSED is the greater of what is left of the wait and of the ageing, and
/// not their sum.
#[test]
fn the_greater_of_wait_and_ageing() {
    // The last admission of 4,000 µs asks for 133,334 from its start on.
    for (youngest, oldest, left) in [
        (1_000, 990_000, 132_334), // the wait is the longer
        (33_334, 900_000, 100_000),
        (33_334, 899_999, 100_001), // the ageing is, by 1
        (100_000, 850_000, 150_000),
        (133_334, 850_000, 150_000), // the wait is over
        (200_000, 990_000, 10_000),
    ] {
        let mut held = vec![ago(oldest, 4_000)];
        let between = (1..=5).rev().map(|n| ago(youngest + n * 110_000, 4_000));
        held.extend(between);
        held.push(ago(youngest, 4_000));
        let state = waiting(3, 4_000, &held);
        polls(state, 0, left);
        polls(state, left as u32 - 1, 1);
        polls(state, left as u32, 0);
    }
}

/// The packet is document 01's choice: one behind it that would fit does not go.
#[test]
fn a_shorter_packet_behind_does_not_go() {
    let held: Vec<Admission> = (1..8).rev().map(|n| ago(n * 135_000, 4_000)).collect();
    let mut state = waiting(3, 4_000, &held);
    let short = Packet {
        id: 8,
        ontime: 1,
        ..state.queues[2].slots[0]
    };
    state.queues[2] = Queue::of(&[state.queues[2].slots[0], short]);
    state.queues[3] = Queue::of(&[Packet {
        priority: 3,
        ..short
    }]);
    let state = state.counted(700, 40, 9);
    polls(state, 0, 55_000);
    // In a lower-numbered queue it is the choice, and goes.
    let (next, answer) = gate::offer(state, 9, 0, 1, 9, state.stamp);
    assert_eq!(answer, Answer::Taken);
    let (_, answer) = gate::poll(next, next.stamp);
    assert!(matches!(answer, Answer::Sent(packet) if packet.id == 9));
}

/// The ledger is enforced in every profile. In profile 2 no ledger is so full.
#[test]
fn the_ledger_binds_in_profile_1_too() {
    let held: Vec<Admission> = (0..30)
        .rev()
        .map(|n| ago(110_000 + n * 29_000, 1_000))
        .collect();
    let state = waiting(1, 1_000, &held);
    // The wait of level 0 is over, and 30,000 are on the ledger.
    polls(state, 0, 49_000);
    polls(state, 48_999, 1);
    polls(state, 49_000, 0);
    let fewer = waiting(1, 1_000, &held[1..]);
    polls(fewer, 0, 0);
    for profile in [1, 2] {
        let most = rules::on_time_max(profile).unwrap().min(750);
        let held: Vec<Admission> = (0..34)
            .rev()
            .map(|n| ago(150_000 + n * 25_000, most))
            .collect();
        let state = waiting(profile, most, &held);
        polls(state, 0, 0);
    }
}

/// The last admission stays beside the ledger: its wait may be longer.
#[test]
fn a_wait_that_is_longer_than_the_second() {
    let mut state = waiting(1, 1, &[ago(999_999, 1_000)]);
    state.level = 4;
    polls(state, 0, 1_001);
    let (closed, answer) = gate::poll(state, state.stamp + 1);
    assert_eq!(answer, Answer::Closed(1_000));
    assert_eq!((closed.ledger.len, closed.any), (0, true));
    assert_eq!(closed.last(), state.last());
    assert!(sound(&closed));
    polls(closed, 1_000, 0);
}

/// Every accepted call drops what has reached a second of age, and no refused
/// one does.
#[test]
fn accepted_calls_drop_and_refused_ones_do_not() {
    for profile in PROFILES {
        let held = [ago(990_000, 9), ago(700_000, 8), ago(500_000, 7)];
        let mut state = waiting(profile, 1, &held);
        state.level = 4;
        state.duty = 600_000;
        let state = state.with_admissions(&moved(&held, state.time));
        let ages = |state: &State| -> Vec<u64> {
            let held = state.ledger.held().iter();
            held.map(|held| state.time - held.at).collect()
        };
        for (step, left) in [
            (0, vec![990_000, 700_000, 500_000]),
            (9_999, vec![999_999, 709_999, 509_999]),
            (10_000, vec![710_000, 510_000]),
            (300_000, vec![800_000]),
            (499_999, vec![999_999]),
        ] {
            let stamp = state.stamp + step;
            let accepted = [
                gate::sample_count(state, 500, 1_000, stamp),
                gate::sample_words(state, 1_000, &words(500), stamp),
                gate::offer(state, 1, 0, 1, 9, stamp),
            ];
            for (next, answer) in accepted {
                assert_eq!((answer, ages(&next)), (Answer::Taken, left.clone()));
                assert!(sound(&next));
            }
            let (next, answer) = gate::poll(state, stamp);
            match answer {
                Answer::Sent(_) => {
                    let mut noted = left.clone();
                    noted.push(0);
                    assert_eq!(ages(&next), noted);
                }
                _ => assert_eq!(ages(&next), left),
            }
            assert_refused(state, gate::sample_count(state, 1_001, 1_000, stamp), 4);
            assert_refused(state, gate::sample_words(state, 1_000, &[], stamp), 4);
            assert_refused(state, gate::offer(state, 1, 4, 1, 9, stamp), 5);
            assert_refused(state, gate::offer(state, 1, 0, 0, 9, stamp), 6);
            assert_refused(state, gate::offer(state, 1, 0, 1, 0, stamp), 7);
        }
        // An idle poll drops them all, and the last admission stays.
        let empty = state.queues[0];
        let mut idle = state;
        idle.queues[2] = empty;
        let idle = idle.counted(700, 40, 9);
        let (next, answer) = gate::poll(idle, idle.stamp + 500_000);
        assert_eq!((answer, next.ledger.len), (Answer::Idle, 0));
        assert_eq!(next.last(), state.last());
    }
}

/// SENT notes the admission behind the others; what it leaves unused is zero.
#[test]
fn an_admission_is_noted() {
    for profile in PROFILES {
        let state = waiting(profile, 5, &[ago(980_000, 9), ago(950_000, 8)]);
        let step = 110_000; // past the wait of level 0; both have aged by then
        for (later, kept) in [(0, 2), (20_000, 1), (step, 0)] {
            let (next, answer) = gate::poll(state, state.stamp + later);
            assert!(matches!(answer, Answer::Sent(_)));
            let mut held = state.ledger.held()[2 - kept..].to_vec();
            held.push(admission(state.time + u64::from(later), 5));
            assert_eq!(next.ledger.held(), held);
            let zero = |room: &Admission| *room == Admission::default();
            assert!(next.ledger.unused().iter().all(zero));
            assert_eq!(next.last(), held.last().copied());
        }
    }
}

/// For every d: moved on by d, with no sample, offer or expiry, the poll sends
/// exactly if d is at least the number that CLOSED says.
#[test]
fn closed_is_the_smallest_wait_that_sends() {
    let mut rng = Rng::new(210);
    let (mut closed, mut by_second) = (0, 0);
    for _ in 0..4_000 {
        let profile = rng.pick(&PROFILES);
        let most = rules::on_time_max(profile).unwrap();
        let ontime = rng.pick(&[1, most / 2, most, most]);
        let mut state = waiting(profile, ontime, &[]);
        state.level = rng.below(5) as u32;
        state.duty = rng.pick(&[600_000, 20_000_000, 30_000_000, 30_000_000]);
        let state = state.with_admissions(&good(profile, state.time, &mut rng));
        assert!(sound(&state));
        let (_, answer) = gate::poll(state, state.stamp);
        let left = match answer {
            Answer::Closed(left) => left,
            Answer::Sent(_) => 0,
            other => panic!("{other:?}"),
        };
        closed += u32::from(left > 0);
        by_second += u32::from(left > wait_left(&state));
        let any = rng.below(1_100_000);
        for later in [0, 1, left / 2, left.saturating_sub(1), left, left + 1, any] {
            polls(state, later as u32, left.saturating_sub(later));
        }
    }
    assert!(closed > 1_000 && by_second > 200, "{closed}, {by_second}");
}

/// What is left of the wait alone.
fn wait_left(state: &State) -> u64 {
    let Some(last) = state.last() else {
        return 0;
    };
    let closed = state.closed_for(last.ontime).unwrap();
    closed.saturating_sub(state.time - last.at)
}

/// Whatever the ledger, an accepted call leaves a sound state, and forty are
/// enough: nothing that is young is lost.
#[test]
fn every_next_state_is_sound_and_nothing_young_is_lost() {
    let mut rng = Rng::new(211);
    for _ in 0..4_000 {
        let profile = rng.pick(&PROFILES);
        let mut state = waiting(profile, 1, &[]);
        state.level = rng.below(5) as u32;
        let state = state.with_admissions(&good(profile, state.time, &mut rng));
        let step = rng.pick(&[0, 1, 24_999, 25_000, 50_001, 100_001, 1_001_000]);
        let stamp = state.stamp + step;
        let (next, answer) = gate::poll(state, stamp);
        assert!(sound(&next), "{state:?}, {stamp}");
        let mut young: Vec<Admission> = (state.ledger.held().iter())
            .filter(|held| next.time - held.at < 1_000_000)
            .copied()
            .collect();
        if matches!(answer, Answer::Sent(_)) {
            young.push(admission(next.time, 1));
        }
        assert_eq!(next.ledger.held(), young);
    }
}

/// A sample that changes the wait changes what CLOSED says, and leaves the
/// ledger's part as it is.
#[test]
fn a_sample_changes_the_wait_alone() {
    let held: Vec<Admission> = (1..8).rev().map(|n| ago(n * 135_000, 4_000)).collect();
    let state = waiting(3, 4_000, &held);
    polls(state, 0, 55_000);
    let mut slower = state;
    for _ in 0..20 {
        slower = sampled(sampled(slower, 1_000), 1_000);
        polls(slower, 0, wait_left(&slower).max(55_000));
        assert_eq!(slower.ledger, state.ledger);
    }
    assert!(wait_left(&slower) > 55_000);
}

/// Half an hour at the greatest duty, at on-times that fill the second in many
/// ways, polled a µs before the moment that CLOSED says and at it.
#[test]
fn runs_at_the_edge_of_the_second() {
    for seed in [212, 213] {
        let mut rng = Rng::new(seed);
        let mut run = quick();
        let mut by_second = 0;
        for id in 0..30_000 {
            let ontime = rng.pick(&[1, 700, 750, 751, 1_000, 2_000, 3_999, 4_000, 4_000]);
            let stamp = run.0.stamp;
            told(&mut run, offer(id, rng.below(4) as u32, ontime, stamp));
            if let Answer::Closed(left) = told(&mut run, poll(stamp)) {
                let stamp = stamp.wrapping_add(left as u32);
                let near = told(&mut run, poll(stamp.wrapping_sub(1)));
                assert_eq!(near, Answer::Closed(1), "seed {seed}, {id}");
                by_second += u32::from(wait_left(&run.0) == 0);
                assert!(
                    is_sent(told(&mut run, poll(stamp)), id),
                    "seed {seed}, {id}"
                );
            }
            assert!(sound(&run.0), "seed {seed}, {id}");
            assert_eq!(run.1.compare_ledger(&run.0.ledger), Ok(()), "seed {seed}");
        }
        assert!(run.1.time() > 1_800_000_000, "{}", run.1.time());
        assert!(by_second > 1_000, "seed {seed}: {by_second}");
        assert_eq!(run.1.closest().fullest_stretch, 30_000, "seed {seed}");
    }
}

/// A fresh state holds no admission, and neither does the not live one.
#[test]
fn a_fresh_ledger_is_empty() {
    for profile in 0..=6 {
        let (state, _) = made(profile, 0, 7);
        assert_eq!(state.ledger, reference::state::Ledger::default());
    }
    let state = offered(fresh(1), 1, 0, 9, 0);
    assert_eq!(state.ledger.len, 0);
    assert_eq!(row(2, 25_000, 1, 30_000)[0], admission(5_000, 1));
}
