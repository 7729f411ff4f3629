//! Profile 5: the level goes by a list that the gate is made with, and by the last loads. Numbers that are due stand here,
//! apart from the reference.

use crate::help::{
    archive_make, hold, hold_no_state, levels_of, raw, raw_if, raw_levels, raw_levels_if,
    raw_reply, Answer, Call, Turn, LOGGED, PROFILES, WAYS,
};
use crate::plain;
use crate::runs::{made, made_with};
use presscurlew::sys::{self, Levels, MOST_LEVELS};
use presscurlew::{Gate, Level, Refusal, WhenFull};
use reference::levels;
use reference::lists;
use reference::rng::Rng;
use reference::state::{sound, Loads, State};

/// A list of eight levels, their waits falling and rising. Thresholds are loads that 12,500 probes can tell.
const EIGHT: [(u32, u32); 8] = [
    (80, 1_000_000),
    (160, 40_000),
    (100_000, 40_001),
    (300_000, 700_000),
    (300_080, 999_999),
    (620_000, 300_000),
    (999_920, 123_456),
    (1_000_000, 654_321),
];

fn eight() -> levels::Levels {
    levels::Levels::of(77_777, &EIGHT)
}

fn sample(busy: u32, stamp: u32) -> Call {
    Call::SampleCount {
        busy,
        probes: 12_500,
        stamp,
    }
}

fn offer(ontime: u32, stamp: u32) -> Call {
    let (id, priority, lifetime) = (7, 0, 60_000_000);
    Call::Offer {
        id,
        priority,
        ontime,
        lifetime,
        stamp,
    }
}

/// The state after calls that are not refused, and the last answer: of both engines and of the reference.
fn after(state: State, calls: &[Call]) -> (State, Answer) {
    let mut turn = (state, Answer::Ready);
    let mut line = plain::lined(&raw(&state), &mut Rng::new(1));
    for call in calls {
        line = plain::hold_alike(&line, call, &"profile 5").state;
        turn = hold(&turn.0, call, &"profile 5");
        let refused = matches!(turn.1, Answer::Refused(_));
        assert!(!refused, "{call:?}: {:?}", turn.1);
    }
    assert_eq!(line.parted(), Some(raw(&turn.0)));
    turn
}

/// So many samples alike.
fn samples(busy: u32, many: usize) -> Vec<Call> {
    vec![sample(busy, 0); many]
}

#[test]
fn ten_loud_samples_raise_it_at_once_and_fifty_quiet_ones_lower_it() {
    let fresh = made_with(5, sys::DROP_OLDEST, &eight(), 0);
    let (nine, _) = after(fresh, &samples(12_500, 9));
    assert_eq!(nine.level, 0);
    let (ten, _) = after(nine, &samples(12_500, 1));
    assert_eq!(ten.level, 8);
    let (quiet, _) = after(ten, &samples(0, 49));
    assert_eq!(quiet.level, 8);
    let (still, _) = after(quiet, &samples(0, 1));
    assert_eq!(still.level, 0);
}

/// Ten loads that are not all alike raise it to the least of them; of fifty the greatest holds it.
#[test]
fn one_quiet_sample_of_ten_holds_it_down_and_one_loud_of_fifty_up() {
    for quiet_at in 0..10 {
        let mut calls = samples(12_500, 10);
        calls[quiet_at] = sample(2, 0); // 160: level 2
        let (state, _) = after(made_with(5, sys::DROP_OLDEST, &eight(), 0), &calls);
        assert_eq!(state.level, 2, "the quiet one at {quiet_at}");
    }
    for loud_at in 0..50 {
        let mut calls = samples(12_500, 10);
        calls.extend(samples(0, 50));
        calls[10 + loud_at] = sample(7_750, 0); // 620,000: level 6
        let (state, _) = after(made_with(5, sys::DROP_OLDEST, &eight(), 0), &calls);
        assert_eq!(state.level, 6, "the loud one at {loud_at}");
    }
}

/// A load that is just the threshold reaches it, and the next one below doesn't: going up and coming down.
#[test]
fn a_threshold_is_reached_by_the_load_that_it_is() {
    for (level, (above, _)) in (1..).zip(EIGHT) {
        let busy = above / 80;
        for (busy, due) in [(busy, level), (busy - 1, below(above - 80))] {
            let fresh = made_with(5, sys::DROP_OLDEST, &eight(), 0);
            let (up, _) = after(fresh, &samples(busy, 10));
            assert_eq!(up.level, due, "up by {busy} of 12,500");
            let (top, _) = after(fresh, &samples(12_500, 10));
            let (down, _) = after(top, &samples(busy, 50));
            assert_eq!(down.level, due, "down by {busy} of 12,500");
        }
    }
}

/// The highest level of the eight whose threshold a load reaches.
fn below(load: u32) -> u32 {
    EIGHT.iter().filter(|(above, _)| *above <= load).count() as u32
}

/// The wait of each level, from the end of the packet; taken afresh at each poll.
#[test]
fn waits_are_those_of_the_list() {
    let waits = [77_777].into_iter().chain(EIGHT.map(|(_, wait)| wait));
    for (level, wait) in (0..).zip(waits) {
        for ontime in [1, 400, 1_000] {
            let busy = match level {
                0 => 0,
                _ => EIGHT[level - 1].0 / 80,
            };
            let mut calls = samples(busy, 10);
            calls.extend([offer(ontime, 0), offer(ontime, 0)]);
            calls.extend([Call::Poll { stamp: 0 }, Call::Poll { stamp: 0 }]);
            let fresh = made_with(5, sys::REFUSE_NEW, &eight(), 0);
            let (state, answer) = after(fresh, &calls);
            let due = ontime + wait;
            assert_eq!(answer, Answer::Closed(u64::from(due)), "level {level}");
            let (state, answer) = after(state, &[Call::Poll { stamp: due - 1 }]);
            assert_eq!(answer, Answer::Closed(1), "level {level}");
            let (_, answer) = after(state, &[Call::Poll { stamp: due }]);
            assert!(matches!(answer, Answer::Sent(_)), "level {level}");
        }
    }
}

#[test]
fn a_sample_between_polls_moves_the_wait() {
    let mut calls = samples(12_500, 9);
    calls.extend([offer(500, 0), offer(500, 0), Call::Poll { stamp: 0 }]);
    let fresh = made(5, sys::DROP_OLDEST, 0);
    let (state, _) = after(fresh, &calls);
    let (_, answer) = after(state, &[Call::Poll { stamp: 10 }]);
    assert_eq!(answer, Answer::Closed(50_490));
    let (_, answer) = after(state, &[sample(12_500, 10), Call::Poll { stamp: 10 }]);
    assert_eq!(answer, Answer::Closed(1_000_490));
}

/// The loads are the last fifty that were taken, in order of coming, whatever was refused between them.
#[test]
fn the_last_fifty_loads_are_held() {
    let mut rng = Rng::new(0x1ed1);
    let mut state = made(5, sys::DROP_OLDEST, 0);
    let mut loads: Vec<u32> = vec![];
    for _ in 0..400 {
        let (busy, probes) = (rng.below(1_200) as u32, rng.pick(&[1, 3, 1_000, 12_500, 0]));
        let call = Call::SampleCount {
            busy,
            probes,
            stamp: 0,
        };
        let (next, answer) = hold(&state, &call, &"loads");
        if answer == Answer::Taken {
            loads.push((1_000_000 * u64::from(busy) / u64::from(probes)) as u32);
        } else {
            assert_eq!(answer, Answer::Refused(4));
        }
        let held = raw(&next);
        let last = &loads[loads.len().saturating_sub(50)..];
        assert_eq!(held.load_count, last.len() as u32);
        assert_eq!(held.loads[..last.len()], *last);
        assert!(held.loads[last.len()..].iter().all(|load| *load == 0));
        state = next;
    }
    assert!(loads.len() > 100, "only {} taken", loads.len());
}

/// The level after a sample, written as a clamp: any list, any level of it, any loads.
#[test]
fn the_level_moves_the_least_needed() {
    let mut rng = Rng::new(0x1ed2);
    let mut moved = [0; 3];
    for _ in 0..30_000 {
        let fresh = made(5, sys::DROP_OLDEST, 0);
        let state = lists::given(fresh, &mut rng);
        assert!(sound(&state), "{state:?}");
        let load = lists::load_near(&state.levels, &mut rng);
        let (busy, probes) = lists::sample_of(load, &mut rng);
        let call = Call::SampleCount {
            busy,
            probes,
            stamp: 0,
        };
        let (next, _) = after(state, std::slice::from_ref(&call));
        let after = raw(&next);
        let held = &after.loads[..after.load_count as usize];
        let low = match held.len() {
            0..10 => 0,
            many => *held[many - 10..].iter().min().expect("ten loads"),
        };
        let high = *held.iter().max().expect("the sample's own");
        let listed = &after.thresholds[..after.level_count as usize];
        let reached = |load| listed.iter().filter(|above| **above <= load).count() as u32;
        let due = state.level.clamp(reached(low), reached(high));
        assert_eq!(next.level, due, "{state:?}, {call:?}");
        moved[(due.cmp(&state.level) as i8 + 1) as usize] += 1;
    }
    assert!(moved.iter().all(|&times| times > 1_000), "{moved:?}");
}

/// Lists of every length, each number of each at its edges: both engines take the good ones, and refuse the others with
/// 15 and the all-zero state. In the other profiles every one of them is as none.
#[test]
fn every_list_at_its_edges() {
    let mut refused = 0;
    for (list, good) in edge_lists() {
        if raw_levels_if(&list).is_none() {
            let refused = plain::made_with(5, 0, &list, 9);
            assert_eq!(refused, plainhost::State::default(), "{list:?}");
            continue;
        }
        for way in WAYS {
            let state = made_with(5, way, &list, 9);
            assert_eq!(state.live, good, "{list:?}");
            let plain = plain::made_with(5, way, &list, 9);
            assert_eq!(plain.parted(), Some(raw(&state)));
            let turn = archive_make(5, way, &raw_levels(&list), 9);
            let due = match good {
                true => raw_reply(&Answer::Ready),
                false => raw_reply(&Answer::Refused(15)),
            };
            assert_eq!(turn.reply, due, "{list:?}");
        }
        for profile in LOGGED {
            let none = archive_make(profile, 0, &Levels::NONE, 9);
            let turn = archive_make(profile, 0, &raw_levels(&list), 9);
            assert_eq!((turn, turn.reply.kind), (none, sys::READY), "{list:?}");
            plain::made_with(profile, 0, &list, 9);
        }
        refused += u32::from(!good);
    }
    assert!(refused > 200, "only {refused}");
}

/// Lists with one number at an edge, and whether each is good: by the letter, place by place.
fn edge_lists() -> Vec<(levels::Levels, bool)> {
    let mut all = vec![];
    let waits = [
        (0, false),
        (1, false),
        (39_999, false),
        (40_000, true),
        (40_001, true),
        (999_999, true),
        (1_000_000, true),
        (1_000_001, false),
        (u32::MAX, false),
    ];
    for many in 0..=9 {
        let level = |k: u32| (100_000 * k, 50_000 * k);
        let listed: Vec<(u32, u32)> = (1..=many).map(level).collect();
        let mut list = levels::Levels::of(60_000, &listed);
        list.len = u64::from(many);
        let length = (1..=8).contains(&many);
        all.push((list, length));
        for (wait, good) in waits {
            all.push((levels::Levels { wait, ..list }, length && good));
        }
        for place in 0..8 {
            let used = place < many as usize;
            for (wait, good) in waits {
                let mut bent = list;
                bent.waits[place] = wait;
                all.push((bent, length && (good || !used)));
            }
            // The first is above 0 and the last up to 1,000,000; each is above the one before and below the next.
            let before = if place == 0 { 0 } else { list.above[place - 1] };
            let last = place + 1 == many as usize;
            let next = if last {
                1_000_001
            } else {
                100_000 * (place as u32 + 2)
            };
            for (above, good) in [
                (0, false),
                (before, false),
                (before + 1, true),
                (next - 1, true),
                (next, false),
                (1_000_001, false),
                (u32::MAX, false),
            ] {
                let mut bent = list;
                bent.above[place] = above;
                all.push((bent, length && (good || !used)));
            }
        }
    }
    // Up to 32 bits a count can be said; of more only the plain engine can be told.
    for len in [1 << 8, 1 << 16, (1 << 16) + 1, 1 << 31, (1 << 32) - 1] {
        all.push((levels::Levels { len, ..eight() }, false));
    }
    for len in [1 << 32, (1 << 32) + 1, 1 << 63, u64::MAX] {
        all.push((levels::Levels { len, ..eight() }, false));
    }
    all
}

/// Random lists, good, littered past their length, and with one rule broken at every place.
#[test]
fn random_lists() {
    let mut rng = Rng::new(0x1ed3);
    for _ in 0..300 {
        let list = lists::good(&mut rng);
        let littered = lists::littered(&list, &mut rng);
        for way in WAYS {
            let state = made_with(5, way, &list, 3);
            assert!(sound(&state), "{list:?}");
            assert_eq!(made_with(5, way, &littered, 3), state, "{littered:?}");
            plain::made_with(5, way, &littered, 3);
        }
        for (rule, bad) in lists::bad(&list) {
            let refused = plain::made_with(5, 0, &bad, 3);
            assert_eq!(refused, plainhost::State::default(), "{rule}: {bad:?}");
            // Of a count above 32 bits only the plain engine can be told.
            if raw_levels_if(&bad).is_some() {
                let state = made_with(5, 0, &bad, 3);
                assert_eq!(state, State::default(), "{rule}: {bad:?}");
            }
        }
    }
}

/// 1 comes before 15, and 15 is for profile 5 alone.
#[test]
fn a_bad_profile_or_way_comes_before_a_bad_list() {
    let bad = [Levels::NONE, raw_levels(&levels_of(1))];
    for list in bad {
        for (profile, way, number) in [
            (0, 0, 1),
            (6, 0, 1),
            (5, 2, 1),
            (5, u32::MAX, 1),
            (5 + 256, 1, 1),
            (5, 0, 15),
            (5, 1, 15),
        ] {
            let turn = archive_make(profile, way, &list, 3);
            let due = Turn {
                state: presscurlew::State::default(),
                reply: raw_reply(&Answer::Refused(number)),
            };
            assert_eq!(turn, due, "profile {profile}, way {way}");
        }
    }
}

/// Slices of 0 to 9 levels and more: a `Gate` has the list that it was given, or there is none.
#[test]
fn a_gate_is_made_of_1_to_8_levels() {
    let level = |k: u32| Level {
        threshold: 10_000 * k,
        wait: 40_000 + k,
    };
    for many in (0..=9).chain([50, 90]) {
        let listed: Vec<Level> = (1..=many).map(level).collect();
        let made = Gate::first_edition(55_555, &listed, WhenFull::RefuseNew, 3);
        if !(1..=8).contains(&many) {
            assert_eq!(made, Err(Refusal::BadList), "{many} levels");
            continue;
        }
        let gate = made.expect("a good list");
        let list = gate.state().levels();
        assert_eq!((list.count, list.base_wait), (many, 55_555));
        for (place, level) in listed.iter().enumerate() {
            assert_eq!(
                (list.thresholds[place], list.waits[place]),
                (level.threshold, level.wait)
            );
        }
        let unused = many as usize..MOST_LEVELS;
        let thresholds = &list.thresholds[unused.clone()];
        assert!(thresholds.iter().all(|threshold| *threshold == 0));
        assert!(list.waits[unused].iter().all(|wait| *wait == 0));
        assert_eq!((gate.state().profile, gate.state().when_full), (5, 1));
    }
}

/// A list or a load in a state of another profile, in any place, is refused with 9; so is one of profile 5 without any.
#[test]
fn only_profile_5_has_a_list_and_loads() {
    for profile in PROFILES {
        let fresh = made(profile, sys::DROP_OLDEST, 0);
        let others = PROFILES.into_iter().filter(|other| *other != profile);
        for other in others.filter(|other| *other == 5 || profile == 5) {
            let state = presscurlew::State {
                profile: other,
                ..raw(&fresh)
            };
            hold_no_state(&state, &Call::Poll { stamp: 0 }, &"another profile");
        }
        let broken = lists::broken(&fresh).into_iter();
        // A length above 32 bits can't be said; `broken_states` has those that stand in its place.
        let said = broken.filter_map(|(rule, state)| Some((rule, raw_if(&state)?)));
        for (rule, state) in said {
            hold_no_state(&state, &Call::Poll { stamp: 0 }, &rule);
        }
    }
}

/// Twenty-five packets of 1 ms go in a second at the shortest wait: 25 ms, so that the second never holds them.
#[test]
fn the_shortest_wait_leaves_25_ms_in_a_second() {
    let list = levels::Levels::of(40_000, &[(1, 1_000_000)]);
    let mut state = made_with(5, sys::DROP_OLDEST, &list, 0);
    for k in 0..60 {
        let stamp = 41_000 * k;
        let (next, answer) = after(state, &[offer(1_000, stamp), Call::Poll { stamp }]);
        assert!(matches!(answer, Answer::Sent(_)), "packet {k}: {answer:?}");
        state = next;
        let held: u32 = raw(&state).last_second().map(|held| held.ontime).sum();
        assert!(held <= 25_000, "{held} in a second");
        assert!(k < 24 || held == 25_000, "{held} after packet {k}");
    }
}

/// A run without samples stays at level 0, also where the state came with loads.
#[test]
fn only_samples_move_the_level() {
    let fresh = made_with(5, sys::DROP_OLDEST, &eight(), 0);
    let state = State {
        loads: Loads::of(&[1_000_000; 50]),
        ..fresh
    };
    let calls = [
        offer(5, 1),
        Call::Poll { stamp: 2 },
        Call::Poll { stamp: 3 },
    ];
    let (next, _) = after(state, &calls);
    assert_eq!((next.level, next.loads), (0, state.loads));
}
