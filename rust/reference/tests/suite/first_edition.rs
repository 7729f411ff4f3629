//! W-213: the first edition's state machine, profile 5.

use std::collections::{BTreeMap, BTreeSet};

use crate::help::{
    admission, assert_refused, four_levels, fresh, late, made, offered, sampled, sent, words,
    Answer, Call,
};
use crate::runs::{told, Caller};
use reference::book::{floor, owes_ceiling, Book};
use reference::levels::{self, high, low};
use reference::lists::{self, bad, good, littered, loads, sample_of};
use reference::log::{line, step, Record};
use reference::rng::Rng;
use reference::state::{broken_rules, rule_names, sound, Levels, Loads, State};
use reference::{calls, ccalls, gate, rules};

/// The longest list: thresholds 100,000 to 800,000, each level with its own
/// wait; the waits fall now and then.
fn eight_levels() -> Levels {
    let waits = [
        60_000, 50_000, 70_000, 300_000, 80_000, 90_000, 40_000, 1_000_000,
    ];
    let above = (1..).map(|level| 100_000 * level);
    let listed: Vec<(u32, u32)> = above.zip(waits).collect();
    Levels::of(45_000, &listed)
}

/// A fresh state of profile 5 with that list.
fn with(list: &Levels) -> State {
    let (state, answer) = gate::make(5, 0, list, 0);
    assert_eq!(answer, Answer::Ready, "{list:?}");
    state
}

/// The state after so many samples of one busy count, of 1,000 probes.
fn after(state: State, many: u32, busy: u32) -> State {
    (0..many).fold(state, |state, _| sampled(state, busy))
}

#[test]
fn the_constants_stand_together() {
    let five = rules::PROFILE_5;
    assert_eq!(five.on_time_max, 1_000);
    assert_eq!((five.wait_least, five.wait_most), (40_000, 1_000_000));
    assert_eq!((five.low_samples, five.high_samples), (10, 50));
    assert_eq!(five.wait_from, rules::WaitFrom::End);
    assert_eq!(calls::BAD_LIST, 15);
    assert_eq!((floor(5), owes_ceiling(5)), (1_001_000, true));
}

/// The fifth profile: as fresh as the others, but for its list.
#[test]
fn a_fresh_state_has_its_list() {
    for (oldway, stamp) in [(0, 0), (0, 1), (0, u32::MAX), (1, 0), (1, 7)] {
        for list in [four_levels(), eight_levels()] {
            let expected = State {
                live: true,
                profile: 5,
                oldway,
                stamp,
                duty: 600_000,
                levels: list,
                ..State::default()
            };
            let result = gate::make(5, oldway, &list, stamp);
            assert_eq!(result, (expected, Answer::Ready));
        }
    }
}

/// "A list of 1 to 8 levels above level 0".
#[test]
fn lists_of_1_to_8_levels_are_good() {
    for many in 1..=8 {
        let listed = eight_levels().listed();
        let list = Levels::of(40_000, &listed[..many]);
        assert_eq!(list.len, many as u64);
        assert!(list.good() && list.unused_zero());
        let state = with(&list);
        assert_eq!((state.levels, state.level), (list, 0));
        assert_eq!(state.loads, Loads::default());
        assert!(sound(&state));
    }
    let none = Levels::of(40_000, &[]);
    assert_eq!(none.broken_rules(), ["1 to 8 levels"]);
    assert_refused(State::default(), gate::make(5, 0, &none, 7), 15);
    // A ninth has no room.
    assert_eq!(Levels::of(40_000, &[(1, 40_000); 9]).len, 8);
}

/// Each number at its limits, a step to both sides: threshold, wait, level 0's.
#[test]
fn the_limits_of_a_list() {
    for (above, wait, zero, good) in [
        (1, 40_000, 40_000, true),
        (1_000_000, 1_000_000, 1_000_000, true),
        (0, 40_000, 40_000, false),
        (1_000_001, 40_000, 40_000, false),
        (1, 39_999, 40_000, false),
        (1, 1_000_001, 40_000, false),
        (1, 40_000, 39_999, false),
        (1, 40_000, 1_000_001, false),
    ] {
        let list = Levels::of(zero, &[(above, wait)]);
        assert_eq!(list.good(), good, "{list:?}");
        let answer = gate::make(5, 0, &list, 7).1;
        let number = if good {
            Answer::Ready
        } else {
            Answer::Refused(15)
        };
        assert_eq!(answer, number, "{list:?}");
    }
}

/// "Thresholds rise strictly": a single step is enough, and none is too few.
#[test]
fn thresholds_rise_strictly() {
    let of = |thresholds: &[u32]| {
        let listed: Vec<(u32, u32)> = thresholds.iter().map(|above| (*above, 40_000)).collect();
        Levels::of(40_000, &listed)
    };
    assert!(of(&[1, 2, 3, 4, 5, 6, 7, 8]).good());
    assert!(of(&[999_999, 1_000_000]).good());
    for bent in [[5, 5, 6], [5, 6, 6], [5, 4, 6], [5, 7, 6], [0, 1, 2]] {
        let broken = of(&bent).broken_rules();
        assert_eq!(broken, ["thresholds rise strictly from 0"], "{bent:?}");
    }
}

/// Every way a list is bad, in every place: it breaks one rule alone, and make
/// refuses it with 15.
#[test]
fn every_bad_list_is_refused_with_15() {
    let mut rng = Rng::new(213);
    let mut tried = BTreeMap::new();
    let mut lengths = BTreeSet::new();
    for _ in 0..300 {
        let list = good(&mut rng);
        assert!(list.good() && list.unused_zero(), "{list:?}");
        lengths.insert(list.len);
        for (rule, bent) in bad(&list) {
            assert_eq!(bent.broken_rules(), [rule], "{bent:?}");
            *tried.entry(rule).or_insert(0) += 1;
            for (oldway, number) in [(0, 15), (1, 15), (2, 1)] {
                let result = gate::make(5, oldway, &bent, 7);
                assert_refused(State::default(), result, number);
            }
        }
    }
    assert_eq!(lengths.len(), 8);
    for rule in levels::rule_names() {
        assert!(tried.get(rule) > Some(&100), "{rule}: {tried:?}");
    }
}

/// "It is judged for profile 5 alone", and 1 comes first. The others hold an
/// empty list, whatever they are made with.
#[test]
fn other_profiles_look_at_no_list() {
    let mut rng = Rng::new(214);
    let mut any = vec![four_levels(), Levels::default()];
    any.extend(bad(&good(&mut rng)).into_iter().map(|(_, bent)| bent));
    for list in any {
        for profile in [1, 2, 3, 4] {
            let result = gate::make(profile, 1, &list, 7);
            assert_eq!(result, made(profile, 1, 7));
            assert_eq!(result.1, Answer::Ready);
            assert_eq!(result.0.levels, Levels::default());
        }
        for profile in [0, 6, u32::MAX] {
            let result = gate::make(profile, 0, &list, 7);
            assert_refused(State::default(), result, 1);
        }
    }
}

/// What lies past the length of make's list is free, and zero in the state.
#[test]
fn the_room_past_the_list_is_free_at_making() {
    let mut rng = Rng::new(215);
    let mut bent = 0;
    for _ in 0..500 {
        let list = good(&mut rng);
        let more = littered(&list, &mut rng);
        assert_eq!(with(&more), with(&list));
        assert_eq!(with(&more).levels, list);
        bent += u32::from(!more.unused_zero());
    }
    assert!(bent > 300, "{bent}");
}

/// Level 0 is reached by every load, the others from their threshold on.
#[test]
fn a_threshold_just_reached() {
    let list = eight_levels();
    for load in 0..=1_000_000 {
        assert_eq!(list.reached(load), (load / 100_000).min(8));
    }
    assert_eq!(list.threshold(0), Some(0));
    assert_eq!(list.threshold(8), Some(800_000));
    assert_eq!((list.threshold(9), list.wait_of(9)), (None, None));
    // Up by ten at a threshold; a part less doesn't do it.
    for (busy, level) in [(99, 0), (100, 1), (799, 7), (800, 8), (1_000, 8)] {
        assert_eq!(after(with(&list), 10, busy).level, level, "{busy}");
    }
    // Down by fifty just below a threshold; at it the level stays.
    let top = after(with(&list), 10, 1_000);
    assert_eq!(after(top, 200, 800).level, 8);
    assert_eq!(after(top, 50, 799).level, 7);
}

/// "Low is the least load of the last 10 samples, 0 before there are ten."
#[test]
fn low_by_hand() {
    assert_eq!(low(&[]), 0);
    assert_eq!(low(&[9; 9]), 0);
    assert_eq!(low(&[9; 10]), 9);
    let mut rising: Vec<u32> = (1..=10).collect();
    assert_eq!(low(&rising), 1);
    rising.push(11);
    assert_eq!(low(&rising), 2);
    rising.push(0);
    assert_eq!(low(&rising), 0);
}

/// "High is the greatest of the last 50, or of those there are."
#[test]
fn high_by_hand() {
    assert_eq!(high(&[]), 0);
    assert_eq!(high(&[7]), 7);
    let mut falling: Vec<u32> = (1..=50).rev().collect();
    assert_eq!(high(&falling[..2]), 50);
    assert_eq!(high(&falling), 50);
    falling.push(0);
    assert_eq!(high(&falling), 49);
    falling.push(51);
    assert_eq!(high(&falling), 51);
}

/// Nine full loads leave level 0, the tenth the top, from any list.
#[test]
fn ten_full_samples_reach_the_top_at_once() {
    for list in [
        eight_levels(),
        four_levels(),
        Levels::of(40_000, &[(1_000_000, 40_000)]),
    ] {
        let mut state = with(&list);
        for _ in 0..9 {
            state = sampled(state, 1_000);
            assert_eq!(state.level, 0);
        }
        state = sampled(state, 1_000);
        assert_eq!(u64::from(state.level), list.len);
        assert_eq!(after(state, 100, 1_000).level, state.level);
    }
}

/// One quiet sample among ten is enough to stay; the ten must be the last.
#[test]
fn one_quiet_sample_starts_the_ten_anew() {
    let state = after(with(&eight_levels()), 9, 1_000);
    let mut state = sampled(state, 99);
    for _ in 0..9 {
        state = sampled(state, 1_000);
        assert_eq!(state.level, 0);
    }
    assert_eq!(sampled(state, 1_000).level, 8);
}

/// 49 quiet ones leave the top, the 50th brings it down, at once to level 0.
#[test]
fn fifty_quiet_samples_bring_it_down_at_once() {
    let mut state = after(with(&eight_levels()), 10, 1_000);
    for _ in 0..49 {
        state = sampled(state, 0);
        assert_eq!(state.level, 8);
    }
    state = sampled(state, 0);
    assert_eq!(state.level, 0);
    // One loud sample among the fifty is enough to stay.
    let mut state = after(with(&eight_levels()), 10, 1_000);
    state = sampled(after(state, 49, 0), 1_000);
    for _ in 0..49 {
        state = sampled(state, 0);
        assert_eq!(state.level, 8);
    }
    assert_eq!(sampled(state, 0).level, 0);
}

/// The level moves no further than is needed: up to up, or down to down.
#[test]
fn the_level_moves_the_least_needed() {
    let state = after(with(&eight_levels()), 10, 350);
    assert_eq!(state.level, 3);
    // Up is 3 and down is 9 of ten: louder ones leave it until there are ten.
    let louder = after(state, 9, 650);
    assert_eq!(louder.level, 3);
    assert_eq!(sampled(louder, 650).level, 6);
    // Fifty of 250 bring the 6 down to 2, and no further.
    let falling = after(sampled(louder, 650), 49, 250);
    assert_eq!(falling.level, 6);
    assert_eq!(sampled(falling, 250).level, 2);
    // Between up and down it stays where it is.
    for level in 0..=8 {
        let mut loads = vec![150_000; 50];
        loads[20] = 450_000;
        let next = eight_levels().level_next(level, &loads);
        assert_eq!(next, level.clamp(1, 4));
    }
}

/// A sound state may have a level outside up to down; the next sample moves it,
/// and "before there are ten" low is 0.
#[test]
fn a_level_outside_is_moved_by_the_next_sample() {
    let odd = State {
        level: 7,
        ..with(&eight_levels())
    };
    assert!(sound(&odd));
    assert_eq!(sampled(odd, 250).level, 2);
    assert_eq!(sampled(odd, 1_000).level, 7);
    let loads = Loads::of(&[900_000; 50]);
    let low = State {
        loads,
        ..with(&eight_levels())
    };
    assert!(sound(&low));
    assert_eq!(sampled(low, 950).level, 8);
    assert_eq!(sampled(low, 0).level, 0);
}

/// Loads are held in order of coming, the oldest first; from the fifty-first on
/// the oldest goes. A sample changes loads and level alone.
#[test]
fn the_last_fifty_loads_are_held_in_order() {
    let mut state = with(&eight_levels());
    state.duty = 7_654_321; // odd, but sound, and never changed
    state.smoothed = 123_456;
    let mut came = Vec::new();
    for busy in 1..=120 {
        let next = sampled(state, busy);
        came.push(1_000 * busy);
        let from = came.len().saturating_sub(50);
        assert_eq!(next.loads.held(), &came[from..]);
        assert!(next.loads.unused().iter().all(|room| *room == 0));
        let (level, loads) = (next.level, next.loads);
        assert_eq!(
            next,
            State {
                level,
                loads,
                ..state
            }
        );
        state = next;
    }
    // Refused ones don't count, and words are as good as a count.
    assert_refused(state, gate::sample_count(state, 1_001, 1_000, 5), 4);
    let by_words = gate::sample_words(state, 1_000, &words(777), 5);
    assert_eq!(by_words, gate::sample_count(state, 777, 1_000, 5));
    assert_eq!(by_words.0.loads.held()[49], 777_000);
    // A load of zero is held as well.
    assert_eq!(sampled(fresh(5), 0).loads.len, 1);
}

/// The machine worked anew from all loads that ever came.
#[test]
fn the_level_over_long_runs() {
    let mut rng = Rng::new(216);
    let (mut ups, mut downs, mut far) = (0, 0, 0);
    for _ in 0..60 {
        let list = good(&mut rng);
        let (mut state, mut level) = (with(&list), 0usize);
        let mut came: Vec<u32> = Vec::new();
        for load in loads(&list, 400, &mut rng) {
            let (busy, probes) = sample_of(load, &mut rng);
            let (next, answer) = gate::sample_count(state, busy, probes, 0);
            assert_eq!(answer, Answer::Taken);
            came.push(rules::load_of_count(busy, probes).unwrap());
            let reaching = |load: u32| list.thresholds().iter().filter(|at| load >= **at).count();
            let ten = came.iter().rev().take(10);
            let up = if came.len() < 10 {
                0
            } else {
                reaching(*ten.min().unwrap())
            };
            let down = reaching(*came.iter().rev().take(50).max().unwrap());
            let before = level;
            level = level.max(up).min(down);
            ups += u32::from(level > before);
            downs += u32::from(level < before);
            far += u32::from(level.abs_diff(before) > 1);
            assert_eq!(next.level as usize, level, "{list:?}, {came:?}");
            assert!(sound(&next));
            state = next;
        }
    }
    assert!(
        ups > 100 && downs > 100 && far > 100,
        "{ups}, {downs}, {far}"
    );
}

/// The wait is the level's own, from the end of the transmission.
#[test]
fn the_gate_opens_exactly_when_the_wait_after_the_on_time_is_over() {
    let list = eight_levels();
    for (level, wait) in (0..).zip([
        45_000, 60_000, 50_000, 70_000, 300_000, 80_000, 90_000, 40_000, 1_000_000,
    ]) {
        for ontime in [1, 500, 1_000] {
            let mut state = late(5, [2, 0, 0, 0]);
            state.levels = list;
            state.level = level;
            state.queues[0].slots[0].lifetime = 60_000_000;
            state = state.with_admissions(&[admission(state.time, ontime)]);
            assert_eq!(state.wait(ontime), Some(wait));
            let closed = ontime + wait;
            let (_, answer) = gate::poll(state, state.stamp);
            assert_eq!(answer, Answer::Closed(u64::from(closed)));
            let near = state.stamp + closed - 1;
            assert_eq!(gate::poll(state, near).1, Answer::Closed(1));
            assert!(matches!(gate::poll(state, near + 1).1, Answer::Sent(_)));
        }
    }
}

/// The wait is taken afresh at each poll: samples close the gate, and open it.
#[test]
fn a_sample_changes_the_wait() {
    let state = offered(with(&eight_levels()), 1, 0, 60_000_000, 0);
    let state = offered(sent(state, 1, 0), 2, 0, 60_000_000, 0);
    let left = |state: State| match gate::poll(state, 40_001).1 {
        Answer::Closed(left) => left,
        Answer::Sent(_) => 0,
        other => panic!("{other:?}"),
    };
    assert_eq!(left(state), 5_000);
    let top = after(state, 10, 1_000);
    assert_eq!(left(top), 960_000);
    assert_eq!(left(after(top, 49, 750)), 960_000);
    assert_eq!(left(after(top, 50, 750)), 0); // level 7's 40,000
    assert_eq!(left(after(top, 50, 0)), 5_000);
}

/// The ceiling at the quickest that profile 5 can be: 1,000 µs each 41,000.
#[test]
fn the_ceiling_is_kept_at_the_shortest_wait() {
    let mut run = (with(&four_levels()), Book::new(5, 0));
    let mut stamp = 0u32;
    for id in 0..5_000 {
        let (priority, ontime, lifetime) = (0, 1_000, 60_000_000);
        let offer = Call::Offer {
            id,
            priority,
            ontime,
            lifetime,
            stamp,
        };
        assert_eq!(told(&mut run, offer), Answer::Taken);
        if let Answer::Closed(left) = told(&mut run, Call::Poll { stamp }) {
            assert_eq!(left, 41_000);
            stamp = stamp.wrapping_add(left as u32);
            let answer = told(&mut run, Call::Poll { stamp });
            assert!(matches!(answer, Answer::Sent(_)), "{answer:?}");
        }
    }
    assert_eq!(run.1.counts().sent, 5_000);
    assert_eq!(run.1.closest().shortest_gap, Some(41_000));
    assert_eq!(run.1.closest().fullest_stretch, 25_000);
}

/// Runs with any list keep the claim.
#[test]
fn the_claim_holds_with_any_list() {
    let mut rng = Rng::new(217);
    for seed in 0..40 {
        let list = good(&mut rng);
        let mut run = (with(&list), Book::new(5, 0));
        let mut caller = Caller::new(5, seed);
        for _ in 0..2_000 {
            let call = caller.call(run.0.stamp);
            let answer = told(&mut run, call);
            caller.heard(&answer);
            assert!(sound(&run.0), "{list:?}, seed {seed}");
            assert_eq!(run.0.levels, list);
        }
    }
}

/// Each rule of W-213 broken alone, in every place, in states that a run
/// reaches and in others, and in every other profile.
#[test]
fn each_rule_broken_alone() {
    let mut rng = Rng::new(218);
    let mut starts: Vec<State> = [1, 2, 3, 4].map(fresh).to_vec();
    starts.extend([1, 2, 3, 4].map(|profile| late(profile, [1, 0, 2, 5])));
    starts.push(fresh(5));
    for _ in 0..60 {
        starts.push(lists::given(late(5, [1, 0, 2, 5]), &mut rng));
        starts.push(lists::reached(&mut rng));
    }
    let mut tried = BTreeMap::new();
    for start in starts {
        assert_eq!(broken_rules(&start), Vec::<&str>::new(), "{start:?}");
        for (rule, bent) in lists::broken(&start) {
            assert_eq!(broken_rules(&bent), [rule], "{bent:?}");
            let stamp = bent.stamp;
            assert_refused(bent, gate::poll(bent, stamp), 9);
            assert_refused(bent, gate::sample_count(bent, 0, 1_000, stamp), 9);
            assert_refused(bent, gate::offer(bent, 1, 0, 1, 1, stamp), 9);
            *tried.entry(rule).or_insert(0) += 1;
        }
    }
    let of_5 = |rule: &&&str| rule.contains("profile 5") || rule.contains("last loads");
    let rules = rule_names();
    assert_eq!(rules.iter().filter(of_5).count(), 7);
    for rule in rules.iter().filter(of_5) {
        assert!(tried.get(rule) > Some(&50), "{rule}: {tried:?}");
    }
    let room = tried.get("list room past the length zero");
    assert!(room > Some(&50), "{tried:?}");
}

/// States that a run reaches, and such as it doesn't, are in what is drawn: a
/// level past 4, one outside up to down, few loads and all fifty.
#[test]
fn drawn_states_are_of_every_kind() {
    let mut rng = Rng::new(219);
    let (mut high_up, mut outside, mut full, mut few) = (0, 0, 0, 0);
    for _ in 0..500 {
        for state in [
            lists::given(late(5, [5, 0, 2, 1]), &mut rng),
            lists::reached(&mut rng),
        ] {
            assert!(sound(&state), "{state:?}");
            high_up += u32::from(state.level > 4);
            full += u32::from(state.loads.len == 50);
            few += u32::from(state.loads.len < 10);
        }
        let given = lists::given(fresh(5), &mut rng);
        let moved = given.levels.level_next(given.level, given.loads.held());
        outside += u32::from(moved != given.level);
    }
    let seen = [high_up, outside, full, few];
    assert!(seen.iter().all(|times| *times > 50), "{seen:?}");
}

/// A sample from any sound state: the level lies from up to down, moved the
/// least that is needed; nothing else moves.
#[test]
fn a_sample_on_any_sound_state() {
    let mut rng = Rng::new(220);
    for _ in 0..3_000 {
        let state = match rng.below(2) {
            0 => lists::given(late(5, [5, 0, 2, 1]), &mut rng),
            _ => lists::reached(&mut rng),
        };
        let load = lists::load_near(&state.levels, &mut rng);
        let (busy, probes) = sample_of(load, &mut rng);
        let (next, answer) = gate::sample_count(state, busy, probes, state.stamp);
        assert_eq!(answer, Answer::Taken);
        assert!(sound(&next));
        let (up, down) = (
            state.levels.reached(low(next.loads.held())),
            state.levels.reached(high(next.loads.held())),
        );
        assert!(up <= next.level && next.level <= down);
        let nearer = (up..=down).map(|level| level.abs_diff(state.level)).min();
        assert_eq!(Some(next.level.abs_diff(state.level)), nearer);
        let (level, loads) = (next.level, next.loads);
        assert_eq!(
            next,
            State {
                level,
                loads,
                ..state
            }
        );
    }
}

/// The log can't carry a list: a make of profile 5 is refused with 1, and leaves
/// the not live state; a list that a refusal with 15 would need never comes.
#[test]
fn a_log_refuses_profile_5_with_1() {
    for lifetime in [0, 1, 2] {
        let record = Record {
            kind: 0,
            priority: 5,
            lifetime,
            stamp: 7,
            ..Record::default()
        };
        for state in [State::default(), fresh(1), fresh(5), late(2, [1, 2, 3, 4])] {
            let (next, answer) = step(state, &record);
            assert_eq!(
                (next, line(&answer)),
                (State::default(), "REFUSED 1".into())
            );
        }
    }
    // Other records take a state of profile 5 as the calls do.
    let poll = Record {
        kind: 3,
        stamp: 7,
        ..Record::default()
    };
    assert_eq!(step(fresh(5), &poll), gate::poll(fresh(5), 7));
}

/// The C stack's wait needs a list, and is refused with 1 before all else.
#[test]
fn the_c_wait_refuses_profile_5_with_1() {
    for (level, duty, ontime, load) in [
        (0, 600_000, 1, 0),
        (4, 30_000_000, 1_000, 1_000_000),
        (u32::MAX, u32::MAX, u32::MAX, u32::MAX),
    ] {
        let result = ccalls::wait(5, level, duty, ontime, load);
        assert_eq!((result.refusal, result.wait), (1, 0));
    }
}
