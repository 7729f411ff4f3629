//! Lists of levels for tests, good ones and ones that break one rule alone; and
//! states of profile 5, sound and broken.

use std::collections::BTreeSet;

use crate::gate;
use crate::ledgers::Broken;
use crate::levels::{Levels, Loads, LEVELS_ROOM, LOADS_ROOM};
use crate::rng::Rng;
use crate::rules::{needs_list, LOAD_MOST, PROFILE_5};
use crate::state::State;

/// A good list of 1 to 8 levels, unused room zero. Many thresholds stand next to
/// each other, at their limits, or where a sample of 1,000 probes can reach them;
/// waits rise and fall.
pub fn good(rng: &mut Rng) -> Levels {
    let many = 1 + rng.below(LEVELS_ROOM as u64) as usize;
    let style = rng.below(4);
    let mut thresholds = BTreeSet::new();
    while thresholds.len() < many {
        let any = 1 + rng.below(u64::from(LOAD_MOST)) as u32;
        let drawn = match style {
            0 => 1 + rng.below(20) as u32,
            1 => LOAD_MOST - rng.below(20) as u32,
            2 => 1_000 * (1 + rng.below(1_000) as u32),
            _ => any,
        };
        thresholds.insert(if rng.one_in(8) { any } else { drawn });
    }
    let listed = thresholds.into_iter().map(|above| (above, wait(rng)));
    let listed: Vec<(u32, u32)> = listed.collect();
    Levels::of(wait(rng), &listed)
}

/// A good wait, often at a limit.
fn wait(rng: &mut Rng) -> u32 {
    let (least, most) = (PROFILE_5.wait_least, PROFILE_5.wait_most);
    let any = least + rng.below(u64::from(most - least) + 1) as u32;
    rng.pick(&[least, least + 1, any, any, most - 1, most])
}

/// The list with anything in the room past its length: as good as without.
pub fn littered(list: &Levels, rng: &mut Rng) -> Levels {
    let mut littered = *list;
    for place in list.thresholds().len()..LEVELS_ROOM {
        littered.above[place] = rng.pick(&[0, 1, LOAD_MOST, LOAD_MOST + 1, u32::MAX]);
        littered.waits[place] = rng.pick(&[0, 1, 39_999, 40_000, u32::MAX]);
    }
    littered
}

/// Every way to break one rule of a list alone, in every place, given a good
/// list: the rule's name, and the list.
pub fn bad(list: &Levels) -> Vec<(&'static str, Levels)> {
    let mut all = vec![("1 to 8 levels", Levels::of(list.wait, &[]))];
    for len in [9, 10, 256, (1 << 32) + 1, 1 << 63, u64::MAX] {
        all.push(("1 to 8 levels", Levels { len, ..*list }));
    }
    for wait in BAD_WAITS {
        all.push((LEVEL_0, Levels { wait, ..*list }));
    }
    for place in 0..list.thresholds().len() {
        all.extend(bad_waits(list, place));
        all.extend(too_high(list, place));
        all.extend(not_rising(list, place));
    }
    all
}

const LEVEL_0: &str = "level 0's wait 40,000 to 1,000,000";
const BAD_WAITS: [u32; 5] = [0, 1, 39_999, 1_000_001, u32::MAX];

fn bad_waits(list: &Levels, place: usize) -> Vec<(&'static str, Levels)> {
    let mut all = Vec::new();
    for wait in BAD_WAITS {
        let mut bent = *list;
        bent.waits[place] = wait;
        all.push(("listed waits 40,000 to 1,000,000", bent));
    }
    all
}

/// A threshold above 1,000,000; those after it go higher still.
fn too_high(list: &Levels, place: usize) -> Vec<(&'static str, Levels)> {
    let many = list.thresholds().len();
    let mut all = Vec::new();
    for lowest in [LOAD_MOST + 1, u32::MAX - LEVELS_ROOM as u32] {
        let mut bent = *list;
        for (above, more) in bent.above[place..many].iter_mut().zip(0..) {
            *above = lowest + more;
        }
        all.push(("thresholds at most 1,000,000", bent));
    }
    all
}

/// A threshold that is the one before it, or below that one.
fn not_rising(list: &Levels, place: usize) -> Vec<(&'static str, Levels)> {
    let mut bent = vec![*list];
    match place {
        0 => bent[0].above[0] = 0,
        _ => {
            let before = list.above[place - 1];
            bent[0].above[place] = before;
            bent.push(*list);
            bent[1].above[place] = before - 1; // it is 1 or more
            bent.push(*list);
            bent[2].above.swap(place - 1, place);
        }
    }
    let named = |list| ("thresholds rise strictly from 0", list);
    bent.into_iter().map(named).collect()
}

/// A load that a rule of the list may turn at: a threshold or next to it, a
/// limit, or any.
pub fn load_near(list: &Levels, rng: &mut Rng) -> u32 {
    let any = rng.below(u64::from(LOAD_MOST) + 1) as u32;
    let level = 1 + rng.below(list.thresholds().len() as u64) as u32;
    let near = list.threshold(level).unwrap_or(any);
    let load = rng.pick(&[near, near, near - near.min(1), near + 1, any, 0, LOAD_MOST]);
    load.min(LOAD_MOST)
}

/// So many loads, by stretches of one load as often as one by one: without
/// stretches ten in a row would seldom all be high, or fifty low.
pub fn loads(list: &Levels, many: usize, rng: &mut Rng) -> Vec<u32> {
    let mut loads = Vec::new();
    while loads.len() < many {
        let stretch = rng.pick(&[1, 1, 2, 9, 10, 11, 30, 49, 50, 51]);
        let load = load_near(list, rng);
        let left = many - loads.len();
        loads.extend((0..stretch.min(left)).map(|_| load));
    }
    loads
}

/// A sample by count, busy and probes, whose load is that one or little below.
pub fn sample_of(load: u32, rng: &mut Rng) -> (u32, u32) {
    let probes = rng.pick(&[1_000, 1_000, 12_500, 8, 1]);
    let busy = u64::from(load) * u64::from(probes) / u64::from(LOAD_MOST);
    (busy as u32, probes) // at most the probes
}

/// The state, a sound one, as one of profile 5 with any good list, any level of
/// it and any last loads: sound, though most such no run reaches. Its on-times
/// must be at most 1,000, and no sample kept.
pub fn given(state: State, rng: &mut Rng) -> State {
    let levels = good(rng);
    let many = rng.pick(&[0, 1, 8, 9, 10, 11, 30, 48, 49, 50]);
    State {
        profile: 5,
        level: rng.below(levels.len + 1) as u32,
        loads: Loads::of(&loads(&levels, many, rng)),
        levels,
        latest: 0,
        ..state
    }
}

/// A state of profile 5 that a run reaches: a make with any good list, then
/// samples, with offers and polls between them.
pub fn reached(rng: &mut Rng) -> State {
    let list = good(rng);
    let (oldway, mut stamp) = (rng.pick(&[0, 1]), rng.next_u32());
    let (mut state, _) = gate::make(5, oldway, &littered(&list, rng), stamp);
    let many = rng.pick(&[0, 1, 8, 9, 10, 11, 48, 49, 50, 51, 130]);
    for load in loads(&list, many, rng) {
        stamp = stamp.wrapping_add(rng.pick(&[0, 1, 40_000, 100_000, 1_000_000]));
        let (busy, probes) = sample_of(load, rng);
        state = gate::sample_count(state, busy, probes, stamp).0;
        if rng.one_in(3) {
            let priority = rng.below(4) as u32;
            let ontime = rng.pick(&[1, 500, 999, 1_000]);
            let lifetime = rng.pick(&[1, 60_000, 5_000_000, 60_000_000]);
            state = gate::offer(state, rng.next_u32(), priority, ontime, lifetime, stamp).0;
            state = gate::poll(state, stamp).0;
        }
    }
    state
}

/// Every way to break one rule of W-213 alone, in every place, given a sound
/// state. In the other profiles that is a list or loads that are not zero.
pub fn broken(state: &State) -> Vec<Broken> {
    if !needs_list(state.profile) {
        return not_zero(state);
    }
    let mut all = bad_lists(state);
    all.extend(bad_levels(state));
    all.extend(bad_loads(state));
    all
}

/// A list that breaks a rule, or has something past its length.
fn bad_lists(state: &State) -> Vec<Broken> {
    let mut all = Vec::new();
    for (_, levels) in bad(&state.levels) {
        let level = if levels.len == 0 { 0 } else { state.level };
        let bent = State {
            levels,
            level,
            ..*state
        };
        all.push(("list good in profile 5", bent));
    }
    let many = state.levels.thresholds().len();
    let room = "list room past the length zero";
    for place in many..LEVELS_ROOM {
        let mut bent = *state;
        bent.levels.above[place] = LOAD_MOST;
        all.push((room, bent));
        let mut bent = *state;
        bent.levels.waits[place] = 40_000;
        all.push((room, bent));
    }
    for len in 1..many {
        let mut bent = *state;
        bent.levels.len = len as u64;
        bent.level = state.level.min(len as u32); // at most 8
        all.push((room, bent));
    }
    all
}

/// A level that the list doesn't have.
fn bad_levels(state: &State) -> Vec<Broken> {
    let most = state.levels.thresholds().len() as u32;
    let named = |level| {
        let bent = State { level, ..*state };
        ("level at most the list's in profile 5", bent)
    };
    [most + 1, 9, 256, u32::MAX]
        .into_iter()
        .map(named)
        .collect()
}

/// Too many loads, one above 1,000,000, or something past their length.
fn bad_loads(state: &State) -> Vec<Broken> {
    let mut all = Vec::new();
    for len in [51, 52, 256, (1 << 32) + 1, 1 << 63, u64::MAX] {
        let mut bent = *state;
        bent.loads.len = len;
        all.push(("last loads at most 50", bent));
    }
    let many = state.loads.held().len();
    for place in 0..many {
        for load in [LOAD_MOST + 1, u32::MAX] {
            let mut bent = *state;
            bent.loads.slots[place] = load;
            all.push(("last loads at most 1,000,000", bent));
        }
    }
    for place in many..LOADS_ROOM {
        for load in [1, LOAD_MOST] {
            let mut bent = *state;
            bent.loads.slots[place] = load;
            all.push(("last loads' room past the length zero", bent));
        }
    }
    all
}

/// A list or loads that are not zero, in any of their numbers.
fn not_zero(state: &State) -> Vec<Broken> {
    let mut lists = vec![Levels::of(100_000, &[(500_000, 200_000)])];
    let (len, wait) = (1, 40_000);
    let none = Levels::default();
    lists.extend([Levels { len, ..none }, Levels { wait, ..none }]);
    for place in 0..LEVELS_ROOM {
        lists.extend([none; 2]);
        let [.., above, waits] = &mut lists[..] else {
            continue;
        };
        above.above[place] = 1;
        waits.waits[place] = 1;
    }
    let listed = lists.into_iter().map(|levels| {
        let bent = State { levels, ..*state };
        ("list zero outside profile 5", bent)
    });
    let mut loads = vec![Loads::of(&[0]), Loads::of(&[1; LOADS_ROOM])];
    for place in 0..LOADS_ROOM {
        let mut one = Loads::default();
        one.slots[place] = 1;
        loads.push(one);
    }
    let loaded = loads.into_iter().map(|loads| {
        let bent = State { loads, ..*state };
        ("last loads zero outside profile 5", bent)
    });
    listed.chain(loaded).collect()
}
