//! States with one rule of soundness broken, in every place where it can be: every call gets 9 and hands the
//! state back as it was. Which rules there are is the reference's list.

use std::collections::BTreeMap;

use crate::help::{
    age_of, archive_make, calls_at, fresh, hold, hold_any, hold_no_state, hold_no_state_burst,
    ontime_of, raw, raw_if, read_state, word, ACCEPTED_MOST, PROFILES, TIME_END,
};
use presscurlew::sys;
use reference::ledgers::{self, row};
use reference::lists;
use reference::miscounts::{one_off, wrapping};
use reference::rng::Rng;
use reference::rules;
use reference::state::{
    broken_rules, rule_names, Admission, Counts, Levels, Loads, Packet, Queue, State,
};

pub const TIME: u64 = 5_000_000_000;

/// A sound state with this many packets in each queue, and the more admissions the more packets; profile 3 keeps a
/// sample, and profiles 4 and 5 have had some. With an odd number a full queue refuses, with an even one it drops its oldest.
pub fn base(profile: u32, length: usize) -> State {
    let ontime = rules::on_time_max(profile).unwrap();
    let mut state = fresh(profile, length as u32 % 2, 77);
    state.time = TIME;
    state.haskept = profile == 3;
    state.kept = if state.haskept { 400_000 } else { 0 };
    state.latest = if profile == 4 { 700_000 } else { 0 };
    if profile == 5 {
        state.loads = Loads::of(&vec![400_000; 10 * length]);
        state.level = 1;
    }
    let admissions = row(1 + 7 * length as u64, 25_000, ontime.min(750), TIME - 10);
    for priority in 0..4 {
        let packet = Packet {
            id: 5,
            priority,
            ontime,
            lifetime: 60_000_000,
            arrival: TIME,
        };
        state.queues[priority as usize] = Queue::of(&vec![packet; length]);
    }
    state.with_admissions(&admissions).counted(700, 40, 9)
}

/// Sound states with ledgers at the edges of their rules, as far as the profile allows such on-times.
pub fn ledger_states(profile: u32) -> Vec<State> {
    let state = base(profile, 2);
    let most = rules::on_time_max(profile).unwrap();
    let mut rows = vec![
        vec![],
        row(1, 0, 1, TIME),
        row(1, 0, most, TIME - 999_999),
        row(2, 25_000, most, TIME - 974_999),
        row(2, 999_999, most, TIME),
        row(40, 25_000, most.min(750), TIME),
        row(40, 25_000, most.min(750), TIME - 24_999),
        row(40, 25_000, 1, TIME - 7),
    ];
    if profile != 2 {
        // The fewest that fill the second.
        let many = rules::SECOND_MOST.div_ceil(u64::from(most));
        let mut few = row(many, 30_000, most, TIME - 3);
        few[0].ontime = (rules::SECOND_MOST - (many - 1) * u64::from(most)) as u32;
        rows.push(few);
    }
    let states = rows.iter().map(|row| state.with_admissions(row));
    states.chain(early_states(profile)).collect()
}

/// Sound states of a gate's first second, in which the oldest admission was made at 0: no word can say more.
fn early_states(profile: u32) -> Vec<State> {
    let most = rules::on_time_max(profile).unwrap();
    let rows = [
        (0, vec![]),
        (0, row(1, 0, 1, 0)),
        (999_999, row(1, 0, most, 0)),
        (25_000, row(2, 25_000, most, 25_000)),
        (975_000, row(40, 25_000, most.min(750), 975_000)),
        (999_999, row(40, 25_000, 1, 975_000)),
    ];
    let state = |(time, row): &(u64, Vec<Admission>)| {
        let mut state = fresh(profile, 0, 77);
        state.time = *time;
        state.with_admissions(row)
    };
    rows.iter().map(state).collect()
}

/// Sound states of profile 5 with lists of every length and loads of many, at any level of the list; of the other
/// profiles one state, which has neither.
pub fn listed_states(profile: u32) -> Vec<State> {
    let mut state = base(profile, 3);
    if profile != 5 {
        return vec![state];
    }
    let mut states = vec![];
    for (length, many) in (1..=8).zip([0, 1, 9, 10, 11, 49, 50, 50]) {
        let level = |k: u32| (125_000 * k, 40_000 + 120_000 * k);
        let listed: Vec<(u32, u32)> = (1..=length).map(level).collect();
        state.levels = Levels::of(40_000, &listed);
        state.loads = Loads::of(&vec![1_000_000; many]);
        for level in [0, length] {
            states.push(State { level, ..state });
        }
    }
    states
}

/// Broken states, each with the name of the rule that it breaks.
#[derive(Default)]
struct Broken {
    states: Vec<(&'static str, State)>,
}

impl Broken {
    fn add(&mut self, rule: &'static str, state: State, change: impl FnOnce(&mut State)) {
        let mut state = state;
        change(&mut state);
        self.states.push((rule, state));
    }

    fn profile_and_tuning(&mut self, profile: u32) {
        let (empty, full) = (fresh(profile, 0, 77), base(profile, 5));
        self.add("live", full, |s| s.live = false);
        for bad in [0, 6, 7, 256 + profile, 1 << 31, u32::MAX] {
            // Of no profile that there is: a list would be a second rule broken.
            self.add("profile 1 to 5", empty, |s| {
                s.profile = bad;
                s.levels = Levels::default();
            });
        }
        for bad in [2, 3, 256, 1 << 31, u32::MAX] {
            self.add("old way 0 or 1", empty, |s| s.oldway = bad);
            self.add("old way 0 or 1", full, |s| s.oldway = bad);
        }
        for bad in [5, 6, 1 << 31, u32::MAX] {
            if profile != 5 {
                self.add("level at most 4", full, |s| s.level = bad);
            }
        }
        for bad in [0, 1, 599_999, 30_000_001, u32::MAX] {
            self.add("duty within limits", full, |s| s.duty = bad);
        }
        for bad in [1_000_001, 1 << 31, u32::MAX] {
            self.add("smoothed load at most 1,000,000", full, |s| {
                s.smoothed = bad
            });
        }
        for bad in [1, 1_000_000] {
            self.add("kept load zero when none kept", full, |s| {
                (s.haskept, s.kept) = (false, bad)
            });
        }
        if profile == 3 {
            for bad in [1_000_001, u32::MAX] {
                self.add("kept load at most 1,000,000", full, |s| s.kept = bad);
            }
        } else {
            for kept in [0, 1, 1_000_000] {
                self.add("sample kept only in profile 3", full, |s| {
                    (s.haskept, s.kept) = (true, kept)
                });
            }
        }
    }

    /// The latest load, which is zero but in profile 4.
    fn latest(&mut self, profile: u32) {
        for state in [fresh(profile, 0, 77), base(profile, 5)] {
            if profile == 4 {
                for bad in [1_000_001, 1_000_002, 1 << 20, 1 << 31, u32::MAX] {
                    self.add("latest load at most 1,000,000", state, |s| s.latest = bad);
                }
            } else {
                for bad in [1, 255, 256, 620_000, 1 << 19, 1_000_000] {
                    self.add("latest load zero outside profile 4", state, |s| {
                        s.latest = bad
                    });
                }
            }
        }
    }

    fn clock_and_last(&mut self, profile: u32) {
        let full = base(profile, 5);
        let longest = rules::on_time_max(profile).unwrap();
        let admitted = |s: &mut State, at, ontime| {
            *s = s.with_admissions(&[Admission { at, ontime }]);
        };
        for bad in [TIME_END + 1, 1 << 63, u64::MAX] {
            self.add("running time at most 10^15", full, |s| {
                s.time = bad;
                admitted(s, TIME, 1);
            });
        }
        for bad in [TIME + 1, TIME_END, u64::MAX] {
            self.add("admission not after running time", full, |s| {
                admitted(s, bad, 1);
            });
        }
        for bad in [0, longest + 1, u32::MAX] {
            // So old that it stands in no ledger.
            self.add("admission on-time allowed", full, |s| {
                admitted(s, TIME - 1_000_000, bad);
            });
        }
        let none = |s: &mut State| *s = s.with_admissions(&[]);
        for bad in [1, TIME] {
            self.add("admission time zero before the first", full, |s| {
                none(s);
                s.at = bad;
            });
        }
        for bad in [1, longest] {
            self.add("admission on-time zero before the first", full, |s| {
                none(s);
                s.ontime = bad;
            });
        }
    }

    fn lengths(&mut self, profile: u32) {
        for state in [fresh(profile, 1, 77), base(profile, 5)] {
            for queue in 0..4 {
                // The last stands for all that 32 bits can't say.
                for bad in [6, 7, 255, 256, 1 << 16, 1 << 31, (1 << 32) - 1] {
                    // The counts add up without that queue, of which nothing can be read.
                    self.add("queue length at most 5", state, |s| {
                        s.queues[queue].len = bad;
                        let Counts {
                            sent,
                            expired,
                            displaced,
                            ..
                        } = s.counts;
                        *s = s.counted(sent, expired, displaced);
                    });
                }
            }
        }
    }

    /// A sum that is wrong, or right modulo 2^64 alone, and more accepted than may be.
    fn counts(&mut self, state: State, rng: &mut Rng) {
        for bad in one_off(&state).into_iter().chain(wrapping(&state, rng)) {
            self.add("counts add up", state, |s| s.counts = bad);
        }
        for bad in [ACCEPTED_MOST + 1, 1 << 63, u64::MAX] {
            self.add("accepted at most 10^15", state, |s| {
                *s = s.with_accepted(bad)
            });
        }
    }

    /// One slot of one queue that waits.
    fn waiting(&mut self, profile: u32, length: usize, queue: usize, slot: usize) {
        let state = base(profile, length);
        let longest = rules::on_time_max(profile).unwrap();
        let mut bend = |rule, change: &dyn Fn(&mut Packet)| {
            self.add(rule, state, |s| change(&mut s.queues[queue].slots[slot]));
        };
        for bad in [0, longest + 1, u32::MAX] {
            bend("waiting on-time allowed", &|p| p.ontime = bad);
        }
        for bad in [0, 60_000_001, u32::MAX] {
            bend("waiting lifetime within limits", &|p| p.lifetime = bad);
        }
        for bad in [TIME + 1, u64::MAX] {
            self.add("arrival not after running time", state, |s| {
                let later = &mut s.queues[queue].slots[slot..length];
                later.iter_mut().for_each(|p| p.arrival = bad);
            });
        }
        if slot > 0 {
            for earlier in [TIME - 1, 0] {
                self.add("arrivals not decreasing", state, |s| {
                    let later = &mut s.queues[queue].slots[slot..length];
                    later.iter_mut().for_each(|p| p.arrival = earlier);
                });
            }
        }
    }

    /// A packet that has gone to the end of another queue, while its arrival, or all but its arrival, stays. It stands in
    /// place of a packet of another priority in a queue: the archive's state has no priority of a packet, so that one
    /// that has gone there altogether is sound, if its arrival is in order.
    fn moved(&mut self, profile: u32, length: usize, queue: usize) {
        let (from, to) = (length - 1, length);
        for other in (0..4).filter(|&other| other != queue) {
            let state = base(profile, length);
            let gone = state.queues[queue].slots[from];
            let mut shorter = state;
            shorter.queues[queue].len -= 1;
            shorter.queues[other].len += 1;
            self.add("slots past the length zero", shorter, |s| {
                s.queues[queue].slots[from] = Packet {
                    arrival: gone.arrival,
                    ..Packet::default()
                };
                s.queues[other].slots[to] = Packet {
                    priority: other as u32,
                    ..gone
                };
            });
            self.add("arrivals not decreasing", shorter, |s| {
                s.queues[queue].slots[from] = Packet::default();
                s.queues[other].slots[to] = Packet {
                    priority: other as u32,
                    arrival: 0,
                    ..gone
                };
            });
        }
    }

    /// One field of one slot of one queue that is unused. Its priority is none: the archive's state doesn't have it.
    fn unused(&mut self, profile: u32, length: usize, queue: usize, slot: usize) {
        let fields: [fn(&mut Packet); 8] = [
            |p| p.id = 1,
            |p| p.id = 1 << 31,
            |p| p.ontime = 1,
            |p| p.ontime = 1 << 31,
            |p| p.lifetime = 1,
            |p| p.lifetime = 1 << 31,
            |p| p.arrival = 1,
            |p| p.arrival = 1 << 63,
        ];
        for field in fields {
            self.add("slots past the length zero", base(profile, length), |s| {
                field(&mut s.queues[queue].slots[slot]);
            });
        }
    }

    fn all() -> Broken {
        let mut broken = Broken::default();
        let mut rng = Rng::new(0xc0c7);
        for profile in PROFILES {
            broken.profile_and_tuning(profile);
            broken.latest(profile);
            broken.clock_and_last(profile);
            broken.lengths(profile);
            broken.counts(fresh(profile, 0, 77), &mut rng);
            for state in ledger_states(profile) {
                broken.states.extend(ledgers::broken(&state));
            }
            for state in listed_states(profile) {
                broken.states.extend(lists::broken(&state));
            }
            for length in 0..=5 {
                broken.counts(base(profile, length), &mut rng);
                for queue in 0..4 {
                    (0..length).for_each(|slot| broken.waiting(profile, length, queue, slot));
                    (length..5).for_each(|slot| broken.unused(profile, length, queue, slot));
                    if (1..5).contains(&length) {
                        broken.moved(profile, length, queue);
                    }
                }
            }
        }
        broken
    }
}

/// A ledger that is too long, with the words of a good one. Of it nothing is read, so nothing young was admitted.
fn longer_ledger(state: &State, len: u32) -> State {
    let mut longer = raw(&state.with_admissions(&[]));
    (longer.admissions, longer.air) = (len, raw(state).air);
    read_state(&longer).expect("no word is read")
}

/// States that break one rule, each with its name. Of those of the reference the archive's state has no place for some: a
/// word is read from the last admission on, and can't be later than that, and lengths have 32 bits. In place of longer
/// ones stand the longest that these can say.
pub fn broken_states() -> Vec<(&'static str, State)> {
    let mut states = Broken::all().states;
    states.retain(|(_, state)| raw_if(state).is_some());
    for state in PROFILES.into_iter().flat_map(ledger_states) {
        for len in [41, 42, 256, 1 << 16, (1 << 31) + 1, u32::MAX] {
            let longer = longer_ledger(&state, len);
            states.push(("ledger length at most 40", longer));
        }
    }
    for state in listed_states(5) {
        for len in [1 << 16, 1 << 31, (1 << 32) - 1] {
            let mut longer = state;
            longer.loads.len = len;
            states.push(("last loads at most 50", longer));
            let mut longer = state;
            longer.levels.len = len;
            states.push(("list good in profile 5", longer));
        }
    }
    states
}

/// Every call on a state is refused with 9, whatever else is wrong with it; in a burst each offer is.
fn hold_all_calls(state: &presscurlew::State, origin: &dyn std::fmt::Display) {
    let profile = state.profile;
    for step in [0, 1_000, 1 << 31] {
        let stamp = state.stamp.wrapping_add(step);
        hold_no_state_burst(state, stamp, origin);
        for call in calls_at(
            if PROFILES.contains(&profile) {
                profile
            } else {
                1
            },
            stamp,
        ) {
            hold_no_state(state, &call, origin);
        }
    }
}

/// The states that are bent are sound before.
#[test]
fn bases_are_sound() {
    for profile in PROFILES {
        let bases = (0..=5).map(|length| base(profile, length));
        let ledgers = ledger_states(profile);
        for state in bases.chain(ledgers).chain(listed_states(profile)) {
            assert_eq!(broken_rules(&state), [""; 0]);
            for call in calls_at(profile, 78) {
                hold(&state, &call, &"base");
            }
        }
    }
}

/// A word near the given one, or far off.
fn bent_words(given: u32, profile: u32, last: u64) -> Vec<u32> {
    let (age, ontime) = (age_of(given), ontime_of(given));
    let most = rules::on_time_max(profile).unwrap();
    let last = last.min((1 << 20) - 2) as u32;
    let ages = [
        0,
        1,
        24_999,
        25_000,
        age + 1,
        age.saturating_sub(1),
        last,
        last + 1,
        999_999,
        1_000_000,
        (1 << 20) - 1,
    ];
    let ontimes = [0, 1, ontime + 1, most, most + 1, 4_000, 4_001, 4_095];
    let mut all: Vec<u32> = ages.map(|age| word(age, ontime)).into();
    all.extend(ontimes.map(|ontime| word(age, ontime)));
    all.extend((0..32).map(|bit| given ^ 1 << bit));
    all.extend([0, u32::MAX]);
    all.retain(|bent| *bent != given);
    all
}

/// A word that is another one, in every place: where the reference reads a sound ledger it is answered so, else with 9.
#[test]
fn words_that_are_bent_are_read_or_refused_with_9() {
    let mut seen = [0; 2];
    for profile in PROFILES {
        for state in ledger_states(profile).iter().map(raw) {
            for place in 0..40 {
                for word in bent_words(state.air[place], profile, state.last_at) {
                    let mut bent = state;
                    bent.air[place] = word;
                    seen[usize::from(hold_alike(&bent, &"a word"))] += 1;
                }
            }
        }
    }
    assert!(seen[0] > 100_000 && seen[1] > 1_000, "{seen:?}");
}

/// The last admission at another time, or of another on-time, and another length, the words as they were.
#[test]
fn words_that_stay_are_read_or_refused_with_9() {
    let mut seen = [0; 2];
    for profile in PROFILES {
        for state in ledger_states(profile).iter().map(raw) {
            let (time, at, ontime) = (state.time, state.last_at, state.last_ontime);
            let mut bend = |change: &dyn Fn(&mut presscurlew::State)| {
                let mut bent = state;
                change(&mut bent);
                seen[usize::from(hold_alike(&bent, &"kept words"))] += 1;
            };
            for by in [1, 7, 8, 24_992, 24_993, 25_000, 999_999, 1_000_000] {
                bend(&|s| s.last_at = at.wrapping_add(by));
                bend(&|s| s.last_at = at.wrapping_sub(by));
                bend(&|s| s.last_at = time.wrapping_sub(by));
            }
            for at in [0, time, 1 << 32, 1 << 63, u64::MAX] {
                bend(&|s| s.last_at = at);
            }
            for ontime in [0, 1, ontime + 1, 4_095, 4_096, ontime + 4_096, u32::MAX] {
                bend(&|s| s.last_ontime = ontime);
            }
            bend(&|s| (s.last_at, s.last_ontime, s.admitted) = (0, 0, 0));
            for len in (0..=42).chain([255, 1 << 16, 1 << 31, u32::MAX]) {
                bend(&|s| s.admissions = len);
            }
        }
    }
    assert!(seen[0] > 1_000 && seen[1] > 100, "{seen:?}");
}

/// Holds every call to the reference, or to 9. Whether the state is sound.
fn hold_alike(state: &presscurlew::State, origin: &dyn std::fmt::Display) -> bool {
    let stamp = state.stamp;
    let calls = calls_at(state.profile, stamp.wrapping_add(1_000));
    let held = calls.iter().map(|call| hold_any(state, call, origin));
    let sound = held.filter(|sound| *sound).count() == calls.len();
    if !sound {
        hold_no_state_burst(state, stamp, origin);
    }
    sound
}

/// What is sound of a full ledger, apart from the reference: forty of 1 µs, 25,000 µs apart, the newest 7 µs ago.
#[test]
fn words_of_a_full_ledger_by_example() {
    let admissions = row(40, 25_000, 1, TIME - 7);
    for profile in PROFILES {
        let full = raw(&base(profile, 2).with_admissions(&admissions));
        let due = (0..40).rev().map(|n| word(25_000 * n, 1));
        assert!(full.air.iter().copied().eq(due), "{:?}", full.air);
        let is_sound = |change: &dyn Fn(&mut presscurlew::State)| {
            let mut bent = full;
            change(&mut bent);
            hold_alike(&bent, &"a full ledger")
        };
        assert!(is_sound(&|_| {}));
        // All admissions move with the last one: to now, and until the oldest is a second old.
        assert!(is_sound(&|s| s.last_at += 7));
        assert!(!is_sound(&|s| s.last_at += 8));
        assert!(is_sound(&|s| s.last_at -= 24_992));
        assert!(!is_sound(&|s| s.last_at -= 24_993));
        // The oldest may be older, up to 999,999 µs; any other would come too near to the one before.
        assert!(is_sound(&|s| s.air[0] += word(1, 0)));
        assert!(is_sound(&|s| s.air[0] += word(24_992, 0)));
        assert!(!is_sound(&|s| s.air[0] += word(24_993, 0)));
        for place in 0..40 {
            if place > 0 {
                assert!(!is_sound(&|s| s.air[place] += word(1, 0)));
            }
            if place < 39 {
                assert!(!is_sound(&|s| s.air[place] -= word(1, 0)));
                assert!(is_sound(&|s| s.air[place] += 1));
            }
            assert!(!is_sound(&|s| s.air[place] -= 1));
            let longest = rules::on_time_max(profile).unwrap();
            assert!(!is_sound(&|s| s.air[place] += longest));
        }
        // The newest is the last admission.
        assert!(!is_sound(&|s| s.air[39] += 1));
        assert!(!is_sound(&|s| s.last_ontime += 1));
        assert!(is_sound(&|s| {
            s.air[39] += 1;
            s.last_ontime += 1;
        }));
        assert!(!is_sound(&|s| s.admissions = 39));
        assert!(!is_sound(&|s| {
            s.admissions = 39;
            s.air[39] = 0;
        }));
    }
}

/// No word says more than there was before the last admission.
#[test]
fn nothing_was_admitted_before_the_make() {
    for profile in PROFILES {
        for many in 1..=39 {
            let last = 25_000 * many;
            let mut state = fresh(profile, 0, 77);
            state.time = last;
            let mut state = raw(&state.with_admissions(&row(many + 1, 25_000, 1, last)));
            assert_eq!(state.air[0], word(last as u32, 1));
            assert!(hold_alike(&state, &"the first at 0"));
            state.air[0] += word(1, 0);
            assert_eq!(read_state(&state), None);
            assert!(!hold_alike(&state, &"the first before 0"));
        }
    }
}

/// Past the length no word stands.
#[test]
fn stray_words_are_refused_with_9() {
    for profile in PROFILES {
        for many in 0..40 {
            let state = base(profile, 2).with_admissions(&row(many, 25_000, 1, TIME));
            for place in many as usize..40 {
                for stray in [1, 4_095, 4_096, word(25_000, 1), 1 << 31, u32::MAX] {
                    let mut state = raw(&state);
                    state.air[place] = stray;
                    hold_all_calls(&state, &format_args!("{stray} in place {place} of {many}"));
                }
            }
        }
    }
}

#[test]
fn one_broken_rule_is_refused_with_9() {
    let mut seen = BTreeMap::new();
    for (rule, state) in broken_states() {
        assert_eq!(broken_rules(&state), [rule], "{state:?}");
        assert_eq!(read_state(&raw(&state)), Some(state));
        hold_all_calls(&raw(&state), &format_args!("{rule}: {state:?}"));
        *seen.entry(rule).or_insert(0) += 1;
    }
    for rule in rule_names() {
        // In the archive's state a packet's priority is its queue's: it can't be another one.
        let due = rule != "waiting in its own priority's queue";
        assert_eq!(seen.contains_key(rule), due, "what breaks the rule: {rule}");
    }
}

/// A length above 5 is refused also where the counts add up to it.
#[test]
fn lengths_that_the_counts_agree_with_are_refused_with_9() {
    for profile in PROFILES {
        for length in 0..=5 {
            for queue in 0..4 {
                for bad in [6, 7, 255, 1 << 16, 1 << 31, u32::MAX] {
                    let mut state = raw(&base(profile, length));
                    state.queues[queue].len = bad;
                    state.accepted += u64::from(bad) - length as u64;
                    hold_all_calls(&state, &format_args!("length {bad}: {state:?}"));
                }
            }
        }
    }
}

/// A flag is 0 or 1; the reference has no other, so they are bent in the archive's own state.
#[test]
fn flags_above_1_are_refused_with_9() {
    for profile in PROFILES {
        let full = raw(&base(profile, 3));
        for bad in [2, 3, 256, 1 << 31, u32::MAX] {
            let flags: [fn(&mut presscurlew::State, u32); 3] = [
                |s, flag| s.live = flag,
                |s, flag| s.pairing = flag,
                |s, flag| s.admitted = flag,
            ];
            for bend in flags {
                let mut state = full;
                bend(&mut state, bad);
                hold_all_calls(&state, &format_args!("flag {bad}: {state:?}"));
            }
        }
    }
}

/// The state of a refused make, and states of bytes that are all the same.
#[test]
fn states_of_no_sense_are_refused_with_9() {
    let refused = archive_make(0, sys::DROP_OLDEST, &sys::Levels::NONE, 5);
    assert_eq!(refused.state, presscurlew::State::default());
    hold_all_calls(&refused.state, &"the all-zero state");
    let mut state = raw(&State::default());
    for fill in [1, 2, 5, 255, u32::MAX] {
        let packet = presscurlew::Waiting {
            id: fill,
            ontime: fill,
            lifetime: fill,
        };
        state.queues = [presscurlew::Queue {
            len: fill,
            packets: [packet; 5],
        }; 4];
        let count = u64::from(fill);
        state.arrivals = [[count; 5]; 4];
        (state.admissions, state.air) = (fill, [fill; 40]);
        (state.load_count, state.loads) = (fill, [fill; 50]);
        (state.level_count, state.base_wait) = (fill, fill);
        (state.thresholds, state.waits) = ([fill; 8], [fill; 8]);
        state.profile = fill;
        state.when_full = fill;
        (state.accepted, state.sent) = (count, count);
        (state.expired, state.displaced) = (count, count);
        state.live = fill;
        hold_all_calls(&state, &format_args!("a state of {fill}"));
    }
}
