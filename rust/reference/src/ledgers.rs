//! Ledgers for tests: good ones, and ones that break one rule alone.

use crate::rng::Rng;
use crate::rules::{on_time_max, GAP_LEAST, SECOND, SECOND_MOST};
use crate::state::{Admission, Ledger, State, LEDGER_ROOM};

/// So many admissions of one on-time, so far apart, the last of them at `end`,
/// which must be late enough for them all.
pub fn row(many: u64, apart: u64, ontime: u32, end: u64) -> Vec<Admission> {
    let times = (0..many).rev().map(|place| end - place * apart);
    times.map(|at| Admission { at, ontime }).collect()
}

/// The admissions of a good ledger at a time of a second or later, none to
/// forty. Many are as close together as they may be, and many fill the second.
pub fn good(profile: u32, time: u64, rng: &mut Rng) -> Vec<Admission> {
    let most = u64::from(on_time_max(profile).unwrap_or(1));
    let wanted = rng.pick(&[0, 1, 2, 5, 8, 20, 39, 40]);
    let slack = rng.pick(&[0, 1, 100, 10_000, 400_000]);
    let mut at = time - rng.pick(&[0, 1, 24_999, 25_000, 400_000, SECOND - 1]);
    let mut left = SECOND_MOST;
    let mut admissions = Vec::new();
    while admissions.len() < wanted && left > 0 && time - at < SECOND {
        let even = SECOND_MOST / wanted as u64;
        let any = 1 + rng.below(most);
        let ontime = rng.pick(&[1, even, most, any]).clamp(1, most).min(left);
        let ontime = ontime as u32; // at most 4,000
        admissions.push(Admission { at, ontime });
        left -= u64::from(ontime);
        at = at.saturating_sub(GAP_LEAST + rng.below(slack + 1));
        if at == 0 {
            break;
        }
    }
    admissions.reverse();
    admissions
}

/// A rule of soundness by its name, and a state that breaks it alone.
pub type Broken = (&'static str, State);

/// Every way to break one rule of the ledger alone, in every place, given a
/// sound state. Where the newest is changed the last admission follows it,
/// unless the rule is about just that.
pub fn broken(state: &State) -> Vec<Broken> {
    let mut all = lengths(state);
    all.extend(newest(state));
    all.extend(unused(state));
    for place in 0..state.ledger.held().len() {
        all.extend(on_times(state, place));
        all.extend(sums(state, place));
        all.extend(gaps(state, place));
    }
    all.extend(aged(state));
    all
}

/// The state with other admissions in its ledger, the newest its last.
fn holding(state: &State, held: &[Admission]) -> State {
    let newest = held.last().copied().unwrap_or_default();
    State {
        ledger: Ledger::of(held),
        at: newest.at,
        ontime: newest.ontime,
        ..*state
    }
}

/// Lengths above forty. Of such a ledger nothing is read, so nothing young was
/// admitted.
fn lengths(state: &State) -> Vec<Broken> {
    let mut all = Vec::new();
    for len in [41, 42, 256, (1 << 32) + 1, 1 << 63, u64::MAX] {
        let mut bent = state.with_admissions(&[]);
        bent.ledger = Ledger {
            len,
            slots: state.ledger.slots,
        };
        all.push(("ledger length at most 40", bent));
    }
    all
}

/// A newest that is not the last admission, none where there should be one, and
/// one where there should be none.
fn newest(state: &State) -> Vec<Broken> {
    let Some((newest, rest)) = state.ledger.held().split_last() else {
        let ledger = Ledger::of(&row(1, 0, 1, state.time));
        return vec![(NEWEST, State { ledger, ..*state })];
    };
    let none = state.with_admissions(&[]);
    let ontime = if newest.ontime > 1 { 1 } else { 2 };
    let mut states = vec![
        State {
            ledger: none.ledger,
            ..*state
        },
        State {
            ledger: Ledger::of(rest),
            ..*state
        },
        State {
            ledger: state.ledger,
            ..none
        },
        State { ontime, ..*state },
    ];
    for at in [newest.at.checked_sub(1), state.time.checked_sub(SECOND)] {
        states.extend(at.map(|at| State { at, ..*state }));
    }
    states.into_iter().map(|state| (NEWEST, state)).collect()
}

const NEWEST: &str = "ledger newest the last admission, or empty";

/// Room past the length that is not zero.
fn unused(state: &State) -> Vec<Broken> {
    let mut all = Vec::new();
    for place in state.ledger.held().len()..LEDGER_ROOM {
        for (at, ontime) in [(1, 0), (0, 1), (state.time.max(1), 1)] {
            let mut bent = *state;
            bent.ledger.slots[place] = Admission { at, ontime };
            all.push(("ledger room past the length zero", bent));
        }
    }
    all
}

/// An on-time that the profile does not allow. The newest is left as it is: it
/// is the last admission, which has a rule of its own.
fn on_times(state: &State, place: usize) -> Vec<Broken> {
    let held = state.ledger.held();
    let most = on_time_max(state.profile).unwrap_or(0);
    let others = state.ledger.sum() - u64::from(held[place].ontime);
    let mut all = Vec::new();
    for ontime in [0, most + 1] {
        let fits = others + u64::from(ontime) <= SECOND_MOST;
        if fits && place + 1 < held.len() {
            let mut bent = held.to_vec();
            bent[place].ontime = ontime;
            all.push(("ledger on-times allowed", holding(state, &bent)));
        }
    }
    all
}

/// A sum of 30,001, by an on-time that the profile allows.
fn sums(state: &State, place: usize) -> Vec<Broken> {
    let mut bent = state.ledger.held().to_vec();
    let ontime = u64::from(bent[place].ontime) + SECOND_MOST + 1 - state.ledger.sum();
    if ontime > u64::from(on_time_max(state.profile).unwrap_or(0)) {
        return vec![];
    }
    bent[place].ontime = ontime as u32; // at most 4,000
    vec![("ledger sum at most 30,000", holding(state, &bent))]
}

/// Too near to the admission before, at the same time, and before it.
fn gaps(state: &State, place: usize) -> Vec<Broken> {
    let held = state.ledger.held();
    if place == 0 {
        return vec![];
    }
    let mut all = Vec::new();
    for gap in [GAP_LEAST - 1, 1, 0] {
        let mut bent = held.to_vec();
        bent[place - 1].at = held[place].at - gap;
        all.push(bent);
    }
    let mut bent = held.to_vec();
    bent.swap(place - 1, place);
    all.push(bent);
    let states = all.iter().map(|held| holding(state, held));
    states
        .map(|state| ("ledger in order, gaps at least 25,000", state))
        .collect()
}

/// The oldest a second old, and older; the others stay. Alone in the ledger it
/// would be the last admission, which may be so old.
fn aged(state: &State) -> Vec<Broken> {
    let held = state.ledger.held();
    let mut all = Vec::new();
    for age in [SECOND, SECOND + 1, state.time] {
        if held.len() > 1 && (SECOND..=state.time).contains(&age) {
            let mut bent = held.to_vec();
            bent[0].at = state.time - age;
            all.push(("ledger younger than 1,000,000", holding(state, &bent)));
        }
    }
    all
}
