//! The rules on plain numbers. Nothing here knows the state.
//!
//! A rule answers `None` where the paper gives no answer. No rule can
//! overflow, whatever numbers it is given.

/// Where in a transmission the wait starts (W-202).
#[derive(Clone, Copy, Debug, PartialEq, Eq)]
pub enum WaitFrom {
    /// At its start, the admission.
    Start,
    /// At its end, the admission plus the admitted packet's on-time.
    End,
}

/// The constants of a reactive profile ("Samples", table of levels).
#[derive(Clone, Copy, Debug, PartialEq, Eq)]
pub struct Reactive {
    /// Longest on-time allowed, in µs. The shortest is 1.
    pub on_time_max: u32,
    /// Level 0, Relaxed, is wanted below this load.
    pub relaxed_below: u32,
    /// Level 1, Active 1, is wanted from there up to this load.
    pub active1_to: u32,
    /// Level 2, Active 2, is wanted from there up to this load.
    pub active2_to: u32,
    /// Level 3, Active 3, is wanted from there up to this load.
    /// Level 4, Restrictive, is wanted above it.
    pub active3_to: u32,
    /// The wait of levels 0 to 4, in µs.
    pub waits: [u32; 5],
    /// Where the wait starts.
    pub wait_from: WaitFrom,
}

/// The constants of the adaptive profile ("Samples" and "Waiting and leaving").
#[derive(Clone, Copy, Debug, PartialEq, Eq)]
pub struct Adaptive {
    /// Longest on-time allowed, in µs. The shortest is 1.
    pub on_time_max: u32,
    /// The load that the duty is steered to.
    pub load_target: u32,
    /// The offset is held at or above this.
    pub offset_least: i64,
    /// The offset is held at or below this.
    pub offset_most: i64,
    /// The wait is held at or above this, in µs.
    pub wait_least: u32,
    /// The wait is held at or below this, in µs.
    pub wait_most: u32,
    /// Where the wait starts.
    pub wait_from: WaitFrom,
}

/// The constants of the harmonised profile (W-209).
#[derive(Clone, Copy, Debug, PartialEq, Eq)]
pub struct Harmonised {
    /// Longest on-time allowed, in µs. The shortest is 1.
    pub on_time_max: u32,
    /// Up to this load, in per mille, the wait is the shortest.
    pub calm_to: u32,
    /// The wait is held at or above this, in µs.
    pub wait_least: u32,
    /// The wait is held at or below this, in µs.
    pub wait_most: u32,
    /// Where the wait starts.
    pub wait_from: WaitFrom,
}

/// The constants of the first edition's profile (W-213). Its thresholds and
/// waits come with the list that it is made with.
#[derive(Clone, Copy, Debug, PartialEq, Eq)]
pub struct FirstEdition {
    /// Longest on-time allowed, in µs. The shortest is 1.
    pub on_time_max: u32,
    /// The shortest wait that a list may have, in µs.
    pub wait_least: u32,
    /// The longest wait that a list may have, in µs.
    pub wait_most: u32,
    /// Low is the least load of so many last samples.
    pub low_samples: usize,
    /// High is the greatest load of so many last samples.
    pub high_samples: usize,
    /// Where the wait starts.
    pub wait_from: WaitFrom,
}

/// Profile 1: reactive, Table A.1.
pub const PROFILE_1: Reactive = Reactive {
    on_time_max: 1_000,
    relaxed_below: 300_000,
    active1_to: 399_999,
    active2_to: 499_999,
    active3_to: 600_000,
    waits: [100_000, 200_000, 400_000, 500_000, 1_000_000],
    wait_from: WaitFrom::End,
};

/// Profile 2: reactive, Table A.2.
pub const PROFILE_2: Reactive = Reactive {
    on_time_max: 500,
    relaxed_below: 300_000,
    active1_to: 399_999,
    active2_to: 499_999,
    active3_to: 650_000,
    waits: [50_000, 100_000, 200_000, 250_000, 1_000_000],
    wait_from: WaitFrom::End,
};

/// Profile 3: adaptive, clause 5.4 with Table 3's values.
pub const PROFILE_3: Adaptive = Adaptive {
    on_time_max: 4_000,
    load_target: 680_000,
    offset_least: -250_000,
    offset_most: 500_000,
    wait_least: 25_000,
    wait_most: 1_000_000,
    // On-time over duty is a distance from start to start.
    wait_from: WaitFrom::Start,
};

/// Profile 4: harmonised, EN 302 571, clause 4.2.10 (W-209).
pub const PROFILE_4: Harmonised = Harmonised {
    on_time_max: 4_000,
    calm_to: 620,
    wait_least: 25_000,
    wait_most: 1_000_000,
    wait_from: WaitFrom::End,
};

/// Profile 5: the first edition's state machine, V1.1.1 (W-213).
pub const PROFILE_5: FirstEdition = FirstEdition {
    on_time_max: 1_000,
    wait_least: 40_000,
    wait_most: 1_000_000,
    low_samples: 10,
    high_samples: 50,
    wait_from: WaitFrom::End,
};

/// The least duty of any state ("State and calls"), and a fresh state's.
pub const DUTY_LEAST: u32 = 600_000;
/// The greatest duty of any state ("State and calls").
pub const DUTY_MOST: u32 = 30_000_000;
/// The greatest load: every probe busy.
pub const LOAD_MOST: u32 = 1_000_000;
/// The highest level, Restrictive. W-213: in profile 5 the list tells it.
pub const LEVEL_MOST: u32 = 4;
/// The number of probes that a sample had before W-208, and has in a log that
/// does not tell it.
pub const PROBES: u32 = 1_000;
/// W-208: the most probes in a sample. The fewest is 1.
pub const PROBES_MOST: u32 = 12_500;
/// The running time at which the clock ends: 10^15 µs, still good itself.
pub const TIME_END: u64 = 1_000_000_000_000_000;
/// The most offers that a state accepts (W-201): 10^15, still good itself.
pub const ACCEPTED_MOST: u64 = 1_000_000_000_000_000;
/// The longest lifetime, in µs. The shortest is 1.
pub const LIFETIME_MOST: u32 = 60_000_000;
/// W-207: the second that test houses slide, in µs.
pub const SECOND: u64 = 1_000_000;
/// W-207: the most on-time admitted in such a second, in µs.
pub const SECOND_MOST: u64 = 30_000;
/// W-207: the shortest time between two admissions, in µs.
pub const GAP_LEAST: u64 = 25_000;
/// W-205: the number of a gate made in the new way: a full queue drops its
/// oldest. It is the default.
pub const NEW_WAY: u32 = 0;
/// W-205: the number of a gate made in the old way: a full queue refuses.
pub const OLD_WAY: u32 = 1;
/// The highest priority number.
pub const PRIORITY_MOST: u32 = 3;

/// Whether the profile is one of the five.
pub fn profile_known(profile: u32) -> bool {
    (1..=5).contains(&profile)
}

/// W-213: whether the profile goes by a list of levels. A log and the C stack's
/// plain numbers can't carry one.
pub fn needs_list(profile: u32) -> bool {
    profile == 5
}

/// W-205: whether the number is a yes or a no to the old way.
pub fn way_known(oldway: u32) -> bool {
    oldway == NEW_WAY || oldway == OLD_WAY
}

/// The constants of a reactive profile, if it is one.
pub fn reactive(profile: u32) -> Option<Reactive> {
    match profile {
        1 => Some(PROFILE_1),
        2 => Some(PROFILE_2),
        _ => None,
    }
}

/// "The three profiles", W-209 and W-213: the longest on-time allowed.
pub fn on_time_max(profile: u32) -> Option<u32> {
    match profile {
        1 => Some(PROFILE_1.on_time_max),
        2 => Some(PROFILE_2.on_time_max),
        3 => Some(PROFILE_3.on_time_max),
        4 => Some(PROFILE_4.on_time_max),
        5 => Some(PROFILE_5.on_time_max),
        _ => None,
    }
}

/// "The three profiles", W-209 and W-213: whether the profile allows the on-time.
/// An unknown profile allows none.
pub fn on_time_allowed(profile: u32, ontime: u32) -> bool {
    match on_time_max(profile) {
        Some(most) => (1..=most).contains(&ontime),
        None => false,
    }
}

/// Whether a lifetime is good ("Refusal numbers", 7).
pub fn lifetime_allowed(lifetime: u32) -> bool {
    (1..=LIFETIME_MOST).contains(&lifetime)
}

/// Whether a duty is within its two limits.
pub fn duty_allowed(duty: u32) -> bool {
    (DUTY_LEAST..=DUTY_MOST).contains(&duty)
}

/// "The clock": later stamp minus earlier one, modulo 4,294,967,296.
pub fn clock_step(earlier: u32, later: u32) -> u32 {
    let turn: u64 = 4_294_967_296;
    let step = (u64::from(later) + turn - u64::from(earlier)) % turn;
    step as u32 // below 2^32 by the line above
}

/// "The clock": a step of 2,147,483,648 or more is the clock going back.
pub fn clock_goes_back(step: u32) -> bool {
    step >= 2_147_483_648
}

/// "Samples": the level wanted by a load, in a reactive profile.
pub fn wanted_level(profile: u32, load: u32) -> Option<u32> {
    let table = reactive(profile)?;
    let level = if load < table.relaxed_below {
        0
    } else if load <= table.active1_to {
        1
    } else if load <= table.active2_to {
        2
    } else if load <= table.active3_to {
        3
    } else {
        4
    };
    Some(level)
}

/// "Samples": one sample moves the level by at most one towards the wanted.
pub fn level_step(level: u32, wanted: u32) -> u32 {
    if level < wanted {
        level + 1
    } else if level > wanted {
        level - 1
    } else {
        level
    }
}

/// "Samples": smoothed' = floor((2 × smoothed + kept + new) / 4).
pub fn smoothed_next(smoothed: u32, kept: u32, new: u32) -> u32 {
    let sum = 2 * u64::from(smoothed) + u64::from(kept) + u64::from(new);
    (sum / 4) as u32 // a mean of u32 numbers is one
}

/// Whole division that rounds towards minus infinity; the divisor is above 0.
fn floor_div(number: i64, divisor: i64) -> i64 {
    let towards_zero = number / divisor;
    if number % divisor < 0 {
        towards_zero - 1
    } else {
        towards_zero
    }
}

/// A number held within two limits.
fn held(number: i64, least: i64, most: i64) -> i64 {
    if number < least {
        least
    } else if number > most {
        most
    } else {
        number
    }
}

/// "Samples": gap = 680,000 − smoothed'; offset = floor(6 × gap / 5), towards
/// minus infinity, before it is held.
pub fn offset_unheld(smoothed: u32) -> i64 {
    let gap = i64::from(PROFILE_3.load_target) - i64::from(smoothed);
    floor_div(6 * gap, 5)
}

/// "Samples": the offset, held within −250,000 to 500,000.
pub fn offset(smoothed: u32) -> i64 {
    held(
        offset_unheld(smoothed),
        PROFILE_3.offset_least,
        PROFILE_3.offset_most,
    )
}

/// "Samples": duty' = floor(984 × duty / 1,000) + offset, then held.
/// `smoothed` is the new smoothed load, smoothed'.
pub fn duty_next(duty: u32, smoothed: u32) -> u32 {
    let faded = 984 * i64::from(duty) / 1_000; // not negative, so this is floor
    let next = faded + offset(smoothed);
    held(next, i64::from(DUTY_LEAST), i64::from(DUTY_MOST)) as u32 // within u32
}

/// "Waiting and leaving": the wait of a reactive profile's level.
pub fn wait_reactive(profile: u32, level: u32) -> Option<u32> {
    let table = reactive(profile)?;
    table.waits.get(level as usize).copied()
}

/// "Waiting and leaving": ceil(on-time × 1,000,000,000 / duty), held within
/// 25,000 to 1,000,000. A duty of 0 has no answer.
pub fn wait_adaptive(duty: u32, ontime: u32) -> Option<u32> {
    if duty == 0 {
        return None;
    }
    let over = u64::from(ontime) * 1_000_000_000;
    let whole = over / u64::from(duty);
    let rest = over % u64::from(duty);
    let ceiling = if rest == 0 { whole } else { whole + 1 };
    let least = u64::from(PROFILE_3.wait_least);
    let most = u64::from(PROFILE_3.wait_most);
    Some(ceiling.max(least).min(most) as u32) // at most 1,000,000
}

/// W-209: a load in per mille, rounded up.
pub fn per_mille(load: u32) -> u32 {
    let whole = load / 1_000;
    if load % 1_000 == 0 {
        whole
    } else {
        whole + 1
    }
}

/// W-209: the factor of a load in per mille: 3,999 − floor(2,480,000 / c) above
/// 620. Up to there it has no part in the wait, and is 0.
pub fn factor(c: u32) -> u32 {
    if c <= PROFILE_4.calm_to {
        0
    } else {
        3_999 - 2_480_000 / c // c is 621 or more, and the quotient at most 3,993
    }
}

/// W-209: the wait after a packet of that on-time, at the latest load: 25,000
/// for a calm one, else the factor times the on-time, held within 25,000 to
/// 1,000,000.
pub fn wait_harmonised(load: u32, ontime: u32) -> u32 {
    let c = per_mille(load);
    if c <= PROFILE_4.calm_to {
        return PROFILE_4.wait_least;
    }
    let product = u64::from(factor(c)) * u64::from(ontime);
    let least = u64::from(PROFILE_4.wait_least);
    let most = u64::from(PROFILE_4.wait_most);
    product.max(least).min(most) as u32 // at most 1,000,000
}

/// "Waiting and leaving" and W-209: the wait, by profile. `latest` is the
/// latest load. Profile 5 has no wait on plain numbers.
pub fn wait(profile: u32, level: u32, duty: u32, ontime: u32, latest: u32) -> Option<u32> {
    match profile {
        1 | 2 => wait_reactive(profile, level),
        3 => wait_adaptive(duty, ontime),
        4 => Some(wait_harmonised(latest, ontime)),
        _ => None,
    }
}

/// W-202, W-209 and W-213: where the profile's wait starts.
pub fn wait_from(profile: u32) -> Option<WaitFrom> {
    match profile {
        1 => Some(PROFILE_1.wait_from),
        2 => Some(PROFILE_2.wait_from),
        3 => Some(PROFILE_3.wait_from),
        4 => Some(PROFILE_4.wait_from),
        5 => Some(PROFILE_5.wait_from),
        _ => None,
    }
}

/// W-202: how long after an admission the gate is closed, by profile. `ontime`
/// is the admitted packet's.
pub fn closed_for(profile: u32, level: u32, duty: u32, ontime: u32, latest: u32) -> Option<u64> {
    let wait = wait(profile, level, duty, ontime, latest)?;
    closed_with(profile, ontime, wait)
}

/// W-202: how long after an admission a wait keeps the gate closed: the wait, and
/// before it the on-time where the profile's wait starts at the end.
pub fn closed_with(profile: u32, ontime: u32, wait: u32) -> Option<u64> {
    match wait_from(profile)? {
        WaitFrom::Start => Some(u64::from(wait)),
        WaitFrom::End => Some(u64::from(ontime) + u64::from(wait)),
    }
}

/// "Waiting and leaving": expired when running time minus arrival is at least
/// the lifetime. An arrival still to come has no age, so it is not expired.
pub fn expired(time: u64, arrival: u64, lifetime: u32) -> bool {
    arrival <= time && time - arrival >= u64::from(lifetime)
}

/// W-207: whether an admission is in the second up to and including a time: one
/// exactly 1,000,000 µs old is left out, and one still to come is not in it.
pub fn young(time: u64, at: u64) -> bool {
    at <= time && time - at < SECOND
}

/// W-201 and W-205: accepted equals sent plus expired plus displaced plus
/// waiting, as whole numbers: in 128 bits four numbers of 64 don't wrap.
pub fn counts_add_up(accepted: u64, parts: [u64; 4]) -> bool {
    let sum: u128 = parts.into_iter().map(u128::from).sum();
    u128::from(accepted) == sum
}

/// "Samples": probe k is bit k mod 64 of word k / 64; busy if that bit is 1.
/// There is no probe past the last word.
pub fn probe_busy(words: &[u64], k: usize) -> Option<bool> {
    let word = words.get(k / 64)?;
    Some((word >> (k % 64)) & 1 == 1)
}

/// "Samples": the number of one bits in the words, counted probe by probe.
pub fn busy_count(words: &[u64]) -> u64 {
    let mut busy = 0;
    let mut k = 0;
    while let Some(one) = probe_busy(words, k) {
        if one {
            busy += 1;
        }
        k += 1;
    }
    busy
}

/// W-208: a sample has 1 to 12,500 probes.
pub fn probes_good(probes: u32) -> bool {
    (1..=PROBES_MOST).contains(&probes)
}

/// W-208: "just enough words" for so many probes.
pub fn words_needed(probes: u32) -> usize {
    let whole = probes as usize / 64;
    if probes % 64 == 0 {
        whole
    } else {
        whole + 1
    }
}

/// "Refusal numbers", 4, by words: a good probe count, just enough words, and
/// no bit set past the last probe.
pub fn words_good(probes: u32, words: &[u64]) -> bool {
    if !probes_good(probes) || words.len() != words_needed(probes) {
        return false;
    }
    let mut stray = probes as usize..64 * words.len();
    stray.all(|k| probe_busy(words, k) == Some(false))
}

/// "Refusal numbers", 4, by count: a good probe count, and no more busy.
pub fn count_good(busy: u32, probes: u32) -> bool {
    probes_good(probes) && busy <= probes
}

/// W-208: load = floor(1,000,000 × busy / probes). A bad sample has no load.
pub fn load_of_count(busy: u32, probes: u32) -> Option<u32> {
    if count_good(busy, probes) {
        let load = u64::from(LOAD_MOST) * u64::from(busy) / u64::from(probes);
        Some(load as u32) // at most 1,000,000
    } else {
        None
    }
}

/// W-208: the load of a sample by words. A bad sample has no load.
pub fn load_of_words(probes: u32, words: &[u64]) -> Option<u32> {
    if words_good(probes, words) {
        load_of_count(busy_count(words) as u32, probes) // at most 12,500 bits
    } else {
        None
    }
}
