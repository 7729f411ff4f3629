//! The gate in ordinary Rust, in place on the archive's own layout: (b) with no test of soundness; (a) with the whole test
//! at every call. Written for speed as one would for oneself.

use presscurlew::{Packet, Queue, State, Waiting};

#[derive(Clone, Copy)]
pub enum Answer {
    Taken,
    Sent(Packet),
    Idle,
    Closed(u64),
    Refused(u32),
}

const END: u64 = 1_000_000_000_000_000;
const MOST_OFFERS: u64 = 1_000_000_000_000_000;
const SECOND: u64 = 1_000_000;
const MOST_AIR: u32 = 30_000;
const MOST_PROBES: u32 = 12_500;
const MOST_LOAD: u32 = 1_000_000;
const MOST_LIFETIME: u32 = 60_000_000;
const FULL: usize = 5;

/// Profile 4's wait, worked out by its formula.
pub fn harmonised_wait(ontime: u32, load: u32) -> u32 {
    let per_mille = load.div_ceil(1_000);
    if per_mille <= 620 {
        return 25_000;
    }
    ((3_999 - 2_480_000 / per_mille) * ontime).clamp(25_000, 1_000_000)
}

/// The busy probes of a sample by words, unless it is none.
pub fn busy_of(probes: u32, words: &[u64]) -> Option<u32> {
    if probes > MOST_PROBES || words.len() != probes.div_ceil(64) as usize {
        return None;
    }
    let last = words.last()?;
    if probes % 64 != 0 && last >> (probes % 64) != 0 {
        return None;
    }
    Some(words.iter().map(|word| word.count_ones()).sum())
}

fn most_ontime(profile: u32) -> u32 {
    match profile {
        1 | 5 => 1000,
        2 => 500,
        _ => 4000,
    }
}

/// Whether all numbers are zero: read to their end, many at once.
fn are_zero(numbers: &[u32]) -> bool {
    numbers.iter().fold(0, |bits, number| bits | number) == 0
}

/// One queue, and when its packets came.
fn is_queue_sound(queue: &Queue, arrivals: &[u64; FULL], most: u32, now: u64) -> bool {
    let n = queue.len as usize;
    if n > FULL {
        return false;
    }
    let mut since = 0;
    for (packet, &arrival) in queue.packets[..n].iter().zip(arrivals) {
        let numbers =
            (1..=most).contains(&packet.ontime) && (1..=MOST_LIFETIME).contains(&packet.lifetime);
        if !numbers || arrival > now || arrival < since {
            return false;
        }
        since = arrival;
    }
    let mut unused = queue.packets[n..].iter();
    unused.all(|packet| *packet == Waiting::default())
        && arrivals[n..].iter().all(|&arrival| arrival == 0)
}

fn is_live(packet: &Waiting, arrival: u64, now: u64) -> bool {
    now - arrival < packet.lifetime as u64
}

/// Drops what has expired; how many.
fn expire(queue: &mut Queue, arrivals: &mut [u64; FULL], now: u64) -> u64 {
    let n = queue.len as usize;
    let mut kept = 0;
    for i in 0..n {
        if is_live(&queue.packets[i], arrivals[i], now) {
            if kept != i {
                queue.packets[kept] = queue.packets[i];
                arrivals[kept] = arrivals[i];
            }
            kept += 1;
        }
    }
    queue.packets[kept..n].fill(Waiting::default());
    arrivals[kept..n].fill(0);
    queue.len = kept as u32;
    (n - kept) as u64
}

fn push(queue: &mut Queue, arrivals: &mut [u64; FULL], packet: Waiting, now: u64) {
    let n = queue.len as usize;
    queue.packets[n] = packet;
    arrivals[n] = now;
    queue.len += 1;
}

fn pop(queue: &mut Queue, arrivals: &mut [u64; FULL]) {
    queue.packets.copy_within(1.., 0);
    queue.packets[FULL - 1] = Waiting::default();
    arrivals.copy_within(1.., 0);
    arrivals[FULL - 1] = 0;
    queue.len -= 1;
}

fn age_of(word: &u32) -> u32 {
    word >> 12
}

fn ontime_of(word: &u32) -> u32 {
    word & 0xfff
}

/// Whether gaps, on-times and their sum are as they should be. Words are read to their end, many at once: faster than to
/// stop at the first that isn't.
fn is_spaced_and_allowed(held: &[u32], most: u32) -> bool {
    let pairs = held.iter().zip(&held[1..]);
    let spaced = pairs.fold(true, |all, (older, newer)| {
        all & (age_of(older) >= age_of(newer) + 25_000)
    });
    let ontimes = held.iter().map(ontime_of);
    let (allowed, air) = ontimes.fold((true, 0), |(all, air), ontime| {
        (all & (1..=most).contains(&ontime), air + ontime)
    });
    spaced && allowed && air <= MOST_AIR
}

/// The admissions of the last second.
fn is_air_sound(s: &State, most: u32) -> bool {
    let n = s.admissions as usize;
    if n > s.air.len() || !are_zero(&s.air[n..]) {
        return false;
    }
    let recent = s.admitted == 1 && s.time - s.last_at < SECOND;
    let held = &s.air[..n];
    let ([oldest, ..], [.., newest], true) = (held, held, recent) else {
        return !recent && n == 0;
    };
    // As ages fall, that of the oldest is the greatest.
    let age = age_of(oldest) as u64;
    *newest == s.last_ontime
        && age <= s.last_at
        && age < SECOND - (s.time - s.last_at)
        && is_spaced_and_allowed(held, most)
}

fn is_wait(wait: u32) -> bool {
    (40_000..=1_000_000).contains(&wait)
}

/// Profile 5's list.
fn is_list_sound(s: &State) -> bool {
    let n = s.level_count as usize;
    if !(1..=s.waits.len()).contains(&n) || !is_wait(s.base_wait) {
        return false;
    }
    let mut below = 0;
    for (&above, &wait) in s.thresholds[..n].iter().zip(&s.waits[..n]) {
        if above <= below || above > MOST_LOAD || !is_wait(wait) {
            return false;
        }
        below = above;
    }
    are_zero(&s.thresholds[n..]) && are_zero(&s.waits[n..])
}

fn are_loads_sound(s: &State) -> bool {
    let n = s.load_count as usize;
    n <= s.loads.len()
        && s.loads[..n].iter().all(|&load| load <= MOST_LOAD)
        && are_zero(&s.loads[n..])
}

/// Whether the list and the loads are profile 5's, or there are none.
fn is_listing_sound(s: &State) -> bool {
    if s.profile == 5 {
        return is_list_sound(s) && s.level <= s.level_count && are_loads_sound(s);
    }
    s.level <= 4
        && s.load_count == 0
        && s.level_count == 0
        && s.base_wait == 0
        && are_zero(&s.loads)
        && are_zero(&s.thresholds)
        && are_zero(&s.waits)
}

/// The whole test of soundness.
pub fn is_sound(s: &State) -> bool {
    let tuning = s.live == 1
        && (1..=5).contains(&s.profile)
        && s.when_full <= 1
        && is_listing_sound(s)
        && (600_000..=30_000_000).contains(&s.duty)
        && s.smoothed <= MOST_LOAD
        && s.kept <= MOST_LOAD
        && match s.pairing {
            0 => s.kept == 0,
            1 => s.profile == 3,
            _ => false,
        }
        && match s.profile {
            4 => s.latest <= MOST_LOAD,
            _ => s.latest == 0,
        };
    let most = most_ontime(s.profile);
    let last = s.time <= END
        && s.last_at <= s.time
        && match s.admitted {
            0 => s.last_at == 0 && s.last_ontime == 0,
            1 => (1..=most).contains(&s.last_ontime),
            _ => false,
        };
    let mut queues = s.queues.iter().zip(&s.arrivals);
    tuning
        && last
        && queues.all(|(queue, arrivals)| is_queue_sound(queue, arrivals, most, s.time))
        && is_air_sound(s, most)
        && adds_up(s)
}

/// Whether accepted is sent, expired, displaced and waiting together, the queues being sound.
fn adds_up(s: &State) -> bool {
    // Each is at most what was accepted, so that the sum does not wrap.
    let gone = [s.sent, s.expired, s.displaced];
    let waiting: u32 = s.queues.iter().map(|queue| queue.len).sum();
    s.accepted <= MOST_OFFERS
        && gone.iter().all(|&n| n <= s.accepted)
        && gone.iter().sum::<u64>() + waiting as u64 == s.accepted
}

/// A fresh state of profile 1 to 4.
pub fn fresh(profile: u32, when_full: u32, stamp: u32) -> State {
    State {
        profile,
        when_full,
        stamp,
        duty: 600_000,
        live: 1,
        ..State::default()
    }
}

/// The running time at a stamp, or the refusal.
fn time_at(s: &State, stamp: u32) -> Result<u64, Answer> {
    let step = stamp.wrapping_sub(s.stamp);
    if step >= 1 << 31 {
        return Err(Answer::Refused(2));
    }
    let now = s.time + step as u64;
    if now > END {
        return Err(Answer::Refused(3));
    }
    Ok(now)
}

fn drop_aged(s: &mut State) {
    let (n, since) = (s.admissions as usize, s.time - s.last_at);
    let aged = |word: &&u32| since + age_of(word) as u64 >= SECOND;
    let aged = s.air[..n].iter().take_while(aged).count();
    if aged > 0 {
        s.air.copy_within(aged..n, 0);
        s.air[n - aged..n].fill(0);
        s.admissions = (n - aged) as u32;
    }
}

fn move_to(s: &mut State, now: u64, stamp: u32) {
    s.time = now;
    s.stamp = stamp;
    drop_aged(s);
}

fn clear(s: &mut State, now: u64, stamp: u32) {
    move_to(s, now, stamp);
    for (queue, arrivals) in s.queues.iter_mut().zip(&mut s.arrivals) {
        s.expired += expire(queue, arrivals, now);
    }
}

fn push_load(s: &mut State, load: u32) {
    if s.load_count as usize == s.loads.len() {
        s.loads.copy_within(1.., 0);
        s.load_count -= 1;
    }
    s.loads[s.load_count as usize] = load;
    s.load_count += 1;
}

/// The least of the last ten loads, or 0, and the greatest of all.
fn low_and_high(held: &[u32]) -> (u32, u32) {
    let high = held.iter().copied().max().unwrap_or(0);
    let low = match held.len() {
        0..10 => 0,
        n => held[n - 10..].iter().copied().min().unwrap_or(0),
    };
    (low, high)
}

fn reached(s: &State, load: u32) -> u32 {
    let rising = s.thresholds[..s.level_count as usize].iter();
    rising.take_while(|&&above| above <= load).count() as u32
}

fn take_load(s: &mut State, load: u32) {
    if s.profile == 4 {
        s.latest = load;
    } else if s.profile == 5 {
        push_load(s, load);
        let (low, high) = low_and_high(&s.loads[..s.load_count as usize]);
        s.level = s.level.clamp(reached(s, low), reached(s, high));
    } else if s.profile != 3 {
        let last = if s.profile == 1 { 600_000 } else { 650_000 };
        let wanted = match load {
            0..=299_999 => 0,
            300_000..=399_999 => 1,
            400_000..=499_999 => 2,
            _ if load <= last => 3,
            _ => 4,
        };
        if s.level < wanted {
            s.level += 1;
        } else if wanted < s.level {
            s.level -= 1;
        }
    } else if s.pairing == 0 {
        s.pairing = 1;
        s.kept = load;
    } else {
        s.smoothed = (2 * s.smoothed + s.kept + load) / 4;
        let offset = (6 * (680_000 - s.smoothed as i64)).div_euclid(5);
        let duty = 984 * s.duty as i64 / 1000 + offset.clamp(-250_000, 500_000);
        s.duty = duty.clamp(600_000, 30_000_000) as u32;
        s.kept = 0;
        s.pairing = 0;
    }
}

/// How long the gate is closed after the last admission: but in profile 3 the wait starts when that packet ends.
fn closed_for(s: &State) -> u64 {
    const WAITS: [[u64; 5]; 2] = [
        [100_000, 200_000, 400_000, 500_000, 1_000_000],
        [50_000, 100_000, 200_000, 250_000, 1_000_000],
    ];
    if s.profile < 3 {
        return s.last_ontime as u64 + WAITS[s.profile as usize - 1][s.level as usize];
    }
    if s.profile == 5 {
        let wait = match s.level {
            0 => s.base_wait,
            level => s.waits[level as usize - 1],
        };
        return (s.last_ontime + wait) as u64;
    }
    if s.profile == 4 {
        return (s.last_ontime + harmonised_wait(s.last_ontime, s.latest)) as u64;
    }
    let spread = s.last_ontime as u64 * 1_000_000_000;
    spread.div_ceil(s.duty as u64).clamp(25_000, 1_000_000)
}

/// The µs until a packet fits into the second.
fn air_left(held: &[u32], ontime: u32, since: u64) -> u64 {
    let mut air = ontime + held.iter().map(ontime_of).sum::<u32>();
    let mut left = 0;
    for word in held {
        if air <= MOST_AIR {
            break;
        }
        left = SECOND - since - age_of(word) as u64;
        air -= ontime_of(word);
    }
    left
}

/// Notes an admission, which is now the last one: the others were made so much longer before it.
fn note(s: &mut State, ontime: u32, since: u64) {
    let n = s.admissions as usize;
    for word in &mut s.air[..n] {
        *word += (since as u32) << 12;
    }
    s.air[n] = ontime;
    s.admissions += 1;
}

/// (b) A sample by its busy count, in place.
pub fn sample(s: &mut State, busy: u32, probes: u32, stamp: u32) -> Answer {
    let now = match time_at(s, stamp) {
        Ok(now) => now,
        Err(refused) => return refused,
    };
    if probes == 0 || probes > MOST_PROBES || busy > probes {
        return Answer::Refused(4);
    }
    move_to(s, now, stamp);
    take_load(s, (1_000_000 * busy as u64 / probes as u64) as u32);
    Answer::Taken
}

/// (b) A sample by words, in place. Words that are no sample are refused as 1 busy of 0 probes is.
pub fn sample_words(s: &mut State, probes: u32, words: &[u64], stamp: u32) -> Answer {
    match busy_of(probes, words) {
        Some(busy) => sample(s, busy, probes, stamp),
        None => sample(s, 1, 0, stamp),
    }
}

/// (b) An offer, in place.
pub fn offer(s: &mut State, [id, priority, ontime, lifetime]: [u32; 4], stamp: u32) -> Answer {
    let now = match time_at(s, stamp) {
        Ok(now) => now,
        Err(refused) => return refused,
    };
    if priority > 3 {
        return Answer::Refused(5);
    }
    if !(1..=most_ontime(s.profile)).contains(&ontime) {
        return Answer::Refused(6);
    }
    if !(1..=MOST_LIFETIME).contains(&lifetime) {
        return Answer::Refused(7);
    }
    let k = priority as usize;
    if s.when_full == 1 && s.queues[k].len as usize == FULL {
        let mut waiting = s.queues[k].packets.iter().zip(&s.arrivals[k]);
        if waiting.all(|(packet, &arrival)| is_live(packet, arrival, now)) {
            return Answer::Refused(8);
        }
    }
    if s.accepted >= MOST_OFFERS {
        return Answer::Refused(11);
    }
    clear(s, now, stamp);
    s.accepted += 1;
    let (queue, arrivals) = (&mut s.queues[k], &mut s.arrivals[k]);
    if queue.len as usize == FULL {
        pop(queue, arrivals);
        s.displaced += 1;
    }
    let packet = Waiting {
        id,
        ontime,
        lifetime,
    };
    push(queue, arrivals, packet, now);
    Answer::Taken
}

/// (b) A poll, in place.
pub fn poll(s: &mut State, stamp: u32) -> Answer {
    let now = match time_at(s, stamp) {
        Ok(now) => now,
        Err(refused) => return refused,
    };
    clear(s, now, stamp);
    let Some(k) = s.queues.iter().position(|queue| queue.len > 0) else {
        return Answer::Idle;
    };
    let (next, arrival) = (s.queues[k].packets[0], s.arrivals[k][0]);
    let since = now - s.last_at;
    let mut left = air_left(&s.air[..s.admissions as usize], next.ontime, since);
    if s.admitted == 1 {
        left = left.max(closed_for(s).saturating_sub(since));
    }
    if left > 0 {
        return Answer::Closed(left);
    }
    pop(&mut s.queues[k], &mut s.arrivals[k]);
    note(s, next.ontime, since);
    s.sent += 1;
    s.admitted = 1;
    s.last_at = now;
    s.last_ontime = next.ontime;
    Answer::Sent(Packet {
        id: next.id,
        priority: k as u32,
        ontime: next.ontime,
        lifetime: next.lifetime,
        arrival,
    })
}

/// (a) The same calls, each with the test of soundness, not inlined: as a library offers them.
pub mod tested {
    use super::{is_sound, Answer};
    use presscurlew::State;

    #[inline(never)]
    pub fn sample(s: &mut State, busy: u32, probes: u32, stamp: u32) -> Answer {
        if !is_sound(s) {
            return Answer::Refused(9);
        }
        super::sample(s, busy, probes, stamp)
    }

    #[inline(never)]
    pub fn sample_words(s: &mut State, probes: u32, words: &[u64], stamp: u32) -> Answer {
        if !is_sound(s) {
            return Answer::Refused(9);
        }
        super::sample_words(s, probes, words, stamp)
    }

    #[inline(never)]
    pub fn offer(s: &mut State, numbers: [u32; 4], stamp: u32) -> Answer {
        if !is_sound(s) {
            return Answer::Refused(9);
        }
        super::offer(s, numbers, stamp)
    }

    #[inline(never)]
    pub fn poll(s: &mut State, stamp: u32) -> Answer {
        if !is_sound(s) {
            return Answer::Refused(9);
        }
        super::poll(s, stamp)
    }
}

/// (b) The same calls without the test, not inlined either.
pub mod untested {
    use super::Answer;
    use presscurlew::State;

    #[inline(never)]
    pub fn sample(s: &mut State, busy: u32, probes: u32, stamp: u32) -> Answer {
        super::sample(s, busy, probes, stamp)
    }

    #[inline(never)]
    pub fn offer(s: &mut State, numbers: [u32; 4], stamp: u32) -> Answer {
        super::offer(s, numbers, stamp)
    }

    #[inline(never)]
    pub fn poll(s: &mut State, stamp: u32) -> Answer {
        super::poll(s, stamp)
    }
}
