//! Make, sample, offer and poll ("State and calls" to "Waiting and leaving").
//!
//! Each call takes the state and hands the next one back with the answer. A
//! refusal hands the given state back unchanged, clock included.

pub use crate::calls::{Answer, Call};
use crate::calls::{
    BAD_LIFETIME, BAD_LIST, BAD_ON_TIME, BAD_PRIORITY, BAD_PROFILE, BAD_SAMPLE, CLOCK_BACK,
    CLOCK_END, NO_STATE, QUEUE_FULL, SPENT,
};
use crate::levels::Levels;
use crate::rules;
use crate::state::{sound, Admission, Ledger, Packet, Queue, State, QUEUES, SLOTS};

/// Makes a fresh state, in the old way if that is 1 and in the new way if it
/// is 0: 1, then 15, which is for profile 5 alone; the others look at no list.
/// A refusal hands back the all-zero, not live state.
pub fn make(profile: u32, oldway: u32, levels: &Levels, stamp: u32) -> (State, Answer) {
    if !rules::profile_known(profile) || !rules::way_known(oldway) {
        return (State::default(), Answer::Refused(BAD_PROFILE));
    }
    if rules::needs_list(profile) && !levels.good() {
        return (State::default(), Answer::Refused(BAD_LIST));
    }
    let mut state = State::fresh(profile, oldway, stamp);
    if rules::needs_list(profile) {
        state.levels = levels.cleared();
    }
    (state, Answer::Ready)
}

/// A sample of so many probes, by words.
pub fn sample_words(state: State, probes: u32, words: &[u64], stamp: u32) -> (State, Answer) {
    sample(state, rules::load_of_words(probes, words), stamp)
}

/// A sample by busy count, of so many probes.
pub fn sample_count(state: State, busy: u32, probes: u32, stamp: u32) -> (State, Answer) {
    sample(state, rules::load_of_count(busy, probes), stamp)
}

/// An offer of one packet: 9, 2, 3, 5, 6, 7, 8, 11, else it joins its queue,
/// of which the oldest leaves if five wait.
pub fn offer(
    state: State,
    id: u32,
    priority: u32,
    ontime: u32,
    lifetime: u32,
    stamp: u32,
) -> (State, Answer) {
    let moved = match clock_moved(&state, stamp) {
        Ok(moved) => moved,
        Err(number) => return (state, Answer::Refused(number)),
    };
    let packet = Packet {
        id,
        priority,
        ontime,
        lifetime,
        arrival: moved.time,
    };
    let mut next = expired_removed(moved);
    if let Some(number) = offer_refusal(&next, &packet) {
        return (state, Answer::Refused(number));
    }
    let queue = &mut next.queues[priority as usize];
    if queue.waiting().len() == SLOTS {
        *queue = without_front(queue);
        next.counts.displaced += 1;
    }
    *queue = joined(queue, packet);
    next.counts.accepted += 1;
    (next, Answer::Taken)
}

/// A poll: 9, 2, 3, else IDLE, CLOSED or SENT.
pub fn poll(state: State, stamp: u32) -> (State, Answer) {
    let moved = match clock_moved(&state, stamp) {
        Ok(moved) => moved,
        Err(number) => return (state, Answer::Refused(number)),
    };
    let next = expired_removed(moved);
    let Some(packet) = first_waiting(&next) else {
        return (next, Answer::Idle);
    };
    match wait_left(&next).max(second_left(&next, &packet)) {
        0 => (admitted(next, packet), Answer::Sent(packet)),
        left => (next, Answer::Closed(left)),
    }
}

/// Any call on the state.
pub fn call(state: State, call: &Call) -> (State, Answer) {
    match *call {
        Call::SampleWords {
            probes,
            ref words,
            stamp,
        } => sample_words(state, probes, words, stamp),
        Call::SampleCount {
            busy,
            probes,
            stamp,
        } => sample_count(state, busy, probes, stamp),
        Call::Offer {
            id,
            priority,
            ontime,
            lifetime,
            stamp,
        } => offer(state, id, priority, ontime, lifetime, stamp),
        Call::Poll { stamp } => poll(state, stamp),
    }
}

/// "Refusal numbers": checks 9, 2 and 3; then the state with its clock moved
/// and, as every accepted call has it, the aged admissions dropped.
fn clock_moved(state: &State, stamp: u32) -> Result<State, u32> {
    if !sound(state) {
        return Err(NO_STATE);
    }
    let step = rules::clock_step(state.stamp, stamp);
    if rules::clock_goes_back(step) {
        return Err(CLOCK_BACK);
    }
    let time = state.time + u64::from(step);
    if time > rules::TIME_END {
        return Err(CLOCK_END);
    }
    Ok(State {
        stamp,
        time,
        ledger: aged_dropped(&state.ledger, time),
        ..*state
    })
}

/// W-207: the ledger without the admissions that have reached 1,000,000 µs.
fn aged_dropped(ledger: &Ledger, time: u64) -> Ledger {
    let held = ledger.held().iter().copied();
    let young: Vec<Admission> = held.filter(|held| rules::young(time, held.at)).collect();
    Ledger::of(&young)
}

/// A sample: 9, 2, 3, 4 (no load), else the state learns the load.
fn sample(state: State, load: Option<u32>, stamp: u32) -> (State, Answer) {
    let moved = match clock_moved(&state, stamp) {
        Ok(moved) => moved,
        Err(number) => return (state, Answer::Refused(number)),
    };
    match load {
        Some(load) => (load_learnt(moved, load), Answer::Taken),
        None => (state, Answer::Refused(BAD_SAMPLE)),
    }
}

/// "Samples", W-209 and W-213: profiles 1 and 2 step the level; profile 3 keeps
/// or pairs; profile 4 remembers the latest load; profile 5 the last fifty, and
/// moves its level at once.
fn load_learnt(state: State, load: u32) -> State {
    if let Some(wanted) = rules::wanted_level(state.profile, load) {
        let level = rules::level_step(state.level, wanted);
        return State { level, ..state };
    }
    match state.profile {
        3 => paired(state, load),
        5 => levelled(state, load),
        _ => State {
            latest: load,
            ..state
        },
    }
}

/// "Samples", profile 3: each odd sample is kept, and each even one, with the
/// kept one, updates.
fn paired(state: State, load: u32) -> State {
    if !state.haskept {
        return State {
            kept: load,
            haskept: true,
            ..state
        };
    }
    let smoothed = rules::smoothed_next(state.smoothed, state.kept, load);
    State {
        smoothed,
        duty: rules::duty_next(state.duty, smoothed),
        kept: 0,
        haskept: false,
        ..state
    }
}

/// W-213: the load is counted, then the level moved.
fn levelled(state: State, load: u32) -> State {
    let loads = state.loads.after(load);
    State {
        level: state.levels.level_next(state.level, loads.held()),
        loads,
        ..state
    }
}

/// "Refusal numbers" and W-201: checks 5, 6, 7, 8 and 11 of an offer, given
/// the state at the new time with the expired packets gone. W-205: 8 is given
/// only in the old way.
fn offer_refusal(state: &State, packet: &Packet) -> Option<u32> {
    if packet.priority > rules::PRIORITY_MOST {
        return Some(BAD_PRIORITY);
    }
    if !rules::on_time_allowed(state.profile, packet.ontime) {
        return Some(BAD_ON_TIME);
    }
    if !rules::lifetime_allowed(packet.lifetime) {
        return Some(BAD_LIFETIME);
    }
    let queue = &state.queues[packet.priority as usize];
    if queue.waiting().len() == SLOTS && state.oldway == rules::OLD_WAY {
        return Some(QUEUE_FULL);
    }
    if state.counts.accepted == rules::ACCEPTED_MOST {
        return Some(SPENT);
    }
    None
}

/// "Waiting and leaving": every expired packet is removed, in all queues, and
/// counted as it goes.
fn expired_removed(state: State) -> State {
    let mut queues = [Queue::default(); QUEUES];
    let mut counts = state.counts;
    for (kept, queue) in queues.iter_mut().zip(&state.queues) {
        *kept = unexpired(queue, state.time);
        counts.expired += queue.len - kept.len;
    }
    State {
        queues,
        counts,
        ..state
    }
}

/// The queue without its expired packets, the others in their order.
fn unexpired(queue: &Queue, time: u64) -> Queue {
    let mut kept = Queue::default();
    for packet in queue.waiting() {
        if !rules::expired(time, packet.arrival, packet.lifetime) {
            kept = joined(&kept, *packet);
        }
    }
    kept
}

/// The queue with a packet more at its back; there must be room.
fn joined(queue: &Queue, packet: Packet) -> Queue {
    let mut longer = *queue;
    longer.slots[queue.waiting().len()] = packet;
    longer.len += 1;
    longer
}

/// The queue without its front packet; there must be one.
fn without_front(queue: &Queue) -> Queue {
    Queue::of(&queue.waiting()[1..])
}

/// The oldest packet of the lowest-numbered non-empty queue.
fn first_waiting(state: &State) -> Option<Packet> {
    for queue in &state.queues {
        if let Some(oldest) = queue.waiting().first() {
            return Some(*oldest);
        }
    }
    None
}

/// The µs left until the wait is over; 0 if it is, or nothing was admitted. The
/// wait is taken afresh.
fn wait_left(state: &State) -> u64 {
    let Some(last) = state.last() else {
        return 0;
    };
    let passed = state.time - last.at;
    let closed = state.closed_for(last.ontime);
    closed.map_or(0, |closed| closed.saturating_sub(passed))
}

/// W-207: the µs until the packet fits into the second; 0 if it does now.
///
/// On-times leave the second only as their admissions age, so it is now or at
/// one of those moments. At the last of them the packet is alone, and fits.
fn second_left(state: &State, packet: &Packet) -> u64 {
    let moments = state
        .ledger
        .held()
        .iter()
        .map(|held| held.at + rules::SECOND);
    let mut moments = std::iter::once(state.time).chain(moments);
    let fits = moments.find(|&moment| {
        let on_air = in_second(state, moment) + u64::from(packet.ontime);
        on_air <= rules::SECOND_MOST
    });
    fits.map_or(0, |moment| moment - state.time)
}

/// W-207: all on-times admitted in the second up to and including a moment.
fn in_second(state: &State, moment: u64) -> u64 {
    let held = state.ledger.held().iter();
    let young = held.filter(|held| rules::young(moment, held.at));
    young.map(|held| u64::from(held.ontime)).sum()
}

/// The state after the packet left the front of its queue, was recorded as the
/// last admission, in the ledger too, and counted as sent.
fn admitted(state: State, packet: Packet) -> State {
    let mut next = state;
    let queue = &mut next.queues[packet.priority as usize];
    *queue = without_front(queue);
    next.any = true;
    next.at = state.time;
    next.ontime = packet.ontime;
    // There is room: forty with gaps of 25,000 µs and this one, no less after
    // them, would take a second, and the first of them would be dropped.
    let mut held = state.ledger.held().to_vec();
    held.extend(next.last());
    next.ledger = Ledger::of(&held);
    next.counts.sent += 1;
    next
}
