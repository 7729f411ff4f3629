//! Thirty milliseconds in any second: the ledger, and what CLOSED says of it. Where a number is due it stands here, apart
//! from the reference.

use std::collections::VecDeque;

use crate::broken_states::ledger_states;
use crate::help::{
    archive, calls_at, first_busy, fresh, hold, hold_burst, raw, raw_reply, word, Answer, Call,
    Turn, PROFILES,
};
use crate::runs::{closed_for, made};
use presscurlew::{sys, Gate, Offer, Profile, WhenFull};
use reference::book::Book;
use reference::ledgers;
use reference::log::Record;
use reference::rng::Rng;
use reference::rules;
use reference::state::{sound, Admission, Packet, Queue, State};

const NOW: u64 = 7_000_000_000;
const STAMP: u32 = 4_294_000_000; // it wraps within the second
const HIGHEST_DUTY: u32 = 30_000_000;

/// A sound state in which a packet of this on-time waits for long. Admissions are given by their age, the oldest first;
/// a wait is as short as it can be.
fn waiting(profile: u32, ontime: u32, ages: &[(u64, u32)]) -> State {
    let mut state = fresh(profile, sys::DROP_OLDEST, STAMP);
    (state.time, state.duty) = (NOW, HIGHEST_DUTY);
    let packet = Packet {
        id: 7,
        priority: 2,
        ontime,
        lifetime: 60_000_000,
        arrival: NOW,
    };
    state.queues[2] = Queue::of(&[packet]);
    let admission = |&(age, ontime): &(u64, u32)| Admission {
        at: NOW - age,
        ontime,
    };
    let admissions: Vec<Admission> = ages.iter().map(admission).collect();
    let state = state.with_admissions(&admissions).counted(700, 40, 9);
    assert!(sound(&state), "{state:?}");
    state
}

/// So many admissions of one on-time, so far apart, by their age; the youngest has this one.
fn ages(many: u64, apart: u64, ontime: u32, youngest: u64) -> Vec<(u64, u32)> {
    let all = (0..many).rev();
    all.map(|n| (youngest + n * apart, ontime)).collect()
}

fn poll_after(state: &State, later: u64) -> Answer {
    let stamp = state.stamp.wrapping_add(later as u32);
    hold(state, &Call::Poll { stamp }, &format!("{later} us later")).1
}

/// Polled so much later it is CLOSED for as much less; a µs before that moment for 1, and at it the packet is sent.
fn opens_in(state: &State, left: u64) {
    let closed = [0, 1, left / 2, left.saturating_sub(1)];
    for later in closed.into_iter().filter(|&later| later < left) {
        let answer = poll_after(state, later);
        assert_eq!(answer, Answer::Closed(left - later), "{later}: {state:?}");
    }
    for later in [left, left + 1, left + 1_001_000] {
        let answer = poll_after(state, later);
        let sent = matches!(answer, Answer::Sent(packet) if packet.id == 7);
        assert!(sent, "{answer:?}, {later} us later: {state:?}");
    }
}

/// In each profile, states that no run need reach: with the wait over, the ledger alone says whether the packet goes. In
/// profile 2 the fullest ledger leaves room for any packet.
#[test]
fn the_second_binds_in_every_profile_that_can_fill_it() {
    let thousands = ages(30, 29_000, 1_000, 110_000);
    opens_in(&waiting(1, 1, &thousands), 49_000);
    opens_in(&waiting(1, 1_000, &thousands), 49_000);
    opens_in(&waiting(1, 1_000, &thousands[1..]), 0);
    let shorter = ages(35, 25_000, 857, 101_857);
    // 29,995: five µs fit now, and all else when the first has aged.
    opens_in(&waiting(1, 5, &shorter), 0);
    opens_in(&waiting(1, 6, &shorter), 48_143);
    opens_in(&waiting(1, 862, &shorter), 48_143);
    opens_in(&waiting(1, 863, &shorter), 73_143);

    opens_in(&waiting(2, 500, &ages(37, 25_000, 500, 99_000)), 0);

    let longest = ages(7, 133_334, 4_000, 133_334);
    opens_in(&waiting(3, 2_000, &longest), 0);
    opens_in(&waiting(3, 2_001, &longest), 66_662);
    opens_in(&waiting(3, 4_000, &longest), 66_662);
    let fullest = ages(39, 25_000, 750, 25_000);
    opens_in(&waiting(3, 750, &fullest), 0);
    opens_in(&waiting(3, 751, &fullest), 25_000);
    opens_in(&waiting(3, 1_501, &fullest), 50_000);
    opens_in(&waiting(3, 4_000, &fullest), 125_000);

    // Profile 4 waits from the packet's end: of 25,000 µs since the last one's start, 750 are missing.
    opens_in(&waiting(4, 750, &fullest), 750);
    opens_in(&waiting(4, 751, &fullest), 25_000);
    // Where the channel is calm it fills the second within 203 ms, and is then closed for the rest of it.
    let quick = ages(7, 29_000, 4_000, 29_000);
    opens_in(&waiting(4, 2_000, &quick), 0);
    opens_in(&waiting(4, 2_001, &quick), 797_000);
    opens_in(&waiting(4, 4_000, &quick), 797_000);
}

/// An admission counts up to 999,999 µs of age, and no longer.
#[test]
fn one_a_second_old_is_left_out() {
    for (oldest, left) in [(999_998, 2), (999_999, 1), (1_000_000, 0), (1_000_001, 0)] {
        let mut all = vec![(oldest, 4_000)];
        all.extend(ages(6, 135_000, 4_000, 150_000));
        opens_in(&waiting(3, 4_000, &all), left);
    }
}

/// CLOSED has the greater of what is left of the wait and of the ageing, and not their sum.
#[test]
fn the_greater_of_wait_and_ageing() {
    // The last admission, of 4,000 µs, asks for 133,334 µs.
    for (youngest, oldest, left) in [
        (0, 990_000, 133_334),
        (1_000, 990_000, 132_334),
        (33_334, 900_000, 100_000),
        (33_334, 899_999, 100_001),
        (100_000, 850_000, 150_000),
        (133_334, 850_000, 150_000),
        (200_000, 990_000, 10_000),
    ] {
        let mut all = vec![(oldest, 4_000)];
        all.extend(ages(6, 110_000, 4_000, youngest));
        opens_in(&waiting(3, 4_000, &all), left);
    }
    // In profile 1 the wait starts at the packet's end.
    let mut state = waiting(1, 1_000, &ages(30, 29_000, 1_000, 110_000));
    for (level, left) in [(0, 49_000), (1, 91_000), (2, 291_000), (4, 891_000)] {
        state.level = level;
        opens_in(&state, left);
    }
    // In profile 4 too: 100,000 µs after 4,000 on air, of which 12, 50, 158 and 1,519 times as many are asked.
    let mut state = waiting(4, 4_000, &ages(7, 29_000, 4_000, 100_000));
    for (latest, left) in [
        (0, 726_000),
        (622_000, 726_000),
        (640_000, 726_000),
        (645_600, 726_000),
        (1_000_000, 904_000),
    ] {
        state.latest = latest;
        opens_in(&state, left);
    }
}

/// The wait may be longer than the second: then the ledger is empty, and the last admission closes the gate still.
#[test]
fn the_last_admission_outlives_the_ledger() {
    for (profile, floor) in [
        (1, 1_001_000),
        (2, 1_000_500),
        (4, 1_004_000),
        (5, 1_001_000),
    ] {
        let ontime = rules::on_time_max(profile).unwrap();
        for age in [999_999, 1_000_000, floor - 1] {
            let mut state = waiting(profile, 1, &[(age, ontime)]);
            state.level = 4;
            state.latest = if profile == 4 { 1_000_000 } else { 0 };
            assert_eq!(state.ledger.len, u64::from(age < 1_000_000));
            opens_in(&state, floor - age);
        }
    }
}

/// The packet is the oldest of the lowest-numbered queue: while it does not fit, none behind it goes.
#[test]
fn a_shorter_packet_behind_it_waits_too() {
    let mut state = waiting(3, 4_000, &ages(7, 135_000, 4_000, 135_000));
    let long = state.queues[2].slots[0];
    let short = Packet {
        id: 8,
        ontime: 1,
        ..long
    };
    state.queues[2] = Queue::of(&[long, short]);
    state.queues[3] = Queue::of(&[Packet {
        priority: 3,
        ..short
    }]);
    let state = state.counted(700, 40, 9);
    opens_in(&state, 55_000);
    let first = Call::Offer {
        id: 9,
        priority: 1,
        ontime: 1,
        lifetime: 1,
        stamp: STAMP,
    };
    let (next, answer) = hold(&state, &first, &"in front of it");
    assert_eq!(answer, Answer::Taken);
    assert!(matches!(poll_after(&next, 0), Answer::Sent(packet) if packet.id == 9));
}

/// What is left of the wait alone.
fn wait_left(state: &State) -> u64 {
    let Some(last) = state.last() else {
        return 0;
    };
    closed_for(state).saturating_sub(state.time - last.at)
}

/// Admissions as close together as they may be, which fill most of the second or all of it.
fn crowded(rng: &mut Rng, profile: u32) -> Vec<Admission> {
    let many = 20 + rng.below(21);
    let most = rules::on_time_max(profile).unwrap();
    let ontime = (rules::SECOND_MOST / many) as u32;
    let youngest = rng.below(150_000);
    ledgers::row(many, rules::GAP_LEAST, ontime.min(most), NOW - youngest)
}

/// Ledgers of every kind, any level and duty: CLOSED is exact at its edge.
#[test]
fn closed_is_the_smallest_wait() {
    let mut rng = Rng::new(0x5ec0);
    let mut bound = [0; 6];
    for _ in 0..15_000 {
        let profile = rng.pick(&PROFILES);
        let most = rules::on_time_max(profile).unwrap();
        let ontime = rng.pick(&[1, most / 2, most, most]);
        let mut state = waiting(profile, ontime, &[]);
        state.level = rng.below(5) as u32;
        state.duty = rng.pick(&[600_000, 20_000_000, HIGHEST_DUTY, HIGHEST_DUTY]);
        if profile == 4 {
            state.latest = rng.pick(&[0, 620_000, 622_001, 650_000, 1_000_000]);
        }
        let admissions = match rng.below(2) {
            0 => ledgers::good(profile, NOW, &mut rng),
            _ => crowded(&mut rng, profile),
        };
        let state = state.with_admissions(&admissions);
        assert!(sound(&state), "{state:?}");
        let left = match poll_after(&state, 0) {
            Answer::Closed(left) => left,
            _ => 0,
        };
        opens_in(&state, left);
        bound[profile as usize] += u32::from(left > wait_left(&state));
    }
    let due = [0, 100, 0, 500, 500, 100];
    let often = |profile: usize| bound[profile] > due[profile];
    assert!([1, 3, 4, 5].into_iter().all(often), "{bound:?}");
}

/// A state with three admissions that age after 10,000, 300,000 and 500,000 µs.
fn three_held(profile: u32) -> State {
    let mut state = waiting(profile, 1, &[(990_000, 9), (700_000, 8), (500_000, 7)]);
    (state.level, state.duty) = (4, 600_000);
    state.latest = if profile == 4 { 1_000_000 } else { 0 };
    state
}

/// When they were made, and their on-times.
const THREE: [(u64, u32); 3] = [(NOW - 990_000, 9), (NOW - 700_000, 8), (NOW - 500_000, 7)];

/// How many these admissions are, and their words, the newest being the last of all.
fn in_words(held: &[(u64, u32)]) -> (u32, [u32; sys::MOST_ADMISSIONS]) {
    let mut air = [0; sys::MOST_ADMISSIONS];
    for (place, &(at, ontime)) in held.iter().enumerate() {
        let (last, _) = held[held.len() - 1];
        air[place] = word((last - at) as u32, ontime);
    }
    (held.len() as u32, air)
}

/// What a state holds of the last second.
fn held_by(state: &presscurlew::State) -> (u32, [u32; sys::MOST_ADMISSIONS]) {
    (state.admissions, state.air)
}

/// A sample changes the ledger by the same rule as offer and poll do.
#[test]
fn every_accepted_call_drops_what_has_aged() {
    for profile in PROFILES {
        let mut idle = three_held(profile);
        idle.queues[2] = Queue::default();
        let idle = raw(&idle.counted(700, 40, 9));
        let state = raw(&three_held(profile));
        for (step, many) in [
            (0, 0),
            (9_999, 0),
            (10_000, 1),
            (299_999, 1),
            (300_000, 2),
            (499_999, 2),
            (500_000, 3),
            (2_000_000, 3),
        ] {
            let stamp = STAMP.wrapping_add(step);
            let due = &THREE[many..];
            let words = first_busy(1_000, 500);
            let (id, priority, ontime, lifetime) = (1, 0, 1, 9);
            for call in [
                Call::SampleCount {
                    busy: 1,
                    probes: 2,
                    stamp,
                },
                Call::SampleWords {
                    probes: 1_000,
                    words,
                    stamp,
                },
                Call::Offer {
                    id,
                    priority,
                    ontime,
                    lifetime,
                    stamp,
                },
                Call::Poll { stamp },
            ] {
                for state in [state, idle] {
                    let turn = archive(state, &call);
                    assert_ne!(turn.reply.kind, sys::REFUSED, "{call:?}");
                    let mut due = due.to_vec();
                    if turn.reply.kind == sys::SENT {
                        // The words of the others now say how long before this one they were made.
                        due.push((NOW + u64::from(step), 1));
                    } else {
                        let last = |s: &presscurlew::State| (s.last_at, s.last_ontime, s.admitted);
                        assert_eq!(last(&turn.state), last(&state), "{call:?}");
                    }
                    let held = held_by(&turn.state);
                    assert_eq!(held, in_words(&due), "profile {profile}, {call:?}");
                }
            }
        }
    }
}

/// However many have aged at its stamp, a refused call drops none.
#[test]
fn a_refused_call_drops_nothing() {
    for profile in PROFILES {
        for state in ledger_states(profile).iter().chain([&three_held(profile)]) {
            let given = raw(state);
            for step in [0, 10_000, 999_999, 1_000_000, 5_000_000] {
                let stamp = state.stamp.wrapping_add(step);
                let mut refused = 0;
                for call in calls_at(profile, stamp) {
                    let turn = archive(given, &call);
                    if turn.reply.kind == sys::REFUSED {
                        assert_eq!(turn.state, given, "{call:?}");
                        refused += 1;
                    }
                }
                // Bad samples by words, by count and of no probes, a priority, an on-time and a lifetime.
                assert_eq!(refused, 6, "{state:?}");
                let back = Call::Poll {
                    stamp: state.stamp.wrapping_sub(1 + step),
                };
                let expected = Turn {
                    state: given,
                    reply: raw_reply(&Answer::Refused(2)),
                };
                assert_eq!(archive(given, &back), expected);
            }
        }
    }
}

/// In a burst an offer drops what has aged, and a record that is refused or no offer does not.
#[test]
fn bursts_drop_what_has_aged() {
    for profile in PROFILES {
        let state = three_held(profile);
        let record = |kind, priority, step| Record {
            kind,
            priority,
            ontime: 1,
            lifetime: 1,
            id: 9,
            stamp: STAMP.wrapping_add(step),
        };
        let bad = [record(3, 1, 10_000), record(2, 4, 300_000)];
        let bytes = |records: &[Record]| -> Vec<u8> {
            let all = records.iter();
            all.flat_map(Record::to_bytes).collect()
        };
        let (next, answers) = hold_burst(&state, &bytes(&bad), 2, &"refused");
        assert_eq!((next, answers), (state, vec![10, 5]));
        let good = [record(2, 0, 300_000)];
        let (next, _) = hold_burst(&state, &bytes(&[&bad[..], &good].concat()), 3, &"one taken");
        assert_eq!(held_by(&raw(&next)), in_words(&THREE[2..]));
    }
}

/// What went on air in the last second, as one counts who knows of SENT alone.
#[derive(Default)]
struct Ear {
    heard: VecDeque<(u64, u64)>,
    fullest: u64,
}

impl Ear {
    fn hear(&mut self, at: u64, ontime: u32) {
        self.heard.push_back((at, u64::from(ontime)));
        while at - self.heard[0].0 >= 1_000_000 {
            self.heard.pop_front();
        }
        let sum = self.heard.iter().map(|(_, ontime)| ontime).sum();
        self.fullest = self.fullest.max(sum);
    }
}

/// A sample of an idle channel.
fn quiet(stamp: u32) -> Call {
    let (busy, probes) = (0, 1_000);
    Call::SampleCount {
        busy,
        probes,
        stamp,
    }
}

/// A run of the archive beside the reference, the ear and, from a fresh state, the book.
struct Run {
    state: State,
    ear: Ear,
    book: Option<Book>,
    origin: String,
}

impl Run {
    /// A fresh gate after quiet samples: those have brought profile 3 to its highest duty.
    fn quick(profile: u32, origin: String) -> Run {
        let mut run = Run {
            state: made(profile, sys::DROP_OLDEST, STAMP),
            ear: Ear::default(),
            book: Some(Book::new(profile, STAMP)),
            origin,
        };
        for _ in 0..500 {
            run.call(&quiet(STAMP));
        }
        assert_eq!(run.state.duty == HIGHEST_DUTY, profile == 3);
        run
    }

    fn call(&mut self, call: &Call) -> Answer {
        let (next, answer) = hold(&self.state, call, &self.origin);
        if let Some(book) = &mut self.book {
            let fed = book.feed(call, &answer);
            let kept = fed.and_then(|()| book.compare_ledger(&next.ledger));
            assert_eq!(kept, Ok(()), "{}: {call:?}", self.origin);
        }
        if let Answer::Sent(packet) = answer {
            self.ear.hear(next.time, packet.ontime);
        }
        self.state = next;
        answer
    }

    fn offer(&mut self, priority: u32, ontime: u32) {
        let (id, lifetime, stamp) = (7, 60_000_000, self.state.stamp);
        let offered = self.call(&Call::Offer {
            id,
            priority,
            ontime,
            lifetime,
            stamp,
        });
        assert_eq!(offered, Answer::Taken, "{}", self.origin);
    }

    fn poll(&mut self, later: u64) -> Answer {
        let stamp = self.state.stamp.wrapping_add(later as u32);
        self.call(&Call::Poll { stamp })
    }

    /// Polls until the packet is sent: a µs before the moment that CLOSED names, and at it. Whether the second closed it.
    fn send(&mut self) -> bool {
        let Answer::Closed(left) = self.poll(0) else {
            return false;
        };
        if left > 1 {
            assert_eq!(self.poll(left - 1), Answer::Closed(1), "{}", self.origin);
        }
        let by_second = wait_left(&self.state) == 0;
        let sent = self.poll(1);
        assert!(matches!(sent, Answer::Sent(_)), "{}: {sent:?}", self.origin);
        by_second
    }
}

/// The request's own example: of eight packets of 4,000 µs at 133,334 µs the eighth waits until the first is a second old.
#[test]
fn eight_packets_of_4_000() {
    let mut run = Run::quick(3, "eight packets".into());
    for packet in 0..7 {
        run.offer(packet % 4, 4_000);
        assert!(matches!(run.poll(0), Answer::Sent(_)));
        run.call(&quiet(run.state.stamp.wrapping_add(133_334)));
    }
    run.offer(3, 4_000);
    assert_eq!(run.poll(0), Answer::Closed(66_662));
    assert_eq!(run.poll(66_661), Answer::Closed(1));
    assert!(matches!(run.poll(1), Answer::Sent(_)));
    assert_eq!(run.ear.fullest, 28_000);
}

/// Two hours of 750 µs each 25 ms: every second is full to the last µs, and no packet waits.
#[test]
fn forty_of_750_for_two_hours() {
    let mut run = Run::quick(3, "forty of 750".into());
    for packet in 0..2 * 3_600 * 40 {
        run.offer(packet % 4, 750);
        assert!(matches!(run.poll(0), Answer::Sent(_)));
        assert_eq!(run.state.ledger.len, u64::from(packet + 1).min(40));
        run.call(&quiet(run.state.stamp.wrapping_add(25_000)));
    }
    assert_eq!(run.ear.fullest, 30_000);
    assert!(run.state.time >= 2 * 3_600_000_000);
}

/// Hours at the edge: on-times that fill the second in many ways, each packet sent at the first µs at which it may go.
#[test]
fn hours_at_the_edge() {
    for (profile, seed) in [(3, 0x5ec1), (3, 0x5ec2), (3, 0x5ec3), (4, 0x5ec4)] {
        let mut rng = Rng::new(seed);
        let mut run = Run::quick(profile, format!("profile {profile}, seed {seed:#x}"));
        let mut by_second = 0;
        while run.state.time < 2 * 3_600_000_000 {
            if rng.one_in(4) {
                let stamp = run.state.stamp;
                let busy = rng.below(600) as u32; // the duty stays high, and profile 4 calm
                let probes = 1_000;
                run.call(&Call::SampleCount {
                    busy,
                    probes,
                    stamp,
                });
            }
            let ontime = rng.pick(&[1, 700, 750, 751, 1_000, 2_000, 3_999, 4_000]);
            run.offer(rng.below(4) as u32, ontime);
            by_second += u32::from(run.send());
        }
        assert!(by_second > 3_000, "seed {seed:#x}: {by_second}");
        assert_eq!(run.ear.fullest, 30_000, "seed {seed:#x}");
        let book = run.book.expect("a fresh state's");
        assert_eq!(book.closest().fullest_stretch, 30_000);
    }
}

/// An hour from states whose ledger is full: what it held at first is in the count of every second.
#[test]
fn from_a_full_ledger_on() {
    for (profile, many, held) in [
        (1, 35, 857),
        (1, 30, 1_000),
        (3, 40, 750),
        (3, 8, 3_750),
        (4, 40, 750),
        (4, 8, 3_750),
    ] {
        let mut state = waiting(profile, 1, &ages(many, 25_000, held, 1));
        state.queues[2] = Queue::default();
        let mut run = Run {
            state: state.counted(700, 40, 9),
            ear: Ear::default(),
            book: None,
            origin: format!("profile {profile}, {many} of {held}"),
        };
        for held in state.ledger.held() {
            run.ear.hear(held.at, held.ontime);
        }
        let mut by_second = 0;
        while run.state.time < NOW + 3_600_000_000 {
            run.offer(0, rules::on_time_max(profile).unwrap());
            by_second += u32::from(run.send());
        }
        let (fullest, origin) = (run.ear.fullest, run.origin);
        assert!(by_second > 0, "{origin}");
        assert!((29_995..=30_000).contains(&fullest), "{origin}: {fullest}");
    }
}

/// `Gate` says the same, and shows the ledger.
#[test]
fn a_gate_keeps_the_second() {
    let mut gate = Gate::new(Profile::Adaptive, WhenFull::RefuseNew, 0).unwrap();
    (0..500).for_each(|_| gate.sample_count(0, 1_000, 0).unwrap());
    let offer = |id| Offer {
        id,
        priority: 0,
        ontime: 4_000,
        lifetime: 60_000_000,
    };
    for id in 0..8 {
        gate.offer(offer(id), id * 133_334).unwrap();
        let answer = gate.poll(id * 133_334).unwrap();
        let sent = matches!(answer, presscurlew::Answer::Sent(_));
        assert_eq!(sent, id < 7);
    }
    let one = |at| presscurlew::Admission { at, ontime: 4_000 };
    let held = [0, 133_334, 266_668, 400_002, 533_336, 666_670, 800_004].map(one);
    assert!(gate.state().last_second().eq(held));
    let words = in_words(&held.map(|held| (held.at, held.ontime)));
    assert_eq!((words.0, held_by(gate.state())), (7, words));
    gate.sample_count(0, 1_000, 1_000_000).unwrap();
    assert!(gate.state().last_second().eq(held[1..].iter().copied()));
}
