//! Runs from a fresh state: random calls that lean to the moments where an answer turns.

use std::fmt;

use crate::help::{
    archive_make, first_busy, hold, levels_of, random_count, random_words, raw, raw_levels,
    raw_reply, Answer, Call, Turn, ACCEPTED_MOST, EDGE_LIFETIMES, EDGE_ONTIMES, EDGE_PRIORITIES,
    EDGE_STEPS, PROFILES, TIME_END, WAYS,
};
use presscurlew::sys;
use reference::book::Book;
use reference::gate;
use reference::levels::Levels;
use reference::lists;
use reference::rng::Rng;
use reference::rules;
use reference::state::State;

/// What a run is like.
#[derive(Clone, Copy, Debug)]
pub struct Style {
    /// Of 16 calls, so many are samples.
    samples: u64,
    /// Of 16 calls, so many are offers; the others are polls.
    offers: u64,
    /// The longest step but for edges.
    step: u64,
    /// The longest lifetime but for edges.
    lifetime: u32,
    /// One number in so many is an edge, good or bad.
    edges: u64,
}

pub const STYLES: [Style; 6] = [
    // Offers and polls in a hurry: queues are full, most polls find the gate closed.
    Style {
        samples: 1,
        offers: 8,
        step: 3_000,
        lifetime: 2_000_000,
        edges: 40,
    },
    // Polls around the moment when the gate opens.
    Style {
        samples: 2,
        offers: 5,
        step: 120_000,
        lifetime: 5_000_000,
        edges: 60,
    },
    // Packets mostly expire.
    Style {
        samples: 1,
        offers: 9,
        step: 60_000,
        lifetime: 90_000,
        edges: 60,
    },
    // Samples steer.
    Style {
        samples: 12,
        offers: 2,
        step: 100_000,
        lifetime: 60_000_000,
        edges: 80,
    },
    // The clock runs.
    Style {
        samples: 4,
        offers: 6,
        step: 1 << 30,
        lifetime: 60_000_000,
        edges: 20,
    },
    // Anything goes.
    Style {
        samples: 5,
        offers: 6,
        step: 1_000_000,
        lifetime: 60_000_000,
        edges: 3,
    },
];

/// Makes the calls of a run, with an eye on the state that the reference is in.
pub struct Caller {
    pub rng: Rng,
    pub style: Style,
    /// Profile 5: loads of samples to come, the last one first.
    planned: Vec<u32>,
}

impl Caller {
    pub fn new(seed: u64, style: Style) -> Caller {
        Caller {
            rng: Rng::new(seed),
            style,
            planned: vec![],
        }
    }

    pub fn call(&mut self, state: &State) -> Call {
        let stamp = state.stamp.wrapping_add(self.step(state));
        let drawn = self.rng.below(16);
        if drawn < self.style.samples {
            self.sample(state, stamp)
        } else if drawn < self.style.samples + self.style.offers {
            self.offer(state.profile, stamp)
        } else {
            Call::Poll { stamp }
        }
    }

    fn step(&mut self, state: &State) -> u32 {
        if self.rng.one_in(self.style.edges) {
            return self.rng.pick(&EDGE_STEPS);
        }
        match self.rng.below(8) {
            0 => 0,
            1 => self.step_to_turn(state),
            _ => self.rng.below(self.style.step) as u32,
        }
    }

    /// The step to the moment when a packet expires, the wait is over, an admission is a second old or the time ends, or
    /// one beside it.
    fn step_to_turn(&mut self, state: &State) -> u32 {
        let mut turns = vec![state.time];
        for queue in &state.queues {
            let expiries = queue.waiting().iter();
            turns.extend(expiries.map(|packet| packet.arrival + u64::from(packet.lifetime)));
        }
        if state.any {
            turns.push(state.at + closed_for(state));
        }
        let admissions = state.ledger.held().iter();
        turns.extend(admissions.map(|admission| admission.at + rules::SECOND));
        if TIME_END - state.time < 1 << 32 {
            turns.push(TIME_END);
        }
        let beside = self.rng.below(3);
        let step = (self.rng.pick(&turns) + beside).saturating_sub(state.time + 1);
        u32::try_from(step).unwrap_or(0)
    }

    fn sample(&mut self, state: &State, stamp: u32) -> Call {
        if rules::needs_list(state.profile) && !self.rng.one_in(200) {
            return self.near_level(&state.levels, stamp);
        }
        if self.rng.one_in(3) {
            return by_words(&mut self.rng, stamp);
        }
        by_count(&mut self.rng, stamp)
    }

    /// A sample whose load a level of the list may turn at. The loads come by stretches: without these ten in a row
    /// would seldom all be high, or fifty low.
    fn near_level(&mut self, list: &Levels, stamp: u32) -> Call {
        if self.rng.one_in(12) {
            // None: it is refused, and the stretch goes on.
            let (busy, probes) = (1_001, 1_000);
            return Call::SampleCount {
                busy,
                probes,
                stamp,
            };
        }
        if self.planned.is_empty() {
            self.planned = lists::loads(list, 200, &mut self.rng);
        }
        let load = self.planned.pop().unwrap_or(0);
        let (busy, probes) = lists::sample_of(load, &mut self.rng);
        if self.rng.one_in(3) {
            let words = first_busy(probes, busy);
            return Call::SampleWords {
                probes,
                words,
                stamp,
            };
        }
        Call::SampleCount {
            busy,
            probes,
            stamp,
        }
    }

    fn offer(&mut self, profile: u32, stamp: u32) -> Call {
        let mut number = |edges: &[u32], least: u32, most: u32| {
            if self.rng.one_in(self.style.edges) {
                return self.rng.pick(edges);
            }
            least + self.rng.below(u64::from(most - least) + 1) as u32
        };
        let most = rules::on_time_max(profile).unwrap();
        Call::Offer {
            id: number(&[0, u32::MAX], 0, u32::MAX),
            priority: number(&EDGE_PRIORITIES, 0, 3),
            ontime: number(&EDGE_ONTIMES, 1, most),
            lifetime: number(&EDGE_LIFETIMES, 1, self.style.lifetime),
            stamp,
        }
    }
}

fn by_words(rng: &mut Rng, stamp: u32) -> Call {
    let (probes, words) = random_words(rng);
    Call::SampleWords {
        probes,
        words,
        stamp,
    }
}

fn by_count(rng: &mut Rng, stamp: u32) -> Call {
    let (busy, probes) = random_count(rng);
    Call::SampleCount {
        busy,
        probes,
        stamp,
    }
}

/// How long the gate is closed after the last admission, by the reference.
pub fn closed_for(state: &State) -> u64 {
    let closed = state.closed_for(state.ontime);
    closed.expect("a sound state's numbers")
}

/// How often each answer came.
#[derive(Debug, Default)]
pub struct Tally {
    pub taken: u64,
    pub sent: u64,
    pub idle: u64,
    pub closed: u64,
    pub refused: [u64; 12],
    pub displaced: u64,
    /// How often a level was moved down, and up, and how often so by two or more.
    pub moves: [u64; 4],
    /// How often each level was moved to.
    pub levels: [u64; 9],
}

impl Tally {
    pub fn count(&mut self, answer: &Answer) {
        match answer {
            Answer::Ready => {}
            Answer::Taken => self.taken += 1,
            Answer::Sent(_) => self.sent += 1,
            Answer::Idle => self.idle += 1,
            Answer::Closed(_) => self.closed += 1,
            Answer::Refused(number) => self.refused[*number as usize] += 1,
        }
    }

    pub fn note_move(&mut self, from: u32, to: u32) {
        if from == to {
            return;
        }
        let (up, far) = (usize::from(to > from), from.abs_diff(to) > 1);
        self.moves[up] += 1;
        self.moves[2 + up] += u64::from(far);
        self.levels[to as usize] += 1;
    }

    /// In profile 5 each level of a list of eight was moved to, up and down, and by more than one.
    pub fn hold_moves(&self, least: u64) {
        let all = self.moves.iter().chain(&self.levels);
        assert!(all.into_iter().all(|&times| times > least), "{self:?}");
    }
}

/// Where a run stands, to be named when a comparison fails.
pub struct Place {
    pub seed: u64,
    pub profile: u32,
    pub way: u32,
    pub style: Style,
    pub call: u64,
}

impl fmt::Display for Place {
    fn fmt(&self, f: &mut fmt::Formatter<'_>) -> fmt::Result {
        let Place {
            seed,
            profile,
            way,
            style,
            call,
        } = self;
        write!(
            f,
            "seed {seed:#x}, profile {profile}, way {way}, {style:?}, call {call}"
        )
    }
}

/// A fresh state, held to the reference.
pub fn made(profile: u32, way: u32, stamp: u32) -> State {
    made_with(profile, way, &levels_of(profile), stamp)
}

/// The same with a list of levels, good or bad.
pub fn made_with(profile: u32, way: u32, list: &Levels, stamp: u32) -> State {
    let (state, answer) = gate::make(profile, way, list, stamp);
    let turn = archive_make(profile, way, &raw_levels(list), stamp);
    let expected = Turn {
        state: raw(&state),
        reply: raw_reply(&answer),
    };
    assert_eq!(turn, expected, "make({profile}, {way}, {list:?}, {stamp})");
    state
}

/// The list of a run: a good one of any length, of eight levels if the seed is even, anything past its length. In the
/// other profiles it makes no difference.
pub fn run_list(seed: u64) -> Levels {
    let mut rng = Rng::new(seed);
    let mut good = lists::good(&mut rng);
    while seed % 2 == 0 && good.len < 8 {
        good = lists::good(&mut rng);
    }
    lists::littered(&good, &mut rng)
}

/// One run from a fresh state; the book is kept beside it.
fn run(mut place: Place, tally: &mut Tally) {
    let Place { profile, way, .. } = place;
    let mut caller = Caller::new(place.seed, place.style);
    let stamp = caller.rng.next_u32();
    let mut state = made_with(profile, way, &run_list(place.seed), stamp);
    let mut book = Book::new(profile, stamp);
    for call in 0..CALLS {
        place.call = call;
        let asked = caller.call(&state);
        let (next, answer) = hold(&state, &asked, &place);
        let fed = book.feed(&asked, &answer);
        let counted = fed.and_then(|()| book.compare(&next.counts));
        let kept = counted.and_then(|()| book.compare_ledger(&next.ledger));
        assert_eq!(kept, Ok(()), "{place}: {asked:?} on {state:?}");
        tally.count(&answer);
        tally.note_move(state.level, next.level);
        state = next;
    }
    assert_eq!(book.time(), state.time, "{place}");
    tally.displaced += state.counts.displaced;
}

/// The calls of a run.
const CALLS: u64 = 50_000;

/// Runs of every style in one profile, of which every answer must have come often.
fn runs(profile: u32) {
    for way in WAYS {
        let mut tally = Tally::default();
        for (index, style) in (0u64..).zip(STYLES) {
            for seed in 0..5 {
                let place = Place {
                    seed: 0x5eed_0000 + u64::from(profile) * 0x1000 + index * 0x100 + seed,
                    profile,
                    way,
                    style,
                    call: 0,
                };
                run(place, &mut tally);
            }
        }
        let answers = [tally.taken, tally.sent, tally.idle, tally.closed];
        assert!(answers.iter().all(|&count| count > 50_000), "{tally:?}");
        for number in [2, 4, 5, 6, 7] {
            assert!(tally.refused[number] > 1_000, "{number}: {tally:?}");
        }
        // A full queue either drops or refuses.
        let full = [tally.displaced, tally.refused[8]];
        assert!(full[way as usize] > 1_000, "way {way}: {tally:?}");
        assert_eq!(full[1 - way as usize], 0, "way {way}: {tally:?}");
        assert_eq!((tally.refused[9], tally.refused[11]), (0, 0));
        if profile == 5 {
            tally.hold_moves(100);
        }
    }
}

#[test]
fn runs_of_profile_1() {
    runs(1);
}

#[test]
fn runs_of_profile_2() {
    runs(2);
}

#[test]
fn runs_of_profile_3() {
    runs(3);
}

#[test]
fn runs_of_profile_4() {
    runs(4);
}

#[test]
fn runs_of_profile_5() {
    runs(5);
}

/// Runs from states that are fresh but for their counts, with so many offers left: then offers are refused, and
/// all else goes on.
#[test]
fn runs_that_spend_their_offers() {
    for profile in PROFILES {
        for (style, left) in STYLES.into_iter().zip([0, 1, 2, 50, 500, 1_000]) {
            let seed = 0x59e4_0000 + u64::from(profile) * 0x1000 + left;
            let way = (seed % 3 % 2) as u32;
            let mut place = Place {
                seed,
                profile,
                way,
                style,
                call: 0,
            };
            let mut caller = Caller::new(seed, style);
            let mut tally = Tally::default();
            let mut state = made(profile, way, 7).with_accepted(ACCEPTED_MOST - left);
            for call in 0..20_000 {
                place.call = call;
                let asked = caller.call(&state);
                let (next, answer) = hold(&state, &asked, &place);
                tally.count(&answer);
                state = next;
            }
            assert_eq!(state.counts.accepted, ACCEPTED_MOST, "{place}");
            assert!(tally.refused[11] > 100, "{place}: {tally:?}");
        }
    }
}

/// In each profile a run with the longest wait after the longest on-time: closed to the last µs before the floor.
#[test]
fn runs_that_reach_the_floor() {
    for (profile, floor) in [
        (1, 1_001_000),
        (2, 1_000_500),
        (3, 1_000_000),
        (4, 1_004_000),
        (5, 1_001_000),
    ] {
        let mut state = made(profile, sys::DROP_OLDEST, 0);
        let mut asked = vec![];
        if profile != 3 {
            let (busy, probes, stamp) = (12_500, 12_500, 0);
            let loud = Call::SampleCount {
                busy,
                probes,
                stamp,
            };
            asked = vec![loud; 10];
        }
        let (priority, lifetime, stamp) = (0, 60_000_000, 0);
        let ontime = rules::on_time_max(profile).unwrap();
        asked.extend([1, 2].map(|id| Call::Offer {
            id,
            priority,
            ontime,
            lifetime,
            stamp,
        }));
        asked.extend([0, 0, floor - 1, floor].map(|stamp| Call::Poll { stamp }));
        let mut polled = vec![];
        for call in &asked {
            let (next, answer) = hold(&state, call, &format!("profile {profile}, to the floor"));
            polled.push(match answer {
                Answer::Sent(packet) => u64::from(packet.id),
                Answer::Closed(left) => left,
                _ => 0,
            });
            state = next;
        }
        let [.., first, closed, last, second] = polled[..] else {
            panic!("four polls");
        };
        assert_eq!([first, closed, last, second], [1, u64::from(floor), 1, 2]);
    }
}

/// A make of any profile, way and stamp: only 1 to 5 in a known way are ready, else the all-zero state comes back.
#[test]
fn makes() {
    let stamps = [0, 1, 1 << 31, u32::MAX];
    for profile in (0..300).chain([1 << 31, u32::MAX - 1, u32::MAX]) {
        for way in [0, 1, 2, 3, 255, 256, 257, 1 << 16, 1 << 31, u32::MAX] {
            for stamp in stamps {
                let state = made(profile, way, stamp);
                let good = PROFILES.contains(&profile) && WAYS.contains(&way);
                assert_eq!(state.live, good, "make({profile}, {way}, {stamp})");
                assert_eq!(state == State::default(), !state.live);
            }
        }
    }
}

/// A run to the end of time by the longest steps that are good, and what is refused there.
#[test]
fn run_to_the_end_of_time() {
    let mut rng = Rng::new(0xe4d);
    for profile in PROFILES {
        let mut state = made(profile, sys::REFUSE_NEW, 7);
        let mut book = Book::new(profile, 7);
        let mut ends = 0;
        while ends < 1_000 {
            let left = u32::try_from(TIME_END - state.time).unwrap_or(u32::MAX);
            let step = match ends {
                0 => (1 << 31) - 1,
                // From the first refusal on: to the end exactly, one past it, or no step.
                _ => rng.pick(&[left.min((1 << 31) - 1), left.saturating_add(1), 0, 1]),
            };
            let stamp = state.stamp.wrapping_add(step);
            let call = end_call(&mut rng, profile, stamp);
            let (next, answer) = hold(&state, &call, &format!("profile {profile}, to the end"));
            book.feed(&call, &answer).unwrap();
            book.compare(&next.counts).unwrap();
            book.compare_ledger(&next.ledger).unwrap();
            ends += u32::from(answer == Answer::Refused(3));
            state = next;
        }
        assert_eq!((state.time, book.time()), (TIME_END, TIME_END));
    }
}

fn end_call(rng: &mut Rng, profile: u32, stamp: u32) -> Call {
    let ontime = rules::on_time_max(profile).unwrap();
    match rng.below(4) {
        0 => by_count(rng, stamp),
        1 => by_words(rng, stamp),
        2 => Call::Offer {
            id: 1,
            priority: rng.below(4) as u32,
            ontime,
            lifetime: 60_000_000,
            stamp,
        },
        _ => Call::Poll { stamp },
    }
}
