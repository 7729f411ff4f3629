//! Random runs from a fresh state: the book checker holds on each of them.

use std::collections::BTreeMap;

use crate::help::{made, words_of, Answer, Call};
use reference::book::Book;
use reference::gate;
use reference::rng::Rng;
use reference::rules;
use reference::state::{sound, Packet, State};

/// Makes the calls of a run. It looks at answers, so as to poll near the
/// moment that the gate opens.
pub struct Caller {
    rng: Rng,
    profile: u32,
    left: u64,
    mood: u32,
}

impl Caller {
    pub fn new(profile: u32, seed: u64) -> Caller {
        Caller {
            rng: Rng::new(seed),
            profile,
            left: 0,
            mood: 0,
        }
    }

    pub fn heard(&mut self, answer: &Answer) {
        if let Answer::Closed(left) = answer {
            self.left = *left;
        }
    }

    pub fn call(&mut self, last_stamp: u32) -> Call {
        let stamp = last_stamp.wrapping_add(self.step());
        match self.rng.below(8) {
            0 => {
                let (busy, probes) = self.busy_of();
                Call::SampleCount {
                    busy,
                    probes,
                    stamp,
                }
            }
            1 => {
                let (probes, words) = self.words();
                Call::SampleWords {
                    probes,
                    words,
                    stamp,
                }
            }
            2..=4 => self.offer(stamp),
            _ => Call::Poll { stamp },
        }
    }

    fn step(&mut self) -> u32 {
        let left = self.left.min(2_000_000);
        let step = match self.rng.below(40) {
            0..=7 => 0,
            8..=15 => self.rng.below(100),
            16..=25 => self.rng.below(30_000),
            26..=28 => self.rng.below(1_200_000),
            29..=33 => left,
            34..=35 => left.saturating_sub(1),
            36..=37 => left + 1,
            38 => return self.rng.next_u32() | 1 << 31, // the clock goes back
            _ if self.rng.one_in(40) => self.rng.below(1 << 31),
            _ => 1,
        };
        step as u32
    }

    /// So many busy of so many probes; now and then that is no sample.
    fn busy_of(&mut self) -> (u32, u32) {
        if self.rng.one_in(3_000) {
            self.mood = self.rng.pick(&[0, 250, 400, 550, 700, 900]);
        }
        let any = 1 + self.rng.below(12_500) as u32;
        let probes = self.rng.pick(&[1_000, 1_000, 12_500, 64, 65, any]);
        match self.rng.below(40) {
            0 => (self.rng.pick(&[probes + 1, 12_501, u32::MAX]), probes),
            1 => (0, self.rng.pick(&[0, 12_501, u32::MAX])),
            _ => {
                let per_mille = (self.mood + self.rng.below(101) as u32).min(1_000);
                (probes * per_mille / 1_000, probes)
            }
        }
    }

    fn words(&mut self) -> (u32, Vec<u64>) {
        let (busy, probes) = self.busy_of();
        let used = probes.min(12_501);
        let mut words = words_of(busy.min(used), used);
        let last = used % 64;
        if busy > probes {
            words.pop();
        } else if last > 0 && self.rng.one_in(20) {
            let stray = u64::from(last) + self.rng.below(64 - u64::from(last));
            words[used as usize / 64] |= 1 << stray;
        }
        (probes, words)
    }

    fn offer(&mut self, stamp: u32) -> Call {
        let most = rules::on_time_max(self.profile).unwrap();
        let mut ontime = self.rng.pick(&[1, most / 5, most / 2, most, most]);
        let mut priority = self.rng.below(4) as u32;
        let mut lifetime = self
            .rng
            .pick(&[1, 50, 20_000, 300_000, 3_000_000, 60_000_000]);
        match self.rng.below(60) {
            0 => ontime = self.rng.pick(&[0, most + 1, u32::MAX]),
            1 => priority = self.rng.pick(&[4, 256, u32::MAX]),
            2 => lifetime = self.rng.pick(&[0, 60_000_001, u32::MAX]),
            _ => {}
        }
        let id = self.rng.below(1_000) as u32;
        Call::Offer {
            id,
            priority,
            ontime,
            lifetime,
            stamp,
        }
    }
}

/// The book's columns hold what the state's queues hold, its counts are the
/// state's, and its last second is the state's ledger.
fn columns_agree(book: &Book, state: &State) {
    assert_eq!((book.time(), book.stamp()), (state.time, state.stamp));
    assert_eq!(book.compare(&state.counts), Ok(()));
    assert_eq!(book.compare_ledger(&state.ledger), Ok(()));
    for (column, queue) in book.columns().iter().zip(&state.queues) {
        let column: Vec<Packet> = column.iter().map(|entry| entry.packet).collect();
        assert_eq!(column, queue.waiting());
    }
}

fn name(answer: &Answer) -> String {
    match answer {
        Answer::Refused(number) => format!("REFUSED {number}"),
        other => reference::log::line(other)
            .split(' ')
            .next()
            .unwrap()
            .to_string(),
    }
}

/// Runs so many calls on a gate of the old way, or the new; how often each
/// answer came, and the book.
fn run(profile: u32, oldway: u32, seed: u64, calls: u32) -> (BTreeMap<String, u32>, Book) {
    let first = seed as u32 ^ 0xF000_0000;
    let (mut state, _) = made(profile, oldway, first);
    let mut book = Book::new(profile, first);
    let mut caller = Caller::new(profile, seed);
    let mut answers = BTreeMap::new();
    for _ in 0..calls {
        let call = caller.call(state.stamp);
        let (next, answer) = gate::call(state, &call);
        if let Err(broken) = book.feed(&call, &answer) {
            panic!("profile {profile}, seed {seed}: {broken}");
        }
        assert!(sound(&next));
        columns_agree(&book, &next);
        caller.heard(&answer);
        *answers.entry(name(&answer)).or_default() += 1;
        state = next;
    }
    (answers, book)
}

fn claim_holds(profile: u32) {
    for (oldway, seed) in [(0, 1), (1, 2)] {
        let (answers, book) = run(profile, oldway, seed, 100_000);
        for wanted in ["TAKEN", "SENT", "IDLE", "CLOSED"] {
            assert!(answers[wanted] > 1_000, "{wanted}: {answers:?}");
        }
        let refused = |number: u32| answers.get(&format!("REFUSED {number}"));
        for wanted in [2, 4, 5, 6, 7] {
            let times = refused(wanted);
            assert!(
                times.is_some_and(|&times| times > 10),
                "{wanted}: {answers:?}"
            );
        }
        if oldway == 1 {
            // A gate of the old way refuses, and displaces nothing.
            assert!(refused(8).is_some_and(|&times| times > 10), "{answers:?}");
            assert_eq!(book.counts().displaced, 0);
            assert_eq!(book.closest().fewest_offers, None);
        } else {
            assert_eq!(refused(8), None);
            assert!(book.counts().displaced > 10, "{:?}", book.counts());
            assert_eq!(book.closest().fewest_offers, Some(5));
        }
        assert!(book.counts().expired > 1_000);
        assert!(book.closest().most_seen >= 3);
        assert!(book.closest().latest_closed > Some(900_000));
    }
}

#[test]
fn the_claim_holds_in_profile_1() {
    claim_holds(1);
    let (_, book) = run(1, 0, 3, 50_000);
    // The shortest wait, after the shortest on-time.
    assert_eq!(book.closest().shortest_gap, Some(100_001));
    assert_eq!(book.closest().smallest_slack, Some(300_000));
}

#[test]
fn the_claim_holds_in_profile_2() {
    claim_holds(2);
    let (_, book) = run(2, 0, 3, 50_000);
    assert_eq!(book.closest().shortest_gap, Some(50_001));
    assert_eq!(book.closest().smallest_slack, Some(350_000));
}

#[test]
fn the_claim_holds_in_profile_3() {
    claim_holds(3);
    let (_, book) = run(3, 0, 3, 50_000);
    assert_eq!(book.closest().shortest_gap, Some(25_000));
    // One packet of 4,000 µs alone takes the whole 400,000.
    assert_eq!(book.closest().smallest_slack, Some(0));
}

#[test]
fn the_claim_holds_in_profile_4() {
    claim_holds(4);
    let (_, book) = run(4, 0, 3, 50_000);
    // The shortest wait, after the shortest on-time.
    assert_eq!(book.closest().shortest_gap, Some(25_001));
    // The ceiling isn't claimed; the second is.
    assert_eq!(book.closest().smallest_slack, None);
    assert!(book.closest().fullest_stretch > 20_000);
}

#[test]
fn the_claim_holds_in_profile_5() {
    claim_holds(5);
    let (_, book) = run(5, 0, 3, 50_000);
    // The shortest wait that a list may have, after the shortest on-time.
    assert_eq!(book.closest().shortest_gap, Some(40_001));
    // One packet of 1,000 µs alone.
    assert_eq!(book.closest().smallest_slack, Some(300_000));
}

/// Takes one call of a run; the book holds its answer to demand 3.
pub fn told((state, book): &mut (State, Book), call: Call) -> Answer {
    let (next, answer) = gate::call(*state, &call);
    book.feed(&call, &answer).unwrap();
    *state = next;
    answer
}

/// A run that reaches the floor: ten loud samples ask for the longest wait of
/// profiles 1, 2, 4 and 5; a fresh duty for profile 3's. This on-time goes first.
fn reaches_the_floor(profile: u32, ontime: u32, floor: u32) {
    let mut run = (made(profile, 0, 0).0, Book::new(profile, 0));
    if profile != 3 {
        for _ in 0..10 {
            let (busy, stamp) = (1_000, 0);
            told(
                &mut run,
                Call::SampleCount {
                    busy,
                    probes: 1_000,
                    stamp,
                },
            );
        }
    }
    for id in [1, 2] {
        let (priority, lifetime, stamp) = (0, 60_000_000, 0);
        let offer = Call::Offer {
            id,
            priority,
            ontime,
            lifetime,
            stamp,
        };
        assert_eq!(told(&mut run, offer), Answer::Taken);
    }
    let poll = |stamp| Call::Poll { stamp };
    let sent = |answer, id| matches!(answer, Answer::Sent(packet) if packet.id == id);
    assert!(sent(told(&mut run, poll(0)), 1));
    let closed = Answer::Closed(u64::from(floor));
    assert_eq!(told(&mut run, poll(0)), closed);
    assert_eq!(told(&mut run, poll(floor - 1)), Answer::Closed(1));
    assert!(sent(told(&mut run, poll(floor)), 2));
    let (_, book) = run;
    assert_eq!(book.floor(), u64::from(floor));
    assert_eq!(book.closest().latest_closed, Some(u64::from(floor) - 1));
    assert_eq!(book.closest().longest_gap, Some(u64::from(floor)));
}

#[test]
fn a_run_of_profile_1_reaches_the_floor() {
    reaches_the_floor(1, 1_000, 1_001_000);
}

#[test]
fn a_run_of_profile_2_reaches_the_floor() {
    reaches_the_floor(2, 500, 1_000_500);
}

#[test]
fn a_run_of_profile_3_reaches_the_floor() {
    // 600 µs at the least duty are the longest wait; a longer on-time adds nothing.
    for ontime in [600, 601, 4_000] {
        reaches_the_floor(3, ontime, 1_000_000);
    }
}

#[test]
fn a_run_of_profile_4_reaches_the_floor() {
    reaches_the_floor(4, 4_000, 1_004_000);
}

#[test]
fn a_run_of_profile_5_reaches_the_floor() {
    reaches_the_floor(5, 1_000, 1_001_000);
}

#[test]
fn the_ceiling_is_kept_at_the_greatest_duty_and_load() {
    let mut run = (made(3, 0, 0).0, Book::new(3, 0));
    run.0.duty = 30_000_000;
    let mut stamp = 0u32;
    for turn in 0..20_000 {
        let ontime = [4_000, 751, 750, 3_999][turn % 4];
        let (priority, lifetime) = (turn as u32 % 4, 60_000_000);
        let offer = Call::Offer {
            id: 1,
            priority,
            ontime,
            lifetime,
            stamp,
        };
        told(&mut run, offer);
        // Sent now, or at the very µs that CLOSED says.
        if let Answer::Closed(left) = told(&mut run, Call::Poll { stamp }) {
            stamp = stamp.wrapping_add(left as u32);
            let near = stamp.wrapping_sub(1);
            assert_eq!(
                told(&mut run, Call::Poll { stamp: near }),
                Answer::Closed(1)
            );
            told(&mut run, Call::Poll { stamp });
        }
        assert_eq!(run.1.compare_ledger(&run.0.ledger), Ok(()));
    }
    assert_eq!(run.1.counts().sent, 20_000);
    assert_eq!(run.1.closest().shortest_gap, Some(25_000));
    // Three times the four; with one more of them it would be too much.
    assert_eq!(run.1.closest().fullest_stretch, 28_500);
}
