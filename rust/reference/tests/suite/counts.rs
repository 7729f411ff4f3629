//! W-201 and W-205: what each call counts, and the end of the offers at 10^15.

use crate::help::{
    assert_refused, counts, displaced, fresh, late, made, offered, old, sampled, sent, since,
    words, Answer, ACCEPTED_MOST, PROFILES, WAYS,
};
use crate::runs::Caller;
use reference::book::Book;
use reference::gate;
use reference::rng::Rng;
use reference::rules::counts_add_up;
use reference::state::{sound, Counts, Packet, Queue, State};

const BACK: u32 = 2_147_483_648;

#[test]
fn a_fresh_state_and_the_not_live_one_have_counted_nothing() {
    for profile in 0..=6 {
        for oldway in WAYS {
            let (state, _) = made(profile, oldway, 7);
            assert_eq!(state.counts, counts(0, 0, 0));
        }
    }
}

#[test]
fn each_event_counts_once() {
    for profile in PROFILES {
        let state = offered(fresh(profile), 1, 0, 60_000_000, 0);
        assert_eq!(state.counts, counts(1, 0, 0));
        let state = offered(state, 2, 3, 60_000_000, 0);
        assert_eq!(state.counts, counts(2, 0, 0));
        let state = sent(state, 1, 0);
        assert_eq!(state.counts, counts(2, 1, 0));
        let state = sent(state, 2, 1_001_000);
        assert_eq!(state.counts, counts(2, 2, 0));
        let (state, answer) = gate::poll(state, 1_001_000);
        assert_eq!((answer, state.counts), (Answer::Idle, counts(2, 2, 0)));
    }
}

/// Three in each queue that expire at 100, and two that stay.
fn soon_expired(profile: u32) -> State {
    let mut state = fresh(profile);
    for priority in 0..4 {
        for (id, lifetime) in [(1, 100), (2, 500), (3, 100), (4, 500), (5, 100)] {
            state = offered(state, id, priority, lifetime, 0);
        }
    }
    state
}

#[test]
fn an_expiry_counts_at_its_removal() {
    for profile in PROFILES {
        let state = soon_expired(profile);
        assert_eq!(state.counts, counts(20, 0, 0));
        // A sample removes nothing, so it counts nothing.
        let (later, answer) = gate::sample_count(state, 0, 1_000, 200);
        assert_eq!((answer, later.counts), (Answer::Taken, counts(20, 0, 0)));
        let (later, answer) = gate::sample_words(later, 1_000, &words(0), 300);
        assert_eq!((answer, later.counts), (Answer::Taken, counts(20, 0, 0)));
        // The first offer or poll after it does, in all queues, and once.
        for state in [state, later] {
            let stamp = state.stamp.max(100);
            let (next, answer) = gate::offer(state, 6, 1, 1, 9, stamp);
            assert_eq!((answer, next.counts), (Answer::Taken, counts(21, 0, 12)));
            let (next, answer) = gate::poll(state, stamp);
            assert!(matches!(answer, Answer::Sent(packet) if packet.id == 2));
            assert_eq!(next.counts, counts(20, 1, 12));
            let (next, _) = gate::poll(next, stamp);
            assert_eq!(next.counts, counts(20, 1, 12));
        }
        // One µs before, nothing has expired: the offer finds its queue full.
        let next = offered(state, 6, 1, 9, 99);
        assert_eq!(next.counts, displaced(1, counts(21, 0, 0)));
        assert_refused(old(state), gate::offer(old(state), 6, 1, 1, 9, 99), 8);
        assert_eq!(gate::poll(state, 99).0.counts, counts(20, 1, 0));
    }
}

#[test]
fn idle_and_closed_polls_count_the_expired() {
    for profile in PROFILES {
        let (idle, answer) = gate::poll(soon_expired(profile), 500);
        assert_eq!((answer, idle.counts), (Answer::Idle, counts(20, 0, 20)));
        let state = sent(soon_expired(profile), 1, 0);
        let (closed, answer) = gate::poll(state, 100);
        assert!(matches!(answer, Answer::Closed(_)));
        assert_eq!(closed.counts, counts(20, 1, 11));
    }
}

#[test]
fn a_refused_call_counts_nothing() {
    for profile in PROFILES {
        let full = old(late(profile, [5, 5, 5, 5]));
        let stamp = full.stamp;
        let back = stamp.wrapping_add(BACK);
        let refused = [
            (gate::poll(full, back), 2),
            (gate::sample_count(full, 0, 1_000, back), 2),
            (gate::offer(full, 1, 0, 1, 1, back), 2),
            (gate::sample_count(full, 1_001, 1_000, stamp), 4),
            (gate::sample_words(full, 1_000, &[0; 15], stamp), 4),
            (gate::offer(full, 1, 4, 1, 1, stamp), 5),
            (gate::offer(full, 1, 0, 0, 1, stamp), 6),
            (gate::offer(full, 1, 0, 1, 0, stamp), 7),
            (gate::offer(full, 1, 0, 1, 1, stamp), 8),
        ];
        for (result, number) in refused {
            assert_refused(full, result, number);
        }
    }
}

#[test]
fn the_last_offer_is_taken_and_the_next_is_refused_with_11() {
    for profile in PROFILES {
        for lengths in [[0; 4], [4, 3, 2, 1], [4; 4]] {
            let state = late(profile, lengths).with_accepted(ACCEPTED_MOST - 1);
            for priority in 0..4 {
                let (spent, answer) = gate::offer(state, 1, priority, 1, 1_000, state.stamp);
                assert_eq!(answer, Answer::Taken);
                assert_eq!(spent.counts.accepted, ACCEPTED_MOST);
                assert!(sound(&spent));
                for other in 0..4 {
                    for step in [0, 500, 1_000] {
                        let stamp = spent.stamp + step;
                        let again = gate::offer(spent, 1, other, 1, 1, stamp);
                        assert_refused(spent, again, 11);
                    }
                }
            }
        }
    }
}

#[test]
fn number_11_comes_after_all_others() {
    for profile in PROFILES {
        let mut state = old(late(profile, [0, 5, 0, 0]).with_accepted(ACCEPTED_MOST));
        let stamp = state.stamp;
        assert_refused(state, gate::offer(state, 1, 0, 1, 1, stamp), 11);
        assert_refused(state, gate::offer(state, 1, 1, 1, 1, stamp), 8);
        assert_refused(state, gate::offer(state, 1, 0, 1, 0, stamp), 7);
        assert_refused(state, gate::offer(state, 1, 1, 0, 0, stamp), 6);
        assert_refused(state, gate::offer(state, 1, 4, 0, 0, stamp), 5);
        let back = stamp.wrapping_add(BACK);
        assert_refused(state, gate::offer(state, 1, 4, 0, 0, back), 2);
        state.time = 1_000_000_000_000_000;
        state = state.with_admissions(&[]);
        assert_refused(state, gate::offer(state, 1, 4, 0, 0, stamp + 1), 3);
        assert_refused(state, gate::offer(state, 1, 1, 1, 1, stamp), 11);
        state.counts.sent += 1;
        assert_refused(state, gate::offer(state, 1, 4, 0, 0, back), 9);
    }
}

/// 8 counts the unexpired at the new time; where it does not hold 11 does, and
/// the expired stay where they are. In the new way 11 comes before anything is
/// displaced.
#[test]
fn a_spent_state_with_a_full_queue_of_which_one_expires() {
    let waits = |lifetime| Packet {
        id: 5,
        priority: 2,
        ontime: 1,
        lifetime,
        arrival: 0,
    };
    for profile in PROFILES {
        let mut state = fresh(profile);
        state.queues[2] = Queue::of(&[100, 500, 500, 500, 500].map(waits));
        let state = state.with_accepted(ACCEPTED_MOST);
        for (state, full) in [(state, 11), (old(state), 8)] {
            assert_refused(state, gate::offer(state, 6, 2, 1, 1, 99), full);
            assert_refused(state, gate::offer(state, 6, 2, 1, 1, 100), 11);
            assert_refused(state, gate::offer(state, 6, 2, 1, 1, 9_999), 11);
        }
    }
}

/// Only offers are spent: samples and polls go on, and what waits leaves.
#[test]
fn a_spent_state_samples_sends_and_expires() {
    for profile in PROFILES {
        let mut state = late(profile, [1, 0, 2, 0]).with_accepted(ACCEPTED_MOST);
        let before = state.counts;
        state = sampled(state, 500);
        assert_eq!(state.counts, before);
        state = sent(state, 10, state.stamp + 990_000);
        assert_eq!(since(before, state.counts), counts(0, 1, 0));
        let (state, answer) = gate::poll(state, state.stamp + 20_000);
        assert_eq!(answer, Answer::Idle);
        assert_eq!(since(before, state.counts), counts(0, 1, 2));
        assert_refused(state, gate::offer(state, 1, 0, 1, 1, state.stamp), 11);
    }
}

#[test]
fn sums_are_those_of_whole_numbers() {
    let most = u64::MAX;
    assert!(counts_add_up(0, [0; 4]));
    assert!(counts_add_up(10, [1, 2, 3, 4]));
    assert!(counts_add_up(most, [most, 0, 0, 0]));
    assert!(counts_add_up(most, [0, 7, most - 27, 20]));
    assert!(!counts_add_up(0, [most, 1, 0, 0]));
    assert!(!counts_add_up(0, [1 << 63, 0, 1 << 63, 0]));
    assert!(!counts_add_up(18, [most, 0, most, 20]));
    assert!(!counts_add_up(17, [most, most, most, 20]));
    assert!(!counts_add_up(most, [0, most, most, 1]));
}

/// Each part of the sum is one part of it: left out, the sum is wrong.
#[test]
fn each_count_has_its_part() {
    let counts = displaced(4, counts(9, 1, 2));
    assert!(counts.add_up(2));
    for waiting in [0, 1, 3] {
        assert!(!counts.add_up(waiting));
    }
    assert!(!Counts { sent: 0, ..counts }.add_up(2));
    let expired = 0;
    assert!(!Counts { expired, ..counts }.add_up(2));
    assert!(!displaced(0, counts).add_up(2));
}

/// Runs from states that are fresh but for their counts, with so many offers
/// left. The book counts from 0. What is refused with 11 is taken by a state
/// that has offers enough, and all else is answered alike.
#[test]
fn runs_that_spend_their_offers() {
    for profile in PROFILES {
        for (seed, left) in [(70, 0), (71, 1), (72, 40), (73, 1_000)] {
            let fresh = State {
                oldway: seed as u32 % 2,
                ..fresh(profile)
            };
            let start = fresh.with_accepted(ACCEPTED_MOST - left);
            let (mut state, mut rich) = (start, fresh);
            let (mut book, mut caller) = (Book::new(profile, 0), Caller::new(profile, seed));
            let mut spent = 0;
            for _ in 0..10_000 {
                let call = caller.call(state.stamp);
                let (next, answer) = gate::call(state, &call);
                let place = format!("profile {profile}, seed {seed}: {call:?} on {state:?}");
                assert!(sound(&next), "{place}");
                assert_eq!(book.feed(&call, &answer), Ok(()), "{place}");
                let counted = since(start.counts, next.counts);
                assert_eq!(book.compare(&counted), Ok(()), "{place}");
                if answer == Answer::Refused(11) {
                    assert_eq!(state.counts.accepted, ACCEPTED_MOST, "{place}");
                    assert_eq!(gate::call(rich, &call).1, Answer::Taken, "{place}");
                    spent += 1;
                } else {
                    let (next, same) = gate::call(rich, &call);
                    assert_eq!(same, answer, "{place}");
                    rich = next;
                }
                caller.heard(&answer);
                state = next;
            }
            assert_eq!(
                book.counts().accepted,
                left,
                "profile {profile}, seed {seed}"
            );
            assert!(spent > 100, "profile {profile}, seed {seed}: {spent}");
        }
    }
}

/// What a state has counted changes no answer before its offers are spent.
#[test]
fn counts_change_no_answer() {
    for profile in PROFILES {
        let seed = 80 + u64::from(profile);
        let mut rng = Rng::new(seed);
        let mut caller = Caller::new(profile, seed);
        let mut state = fresh(profile);
        for _ in 0..10_000 {
            let call = caller.call(state.stamp);
            let (next, answer) = gate::call(state, &call);
            let (sent, expired) = (rng.below(ACCEPTED_MOST / 2), rng.below(1_000));
            let other = state.counted(sent, expired, rng.below(ACCEPTED_MOST / 4));
            let (moved, same) = gate::call(other, &call);
            let place = format!("seed {seed}: {call:?} on {state:?}");
            assert_eq!(same, answer, "{place}");
            assert_eq!(
                since(other.counts, moved.counts),
                since(state.counts, next.counts),
                "{place}"
            );
            let counts = next.counts;
            assert_eq!(State { counts, ..moved }, next, "{place}");
            caller.heard(&answer);
            state = next;
        }
    }
}
