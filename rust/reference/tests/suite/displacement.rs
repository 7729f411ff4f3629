//! W-205: a full queue drops its oldest, or refuses if the gate was made so.

use crate::help::{
    assert_refused, counts, displaced, fresh, late, made, offered, old, sampled, since, Answer,
    Call, ACCEPTED_MOST, PROFILES, WAYS,
};
use crate::runs::Caller;
use reference::gate;
use reference::state::{sound, Packet, State};

fn ids(state: &State, priority: usize) -> Vec<u32> {
    let waiting = state.queues[priority].waiting();
    waiting.iter().map(|packet| packet.id).collect()
}

#[test]
fn the_front_one_leaves_and_the_new_one_joins() {
    for profile in PROFILES {
        for priority in 0..4 {
            let state = late(profile, [5, 5, 5, 5]);
            let (next, answer) = gate::offer(state, 77, priority, 1, 9, state.stamp + 3);
            assert_eq!(answer, Answer::Taken);
            assert_eq!(ids(&next, priority as usize), [11, 12, 13, 14, 77]);
            let back = next.queues[priority as usize].slots[4];
            let joined = Packet {
                id: 77,
                priority,
                ontime: 1,
                lifetime: 9,
                arrival: state.time + 3,
            };
            assert_eq!(back, joined);
            for other in (0..4).filter(|&other| other != priority as usize) {
                assert_eq!(next.queues[other], state.queues[other]);
            }
            let counted = since(state.counts, next.counts);
            assert_eq!(counted, displaced(1, counts(1, 0, 0)));
            assert!(sound(&next));
            let full = old(state);
            let refused = gate::offer(full, 77, priority, 1, 9, state.stamp + 3);
            assert_refused(full, refused, 8);
        }
    }
}

/// Nothing but the counts and the queue differs from an offer that finds room.
#[test]
fn a_displacing_offer_changes_no_more_than_another() {
    for profile in PROFILES {
        let full = sampled(late(profile, [0, 5, 2, 0]), 500);
        let mut room = full;
        let four = &full.queues[1].waiting()[1..];
        room.queues[1] = reference::state::Queue::of(four);
        let room = room.counted(700, 40, 10);
        let (displaced, _) = gate::offer(full, 1, 1, 1, 9, full.stamp + 50);
        let (joined, _) = gate::offer(room, 1, 1, 1, 9, full.stamp + 50);
        assert_eq!(displaced, joined);
    }
}

/// With fewer than five no offer displaces, whatever the gate's way.
#[test]
fn where_there_is_room_both_ways_are_alike() {
    for profile in PROFILES {
        for length in 0..5 {
            let state = late(profile, [length; 4]);
            for priority in 0..4 {
                let (new, _) = gate::offer(state, 1, priority, 1, 9, state.stamp);
                let (alike, answer) = gate::offer(old(state), 1, priority, 1, 9, state.stamp);
                assert_eq!((old(new), Answer::Taken), (alike, answer));
                assert_eq!(new.counts.displaced, state.counts.displaced);
            }
        }
    }
}

/// It is the unexpired at the new time that are counted. One that expires
/// leaves by expiry, wherever it stands, and then nothing is displaced.
#[test]
fn an_expired_packet_makes_room() {
    for profile in PROFILES {
        for place in 0..5u32 {
            let mut state = fresh(profile);
            for id in 0..5 {
                let lifetime = if id == place { 100 } else { 1_000 };
                state = offered(state, id, 2, lifetime, 0);
            }
            state = offered(state, 9, 0, 40, 0);
            let next = offered(state, 6, 2, 1, 99);
            assert_eq!(ids(&next, 2), [1, 2, 3, 4, 6]);
            assert_eq!(next.counts, displaced(1, counts(7, 0, 1)));
            let next = offered(state, 6, 2, 1, 100);
            let mut stay: Vec<u32> = (0..5).filter(|&id| id != place).collect();
            stay.push(6);
            assert_eq!(ids(&next, 2), stay);
            assert_eq!(next.counts, counts(7, 0, 2));
        }
    }
}

/// Five more offers displace all that waited, one after the other.
#[test]
fn the_fifth_offer_displaces_the_youngest_of_five() {
    for profile in PROFILES {
        let mut state = late(profile, [0, 0, 0, 5]);
        for (more, id) in (100..105).enumerate() {
            assert!(ids(&state, 3).contains(&14));
            state = offered(state, id, 3, 60_000_000, state.stamp);
            assert_eq!(state.queues[3].len, 5, "{more}");
        }
        assert_eq!(ids(&state, 3), [100, 101, 102, 103, 104]);
        assert_eq!(state.counts.displaced, 9 + 5);
    }
}

/// 11 is the answer before anything is displaced or expires.
#[test]
fn a_spent_gate_displaces_nothing() {
    for profile in PROFILES {
        let state = late(profile, [5, 5, 5, 5]).with_accepted(ACCEPTED_MOST);
        for step in [0, 1, 999_100, 1_000_000, 9_000_000] {
            let stamp = state.stamp + step;
            let refused = gate::offer(state, 1, 2, 1, 1, stamp);
            assert_refused(state, refused, 11);
        }
    }
}

/// A bad offer displaces nothing either.
#[test]
fn a_refused_offer_displaces_nothing() {
    for profile in PROFILES {
        let state = late(profile, [5, 5, 5, 5]);
        let stamp = state.stamp;
        assert_refused(state, gate::offer(state, 1, 4, 1, 1, stamp), 5);
        assert_refused(state, gate::offer(state, 1, 3, 0, 1, stamp), 6);
        assert_refused(state, gate::offer(state, 1, 3, 1, 0, stamp), 7);
        assert_refused(state, gate::offer(state, 1, 3, 1, 1, stamp - 1), 2);
    }
}

/// Samples, offers and polls leave the way as it was made.
#[test]
fn the_way_is_fixed_at_making() {
    for profile in PROFILES {
        for oldway in WAYS {
            let (mut state, _) = made(profile, oldway, 0);
            let mut caller = Caller::new(profile, 205);
            for _ in 0..5_000 {
                let (next, answer) = gate::call(state, &caller.call(state.stamp));
                assert_eq!(next.oldway, oldway);
                caller.heard(&answer);
                state = next;
            }
        }
    }
}

/// One run in both ways. Until the first 8 they are alike but for the way; the
/// call that gets it is taken in the new way, and displaces one.
#[test]
fn the_two_ways_part_at_a_full_queue() {
    for profile in PROFILES {
        for seed in 250..260 {
            let (mut state, mut other) = (fresh(profile), old(fresh(profile)));
            let mut caller = Caller::new(profile, seed);
            let parted = (0..20_000).any(|_| {
                let call = caller.call(state.stamp);
                let (next, answer) = gate::call(state, &call);
                let (follows, refused) = gate::call(other, &call);
                let place = format!("profile {profile}, seed {seed}: {call:?} on {state:?}");
                if answer != refused {
                    let both = (answer, refused);
                    assert_eq!(both, (Answer::Taken, Answer::Refused(8)), "{place}");
                    assert_eq!(next.counts.displaced, 1, "{place}");
                    assert!(matches!(call, Call::Offer { .. }), "{place}");
                    return true;
                }
                assert_eq!(old(next), follows, "{place}");
                caller.heard(&answer);
                (state, other) = (next, follows);
                false
            });
            assert!(parted, "profile {profile}, seed {seed}");
        }
    }
}
