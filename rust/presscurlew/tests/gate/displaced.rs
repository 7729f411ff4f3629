//! A full queue: a gate of DROP_OLDEST drops the front packet for a new one, a gate of REFUSE_NEW refuses with 8. What is
//! due stands here, apart from the reference.

use crate::help::{
    archive, archive_burst, fresh, gate_of, gates, hold, raw, raw_reply, word, Answer, Call, Turn,
    ACCEPTED_MOST, PROFILES,
};
use crate::safe::polled;
use crate::sound_states::sound_state;
use presscurlew::{sys, Offer, Packet, WhenFull};
use reference::book::Book;
use reference::rng::Rng;
use reference::state::State;

const NOW: u64 = 1_000_000;

/// A packet whose identifier says where it stood at first: 10, 11, .. in queue 0, 20, 21, .. in queue 1.
fn waiting(priority: u32, place: u32) -> Packet {
    Packet {
        id: 10 * (priority + 1) + place,
        priority,
        ontime: 100 + place,
        lifetime: 2_000_000,
        arrival: 1_000 + u64::from(place),
    }
}

/// Puts a packet into a place of a queue.
fn put(state: &mut presscurlew::State, priority: u32, place: u32, packet: Packet) {
    let (k, place) = (priority as usize, place as usize);
    state.queues[k].packets[place] = presscurlew::Waiting {
        id: packet.id,
        ontime: packet.ontime,
        lifetime: packet.lifetime,
    };
    state.arrivals[k][place] = packet.arrival;
}

/// The packets of a queue from a place on each move one place forward, and the first of them comes last.
fn rotate(state: &mut presscurlew::State, priority: usize, place: usize) {
    state.queues[priority].packets[place..].rotate_left(1);
    state.arrivals[priority][place..].rotate_left(1);
}

/// Shortens the life of a packet so that it expires 6 µs from now.
fn shorten(state: &mut presscurlew::State, priority: usize, place: usize) {
    let arrival = state.arrivals[priority][place];
    state.queues[priority].packets[place].lifetime = (NOW + 6 - arrival) as u32;
}

/// A state at 1 s with four full queues, something admitted, and these counts of what has left.
fn full(profile: u32, way: u32) -> presscurlew::State {
    let mut state = raw(&fresh(profile, way, 500));
    state.time = NOW;
    (state.last_at, state.last_ontime, state.admitted) = (NOW - 3, 7, 1);
    state.admissions = 1;
    state.air[0] = word(0, 7);
    for priority in 0..4 {
        state.queues[priority as usize].len = 5;
        for place in 0..5 {
            put(&mut state, priority, place, waiting(priority, place));
        }
    }
    (state.sent, state.expired, state.displaced) = (700, 40, 9);
    state.accepted = 700 + 40 + 9 + 20;
    state
}

fn new_offer(priority: u32, stamp: u32) -> Call {
    Call::Offer {
        id: 99,
        priority,
        ontime: 300,
        lifetime: 60_000,
        stamp,
    }
}

/// The packet of that offer.
fn new_packet(priority: u32, arrival: u64) -> Packet {
    Packet {
        id: 99,
        priority,
        ontime: 300,
        lifetime: 60_000,
        arrival,
    }
}

fn hold_turn(state: presscurlew::State, call: &Call, due: presscurlew::State, answer: Answer) {
    let expected = Turn {
        state: due,
        reply: raw_reply(&answer),
    };
    assert_eq!(archive(state, call), expected, "{call:?} on {state:?}");
}

/// The front one of that queue leaves and the new one joins. Every other field is as an offer leaves it.
#[test]
fn the_front_one_leaves() {
    for profile in PROFILES {
        for priority in 0..4 {
            for step in [0, 6] {
                let state = full(profile, sys::DROP_OLDEST);
                let mut due = state;
                due.time = NOW + u64::from(step);
                due.stamp = 500 + step;
                due.accepted += 1;
                due.displaced += 1;
                rotate(&mut due, priority as usize, 0);
                let new = new_packet(priority, due.time);
                put(&mut due, priority, 4, new);
                let call = new_offer(priority, 500 + step);
                hold_turn(state, &call, due, Answer::Taken);
            }
        }
    }
}

#[test]
fn the_new_one_is_refused() {
    for profile in PROFILES {
        for priority in 0..4 {
            for step in [0, 6] {
                let state = full(profile, sys::REFUSE_NEW);
                let call = new_offer(priority, 500 + step);
                hold_turn(state, &call, state, Answer::Refused(8));
            }
        }
    }
}

/// One of the five, at any place, has expired at the new time: it leaves as expired, and none is displaced or refused.
#[test]
fn one_that_has_expired_makes_room() {
    for (profile, way) in gates() {
        for place in 0..5 {
            let mut state = full(profile, way);
            shorten(&mut state, 2, place);
            let mut due = state;
            (due.time, due.stamp) = (NOW + 6, 506);
            due.accepted += 1;
            due.expired += 1;
            rotate(&mut due, 2, place);
            put(&mut due, 2, 4, new_packet(2, NOW + 6));
            hold_turn(state, &new_offer(2, 506), due, Answer::Taken);
        }
    }
}

/// Packets that expire in other queues make no room in this one, but leave as well.
#[test]
fn one_that_has_expired_elsewhere_makes_no_room() {
    for profile in PROFILES {
        let mut state = full(profile, sys::DROP_OLDEST);
        shorten(&mut state, 3, 0);
        let mut due = state;
        (due.time, due.stamp) = (NOW + 6, 506);
        due.accepted += 1;
        due.expired += 1;
        due.displaced += 1;
        due.queues[3].len = 4;
        rotate(&mut due, 3, 0);
        put(&mut due, 3, 4, Packet::default());
        rotate(&mut due, 2, 0);
        put(&mut due, 2, 4, new_packet(2, NOW + 6));
        hold_turn(state, &new_offer(2, 506), due, Answer::Taken);
        state.when_full = sys::REFUSE_NEW;
        hold_turn(state, &new_offer(2, 506), state, Answer::Refused(8));
    }
}

/// 11 comes after 8 and before anything is displaced or expires.
#[test]
fn a_spent_gate_displaces_nothing() {
    for (profile, way) in gates() {
        let mut state = full(profile, way);
        let more = ACCEPTED_MOST - state.accepted;
        state.accepted += more;
        state.displaced += more;
        let eight = if way == sys::REFUSE_NEW { 8 } else { 11 };
        for priority in 0..4 {
            let call = new_offer(priority, 506);
            hold_turn(state, &call, state, Answer::Refused(eight));
        }
        shorten(&mut state, 0, 0);
        hold_turn(state, &new_offer(0, 505), state, Answer::Refused(eight));
        hold_turn(state, &new_offer(0, 506), state, Answer::Refused(11));
    }
}

/// Numbers that are not good are refused before the full queue is looked at.
#[test]
fn a_refused_offer_displaces_nothing() {
    for (profile, way) in gates() {
        let state = full(profile, way);
        for (priority, ontime, lifetime, stamp, number) in [
            (4, 300, 60_000, 500, 5),
            (1, 0, 60_000, 500, 6),
            (1, 4_001, 60_000, 500, 6),
            (1, 300, 0, 500, 7),
            (1, 300, 60_000_001, 500, 7),
            (1, 300, 60_000, 499, 2),
        ] {
            let call = Call::Offer {
                id: 99,
                priority,
                ontime,
                lifetime,
                stamp,
            };
            hold_turn(state, &call, state, Answer::Refused(number));
        }
    }
}

/// Six offers to one full queue, by single calls and as a burst: five displace what waited, and the sixth the first of
/// the new ones.
#[test]
fn offers_displace_one_after_the_other() {
    for profile in PROFILES {
        let state = full(profile, sys::DROP_OLDEST);
        let offer = |id| Offer {
            id,
            priority: 1,
            ontime: 300,
            lifetime: 60_000,
        };
        let mut fronts = vec![];
        let mut now = state;
        for id in 1..=6 {
            fronts.push(now.queues[1].packets[0].id);
            assert_eq!(sys::offer(&mut now, offer(id), 501).kind, sys::TAKEN);
        }
        assert_eq!(fronts, [20, 21, 22, 23, 24, 1]);
        assert_eq!(now.queues[1].packets.map(|p| p.id), [2, 3, 4, 5, 6]);
        assert_eq!(now.displaced, 9 + 6);
        let records = [1, 2, 3, 4, 5, 6].map(|id| offer(id).record(501));
        let burst = archive_burst(state, records.as_flattened(), 6);
        assert_eq!((burst.state, burst.answers), (now, vec![0; 6]));
        let mut refusing = state;
        refusing.when_full = sys::REFUSE_NEW;
        let burst = archive_burst(refusing, records.as_flattened(), 6);
        assert_eq!((burst.state, burst.answers), (refusing, vec![8; 6]));
    }
}

/// On a sound state the two ways differ where the offer finds five unexpired ones, and nowhere else.
#[test]
fn ways_differ_in_full_queues_alone() {
    let mut rng = Rng::new(0xd15b);
    let mut seen = [0; 2];
    for index in 0..60_000 {
        let profile = rng.pick(&PROFILES);
        let mut state = sound_state(&mut rng, profile);
        let stamp = state.stamp.wrapping_add(rng.below(2_000_000) as u32);
        let call = match rng.below(5) {
            0 => Call::Poll { stamp },
            1 => Call::SampleCount {
                busy: 700,
                probes: 1_000,
                stamp,
            },
            _ => new_offer(rng.below(4) as u32, stamp),
        };
        let origin = format!("sound state {index}");
        state.oldway = sys::DROP_OLDEST;
        let (dropping, _) = hold(&state, &call, &origin);
        state.oldway = sys::REFUSE_NEW;
        let (refusing, answer) = hold(&state, &call, &origin);
        let alike = State {
            oldway: sys::DROP_OLDEST,
            ..refusing
        } == dropping;
        let displaced = dropping.counts.displaced - state.counts.displaced;
        assert_eq!(
            refusing.counts.displaced, state.counts.displaced,
            "{origin}"
        );
        // Spent, both refuse: with 8 the one and with 11 the other.
        let spent = state.counts.accepted == ACCEPTED_MOST;
        let differ = answer == Answer::Refused(8) && !spent;
        assert_eq!(
            (alike, displaced),
            (!differ, u64::from(differ)),
            "{origin}: {state:?}"
        );
        seen[usize::from(differ)] += 1;
    }
    assert!(seen.iter().all(|&times| times > 500), "{seen:?}");
}

/// In hasty runs a packet is displaced by the fifth packet of its priority that was taken after it, or a later one.
#[test]
fn none_is_displaced_before_the_fifth_after_it() {
    for profile in PROFILES {
        let mut rng = Rng::new(0xd15c + u64::from(profile));
        let mut gate = gate_of(profile, WhenFull::DropOldest, 0);
        let mut book = Book::new(profile, 0);
        let mut stamp = 0;
        for _ in 0..50_000 {
            stamp += rng.below(4_000) as u32;
            let priority = rng.below(4) as u32;
            if rng.one_in(3) {
                let answer = polled(gate.poll(stamp).unwrap());
                book.feed(&Call::Poll { stamp }, &answer).unwrap();
                continue;
            }
            let offer = Offer {
                id: stamp,
                priority,
                ontime: 300,
                lifetime: 1 + rng.below(90_000) as u32,
            };
            gate.offer(offer, stamp).unwrap();
            let call = Call::Offer {
                id: offer.id,
                priority,
                ontime: offer.ontime,
                lifetime: offer.lifetime,
                stamp,
            };
            book.feed(&call, &Answer::Taken).unwrap();
            assert_eq!(gate.counts().displaced, book.counts().displaced);
        }
        assert!(gate.counts().displaced > 1_000, "{:?}", gate.counts());
        assert_eq!(book.closest().fewest_offers, Some(5));
    }
}
