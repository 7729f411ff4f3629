//! "Waiting and leaving": order, expiry, the wait.

use crate::help::{
    admission, assert_refused, fresh, late, made, offered, old, sampled, sent, Answer, PROFILES,
};
use reference::state::Packet;
use reference::{gate, rules};

#[test]
fn lowest_queue_first_oldest_first() {
    for profile in PROFILES {
        let mut state = fresh(profile);
        let mut stamp = 0;
        for (id, priority) in [(1, 3), (2, 1), (3, 3), (4, 0), (5, 1), (6, 2), (7, 0)] {
            state = offered(state, id, priority, 60_000_000, stamp);
            stamp += 10;
        }
        for id in [4, 7, 2, 5, 6, 1, 3] {
            stamp += 1_001_000;
            state = sent(state, id, stamp);
        }
        assert_eq!(gate::poll(state, stamp).1, Answer::Idle);
    }
}

#[test]
fn sent_carries_the_whole_packet() {
    let (state, _) = made(3, 0, 100);
    let (state, _) = gate::offer(state, 9, 2, 4_000, 50_000, 107);
    let (state, answer) = gate::poll(state, 120);
    let packet = Packet {
        id: 9,
        priority: 2,
        ontime: 4_000,
        lifetime: 50_000,
        arrival: 7,
    };
    assert_eq!(answer, Answer::Sent(packet));
    assert_eq!((state.any, state.at, state.ontime), (true, 20, 4_000));
    assert_eq!(state.waiting(), 0);
    assert_eq!(state.queues[2].slots, [Packet::default(); 5]);
}

#[test]
fn repeated_identifiers_are_kept_apart() {
    let mut state = fresh(1);
    for _ in 0..5 {
        state = offered(state, u32::MAX, 0, 60_000_000, 0);
    }
    for turn in 0..5u32 {
        assert_eq!(state.queues[0].len, 5 - u64::from(turn));
        state = sent(state, u32::MAX, turn * 100_001);
    }
}

#[test]
fn expired_packets_leave_from_anywhere_in_all_queues() {
    let mut state = fresh(2);
    for priority in 0..4 {
        for (id, lifetime) in [(1, 100), (2, 500), (3, 100), (4, 500), (5, 100)] {
            state = offered(state, id, priority, lifetime, 0);
        }
    }
    let (state, answer) = gate::offer(state, 6, 1, 1, 9, 100);
    assert_eq!(answer, Answer::Taken);
    for (priority, queue) in state.queues.iter().enumerate() {
        let ids: Vec<u32> = queue.waiting().iter().map(|packet| packet.id).collect();
        let expected: &[u32] = if priority == 1 { &[2, 4, 6] } else { &[2, 4] };
        assert_eq!(ids, expected);
        assert!(queue.unused().iter().all(|slot| *slot == Packet::default()));
    }
}

#[test]
fn idle_and_closed_polls_move_the_clock_and_remove_the_expired() {
    let state = offered(fresh(1), 1, 3, 50, 0);
    let (idle, answer) = gate::poll(state, 50);
    assert_eq!(answer, Answer::Idle);
    assert_eq!((idle.time, idle.waiting()), (50, 0));

    let state = sent(offered(fresh(1), 1, 0, 50, 0), 1, 0);
    let state = offered(state, 2, 2, 50, 0);
    let state = offered(state, 3, 3, 51, 0);
    let (closed, answer) = gate::poll(state, 50);
    assert_eq!(answer, Answer::Closed(99_951));
    assert_eq!((closed.time, closed.waiting()), (50, 1));
    assert_eq!(closed.queues[2].len, 0);
}

#[test]
fn a_full_queue_counts_the_unexpired_at_the_new_time() {
    let mut state = fresh(3);
    state = offered(state, 1, 2, 100, 0);
    for id in 2..=5 {
        state = offered(state, id, 2, 1_000, 0);
    }
    state = offered(state, 9, 0, 40, 0);
    let state = old(state);
    // At 99 five live ones wait; nothing is removed, not even the expired 9.
    assert_refused(state, gate::offer(state, 6, 2, 1, 1, 99), 8);
    let (next, answer) = gate::offer(state, 6, 2, 1, 1, 100);
    assert_eq!(answer, Answer::Taken);
    let ids: Vec<u32> = next.queues[2].slots.iter().map(|p| p.id).collect();
    assert_eq!(ids, [2, 3, 4, 5, 6]);
    assert_eq!(next.queues[0].len, 0);
    // The other queues have room of their own.
    assert_eq!(gate::offer(state, 6, 3, 1, 1, 99).1, Answer::Taken);
}

#[test]
fn the_gate_opens_exactly_when_the_wait_after_the_on_time_is_over() {
    for (profile, most) in [(1, 1_000), (2, 500)] {
        for level in 0..=4 {
            for ontime in [1, 2, most / 2, most] {
                let mut state = late(profile, [2, 0, 0, 0]);
                state.level = level;
                state = state.with_admissions(&[admission(state.time, ontime)]);
                let closed = ontime + rules::wait_reactive(profile, level).unwrap();
                let (_, answer) = gate::poll(state, state.stamp);
                assert_eq!(answer, Answer::Closed(u64::from(closed)));
                let near = state.stamp + closed - 1;
                state.queues[0].slots[0].lifetime = 60_000_000;
                assert_eq!(gate::poll(state, near).1, Answer::Closed(1));
                assert!(matches!(gate::poll(state, near + 1).1, Answer::Sent(_)));
            }
        }
    }
}

#[test]
fn the_wait_is_taken_afresh_at_each_poll() {
    let state = sent(offered(fresh(1), 1, 0, 9, 0), 1, 0);
    let state = offered(state, 2, 0, 60_000_000, 0);
    assert_eq!(gate::poll(state, 100_000).1, Answer::Closed(1));
    let louder = sampled(state, 1_000);
    assert_eq!(gate::poll(louder, 100_000).1, Answer::Closed(100_001));
    let quiet = sampled(louder, 0);
    assert_eq!(gate::poll(quiet, 100_000).1, Answer::Closed(1));
    sent(quiet, 2, 100_001);
}

/// It is the admitted packet that was on air; the one that waits has no say.
#[test]
fn the_wait_starts_with_the_end_of_the_last_admitted() {
    for (profile, wait, most) in [(1, 100_000, 1_000), (2, 50_000, 500)] {
        for (first, second) in [(1, most), (most, 1)] {
            let (state, _) = gate::offer(fresh(profile), 1, 0, first, 9, 0);
            let state = sent(state, 1, 0);
            let (state, _) = gate::offer(state, 2, 0, second, 60_000_000, 0);
            let closed = Answer::Closed(u64::from(first + wait));
            assert_eq!(gate::poll(state, 0).1, closed);
            sent(state, 2, first + wait);
        }
    }
}

#[test]
fn the_adaptive_wait_uses_the_last_admitted_on_time() {
    let (state, _) = gate::offer(fresh(3), 1, 0, 300, 9, 0);
    let state = sent(state, 1, 0);
    let (state, _) = gate::offer(state, 2, 0, 4_000, 60_000_000, 0);
    // 300 µs at duty 600,000: half a second; the waiting 4,000 has no say.
    assert_eq!(gate::poll(state, 0).1, Answer::Closed(500_000));
    let quicker = sampled(sampled(state, 0), 0);
    assert_eq!(quicker.duty, 1_090_400);
    // 300,000,000,000 / 1,090,400 = 275,128 and a rest.
    assert_eq!(gate::poll(quicker, 0).1, Answer::Closed(275_129));
    sent(quicker, 2, 275_129);
}

#[test]
fn nothing_admitted_means_no_wait() {
    for profile in PROFILES {
        let mut state = fresh(profile);
        state.level = 4;
        sent(offered(state, 3, 1, 1, 0), 3, 0);
    }
}
