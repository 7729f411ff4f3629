//! "The clock": steps, wrapping, going back, and the end at 10^15.

use crate::help::{assert_refused, fresh, made, offered, Answer, PROFILES};
use reference::rng::Rng;
use reference::{gate, rules};

const HALF: u32 = 2_147_483_648;
const END: u64 = 1_000_000_000_000_000;

#[test]
fn step_is_the_difference_modulo_two_to_32() {
    let mut rng = Rng::new(3);
    for _ in 0..100_000 {
        let (earlier, step) = (rng.next_u32(), rng.next_u32());
        let later = earlier.wrapping_add(step);
        assert_eq!(rules::clock_step(earlier, later), step);
    }
    assert_eq!(rules::clock_step(0, u32::MAX), u32::MAX);
    assert_eq!(rules::clock_step(u32::MAX, 0), 1);
    assert_eq!(rules::clock_step(5, 5), 0);
}

#[test]
fn half_a_turn_is_going_back() {
    for start in [0, 1, HALF - 1, HALF, u32::MAX] {
        for profile in PROFILES {
            let (state, _) = made(profile, 0, start);
            let (next, answer) = gate::poll(state, start.wrapping_add(HALF - 1));
            assert_eq!(answer, Answer::Idle);
            assert_eq!(next.time, u64::from(HALF) - 1);
            for back in [HALF, HALF + 1, u32::MAX] {
                let stamp = start.wrapping_add(back);
                assert_refused(state, gate::poll(state, stamp), 2);
            }
            let (next, answer) = gate::poll(state, start);
            assert_eq!((answer, next.time), (Answer::Idle, 0));
        }
    }
}

#[test]
fn a_refused_call_moves_no_clock() {
    let state = fresh(1);
    let (state, _) = gate::sample_count(state, 1_001, 1_000, 500);
    assert_eq!((state.time, state.stamp), (0, 0));
    let (state, _) = gate::sample_count(state, 1_000, 1_000, 500);
    assert_eq!((state.time, state.stamp), (500, 500));
}

#[test]
fn many_wraps_add_up() {
    let (mut state, _) = made(2, 0, 4_000_000_000);
    let mut stamp = 4_000_000_000u32;
    for turn in 1..=1_000u64 {
        stamp = stamp.wrapping_add(2_000_000_000);
        let (next, answer) = gate::sample_count(state, 0, 1_000, stamp);
        assert_eq!(answer, Answer::Taken);
        assert_eq!(next.time, turn * 2_000_000_000);
        state = next;
    }
}

#[test]
fn a_run_reaches_the_end_of_the_clock() {
    let longest = HALF - 1;
    let mut state = fresh(1);
    let mut stamp = 0u32;
    let calls = END / u64::from(longest);
    for _ in 0..calls {
        stamp = stamp.wrapping_add(longest);
        state = gate::poll(state, stamp).0;
    }
    assert_eq!(state.time, calls * u64::from(longest));
    let rest = (END - state.time) as u32;
    assert_refused(state, gate::poll(state, stamp.wrapping_add(rest + 1)), 3);
    let (state, answer) = gate::poll(state, stamp.wrapping_add(rest));
    assert_eq!((answer, state.time), (Answer::Idle, END));
    assert_refused(state, gate::poll(state, state.stamp.wrapping_add(1)), 3);
}

#[test]
fn at_the_end_steps_of_zero_go_on() {
    for profile in PROFILES {
        let mut state = fresh(profile);
        state.time = END;
        state.stamp = 9;
        assert_refused(state, gate::sample_count(state, 0, 1_000, 10), 3);
        assert_refused(state, gate::sample_words(state, 1_000, &[0; 16], 10), 3);
        assert_refused(state, gate::offer(state, 1, 0, 1, 1, 10), 3);
        assert_refused(state, gate::poll(state, 10), 3);
        let (state, answer) = gate::sample_count(state, 1_000, 1_000, 9);
        assert_eq!(answer, Answer::Taken);
        let state = offered(state, 6, 3, 1, 9);
        assert_eq!(state.queues[3].slots[0].arrival, END);
        let (state, answer) = gate::poll(state, 9);
        assert!(matches!(answer, Answer::Sent(packet) if packet.id == 6));
        assert_eq!((state.at, state.time), (END, END));
    }
}

#[test]
fn the_last_microsecond_is_good() {
    let mut state = fresh(3);
    state.time = END - 5;
    assert_refused(state, gate::poll(state, 6), 3);
    assert_refused(state, gate::poll(state, HALF - 1), 3);
    let (next, answer) = gate::poll(state, 5);
    assert_eq!((answer, next.time), (Answer::Idle, END));
}
