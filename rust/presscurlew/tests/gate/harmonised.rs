//! Profile 4: the wait goes by the latest load alone. Numbers that are due stand here, apart from the reference.

use crate::help::{fresh, hold, raw, Answer, Call, PROFILES};
use crate::runs::made;
use presscurlew::sys;
use reference::book::Book;
use reference::state::State;

fn sample(busy: u32, probes: u32, stamp: u32) -> Call {
    Call::SampleCount {
        busy,
        probes,
        stamp,
    }
}

fn offer(ontime: u32, stamp: u32) -> Call {
    let (id, priority, lifetime) = (7, 0, 60_000_000);
    Call::Offer {
        id,
        priority,
        ontime,
        lifetime,
        stamp,
    }
}

/// The state after calls that are not refused, and the last answer.
fn after(state: State, calls: &[Call]) -> (State, Answer) {
    let mut turn = (state, Answer::Ready);
    for call in calls {
        turn = hold(&turn.0, call, &"profile 4");
        let refused = matches!(turn.1, Answer::Refused(_));
        assert!(!refused, "{call:?}: {:?}", turn.1);
    }
    turn
}

/// How long a fresh gate of profile 4 is closed for a second packet, if a first of this on-time went on air just now and
/// these samples, of 12,500 probes, came before.
fn closed(samples: &[u32], ontime: u32) -> u64 {
    let mut calls: Vec<Call> = samples
        .iter()
        .map(|&busy| sample(busy, 12_500, 0))
        .collect();
    calls.extend([offer(ontime, 0), offer(ontime, 0)]);
    calls.extend([Call::Poll { stamp: 0 }, Call::Poll { stamp: 0 }]);
    match after(made(4, sys::DROP_OLDEST, 0), &calls).1 {
        Answer::Closed(left) => left,
        other => panic!("{samples:?}, {ontime}: {other:?}"),
    }
}

/// From the end of transmission, so that the on-time comes before the wait.
#[test]
fn waits_by_hand() {
    for (samples, ontime, wait) in [
        (&[][..], 4_000, 25_000),
        (&[0], 4_000, 25_000),
        (&[7_750], 4_000, 25_000), // 620,000
        (&[7_751], 4_000, 25_000), // 620,080: 6 x 4,000 is less
        (&[7_764], 4_000, 48_000), // 621,120: 12 x 4,000
        (&[8_750], 400, 182_800),  // 700,000: 457 x 400
        (&[12_500], 600, 911_400), // 1,519 x 600
        (&[12_500], 658, 999_502),
        (&[12_500], 659, 1_000_000),
        (&[12_500], 4_000, 1_000_000),
        // The latest alone.
        (&[12_500, 12_500, 12_500, 0], 600, 25_000),
        (&[0, 0, 0, 12_500], 600, 911_400),
    ] {
        let due = u64::from(ontime) + wait;
        assert_eq!(closed(samples, ontime), due, "{samples:?}, {ontime}");
    }
}

/// Every load that the new radio can tell: the gate waits as the C call says.
#[test]
fn every_busy_count_of_12_500() {
    for busy in 0..=12_500 {
        for ontime in [1, 700, 4_000] {
            let wait = sys::presscurlew_wait(4, 0, 600_000, ontime, 80 * busy);
            assert_eq!(wait.refusal, 0);
            let due = u64::from(ontime + wait.wait);
            assert_eq!(closed(&[busy], ontime), due, "{busy} busy, {ontime} on air");
        }
    }
}

/// A sample that is taken leaves its load, rounded down, and moves nothing else of the tuning; one that is refused leaves
/// all as it was. In the other profiles the latest load stays zero.
#[test]
fn the_latest_load_is_that_of_the_last_sample_taken() {
    for profile in PROFILES {
        let mut state = made(profile, sys::DROP_OLDEST, 0);
        let samples = [
            (1, 3, Some(333_333)),
            (7_751, 12_500, Some(620_080)),
            (1_001, 1_000, None),
            (0, 0, None),
            (1_000, 1_000, Some(1_000_000)),
            (0, 1, Some(0)),
        ];
        for (busy, probes, load) in samples {
            let (next, answer) = hold(&state, &sample(busy, probes, 0), &"latest");
            assert_eq!(answer == Answer::Taken, load.is_some());
            let due = match load {
                Some(load) if profile == 4 => load,
                _ => state.latest,
            };
            let given = raw(&next);
            assert_eq!(given.latest, due, "{busy} of {probes}, profile {profile}");
            if profile == 4 {
                let fresh = raw(&fresh(4, sys::DROP_OLDEST, 0));
                assert_eq!(
                    given,
                    presscurlew::State {
                        latest: due,
                        ..fresh
                    }
                );
            }
            state = next;
        }
    }
}

/// The wait is taken afresh at each poll: a calm sample opens the gate, and a loud one closes it.
#[test]
fn a_sample_between_polls_moves_the_wait() {
    let calls = [offer(600, 0), offer(600, 0), Call::Poll { stamp: 0 }];
    let (mut state, _) = after(made(4, sys::REFUSE_NEW, 0), &calls);
    for (busy, stamp, left) in [
        (700, 1_000, 600 + 457 * 600 - 1_000),
        (1_000, 2_000, 600 + 911_400 - 2_000),
        (620, 20_000, 5_600),
        (621, 25_000, 600), // 6 x 600 is less than 25,000
        (1_000, 25_599, 886_401),
    ] {
        let calls = [sample(busy, 1_000, stamp), Call::Poll { stamp }];
        let (next, answer) = after(state, &calls);
        assert_eq!(answer, Answer::Closed(left), "{busy} of 1,000");
        state = next;
    }
    let calls = [sample(0, 1, 25_600), Call::Poll { stamp: 25_600 }];
    assert!(matches!(after(state, &calls).1, Answer::Sent(_)));
}

/// On a calm channel seven packets of 4,000 µs go within 178 ms: far above 3 % of that time and 4 ms, which is not claimed
/// here. The second is: the eighth waits until the first is a second old.
#[test]
fn the_second_alone_holds_a_calm_gate() {
    let mut state = made(4, sys::DROP_OLDEST, 0);
    let mut book = Book::new(4, 0);
    let mut call = |call: Call| {
        let (next, answer) = hold(&state, &call, &"a calm gate");
        book.feed(&call, &answer).unwrap();
        book.compare_ledger(&next.ledger).unwrap();
        state = next;
        answer
    };
    for packet in 0..7 {
        let stamp = 29_000 * packet;
        assert_eq!(call(offer(4_000, stamp)), Answer::Taken);
        assert!(matches!(call(Call::Poll { stamp }), Answer::Sent(_)));
    }
    let stamp = 29_000 * 7;
    assert_eq!(call(offer(4_000, stamp)), Answer::Taken);
    assert_eq!(call(Call::Poll { stamp }), Answer::Closed(797_000));
    assert_eq!(call(Call::Poll { stamp: 999_999 }), Answer::Closed(1));
    let sent = call(Call::Poll { stamp: 1_000_000 });
    assert!(matches!(sent, Answer::Sent(_)));
}
