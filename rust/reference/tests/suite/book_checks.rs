//! The book checker rejects wrong gates, and its ceiling is every window's.

use crate::help::{admission, counts, displaced, made, since, Answer, Call, PROFILES};
use crate::runs::Caller;
use reference::book::Book;
use reference::gate;
use reference::rng::Rng;
use reference::state::{Admission, Counts, Ledger, Packet, State};

fn offer(id: u32, priority: u32, ontime: u32, lifetime: u32, stamp: u32) -> Call {
    Call::Offer {
        id,
        priority,
        ontime,
        lifetime,
        stamp,
    }
}

fn packet(id: u32, priority: u32, ontime: u32, lifetime: u32, arrival: u64) -> Packet {
    Packet {
        id,
        priority,
        ontime,
        lifetime,
        arrival,
    }
}

/// A book of profile 3, its make at stamp 0, fed right calls and answers.
fn book(fed: &[(Call, Answer)]) -> Book {
    book_of(3, fed)
}

/// The same, of any profile.
fn book_of(profile: u32, fed: &[(Call, Answer)]) -> Book {
    let mut book = Book::new(profile, 0);
    for (call, answer) in fed {
        book.feed(call, answer).unwrap();
    }
    book
}

/// A last answer must be rejected, for that reason.
fn rejects(book: &Book, call: Call, answer: Answer, reason: &str) {
    let said = book.clone().feed(&call, &answer).unwrap_err();
    assert!(said.contains(reason), "{said}");
}

fn accepts(book: &Book, call: Call, answer: Answer) {
    book.clone().feed(&call, &answer).unwrap();
}

#[test]
fn sent_with_another_packet() {
    let book = book(&[
        (offer(1, 2, 400, 60_000, 5), Answer::Taken),
        (offer(2, 2, 400, 60_000, 5), Answer::Taken),
        (offer(3, 1, 400, 60_000, 6), Answer::Taken),
    ]);
    let poll = Call::Poll { stamp: 9 };
    let right = packet(3, 1, 400, 60_000, 6);
    accepts(&book, poll.clone(), Answer::Sent(right));
    let wrong = [
        packet(1, 2, 400, 60_000, 5), // a lower priority
        packet(4, 1, 400, 60_000, 6),
        packet(3, 2, 400, 60_000, 6),
        packet(3, 1, 401, 60_000, 6),
        packet(3, 1, 400, 60_001, 6),
        packet(3, 1, 400, 60_000, 5),
    ];
    for packet in wrong {
        rejects(&book, poll.clone(), Answer::Sent(packet), "struck");
    }
}

#[test]
fn sent_out_of_turn_in_a_column() {
    let book = book(&[
        (offer(1, 0, 9, 60_000, 0), Answer::Taken),
        (offer(2, 0, 9, 60_000, 0), Answer::Taken),
    ]);
    let second = Answer::Sent(packet(2, 0, 9, 60_000, 0));
    rejects(&book, Call::Poll { stamp: 0 }, second, "struck");
}

#[test]
fn sent_with_nothing_there_or_expired() {
    let sent = Answer::Sent(packet(1, 0, 9, 100, 0));
    rejects(
        &book(&[]),
        Call::Poll { stamp: 0 },
        sent,
        "all columns empty",
    );
    let one = book(&[(offer(1, 0, 9, 100, 0), Answer::Taken)]);
    accepts(&one, Call::Poll { stamp: 99 }, sent);
    rejects(&one, Call::Poll { stamp: 100 }, sent, "all columns empty");
    rejects(
        &one,
        Call::Poll { stamp: 100 },
        Answer::Closed(1),
        "all columns empty",
    );
    accepts(&one, Call::Poll { stamp: 100 }, Answer::Idle);
}

#[test]
fn sent_too_early_breaks_the_ceiling() {
    let book = book(&[
        (offer(1, 0, 4_000, 60_000_000, 0), Answer::Taken),
        (offer(2, 0, 4_000, 60_000_000, 0), Answer::Taken),
        (
            Call::Poll { stamp: 0 },
            Answer::Sent(packet(1, 0, 4_000, 60_000_000, 0)),
        ),
    ]);
    // 800,000 against 3 × W + 400,000: good from W = 133,334.
    let second = Answer::Sent(packet(2, 0, 4_000, 60_000_000, 0));
    for stamp in [0, 1, 25_000, 133_333] {
        accepts(&book, Call::Poll { stamp }, Answer::Closed(1));
        rejects(&book, Call::Poll { stamp }, second, "ceiling");
    }
    accepts(&book, Call::Poll { stamp: 133_334 }, second);
}

/// Admissions of one on-time, so far apart, from stamp 0 on: how many the book
/// takes, and what it says of the next.
fn admissions(ontime: u32, apart: u32) -> (u32, String) {
    let mut book = Book::new(3, 0);
    for turn in 0..100_000 {
        let stamp = turn * apart;
        book.feed(&offer(1, 3, ontime, 60_000, stamp), &Answer::Taken)
            .unwrap();
        let sent = Answer::Sent(packet(1, 3, ontime, 60_000, u64::from(stamp)));
        if let Err(said) = book.feed(&Call::Poll { stamp }, &sent) {
            return (turn, said);
        }
        if stamp > 4_000_000_000 - apart {
            break;
        }
    }
    panic!("{ontime} µs at {apart} µs were all taken");
}

/// W-207: eight of 4,000 µs at 133,334 µs are 32 ms in a second; so is each
/// rate above 3 % too much at last.
#[test]
fn too_much_in_a_second_is_rejected() {
    for (ontime, apart, taken) in [
        (4_000, 133_334, 7),
        (1_000, 33_330, 30),
        (750, 25_000 - 1, 1),
        (751, 25_000, 39),
        (3_000, 99_999, 10),
    ] {
        let (turn, said) = admissions(ontime, apart);
        assert_eq!(turn, taken, "{said}");
        let reason = if apart < 25_000 { "gap" } else { "second" };
        assert!(said.starts_with(reason), "{said}");
    }
}

/// A second old is out, a µs less is in.
#[test]
fn the_second_is_half_open() {
    let mut fed = Vec::new();
    for turn in 0..7 {
        let stamp = turn * 133_334;
        fed.push((offer(turn, 0, 4_000, 60_000, stamp), Answer::Taken));
        let sent = packet(turn, 0, 4_000, 60_000, u64::from(stamp));
        fed.push((Call::Poll { stamp }, Answer::Sent(sent)));
    }
    fed.push((offer(7, 0, 4_000, 60_000_000, 933_338), Answer::Taken));
    let book = book(&fed);
    let eighth = Answer::Sent(packet(7, 0, 4_000, 60_000_000, 933_338));
    for stamp in [933_338, 999_998, 999_999] {
        rejects(&book, Call::Poll { stamp }, eighth, "second: 32000 µs");
        accepts(&book, Call::Poll { stamp }, Answer::Closed(1));
    }
    accepts(&book, Call::Poll { stamp: 1_000_000 }, eighth);
    assert_eq!(book.closest().fullest_stretch, 28_000);
    assert_eq!((book.stretch().len(), book.on_air()), (7, 28_000));
}

/// 30,000 is good and 30,001 is not.
#[test]
fn a_full_second_is_good() {
    let mut fed = Vec::new();
    for turn in 0..7 {
        let stamp = turn * 140_000;
        fed.push((offer(turn, 0, 4_000, 60_000, stamp), Answer::Taken));
        let sent = packet(turn, 0, 4_000, 60_000, u64::from(stamp));
        fed.push((Call::Poll { stamp }, Answer::Sent(sent)));
    }
    for (ontime, fits) in [(1_999, true), (2_000, true), (2_001, false)] {
        let mut fed = fed.clone();
        fed.push((offer(7, 0, ontime, 60_000, 970_000), Answer::Taken));
        let last = Answer::Sent(packet(7, 0, ontime, 60_000, 970_000));
        let poll = Call::Poll { stamp: 999_999 };
        let fed = book(&fed).feed(&poll, &last);
        assert_eq!(fed.is_ok(), fits, "{fed:?}");
    }
}

#[test]
fn admissions_too_near_to_each_other_are_rejected() {
    let fed = [
        (offer(1, 0, 1, 60_000, 0), Answer::Taken),
        (offer(2, 0, 1, 60_000, 0), Answer::Taken),
        (
            Call::Poll { stamp: 9 },
            Answer::Sent(packet(1, 0, 1, 60_000, 0)),
        ),
    ];
    let second = Answer::Sent(packet(2, 0, 1, 60_000, 0));
    for stamp in [9, 10, 25_008] {
        rejects(&book(&fed), Call::Poll { stamp }, second, "gap");
    }
    accepts(&book(&fed), Call::Poll { stamp: 25_009 }, second);
}

/// The most in any half-open stretch, stretch by stretch.
fn most_by_every_stretch(admissions: &[(u64, u32)]) -> u64 {
    let from = admissions.iter().map(|&(start, _)| {
        let inside = admissions
            .iter()
            .filter(|&&(at, _)| start <= at && at < start + 1_000_000);
        inside.map(|&(_, ontime)| u64::from(ontime)).sum()
    });
    from.max().unwrap_or(0)
}

#[test]
fn the_second_is_that_of_every_stretch() {
    let mut rng = Rng::new(33);
    let mut passes = 0;
    for _ in 0..300 {
        let mut book = Book::new(3, 0);
        let mut admissions: Vec<(u64, u32)> = Vec::new();
        let mut stamp = 0u32;
        for _ in 0..80 {
            // At 3 % or a little more, so that the ceiling holds for a while.
            let last = admissions.last().map_or(750, |&(_, ontime)| ontime);
            stamp += (last * 100 / 3 - rng.below(300) as u32).max(25_000);
            let ontime = rng.pick(&[600, 750, 750, 1_000, 2_000]);
            book.feed(&offer(1, 0, ontime, 1, stamp), &Answer::Taken)
                .unwrap();
            let sent = packet(1, 0, ontime, 1, u64::from(stamp));
            let fed = book.feed(&Call::Poll { stamp }, &Answer::Sent(sent));
            if matches!(&fed, Err(said) if !said.starts_with("second")) {
                break;
            }
            admissions.push((u64::from(stamp), ontime));
            let most = most_by_every_stretch(&admissions);
            assert_eq!(book.closest().fullest_stretch, most);
            assert_eq!(fed.is_err(), most > 30_000);
            passes += u32::from(fed.is_err());
            if fed.is_err() {
                break;
            }
        }
    }
    assert!(passes > 50, "{passes}");
}

/// The book's last second, and ledgers that are not it.
#[test]
fn a_states_ledger_is_held_to_the_books() {
    let sent = |id, at| packet(id, 0, 9, 60_000_000, at);
    let mut book = book(&[
        (offer(1, 0, 9, 60_000_000, 0), Answer::Taken),
        (offer(2, 0, 9, 60_000_000, 0), Answer::Taken),
        (Call::Poll { stamp: 5 }, Answer::Sent(sent(1, 0))),
        (Call::Poll { stamp: 30_005 }, Answer::Sent(sent(2, 0))),
    ]);
    let [one, two] = [5, 30_005].map(|at| admission(at, 9));
    let good = |book: &Book, held: &[Admission]| book.compare_ledger(&Ledger::of(held));
    assert_eq!(good(&book, &[one, two]), Ok(()));
    for (wrong, reason) in [
        (vec![], "has 0 admissions, the book 2"),
        (vec![two], "has 1 admissions, the book 2"),
        (vec![one, two, two], "has 3 admissions, the book 2"),
        (vec![one, one], "9 µs at 5, the book 9 µs at 30005"),
        (vec![two, one], "9 µs at 30005, the book 9 µs at 5"),
        (vec![one, admission(30_005, 8)], "has 8 µs at 30005"),
    ] {
        let said = good(&book, &wrong).unwrap_err();
        assert!(said.contains(reason), "{said}");
    }
    // A sample too moves the second on, and a refused call does not.
    let sample = |stamp| Call::SampleCount {
        busy: 0,
        probes: 1_000,
        stamp,
    };
    for (stamp, answer, held) in [
        (1_000_004, Answer::Taken, vec![one, two]),
        (1_000_005, Answer::Refused(4), vec![one, two]),
        (1_000_005, Answer::Taken, vec![two]),
        (1_030_004, Answer::Taken, vec![two]),
        (1_030_005, Answer::Taken, vec![]),
    ] {
        book.feed(&sample(stamp), &answer).unwrap();
        assert_eq!(good(&book, &held), Ok(()), "{stamp}");
    }
}

/// What a gate remembers of its admissions.
type Memory = fn(&[Admission]) -> Vec<Admission>;

/// Gates of profile 3 at the greatest duty that forget of their admissions pass
/// what a second allows.
#[test]
fn gates_with_a_bad_ledger_are_rejected() {
    let slips: [(&str, Memory); 4] = [
        ("none is kept", |_| vec![]),
        ("the last alone is kept", |held| {
            held.last().copied().into_iter().collect()
        }),
        ("the first is dropped", |held| {
            held.iter().skip(1).copied().collect()
        }),
        ("half the on-times are noted", |held| {
            let half = |held: &Admission| admission(held.at, held.ontime / 2);
            held.iter().map(half).collect()
        }),
    ];
    for (slip, memory) in slips {
        let (mut state, _) = made(3, 0, 0);
        state.duty = 30_000_000;
        let mut book = Book::new(3, 0);
        let said = (0..100u32).find_map(|turn| {
            let stamp = turn * 133_334;
            let (offer, poll) = (offer(turn, 0, 4_000, 60_000, stamp), Call::Poll { stamp });
            let (next, answer) = gate::call(state, &offer);
            book.feed(&offer, &answer).unwrap();
            let kept = memory(next.ledger.held());
            let (next, answer) = gate::call(next.with_admissions(&kept), &poll);
            state = next;
            book.feed(&poll, &answer).err()
        });
        let said = said.unwrap_or_default();
        assert!(said.starts_with("second"), "{slip}: {said}");
    }
}

#[test]
fn closed_where_the_floor_says_send() {
    let none_yet = book(&[(offer(1, 3, 9, 60_000_000, 0), Answer::Taken)]);
    rejects(
        &none_yet,
        Call::Poll { stamp: 0 },
        Answer::Closed(5),
        "floor",
    );
    for (profile, floor) in [
        (1, 1_001_000),
        (2, 1_000_500),
        (3, 1_000_000),
        (5, 1_001_000),
    ] {
        let fed = [
            (offer(1, 3, 9, 60_000_000, 0), Answer::Taken),
            (offer(2, 3, 9, 60_000_000, 0), Answer::Taken),
            (
                Call::Poll { stamp: 7 },
                Answer::Sent(packet(1, 3, 9, 60_000_000, 0)),
            ),
        ];
        let book = book_of(profile, &fed);
        assert_eq!(book.floor(), u64::from(floor));
        let poll = |passed: u32| Call::Poll { stamp: 7 + passed };
        accepts(&book, poll(floor - 1), Answer::Closed(1));
        rejects(&book, poll(floor), Answer::Closed(1), "floor");
    }
}

#[test]
fn idle_with_a_packet_there() {
    let book = book(&[(offer(1, 3, 9, 60_000, 0), Answer::Taken)]);
    rejects(&book, Call::Poll { stamp: 0 }, Answer::Idle, "IDLE");
}

#[test]
fn answers_that_do_not_fit_the_call() {
    let empty = book(&[]);
    let samples = [
        Call::SampleCount {
            busy: 1,
            probes: 1_000,
            stamp: 0,
        },
        Call::SampleWords {
            probes: 1_000,
            words: vec![0; 16],
            stamp: 0,
        },
    ];
    for call in samples {
        rejects(&empty, call.clone(), Answer::Idle, "answered");
        accepts(&empty, call, Answer::Taken);
    }
    rejects(&empty, offer(1, 0, 1, 1, 0), Answer::Ready, "answered");
    rejects(&empty, offer(1, 4, 1, 1, 0), Answer::Taken, "no column");
    rejects(&empty, Call::Poll { stamp: 0 }, Answer::Taken, "answered");
    rejects(&empty, Call::Poll { stamp: 0 }, Answer::Ready, "answered");
}

#[test]
fn a_refused_call_changes_nothing() {
    let before = book(&[(offer(1, 0, 9, 60, 0), Answer::Taken)]);
    let mut after = before.clone();
    for call in [offer(2, 0, 9, 60, 70), Call::Poll { stamp: 70 }] {
        after.feed(&call, &Answer::Refused(8)).unwrap();
    }
    assert_eq!((after.time(), after.stamp()), (0, 0));
    assert_eq!(after.columns(), before.columns());
    assert_eq!(after.counts(), counts(1, 0, 0));
}

#[test]
fn a_sample_moves_the_books_clock_alone() {
    let mut book = book(&[(offer(1, 0, 9, 60, 0), Answer::Taken)]);
    let call = Call::SampleCount {
        busy: 0,
        probes: 1_000,
        stamp: 70,
    };
    book.feed(&call, &Answer::Taken).unwrap();
    assert_eq!((book.time(), book.stamp()), (70, 70));
    assert_eq!(book.counts(), counts(1, 0, 0));
    assert_eq!(book.columns()[0].len(), 1);
}

/// Two come, one goes as the other waits, a third expires unseen until a poll.
#[test]
fn the_book_counts_what_it_writes_and_strikes() {
    let mut book = Book::new(3, 0);
    let first = packet(1, 0, 9, 60_000, 0);
    let fed = [
        (offer(1, 0, 9, 60_000, 0), Answer::Taken, counts(1, 0, 0)),
        (offer(2, 0, 9, 60_000, 0), Answer::Taken, counts(2, 0, 0)),
        (
            Call::Poll { stamp: 0 },
            Answer::Sent(first),
            counts(2, 1, 0),
        ),
        (offer(3, 3, 9, 50, 0), Answer::Taken, counts(3, 1, 0)),
        (
            Call::SampleCount {
                busy: 0,
                probes: 1_000,
                stamp: 50,
            },
            Answer::Taken,
            counts(3, 1, 0),
        ),
        (Call::Poll { stamp: 50 }, Answer::Closed(9), counts(3, 1, 1)),
        (Call::Poll { stamp: 60_000 }, Answer::Idle, counts(3, 1, 2)),
    ];
    for (call, answer, counted) in fed {
        book.feed(&call, &answer).unwrap();
        assert_eq!(book.counts(), counted, "{call:?}");
        assert_eq!(book.compare(&counted), Ok(()));
    }
}

/// Six of one priority: the sixth strikes the first, and each after it the one
/// that is then on top; k is what stood above once that one was struck.
#[test]
fn the_book_strikes_the_top_of_five() {
    let mut book = Book::new(3, 0);
    for id in 1..=8u32 {
        book.feed(&offer(id, 2, 9, 100, 0), &Answer::Taken).unwrap();
        let struck = book.displaced().map(|entry| entry.packet.id);
        assert_eq!(struck, id.checked_sub(5).filter(|id| *id > 0));
    }
    let column: Vec<(u32, u64)> = (book.columns()[2].iter())
        .map(|entry| (entry.packet.id, entry.above))
        .collect();
    assert_eq!(column, [(4, 3), (5, 4), (6, 4), (7, 4), (8, 4)]);
    assert_eq!(book.counts(), displaced(3, counts(8, 0, 0)));
    assert_eq!(book.closest().fewest_offers, Some(5));
    // The other columns have room of their own, and a refused offer strikes none.
    let before = book.columns().clone();
    book.feed(&offer(9, 2, 9, 100, 0), &Answer::Refused(8))
        .unwrap();
    assert_eq!((book.displaced(), book.columns()), (None, &before));
    book.feed(&offer(9, 3, 9, 100, 0), &Answer::Taken).unwrap();
    assert_eq!(book.displaced(), None);
    assert_eq!(book.columns()[2], before[2]);
}

/// The expired are struck first; where that makes room nothing is displaced.
#[test]
fn the_book_strikes_the_expired_first() {
    for (stamp, struck, counted) in [
        (49, Some(1), displaced(1, counts(6, 0, 0))),
        (50, None, counts(6, 0, 1)),
    ] {
        let mut book = Book::new(3, 0);
        for (id, lifetime) in [(1, 100), (2, 100), (3, 50), (4, 100), (5, 100)] {
            book.feed(&offer(id, 0, 9, lifetime, 0), &Answer::Taken)
                .unwrap();
        }
        book.feed(&offer(6, 0, 9, 100, stamp), &Answer::Taken)
            .unwrap();
        assert_eq!(book.displaced().map(|entry| entry.packet.id), struck);
        assert_eq!(book.counts(), counted);
    }
}

/// A gate that sends what was displaced, or keeps what it should have dropped.
#[test]
fn a_displaced_packet_is_not_sent() {
    let mut fed: Vec<(Call, Answer)> = (1..=6)
        .map(|id| (offer(id, 1, 9, 100, 0), Answer::Taken))
        .collect();
    let poll = Call::Poll { stamp: 0 };
    let six = book(&fed);
    let first = Answer::Sent(packet(1, 1, 9, 100, 0));
    rejects(&six, poll.clone(), first, "struck");
    accepts(&six, poll.clone(), Answer::Sent(packet(2, 1, 9, 100, 0)));
    fed[5].1 = Answer::Refused(8);
    let five = book(&fed);
    accepts(&five, poll.clone(), first);
    rejects(&five, poll, Answer::Sent(packet(2, 1, 9, 100, 0)), "struck");
}

#[test]
fn a_states_counts_are_held_to_the_books() {
    let mut book = book(&[
        (offer(1, 0, 9, 60_000, 0), Answer::Taken),
        (offer(2, 0, 9, 50, 0), Answer::Taken),
        (
            Call::Poll { stamp: 0 },
            Answer::Sent(packet(1, 0, 9, 60_000, 0)),
        ),
    ]);
    book.feed(&Call::Poll { stamp: 50 }, &Answer::Idle).unwrap();
    assert_eq!(book.compare(&counts(2, 1, 1)), Ok(()));
    let wrong = [
        (counts(1, 1, 1), "1 accepted, the book 2"),
        (counts(3, 1, 1), "3 accepted, the book 2"),
        (counts(2, 0, 1), "0 sent, the book 1"),
        (counts(2, 2, 1), "2 sent, the book 1"),
        (counts(2, 1, 0), "0 expired, the book 1"),
        (counts(2, 1, 2), "2 expired, the book 1"),
        (displaced(1, counts(2, 1, 1)), "1 displaced, the book 0"),
        // These add up, or do so modulo 2^64, and are wrong all the same.
        (counts(2, 2, 0), "2 sent, the book 1"),
        (counts(2, 0, 2), "0 sent, the book 1"),
        (displaced(1, counts(2, 1, 0)), "0 expired, the book 1"),
        (counts(3, 2, 1), "3 accepted, the book 2"),
        (counts(2, u64::MAX, 3), "sent, the book 1"),
    ];
    for (wrong, reason) in wrong {
        let said = book.compare(&wrong).unwrap_err();
        assert!(said.contains(reason), "{said}");
    }
}

/// The smallest slack over all windows between two admissions, one by one.
fn slack_by_every_window(admissions: &[(u64, u32)]) -> Option<i128> {
    let mut smallest: Option<i128> = None;
    for (first, &(start, _)) in admissions.iter().enumerate() {
        let mut air = 0;
        for &(end, ontime) in &admissions[first..] {
            air += i128::from(ontime);
            let slack = 3 * i128::from(end - start) + 400_000 - 100 * air;
            smallest = Some(smallest.map_or(slack, |old| old.min(slack)));
        }
    }
    smallest
}

#[test]
fn the_ceiling_is_that_of_every_window() {
    let mut rng = Rng::new(31);
    let mut passes = 0;
    for round in 0..300 {
        let rng_most = [1_000, 2_000, 4_000][round % 3];
        let mut book = Book::new(3, 0);
        let mut admissions: Vec<(u64, u32)> = Vec::new();
        let mut stamp = 0u32;
        for _ in 0..60 {
            stamp += rng.pick(&[25_000, 30_000, 33_334, 60_000, 100_000, 400_000]);
            let ontime = 1 + rng.below(rng_most) as u32;
            book.feed(&offer(1, 0, ontime, 1, stamp), &Answer::Taken)
                .unwrap();
            let sent = packet(1, 0, ontime, 1, u64::from(stamp));
            let fed = book.feed(&Call::Poll { stamp }, &Answer::Sent(sent));
            admissions.push((u64::from(stamp), ontime));
            let slack = slack_by_every_window(&admissions);
            assert_eq!(book.closest().smallest_slack, slack);
            let passed = matches!(&fed, Err(said) if said.contains("ceiling"));
            assert_eq!(passed, slack < Some(0));
            passes += u32::from(passed);
            if fed.is_err() {
                break;
            }
        }
    }
    assert!(passes > 50, "{passes}");
}

/// The answers that a poll may not give in place of the right one.
fn wrong_answers(rng: &mut Rng, right: &Answer, state: &State) -> Vec<Answer> {
    match *right {
        Answer::Sent(packet) => {
            let other = Packet {
                id: packet.id ^ 1,
                ..packet
            };
            let later = Packet {
                arrival: packet.arrival + 1 + rng.below(9),
                ..packet
            };
            vec![Answer::Idle, Answer::Sent(other), Answer::Sent(later)]
        }
        Answer::Idle => {
            let gone = Packet {
                ontime: 1,
                ..state.queues[0].slots[0]
            };
            vec![Answer::Closed(1), Answer::Sent(gone)]
        }
        Answer::Closed(_) => vec![Answer::Idle, Answer::Sent(Packet::default())],
        _ => vec![],
    }
}

#[test]
fn changed_answers_in_random_runs_are_rejected() {
    for profile in PROFILES {
        let (mut state, _) = made(profile, 0, 0);
        let mut book = Book::new(profile, 0);
        let mut caller = Caller::new(profile, 40);
        let mut rng = Rng::new(41);
        let mut changed = 0;
        for _ in 0..20_000 {
            let call = caller.call(state.stamp);
            let (next, answer) = gate::call(state, &call);
            for wrong in wrong_answers(&mut rng, &answer, &state) {
                assert!(book.clone().feed(&call, &wrong).is_err());
                changed += 1;
            }
            book.feed(&call, &answer).unwrap();
            caller.heard(&answer);
            state = next;
        }
        assert!(changed > 5_000);
    }
}

/// What a gate that counts wrongly adds at a call, given what is right.
type Slip = fn(&Call, &Answer, Counts) -> Counts;

const SLIPS: [(&str, Slip); 10] = [
    ("a displaced packet is not counted", |_, _, right| {
        displaced(0, right)
    }),
    ("a displaced packet counts as expired", |_, _, right| {
        let expired = right.expired + right.displaced;
        displaced(0, Counts { expired, ..right })
    }),
    ("an offer that displaces is not counted", |_, _, right| {
        let accepted = right.accepted - right.displaced;
        Counts { accepted, ..right }
    }),
    ("a refused offer is counted", |call, answer, right| {
        let refused = matches!(answer, Answer::Refused(_));
        let offered = matches!(call, Call::Offer { .. });
        let accepted = right.accepted + u64::from(refused && offered);
        Counts { accepted, ..right }
    }),
    ("a sample is counted", |_, answer, right| {
        let accepted = u64::from(*answer == Answer::Taken);
        Counts { accepted, ..right }
    }),
    ("a SENT is not counted", |_, _, right| Counts {
        sent: 0,
        ..right
    }),
    ("an offer counts no expiry", |call, _, right| match call {
        Call::Offer { .. } => Counts {
            expired: 0,
            ..right
        },
        _ => right,
    }),
    ("IDLE counts no expiry", |_, answer, right| match answer {
        Answer::Idle => Counts {
            expired: 0,
            ..right
        },
        _ => right,
    }),
    ("CLOSED counts no expiry", |_, answer, right| match answer {
        Answer::Closed(_) => Counts {
            expired: 0,
            ..right
        },
        _ => right,
    }),
    ("SENT counts no expiry", |_, answer, right| match answer {
        Answer::Sent(_) => Counts {
            expired: 0,
            ..right
        },
        _ => right,
    }),
];

#[test]
fn gates_that_count_wrongly_are_rejected() {
    for (slip, added) in SLIPS {
        let (mut state, _) = made(1, 0, 0);
        let mut book = Book::new(1, 0);
        let mut caller = Caller::new(1, 60);
        let mut wrong = Counts::default();
        let rejected = (0..20_000).any(|_| {
            let call = caller.call(state.stamp);
            let (next, answer) = gate::call(state, &call);
            book.feed(&call, &answer).unwrap();
            book.compare(&next.counts).unwrap();
            let more = added(&call, &answer, since(state.counts, next.counts));
            wrong.accepted += more.accepted;
            wrong.sent += more.sent;
            wrong.expired += more.expired;
            wrong.displaced += more.displaced;
            caller.heard(&answer);
            state = next;
            book.compare(&wrong).is_err()
        });
        assert!(rejected, "{slip}");
    }
}

#[test]
fn gates_without_a_wait_or_that_never_open_are_rejected() {
    for profile in [1, 3] {
        for silent in [false, true] {
            let (mut state, _) = made(profile, 0, 0);
            let mut book = Book::new(profile, 0);
            let mut caller = Caller::new(profile, 50);
            let rejected = (0..20_000).any(|_| {
                let call = caller.call(state.stamp);
                // A gate that forgets its admissions has no wait at all.
                state = State {
                    any: false,
                    at: 0,
                    ontime: 0,
                    ledger: Ledger::default(),
                    ..state
                };
                let (next, mut answer) = gate::call(state, &call);
                if silent && matches!(answer, Answer::Sent(_)) {
                    answer = Answer::Closed(1);
                }
                state = next;
                book.feed(&call, &answer).is_err()
            });
            assert!(rejected);
        }
    }
}
