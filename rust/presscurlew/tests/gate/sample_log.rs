//! The requirement's own log: make profile 2 at 4294967000, two offers, five polls.

use crate::help::{archive, archive_make, Call};
use presscurlew::{sys, Counts, Gate, Offer, Profile, WhenFull};

const LOG: [&str; 8] = [
    "READY",
    "TAKEN",
    "TAKEN",
    "SENT 8",
    "CLOSED 49600",
    "CLOSED 400",
    "REFUSED 2",
    "CLOSED 400",
];

/// One packet goes, the other waits.
const COUNTS: Counts = Counts {
    accepted: 2,
    sent: 1,
    expired: 0,
    displaced: 0,
};

const POLLS: [u32; 5] = [4_294_967_200, 704, 49_904, 49_903, 49_904];

fn offers() -> [Offer; 2] {
    [
        Offer {
            id: 7,
            priority: 2,
            ontime: 400,
            lifetime: 1_000_000,
        },
        Offer {
            id: 8,
            priority: 1,
            ontime: 400,
            lifetime: 60_000,
        },
    ]
}

fn line(reply: &sys::Reply) -> String {
    match reply.kind {
        sys::READY => "READY".to_string(),
        sys::TAKEN => "TAKEN".to_string(),
        sys::SENT => format!("SENT {}", reply.packet.id),
        sys::IDLE => "IDLE".to_string(),
        sys::CLOSED => format!("CLOSED {}", reply.number),
        _ => format!("REFUSED {}", reply.number),
    }
}

#[test]
fn by_the_archive() {
    let mut turn = archive_make(2, sys::DROP_OLDEST, &sys::Levels::NONE, 4_294_967_000);
    let mut lines = vec![line(&turn.reply)];
    let stamp = 4_294_967_100;
    let offers = offers().map(
        |Offer {
             id,
             priority,
             ontime,
             lifetime,
         }| {
            Call::Offer {
                id,
                priority,
                ontime,
                lifetime,
                stamp,
            }
        },
    );
    let polls = POLLS.map(|stamp| Call::Poll { stamp });
    for call in offers.iter().chain(&polls) {
        turn = archive(turn.state, call);
        lines.push(line(&turn.reply));
    }
    assert_eq!(lines, LOG);
    assert_eq!(turn.state.counts(), COUNTS);
}

#[test]
fn by_the_gate() {
    let mut gate = Gate::new(Profile::ReactiveA2, WhenFull::DropOldest, 4_294_967_000).unwrap();
    let mut lines = vec!["READY".to_string()];
    for offer in offers() {
        gate.offer(offer, 4_294_967_100).unwrap();
        lines.push("TAKEN".to_string());
    }
    for stamp in POLLS {
        lines.push(match gate.poll(stamp) {
            Ok(answer) => answer.to_string(),
            Err(refusal) => format!("REFUSED {}", refusal.number()),
        });
    }
    assert_eq!(lines, LOG);
    assert_eq!(gate.counts(), COUNTS);
}
