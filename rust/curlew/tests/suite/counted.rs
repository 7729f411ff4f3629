//! What a log comes to, counted from the second program's states and answers:
//! pictures, pages and lives are held to it.

use reference::log::{step, Record, RECORD_BYTES};
use reference::rng::Rng;
use reference::state::{Packet, State};

use reference::gate::Answer;

/// What became of an offer.
#[derive(Clone, Copy, Debug, PartialEq, Eq)]
pub enum End {
    Sent,
    Expired,
    Displaced,
    Refused,
    Waiting,
}

/// An offer, and its end.
#[derive(Clone, Copy, Debug)]
pub struct Offer {
    pub id: u32,
    pub priority: u8,
    /// When it was made, in the run's time.
    pub at: u64,
    /// When it ended; of one that waits, never.
    pub ended: u64,
    pub end: End,
}

/// The offers of a log, in any order. Those of no run are refused at 0.
pub fn offers(log: &[u8]) -> Vec<Offer> {
    let mut state = State::default();
    let mut all = Vec::new();
    for bytes in log.chunks_exact(RECORD_BYTES) {
        let record = Record::from_bytes(bytes.try_into().unwrap());
        let before = state;
        let (after, answer) = step(before, &record);
        state = after;
        if record.kind == 0 {
            all.extend(waiting(&before).map(|packet| offer(&packet, u64::MAX, End::Waiting)));
            continue;
        }
        if let Answer::Refused(number) = answer {
            if record.kind == 2 {
                let moved = before.time + u64::from(record.stamp.wrapping_sub(before.stamp));
                let at = match number {
                    5..=8 | 11 => moved,
                    _ => before.time,
                };
                all.push(Offer {
                    id: record.id,
                    priority: record.priority,
                    at,
                    ended: at,
                    end: End::Refused,
                });
            }
            continue;
        }
        if matches!(record.kind, 2 | 3) {
            all.extend(gone(&before, &after, &record, &answer));
        }
    }
    all.extend(waiting(&state).map(|packet| offer(&packet, u64::MAX, End::Waiting)));
    all
}

/// What left with a call.
fn gone(before: &State, after: &State, record: &Record, answer: &Answer) -> Vec<Offer> {
    let now = after.time;
    let over = |packet: &Packet| now - packet.arrival >= u64::from(packet.lifetime);
    let (expired, live): (Vec<Packet>, Vec<Packet>) = waiting(before).partition(over);
    let expired = expired
        .iter()
        .map(|packet| offer(packet, now, End::Expired));
    let mut all: Vec<Offer> = expired.collect();
    if let Answer::Sent(packet) = answer {
        all.push(offer(packet, now, End::Sent));
    }
    let own: Vec<&Packet> = live
        .iter()
        .filter(|packet| packet.priority == u32::from(record.priority))
        .collect();
    if record.kind == 2 && own.len() == 5 {
        all.push(offer(own[0], now, End::Displaced));
    }
    all
}

fn waiting(state: &State) -> impl Iterator<Item = Packet> + '_ {
    state
        .queues
        .iter()
        .flat_map(|queue| queue.waiting().iter().copied())
}

fn offer(packet: &Packet, ended: u64, end: End) -> Offer {
    Offer {
        id: packet.id,
        priority: packet.priority as u8,
        at: packet.arrival,
        ended,
        end,
    }
}

/// A log of one run and so many records, with every fate in it.
pub fn busy_log(rng: &mut Rng, records: u64) -> Vec<u8> {
    let make = Record {
        kind: 0,
        priority: 1 + rng.below(4) as u8,
        lifetime: rng.below(2) as u32,
        stamp: rng.next_u32(),
        ..Record::default()
    };
    let mut stamp = make.stamp;
    let mut bytes = make.to_bytes().to_vec();
    for _ in 1..records {
        stamp = stamp.wrapping_add(rng.below(15_000) as u32);
        let kind = rng.pick(&[1, 2, 2, 2, 3, 3, 3]);
        let record = Record {
            kind,
            priority: rng.below(40).min(4 + rng.below(2)) as u8 % 5,
            ontime: 1 + rng.below(520) as u16,
            lifetime: match kind {
                2 => rng.pick(&[0, 30_000, 200_000, 3_000_000, 60_000_000]),
                _ => 0,
            },
            id: rng.below(30) as u32,
            stamp,
        };
        bytes.extend(record.to_bytes());
    }
    bytes
}

/// Every element that is opened is closed, in order.
pub fn assert_well_formed(text: &str) {
    let mut open = Vec::new();
    let body = text.strip_prefix("<!DOCTYPE html>").unwrap_or(text);
    for part in body.split('<').skip(1) {
        let tag = part.split('>').next().unwrap();
        assert!(part.contains('>'), "{part}");
        if let Some(name) = tag.strip_prefix('/') {
            assert_eq!(open.pop(), Some(name));
        } else if !tag.ends_with('/') {
            open.push(tag.split(' ').next().unwrap());
        }
    }
    assert!(open.is_empty(), "{open:?}");
    assert!(
        !text.contains("NaN") && !text.contains("inf "),
        "a number is none"
    );
}
