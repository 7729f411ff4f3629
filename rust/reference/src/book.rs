//! The run's book ("A run and its book"), and the check of demand 3 over it.
//!
//! The book is fed each call's arguments and answer and nothing from the
//! state. It uses none of the gate's rules: its clock, its expiries and its
//! counts are written out again here. What it checks after every call:
//!
//! 1. The ceiling: over any window of W µs, closed at both ends,
//!    100 × air time admitted is at most 3 × W + 400,000. W-209: profile 4 does
//!    not owe it.
//! 2. The floor: an accepted poll that finds an unexpired packet when every
//!    earlier admission is [`floor`] µs or more before sends.
//! 3. SENT never comes with all columns empty, and carries the packet struck.
//! 4. A packet of priority 0 still there has seen at most k admissions.
//! 5. IDLE comes exactly if all columns are empty.
//! 6. W-201 and W-205: offers accepted are packets sent, expired, displaced and
//!    waiting together.
//! 7. W-205: a packet is displaced only by the fifth accepted offer of its own
//!    priority after it came, or a later one.
//! 8. W-207: on-times admitted in any half-open stretch of 1,000,000 µs sum to
//!    at most 30,000, and admissions are at least 25,000 µs apart.
//!
//! So a packet leaves by expiry, by displacement, or no later than with the
//! (k+1)th admission after it came if it is of priority 0: those are the three
//! ways in which the book strikes one, and 4 has the number. Which way the gate
//! was made the book does not know.
//!
//! How often a gate refuses, and how many µs a CLOSED says, is not the book's
//! matter. The counts of a state can be held to the book's own, and its ledger
//! to the book's last second.

use std::collections::VecDeque;

pub use crate::calls::{Answer, Call};
use crate::state::{Admission, Counts, Ledger, Packet};

/// The ceiling's part that does not grow with the window.
pub const CEILING_BASE: i128 = 400_000;
/// How many a column holds before an offer strikes its top one (W-205), and so
/// the fewest offers that displace a packet.
pub const COLUMN_ROOM: u64 = 5;
/// The ceiling's part for each µs of the window.
pub const CEILING_SLOPE: i128 = 3;

/// W-207: the stretch that slides, in µs.
pub const STRETCH: u64 = 1_000_000;
/// W-207: the most on-time admitted in it, in µs.
pub const STRETCH_MOST: u64 = 30_000;
/// W-207: the shortest time between two admissions, in µs.
pub const APART: u64 = 25_000;

/// W-202, W-209 and W-213: in this profile an admission so many µs ago no longer
/// keeps a poll from sending. Only the five profiles have runs.
pub fn floor(profile: u32) -> u64 {
    match profile {
        1 | 5 => 1_001_000,
        2 => 1_000_500,
        3 => 1_000_000,
        _ => 1_004_000,
    }
}

/// W-209: whether the ceiling is claimed of the profile.
pub fn owes_ceiling(profile: u32) -> bool {
    profile != 4
}

/// A packet in a column.
#[derive(Clone, Copy, Debug, PartialEq, Eq)]
pub struct Entry {
    /// The packet, its arrival the book's time when it was written.
    pub packet: Packet,
    /// k: how many stood above it when it was written.
    pub above: u64,
    /// How many admissions the run had had by then.
    pub admissions_before: u64,
    /// How many offers of its priority had been accepted by then, itself among
    /// them.
    pub turn: u64,
}

/// How near a run came to what demand 3 forbids.
#[derive(Clone, Copy, Debug, Default, PartialEq, Eq)]
pub struct Closest {
    /// The smallest of 3 × W + 400,000 − 100 × air time over all windows; none
    /// where the ceiling is not claimed.
    pub smallest_slack: Option<i128>,
    /// The shortest time between two admissions.
    pub shortest_gap: Option<u64>,
    /// The longest time from the last admission to a poll that sent.
    pub longest_gap: Option<u64>,
    /// The longest time from the last admission to a poll that said CLOSED.
    pub latest_closed: Option<u64>,
    /// The most admissions that a priority-0 packet still there has seen.
    pub most_seen: u64,
    /// The fewest accepted offers of its own priority that displaced a packet.
    pub fewest_offers: Option<u64>,
    /// The most on-time admitted in any half-open stretch of 1,000,000 µs.
    pub fullest_stretch: u64,
}

/// The book of one run.
#[derive(Clone, Debug)]
pub struct Book {
    floor: u64,
    ceiling: bool,
    time: u64,
    stamp: u32,
    columns: [VecDeque<Entry>; 4],
    offers: [u64; 4],
    counts: Counts,
    displaced: Option<Entry>,
    last_admission: Option<u64>,
    stretch: VecDeque<Admission>,
    heaviest: i128,
    closest: Closest,
}

impl Book {
    /// The book after a make that wasn't refused, with make's profile and stamp.
    pub fn new(profile: u32, stamp: u32) -> Book {
        Book {
            floor: floor(profile),
            ceiling: owes_ceiling(profile),
            time: 0,
            stamp,
            columns: Default::default(),
            offers: [0; 4],
            counts: Counts::default(),
            displaced: None,
            last_admission: None,
            stretch: VecDeque::new(),
            heaviest: 0,
            closest: Closest::default(),
        }
    }

    /// The floor of the run's profile.
    pub fn floor(&self) -> u64 {
        self.floor
    }

    /// Whether the run owes the ceiling.
    pub fn owes_ceiling(&self) -> bool {
        self.ceiling
    }

    /// The book's time.
    pub fn time(&self) -> u64 {
        self.time
    }

    /// The stamp of the last accepted call.
    pub fn stamp(&self) -> u32 {
        self.stamp
    }

    /// The four columns, the top packet first.
    pub fn columns(&self) -> &[VecDeque<Entry>; 4] {
        &self.columns
    }

    /// How many packets were written, were admitted, left by expiry, and were
    /// displaced.
    pub fn counts(&self) -> Counts {
        self.counts
    }

    /// The packet that the last call displaced, if it did.
    pub fn displaced(&self) -> Option<Entry> {
        self.displaced
    }

    /// How many packets stand in the columns.
    pub fn waiting(&self) -> u64 {
        self.columns.iter().map(|column| column.len() as u64).sum()
    }

    /// The time of the last admission.
    pub fn last_admission(&self) -> Option<u64> {
        self.last_admission
    }

    /// The admissions of the 1,000,000 µs up to and including the book's time,
    /// the oldest first; one exactly 1,000,000 µs old is not among them.
    pub fn stretch(&self) -> &VecDeque<Admission> {
        &self.stretch
    }

    /// The on-times of those admissions, summed.
    pub fn on_air(&self) -> u64 {
        let ontimes = self.stretch.iter().map(|admission| admission.ontime);
        ontimes.map(u64::from).sum()
    }

    /// How near the run has come to what demand 3 forbids.
    pub fn closest(&self) -> Closest {
        self.closest
    }

    /// Feeds one call and its answer. An error says what part of demand 3 the
    /// answer breaks; the run then has no claim left, and the book no use.
    pub fn feed(&mut self, call: &Call, answer: &Answer) -> Result<(), String> {
        self.displaced = None;
        if let Answer::Refused(_) = answer {
            return Ok(());
        }
        self.move_clock(call.stamp());
        match call {
            Call::SampleWords { .. } | Call::SampleCount { .. } => taken(answer)?,
            Call::Offer { .. } => {
                taken(answer)?;
                self.strike_expired();
                self.write(call)?;
            }
            Call::Poll { .. } => {
                self.strike_expired();
                self.judge_poll(answer)?;
            }
        }
        self.add_up()
    }

    /// Holds the counts of a state to the book's own. The book takes nothing
    /// from them.
    pub fn compare(&self, counts: &Counts) -> Result<(), String> {
        let of = [
            ("accepted", counts.accepted, self.counts.accepted),
            ("sent", counts.sent, self.counts.sent),
            ("expired", counts.expired, self.counts.expired),
            ("displaced", counts.displaced, self.counts.displaced),
        ];
        match of.into_iter().find(|(_, state, book)| state != book) {
            Some((name, state, book)) => Err(format!(
                "counts: the state has {state} {name}, the book {book}"
            )),
            None => Ok(()),
        }
    }

    /// Holds the ledger of a state to the book's last second. The book takes
    /// nothing from it.
    pub fn compare_ledger(&self, ledger: &Ledger) -> Result<(), String> {
        let (state, book) = (ledger.len, self.stretch.len());
        if state != book as u64 {
            return Err(format!(
                "ledger: the state has {state} admissions, the book {book}"
            ));
        }
        let pairs = ledger.held().iter().zip(&self.stretch);
        match pairs.into_iter().find(|(state, book)| state != book) {
            Some((state, book)) => Err(format!(
                "ledger: the state has {} µs at {}, the book {} µs at {}",
                state.ontime, state.at, book.ontime, book.at
            )),
            None => Ok(()),
        }
    }

    /// W-201: accepted equals sent plus expired plus displaced plus waiting.
    fn add_up(&self) -> Result<(), String> {
        let Counts {
            accepted,
            sent,
            expired,
            displaced,
        } = self.counts;
        let waiting = self.waiting();
        if accepted == sent + expired + displaced + waiting {
            return Ok(());
        }
        Err(format!(
            "counts: {accepted} accepted, but {sent} sent, {expired} expired, \
             {displaced} displaced, {waiting} waiting"
        ))
    }

    /// The step from the book's stamp to the call's is added to the time.
    fn move_clock(&mut self, stamp: u32) {
        let step = stamp.wrapping_sub(self.stamp);
        self.time += u64::from(step);
        self.stamp = stamp;
        let time = self.time;
        self.stretch
            .retain(|admission| time - admission.at < STRETCH);
    }

    /// Strikes each packet whose time since its offer is at least its lifetime.
    fn strike_expired(&mut self) {
        let time = self.time;
        for column in &mut self.columns {
            let before = column.len();
            column.retain(|entry| {
                let age = time - entry.packet.arrival;
                age < u64::from(entry.packet.lifetime)
            });
            self.counts.expired += (before - column.len()) as u64;
        }
    }

    /// Writes an offer's packet at the foot of its priority's column; where five
    /// stand already it strikes the top one first, as displaced.
    fn write(&mut self, call: &Call) -> Result<(), String> {
        let Call::Offer {
            id,
            priority,
            ontime,
            lifetime,
            ..
        } = *call
        else {
            return Err("only an offer is written".to_string());
        };
        let arrival = self.time;
        let packet = Packet {
            id,
            priority,
            ontime,
            lifetime,
            arrival,
        };
        let place = priority as usize;
        if place >= self.columns.len() {
            return Err(format!(
                "TAKEN for priority {priority}, which has no column"
            ));
        }
        self.offers[place] += 1;
        self.counts.accepted += 1;
        self.displace(place)?;
        let column = &mut self.columns[place];
        column.push_back(Entry {
            packet,
            above: column.len() as u64,
            admissions_before: self.counts.sent,
            turn: self.offers[place],
        });
        Ok(())
    }

    /// W-205: an offer that finds five in its column strikes the top one. Of
    /// that one's priority, five or more offers must have been accepted after
    /// it, the one that strikes it among them.
    fn displace(&mut self, place: usize) -> Result<(), String> {
        let column = &mut self.columns[place];
        let full = column.len() as u64 >= COLUMN_ROOM;
        let top = if full { column.pop_front() } else { None };
        let Some(struck) = top else {
            return Ok(());
        };
        self.displaced = top;
        self.counts.displaced += 1;
        let after = self.offers[place] - struck.turn;
        let fewest = self.closest.fewest_offers;
        self.closest.fewest_offers = Some(fewest.map_or(after, |old| old.min(after)));
        if after < COLUMN_ROOM {
            let id = struck.packet.id;
            return Err(format!("displaced: {id}, by offer {after} after it"));
        }
        Ok(())
    }

    /// Judges the answer of an accepted poll, the expired packets struck.
    fn judge_poll(&mut self, answer: &Answer) -> Result<(), String> {
        let found = self.columns.iter().any(|column| !column.is_empty());
        match answer {
            Answer::Sent(packet) => self.admit(packet),
            Answer::Idle if found => Err("IDLE with a packet in a column".to_string()),
            Answer::Idle => Ok(()),
            Answer::Closed(_) if !found => Err("CLOSED with all columns empty".to_string()),
            Answer::Closed(_) => self.closed(),
            _ => Err(format!("a poll answered {answer:?}")),
        }
    }

    /// The floor: CLOSED needs an admission less than the floor ago. The last
    /// admission is the nearest, so it alone is looked at.
    fn closed(&mut self) -> Result<(), String> {
        let Some(last) = self.last_admission else {
            return Err("floor: CLOSED before any admission".to_string());
        };
        let passed = self.time - last;
        if passed >= self.floor {
            return Err(format!(
                "floor: CLOSED {passed} µs after the last admission"
            ));
        }
        self.closest.latest_closed = self.closest.latest_closed.max(Some(passed));
        Ok(())
    }

    /// SENT: strikes the top packet of the lowest-numbered non-empty column.
    fn admit(&mut self, sent: &Packet) -> Result<(), String> {
        let lowest = self.columns.iter_mut().find(|column| !column.is_empty());
        let Some(struck) = lowest.and_then(VecDeque::pop_front) else {
            return Err("SENT with all columns empty".to_string());
        };
        if struck.packet != *sent {
            return Err(format!("SENT {sent:?}, struck {:?}", struck.packet));
        }
        self.counts.sent += 1;
        let before = self.last_admission;
        self.weigh(struck.packet.ontime)?;
        self.slide(before, struck.packet.ontime)?;
        self.look_at_priority_0()
    }

    /// The ceiling, at an admission now.
    ///
    /// Windows that start and end at an admission are enough: any other window
    /// shrinks to its first and last admission, which keeps its air time and
    /// makes W no longer; a window without an admission has no air time.
    ///
    /// Of the windows that end at this admission, `heaviest` is the greatest
    /// 100 × air time − 3 × W. Such a window is this admission alone, W = 0, or
    /// one that ended at the admission before, made longer by the gap. So the
    /// greatest is this admission's own 100 × on-time, plus the greatest of
    /// before less 3 × gap where that is above 0. This is exact, and no older
    /// admission has to be remembered.
    fn weigh(&mut self, ontime: u32) -> Result<(), String> {
        let mut carried = 0;
        if let Some(last) = self.last_admission {
            let gap = self.time - last;
            carried = self.heaviest - CEILING_SLOPE * i128::from(gap);
            self.note_gap(gap);
        }
        self.heaviest = 100 * i128::from(ontime) + carried.max(0);
        self.last_admission = Some(self.time);
        if !self.ceiling {
            return Ok(());
        }
        let slack = CEILING_BASE - self.heaviest;
        let smallest = self.closest.smallest_slack;
        self.closest.smallest_slack = Some(smallest.map_or(slack, |old| old.min(slack)));
        if slack < 0 {
            return Err(format!("ceiling: passed by {} at {}", -slack, self.time));
        }
        Ok(())
    }

    /// The half-open second, at an admission now, given the time of the one
    /// before.
    ///
    /// Stretches that end with an admission are enough: any other, moved back
    /// until its last admission is its end, keeps all that it has. What is in
    /// one that ends now is what is less than 1,000,000 µs old, this one too.
    fn slide(&mut self, before: Option<u64>, ontime: u32) -> Result<(), String> {
        let at = self.time;
        self.stretch.push_back(Admission { at, ontime });
        let on_air = self.on_air();
        self.closest.fullest_stretch = self.closest.fullest_stretch.max(on_air);
        if on_air > STRETCH_MOST {
            return Err(format!("second: {on_air} µs admitted up to {at}"));
        }
        match before.map(|before| at - before) {
            Some(gap) if gap < APART => Err(format!("gap: {gap} µs between admissions")),
            _ => Ok(()),
        }
    }

    /// Notes the time between two admissions.
    fn note_gap(&mut self, gap: u64) {
        let closest = &mut self.closest;
        closest.shortest_gap = Some(closest.shortest_gap.map_or(gap, |old| old.min(gap)));
        closest.longest_gap = Some(closest.longest_gap.map_or(gap, |old| old.max(gap)));
    }

    /// A packet of priority 0 still there has seen at most k admissions. The
    /// run may end after any call, so this is looked at after each admission.
    fn look_at_priority_0(&mut self) -> Result<(), String> {
        for entry in &self.columns[0] {
            let seen = self.counts.sent - entry.admissions_before;
            self.closest.most_seen = self.closest.most_seen.max(seen);
            if seen > entry.above {
                let (id, above) = (entry.packet.id, entry.above);
                return Err(format!("priority 0: {id}, {above} above it, saw {seen}"));
            }
        }
        Ok(())
    }
}

/// An accepted sample or offer answers TAKEN.
fn taken(answer: &Answer) -> Result<(), String> {
    match answer {
        Answer::Taken => Ok(()),
        _ => Err(format!("a sample or an offer answered {answer:?}")),
    }
}

#[cfg(test)]
mod tests {
    use super::*;

    /// The book strikes from column 0 first, so no list of calls and answers
    /// reaches this error; the check itself is tried on a page with a wrong k.
    #[test]
    fn a_priority_0_packet_that_saw_too_much_is_rejected() {
        let mut book = Book::new(1, 0);
        for id in [1, 2] {
            let (priority, ontime, lifetime, stamp) = (0, 1, 9, 0);
            let offer = Call::Offer {
                id,
                priority,
                ontime,
                lifetime,
                stamp,
            };
            book.feed(&offer, &Answer::Taken).unwrap();
        }
        let sent = Answer::Sent(book.columns[0][0].packet);
        let poll = Call::Poll { stamp: 0 };
        book.clone().feed(&poll, &sent).unwrap();
        book.columns[0][1].above = 0;
        let said = book.feed(&poll, &sent).unwrap_err();
        assert!(said.contains("priority 0"));
    }

    /// Five stand in a column only if four came after the top one, so no list
    /// of calls and answers reaches this error; the check itself is tried on a
    /// page whose top packet says that it came later than it did.
    #[test]
    fn a_packet_displaced_too_soon_is_rejected() {
        let offer = |id| Call::Offer {
            id,
            priority: 2,
            ontime: 1,
            lifetime: 9,
            stamp: 0,
        };
        let mut book = Book::new(1, 0);
        for id in 1..=5 {
            book.feed(&offer(id), &Answer::Taken).unwrap();
        }
        let mut good = book.clone();
        good.feed(&offer(6), &Answer::Taken).unwrap();
        assert_eq!(good.displaced().map(|entry| entry.packet.id), Some(1));
        assert_eq!(good.closest().fewest_offers, Some(5));
        book.columns[2][0].turn = 2;
        let said = book.feed(&offer(6), &Answer::Taken).unwrap_err();
        assert!(said.contains("displaced: 1, by offer 4 after it"), "{said}");
    }

    /// The book counts what it writes and strikes, so no list of calls and
    /// answers reaches this error; it is tried on pages with a wrong count.
    #[test]
    fn counts_that_do_not_add_up_are_rejected() {
        let poll = Call::Poll { stamp: 0 };
        Book::new(1, 0).feed(&poll, &Answer::Idle).unwrap();
        let bent: [fn(&mut Counts); 4] = [
            |counts| counts.accepted += 1,
            |counts| counts.sent += 1,
            |counts| counts.expired += 1,
            |counts| counts.displaced += 1,
        ];
        for bend in bent {
            let mut book = Book::new(1, 0);
            bend(&mut book.counts);
            let said = book.feed(&poll, &Answer::Idle).unwrap_err();
            assert!(said.contains("counts"), "{said}");
        }
    }
}
