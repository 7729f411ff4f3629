//! How near a run came to what is guaranteed, seen from its book.

use std::collections::VecDeque;

use reference::book::{Book, Entry, CEILING_BASE, CEILING_SLOPE};
use reference::gate::Call;
use reference::state::Packet;

use crate::text::{moment, span};

/// A window of the run, and the air time admitted in it.
#[derive(Clone, Copy, Debug, PartialEq, Eq)]
pub struct Window {
    /// Its start, at an admission.
    pub from: u64,
    /// Its end, at an admission.
    pub to: u64,
    /// The on-times admitted, both ends counted, in µs.
    pub air: u64,
}

impl Window {
    /// 3 × W + 400,000 − 100 × air time.
    pub fn slack(&self) -> i128 {
        let width = i128::from(self.to - self.from);
        CEILING_SLOPE * width + CEILING_BASE - 100 * i128::from(self.air)
    }

    /// Where it is, in words.
    pub fn place(&self) -> String {
        if self.from == self.to {
            return format!("one packet at {}", moment(self.to));
        }
        let width = span(self.to - self.from);
        format!("the {width} from {} on", moment(self.from))
    }

    /// The air time that the ceiling allows in it, in whole µs.
    pub fn allowed(&self) -> u64 {
        let width = i128::from(self.to - self.from);
        ((CEILING_SLOPE * width + CEILING_BASE) / 100) as u64 // widths are below 10^15
    }
}

/// How long a packet of priority 0 waited.
#[derive(Clone, Copy, Debug, PartialEq, Eq)]
pub struct Wait {
    /// Its identifier.
    pub id: u32,
    /// k: how many were before it.
    pub before: u64,
    /// How long it waited, in µs.
    pub waited: u64,
    /// The longest time without a poll while it waited.
    pub apart: u64,
    /// The floor of the run's profile.
    pub floor: u64,
}

impl Wait {
    /// The longest that it may wait: (k + 1) × (quiet + p).
    pub fn bound(&self) -> u64 {
        (self.before + 1) * (self.floor + self.apart)
    }
}

/// A packet of priority 0 in the book, and the longest time without a poll.
#[derive(Clone, Copy, Debug)]
struct Followed {
    entry: Entry,
    apart: u64,
}

/// What was seen of a run.
#[derive(Clone, Debug, Default)]
pub struct Watch {
    /// Accepted samples.
    pub samples: u64,
    /// Accepted polls.
    pub polls: u64,
    /// The on-times admitted, all together, in µs.
    pub air: u64,
    /// Refusals, by number; the last place has those of no known number.
    pub refusals: [u64; 13],
    /// The window whose slack is the smallest.
    pub closest: Option<Window>,
    /// The window that ends at the last admission and has the smallest slack.
    tightest: Option<Window>,
    /// The window of less than a second that has the most air time.
    pub fullest: Option<Window>,
    /// The longest time that something waited before anything was sent, and
    /// when that was.
    pub longest_hold: Option<(u64, u64)>,
    /// Since when something has waited and nothing was sent.
    held_since: Option<u64>,
    /// The packet of priority 0 whose wait was the nearest to its bound.
    pub nearest_wait: Option<Wait>,
    /// How many packets of priority 0 were sent, how many expired, and how many
    /// were displaced.
    pub zero_sent: u64,
    /// How many of those sent were promised to be: they live longer than their
    /// bound.
    pub zero_promised: u64,
    /// See `zero_sent`.
    pub zero_expired: u64,
    /// See `zero_sent`.
    pub zero_displaced: u64,
    zero: VecDeque<Followed>,
    last_poll: Option<u64>,
}

impl Watch {
    /// A call was refused with this number.
    pub fn refused(&mut self, number: u32) {
        let last = self.refusals.len() - 1;
        self.refusals[(number as usize).min(last)] += 1;
    }

    /// A call was accepted and the book was fed it.
    pub fn accepted(
        &mut self,
        call: &Call,
        sent: Option<Packet>,
        book: &Book,
    ) -> Result<(), String> {
        let now = book.time();
        match call {
            Call::SampleCount { .. } | Call::SampleWords { .. } => {
                self.samples += 1;
                return Ok(());
            }
            Call::Offer { .. } => {}
            Call::Poll { .. } => self.polls += 1,
        }
        if let Some(packet) = sent {
            self.admitted(now, packet.ontime);
            self.see_second(book);
        }
        self.see_hold(now, sent.is_some(), book);
        let delivered = self.see_priority_0(now, sent, book);
        if let Call::Poll { .. } = call {
            self.last_poll = Some(now);
        }
        delivered
    }

    /// The tightest window that would end at an admission now: the admission
    /// alone, or the tightest that ended at the one before, made longer.
    pub fn tightest_with(&self, now: u64, ontime: u32) -> Window {
        let air = u64::from(ontime);
        let alone = Window {
            from: now,
            to: now,
            air,
        };
        let longer = self.tightest.map(|before| Window {
            from: before.from,
            to: now,
            air: before.air + air,
        });
        longer
            .filter(|longer| longer.slack() < alone.slack())
            .unwrap_or(alone)
    }

    /// The sliding second that ends with the admission just made.
    fn see_second(&mut self, book: &Book) {
        let air = book.on_air();
        let fuller = self.fullest.is_none_or(|fullest| air > fullest.air);
        if let (true, Some(first)) = (fuller, book.stretch().front()) {
            let (from, to) = (first.at, book.time());
            self.fullest = Some(Window { from, to, air });
        }
    }

    /// The time from the last admission seen up to now.
    pub fn since_last(&self, now: u64) -> u64 {
        self.tightest.map_or(now, |window| now - window.to)
    }

    /// An admission now.
    fn admitted(&mut self, now: u64, ontime: u32) {
        self.air += u64::from(ontime);
        let tightest = self.tightest_with(now, ontime);
        self.tightest = Some(tightest);
        if self
            .closest
            .is_none_or(|closest| tightest.slack() < closest.slack())
        {
            self.closest = Some(tightest);
        }
    }

    /// How long something waits before anything is sent.
    fn see_hold(&mut self, now: u64, sent: bool, book: &Book) {
        let empty = book.columns().iter().all(VecDeque::is_empty);
        if sent {
            let since = self.held_since.take().unwrap_or(now);
            if self.longest_hold.is_none_or(|(hold, _)| now - since > hold) {
                self.longest_hold = Some((now - since, now));
            }
        }
        if empty {
            self.held_since = None;
        } else if self.held_since.is_none() {
            self.held_since = Some(now);
        }
    }

    /// Follows the packets of priority 0: who was sent, who expired, who was
    /// displaced, and that none of those should have been sent before.
    fn see_priority_0(
        &mut self,
        now: u64,
        sent: Option<Packet>,
        book: &Book,
    ) -> Result<(), String> {
        let mut left = book.columns()[0].iter().peekable();
        let mut sent = sent.filter(|packet| packet.priority == 0);
        let displaced = book.displaced();
        let followed = std::mem::take(&mut self.zero);
        for mut packet in followed {
            let arrival = packet.entry.packet.arrival;
            let since = self.last_poll.map_or(arrival, |poll| poll.max(arrival));
            packet.apart = packet.apart.max(now - since);
            if left.next_if(|entry| **entry == packet.entry).is_some() {
                self.zero.push_back(packet);
            } else if sent.take_if(|sent| *sent == packet.entry.packet).is_some() {
                let wait = packet.wait(now - arrival, book.floor());
                let lifetime = u64::from(packet.entry.packet.lifetime);
                self.zero_sent += 1;
                self.zero_promised += u64::from(lifetime > wait.bound());
                self.waited(wait);
            } else if displaced == Some(packet.entry) {
                self.zero_displaced += 1;
                packet.was_not_due("was displaced", now - arrival, book.floor())?;
            } else {
                self.zero_expired += 1;
                let lifetime = u64::from(packet.entry.packet.lifetime);
                packet.was_not_due("expired", lifetime, book.floor())?;
            }
        }
        for entry in left {
            self.zero.push_back(Followed {
                entry: *entry,
                apart: 0,
            });
        }
        Ok(())
    }

    /// A packet of priority 0 was sent after this wait.
    fn waited(&mut self, wait: Wait) {
        let spare = |wait: &Wait| i128::from(wait.bound()) - i128::from(wait.waited);
        let nearer = self
            .nearest_wait
            .is_none_or(|nearest| spare(&wait) < spare(&nearest));
        if nearer {
            self.nearest_wait = Some(wait);
        }
    }
}

impl Followed {
    fn wait(&self, waited: u64, floor: u64) -> Wait {
        Wait {
            id: self.entry.packet.id,
            before: self.entry.above,
            waited,
            apart: self.apart,
            floor,
        }
    }

    /// A packet that left unsent, and how, had lived for at most its bound.
    fn was_not_due(&self, left: &str, lived: u64, floor: u64) -> Result<(), String> {
        let wait = self.wait(lived, floor);
        if lived <= wait.bound() {
            return Ok(());
        }
        Err(format!(
            "delivery: packet {} of priority 0 {left} after {}, with {} before it and polls at most {} apart",
            wait.id,
            span(lived),
            wait.before,
            span(wait.apart)
        ))
    }
}

#[cfg(test)]
mod tests {
    use super::*;

    /// Where floor and turn are kept delivery is too, so no list of answers
    /// reaches this fault first; the check itself is tried by hand.
    #[test]
    fn a_packet_lost_that_should_have_been_delivered() {
        let followed = |above: u64, apart: u64| Followed {
            entry: Entry {
                packet: Packet::default(),
                above,
                admissions_before: 0,
                turn: 1,
            },
            apart,
        };
        for (profile, one, three) in [
            (1, 1_051_000, 3_093_000),
            (2, 1_050_500, 3_091_500),
            (3, 1_050_000, 3_090_000),
            (4, 1_054_000, 3_102_000),
        ] {
            let floor = Book::new(profile, 0).floor();
            let bound = |above, apart| followed(above, apart).wait(0, floor).bound();
            assert_eq!(bound(0, 50_000), one);
            assert_eq!(bound(2, 30_000), three);
            for left in ["expired", "was displaced"] {
                let lived = |lived| followed(2, 30_000).was_not_due(left, lived, floor);
                assert_eq!(lived(three), Ok(()));
                let said = lived(three + 1).unwrap_err();
                let words = format!("delivery: packet 0 of priority 0 {left} after");
                assert!(said.starts_with(&words), "{said}");
            }
        }
    }

    #[test]
    fn a_window_allows_three_per_cent_and_one_longest_packet() {
        let window = Window {
            from: 7,
            to: 1_000_007,
            air: 34_000,
        };
        assert_eq!((window.allowed(), window.slack()), (34_000, 0));
    }
}
