//! The state of a gate, and what stands in it.

use crate::sys::{Levels, MOST_ADMISSIONS, MOST_LEVELS, MOST_LOADS, MOST_WAITING};

/// A packet that goes on air, as an answer has it.
#[repr(C)]
#[derive(Clone, Copy, Debug, Default, PartialEq, Eq, Hash)]
pub struct Packet {
    /// The host's own name for it: any number, repeats allowed.
    pub id: u32,
    /// The priority, 0 (highest) to 3.
    pub priority: u32,
    /// The on-time in µs.
    pub ontime: u32,
    /// The lifetime in µs.
    pub lifetime: u32,
    /// The running time at which it was offered.
    pub arrival: u64,
}

/// A packet that waits; its priority is that of its queue. An unused place is all zero.
#[repr(C)]
#[derive(Clone, Copy, Debug, Default, PartialEq, Eq, Hash)]
pub struct Waiting {
    /// The host's own name for it: any number, repeats allowed.
    pub id: u32,
    /// The on-time in µs.
    pub ontime: u32,
    /// The lifetime in µs.
    pub lifetime: u32,
}

/// The packets of one priority. When each was offered stands in [`State::arrivals`].
#[repr(C)]
#[derive(Clone, Copy, Debug, Default, PartialEq, Eq, Hash)]
pub struct Queue {
    /// How many wait, 0 to 5.
    pub len: u32,
    /// The first `len` wait, the oldest first; the others are all zero.
    pub packets: [Waiting; MOST_WAITING],
}

impl Queue {
    /// The packets that wait, the oldest first. Of a state that is not sound they mean nothing: a count above 5 is read as
    /// 5.
    pub fn waiting(&self) -> &[Waiting] {
        let places = self.packets.len();
        &self.packets[..places.min(self.len as usize)]
    }
}

/// What the distance is multiplied by in a word of [`State::air`]: more than any on-time.
const WORD_STEP: u32 = 4_096;

/// An admission of the last second.
#[derive(Clone, Copy, Debug, Default, PartialEq, Eq, Hash)]
pub struct Admission {
    /// The running time at which it was made.
    pub at: u64,
    /// The on-time of its packet in µs.
    pub ontime: u32,
}

/// A level of profile 5 above level 0.
#[derive(Clone, Copy, Debug, PartialEq, Eq, Hash)]
pub struct Level {
    /// Its threshold, as a load: in parts per 1,000,000.
    pub threshold: u32,
    /// Its wait in µs.
    pub wait: u32,
}

/// What the gate has counted since it was made: `accepted` is `sent` + `expired` + `displaced` + the packets that wait.
#[derive(Clone, Copy, Debug, Default, PartialEq, Eq, Hash)]
pub struct Counts {
    /// Offers accepted, at most 10^15.
    pub accepted: u64,
    /// Packets sent.
    pub sent: u64,
    /// Packets removed as expired: at an offer or a poll, never at a sample.
    pub expired: u64,
    /// Packets dropped for a newer one of their priority, where 5 waited.
    pub displaced: u64,
}

/// The state of one gate. Any values at all may stand in it: the calls refuse a state that is not sound.
///
/// It is plain numbers, 952 bytes without a gap, and may be copied. [`State::to_bytes`] gives it as bytes to be stored, and
/// [`State::from_bytes`] reads them.
#[repr(C)]
#[derive(Clone, Copy, Debug, PartialEq, Eq, Hash)]
pub struct State {
    /// The running time in µs.
    pub time: u64,
    /// The running time of the last admission, however long ago; 0 before the first.
    pub last_at: u64,
    /// Offers accepted, at most 10^15.
    pub accepted: u64,
    /// Packets sent.
    pub sent: u64,
    /// Packets removed as expired.
    pub expired: u64,
    /// Packets dropped for a newer one of their priority.
    pub displaced: u64,
    /// The running time at which each packet was offered, by priority and place as in `queues`; 0 where none waits.
    pub arrivals: [[u64; MOST_WAITING]; 4],
    /// The stamp of the last call that was not refused.
    pub stamp: u32,
    /// The on-time of the last admission in µs; 0 before the first.
    pub last_ontime: u32,
    /// 1 once something was admitted, else 0. [`State::last_admission`] reads the three.
    pub admitted: u32,
    /// The level, 0 to 4; in profile 5 one of its list, 0 to 8.
    pub level: u32,
    /// The duty, in parts per 1,000,000,000.
    pub duty: u32,
    /// The smoothed load, in parts per 1,000,000.
    pub smoothed: u32,
    /// The load of the sample that is kept, 0 if none is.
    pub kept: u32,
    /// 1 while a sample is kept, else 0.
    pub pairing: u32,
    /// In profile 4 the load of the latest sample, in parts per 1,000,000; 0 before any, and in the other profiles.
    pub latest: u32,
    /// How many admissions `air` holds, 0 to 40.
    pub admissions: u32,
    /// How many loads `loads` holds, 0 to 50.
    pub load_count: u32,
    /// The profile, 1 to 5; no call changes it.
    pub profile: u32,
    /// What it does when a queue is full, the number of a [`WhenFull`](crate::WhenFull); no call changes it.
    pub when_full: u32,
    /// 1; 0 in the all-zero state that a refused make leaves.
    pub live: u32,
    /// Profile 5's list of levels, which no call changes: how many it has above level 0; 0 in the other profiles.
    pub level_count: u32,
    /// The wait of its level 0 in µs; 0 in the other profiles.
    pub base_wait: u32,
    /// The packets that wait, by priority. [`Queue::waiting`] leaves out the unused places.
    pub queues: [Queue; 4],
    /// The admissions of the last second, in every profile: younger than 1,000,000 µs, at least 25,000 µs apart, with at
    /// most 30,000 µs of on-time in all. The newest is the last admission; once that is older, there are none.
    ///
    /// The first `admissions` are their words, the oldest first; the others are 0. A word says how long before the last
    /// admission its own was made, in µs, times 4,096, and its on-time. That of the newest so is its on-time.
    /// [`State::last_second`] reads them.
    pub air: [u32; MOST_ADMISSIONS],
    /// Profile 5's last loads: the first `load_count`, the oldest first, in parts per 1,000,000; the others are 0.
    pub loads: [u32; MOST_LOADS],
    /// The thresholds of profile 5's levels 1 to `level_count`, as loads; the others are 0.
    pub thresholds: [u32; MOST_LEVELS],
    /// Their waits in µs; the others are 0.
    pub waits: [u32; MOST_LEVELS],
}

impl Default for State {
    /// The all-zero state, which is not sound: a refused make leaves it.
    fn default() -> State {
        State {
            time: 0,
            last_at: 0,
            accepted: 0,
            sent: 0,
            expired: 0,
            displaced: 0,
            arrivals: [[0; MOST_WAITING]; 4],
            stamp: 0,
            last_ontime: 0,
            admitted: 0,
            level: 0,
            duty: 0,
            smoothed: 0,
            kept: 0,
            pairing: 0,
            latest: 0,
            admissions: 0,
            load_count: 0,
            profile: 0,
            when_full: 0,
            live: 0,
            level_count: 0,
            base_wait: 0,
            queues: [Queue::default(); 4],
            air: [0; MOST_ADMISSIONS],
            loads: [0; MOST_LOADS],
            thresholds: [0; MOST_LEVELS],
            waits: [0; MOST_LEVELS],
        }
    }
}

impl State {
    /// The admissions of the last second, the oldest first. Of a state that is not sound they mean nothing: a count above
    /// 40 is read as 40, and a word that says more than there is before the last admission as one at 0.
    ///
    /// ```
    /// use presscurlew::{Admission, Answer, Gate, Offer, Profile, WhenFull};
    ///
    /// let mut gate = Gate::new(Profile::ReactiveA2, WhenFull::DropOldest, 0)?;
    /// for stamp in [1_000_000, 1_100_000] {
    ///     gate.offer(Offer { id: 7, priority: 1, ontime: 400, lifetime: 60_000 }, stamp)?;
    ///     assert!(matches!(gate.poll(stamp)?, Answer::Sent(_)));
    /// }
    /// let one = |at| Admission { at, ontime: 400 };
    /// assert!(gate.state().last_second().eq([one(1_000_000), one(1_100_000)]));
    /// assert_eq!(gate.state().air[..3], [100_000 * 4_096 + 400, 400, 0]);
    /// # Ok::<(), presscurlew::Refusal>(())
    /// ```
    pub fn last_second(&self) -> impl Iterator<Item = Admission> + '_ {
        let held = self.air.iter().zip(0..self.admissions);
        held.map(|(word, _)| Admission {
            at: self.last_at.saturating_sub(u64::from(word / WORD_STEP)),
            ontime: word % WORD_STEP,
        })
    }

    /// The last admission, however long ago, if anything was admitted.
    pub fn last_admission(&self) -> Option<Admission> {
        (self.admitted != 0).then_some(Admission {
            at: self.last_at,
            ontime: self.last_ontime,
        })
    }

    /// What was counted.
    pub fn counts(&self) -> Counts {
        Counts {
            accepted: self.accepted,
            sent: self.sent,
            expired: self.expired,
            displaced: self.displaced,
        }
    }

    /// Profile 5's list of levels; in the other profiles [`Levels::NONE`].
    pub fn levels(&self) -> Levels {
        Levels {
            count: self.level_count,
            base_wait: self.base_wait,
            thresholds: self.thresholds,
            waits: self.waits,
        }
    }
}

#[cfg(test)]
mod tests {
    use super::*;

    #[test]
    fn admissions_of_any_state_can_be_read() {
        let mut state = State {
            last_at: 1_048_574,
            admissions: u32::MAX,
            air: [u32::MAX; MOST_ADMISSIONS],
            ..State::default()
        };
        let oldest = Admission {
            at: 0,
            ontime: 4_095,
        };
        assert!(state.last_second().eq([oldest; MOST_ADMISSIONS]));
        state.admissions = 0;
        assert_eq!(state.last_second().next(), None);
    }

    #[test]
    fn packets_of_any_queue_can_be_read() {
        let packets = [1, 2, 3, 4, 5].map(|id| Waiting {
            id,
            ontime: 400,
            lifetime: 60_000,
        });
        for (len, due) in [(0, 0), (1, 1), (4, 4), (5, 5), (6, 5), (u32::MAX, 5)] {
            let queue = Queue { len, packets };
            assert_eq!(queue.waiting(), &packets[..due]);
        }
    }
}
