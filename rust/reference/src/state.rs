//! The state, and what makes one sound ("State and calls", W-201's counts,
//! W-205's way, W-207's ledger, W-209's latest load, and W-213's list of levels
//! and last loads).
//!
//! The fields are raw, so that any state a host could build can be judged.

use std::fmt;

use crate::levels::LOADS_ROOM;
pub use crate::levels::{Levels, Loads};
use crate::rules;

/// The number of slots in a queue.
pub const SLOTS: usize = 5;
/// The number of queues, one for each priority.
pub const QUEUES: usize = 4;
/// The number of admissions that the ledger has room for.
pub const LEDGER_ROOM: usize = 40;

/// A packet descriptor. An unused slot holds the all-zero one.
#[derive(Clone, Copy, Debug, Default, PartialEq, Eq)]
pub struct Packet {
    /// Identifier: any number, repeats allowed.
    pub id: u32,
    /// Priority, 0 highest.
    pub priority: u32,
    /// On-time in µs.
    pub ontime: u32,
    /// Lifetime in µs.
    pub lifetime: u32,
    /// Running time at which it was offered.
    pub arrival: u64,
}

/// A queue: the first `len` slots wait, the oldest first.
#[derive(Clone, Copy, Debug, Default, PartialEq, Eq)]
pub struct Queue {
    /// How many wait; in a sound state at most 5.
    pub len: u64,
    /// The slots.
    pub slots: [Packet; SLOTS],
}

impl Queue {
    /// The waiting packets. A length above 5 is judged on the length itself,
    /// and nothing is read with it.
    pub fn waiting(&self) -> &[Packet] {
        match usize::try_from(self.len) {
            Ok(len) if len <= SLOTS => &self.slots[..len],
            _ => &[],
        }
    }

    /// The slots past the length. With a length above 5 there are none.
    pub fn unused(&self) -> &[Packet] {
        match usize::try_from(self.len) {
            Ok(len) if len <= SLOTS => &self.slots[len..],
            _ => &[],
        }
    }

    /// A queue of these packets, in this order, unused slots zero; packets
    /// past the fifth have no slot and are left out.
    pub fn of(packets: &[Packet]) -> Queue {
        let mut queue = Queue::default();
        for (slot, packet) in queue.slots.iter_mut().zip(packets) {
            *slot = *packet;
            queue.len += 1;
        }
        queue
    }
}

/// An admission. Unused room in the ledger holds the all-zero one.
#[derive(Clone, Copy, Debug, Default, PartialEq, Eq)]
pub struct Admission {
    /// The running time at which it was made.
    pub at: u64,
    /// The on-time of the packet.
    pub ontime: u32,
}

/// W-207: the admissions of the last second, the oldest first.
#[derive(Clone, Copy, PartialEq, Eq)]
pub struct Ledger {
    /// How many are held; in a sound state at most 40.
    pub len: u64,
    /// The room.
    pub slots: [Admission; LEDGER_ROOM],
}

impl Default for Ledger {
    fn default() -> Ledger {
        Ledger {
            len: 0,
            slots: [Admission::default(); LEDGER_ROOM],
        }
    }
}

impl fmt::Debug for Ledger {
    /// Only as much of the room as has something in it.
    fn fmt(&self, f: &mut fmt::Formatter) -> fmt::Result {
        let used = |slot: &Admission| *slot != Admission::default();
        let end = self.slots.iter().rposition(used).map_or(0, |at| at + 1);
        f.debug_struct("Ledger")
            .field("len", &self.len)
            .field("slots", &&self.slots[..end])
            .finish()
    }
}

impl Ledger {
    /// The admissions held. A length above 40 is judged on the length itself,
    /// and nothing is read with it.
    pub fn held(&self) -> &[Admission] {
        match usize::try_from(self.len) {
            Ok(len) if len <= LEDGER_ROOM => &self.slots[..len],
            _ => &[],
        }
    }

    /// The room past the length. With a length above 40 there is none.
    pub fn unused(&self) -> &[Admission] {
        match usize::try_from(self.len) {
            Ok(len) if len <= LEDGER_ROOM => &self.slots[len..],
            _ => &[],
        }
    }

    /// A ledger of these admissions, in this order, unused room zero; those
    /// past the fortieth have no room and are left out.
    pub fn of(admissions: &[Admission]) -> Ledger {
        let mut ledger = Ledger::default();
        for (slot, admission) in ledger.slots.iter_mut().zip(admissions) {
            *slot = *admission;
            ledger.len += 1;
        }
        ledger
    }

    /// All on-times held.
    pub fn sum(&self) -> u64 {
        let ontimes = self.held().iter().map(|admission| admission.ontime);
        ontimes.map(u64::from).sum()
    }
}

/// W-201 and W-205: what has come to the gate, and how it left.
#[derive(Clone, Copy, Debug, Default, PartialEq, Eq)]
pub struct Counts {
    /// Offers accepted.
    pub accepted: u64,
    /// Packets sent.
    pub sent: u64,
    /// Packets expired, each counted at its removal.
    pub expired: u64,
    /// Packets displaced by one that found five waiting.
    pub displaced: u64,
}

impl Counts {
    /// Whether accepted is the sum of what left and of so many that wait.
    pub fn add_up(&self, waiting: u64) -> bool {
        let parts = [self.sent, self.expired, self.displaced, waiting];
        rules::counts_add_up(self.accepted, parts)
    }
}

/// The state of a gate, sound or not. The default one is all-zero, not live.
#[derive(Clone, Copy, Debug, Default, PartialEq, Eq)]
pub struct State {
    /// Whether it is live.
    pub live: bool,
    /// The profile, 1 to 5.
    pub profile: u32,
    /// Whether it was made in the old way: 1 if so, 0 if not.
    pub oldway: u32,
    /// The last stamp.
    pub stamp: u32,
    /// The running time in µs.
    pub time: u64,
    /// The level, 0 to 4; in profile 5 one of its list.
    pub level: u32,
    /// The duty.
    pub duty: u32,
    /// The smoothed load.
    pub smoothed: u32,
    /// The load of the sample kept for pairing.
    pub kept: u32,
    /// Whether a sample is kept.
    pub haskept: bool,
    /// W-209: the load of the last sample accepted; 0 before any, and in the
    /// other profiles.
    pub latest: u32,
    /// Whether anything was admitted.
    pub any: bool,
    /// The running time of the last admission.
    pub at: u64,
    /// The on-time of the last admission.
    pub ontime: u32,
    /// The admissions of the last second.
    pub ledger: Ledger,
    /// W-213: the loads of the last samples accepted; none in the other profiles.
    pub loads: Loads,
    /// W-213: the list of levels; empty in the other profiles.
    pub levels: Levels,
    /// The four queues, by priority.
    pub queues: [Queue; QUEUES],
    /// What was accepted, sent, expired and displaced.
    pub counts: Counts,
}

impl State {
    /// A fresh state, its list empty: profile 5's comes with make.
    pub fn fresh(profile: u32, oldway: u32, stamp: u32) -> State {
        State {
            live: true,
            profile,
            oldway,
            stamp,
            duty: rules::DUTY_LEAST,
            ..State::default()
        }
    }

    /// How many packets wait in all queues.
    pub fn waiting(&self) -> usize {
        self.queues.iter().map(|queue| queue.waiting().len()).sum()
    }

    /// The wait after a packet of that on-time, taken now.
    pub fn wait(&self, ontime: u32) -> Option<u32> {
        if rules::needs_list(self.profile) {
            return self.levels.wait_of(self.level);
        }
        rules::wait(self.profile, self.level, self.duty, ontime, self.latest)
    }

    /// How long after its admission a packet of that on-time keeps the gate
    /// closed, taken now.
    pub fn closed_for(&self, ontime: u32) -> Option<u64> {
        rules::closed_with(self.profile, ontime, self.wait(ontime)?)
    }

    /// The last admission, if anything was admitted.
    pub fn last(&self) -> Option<Admission> {
        let (at, ontime) = (self.at, self.ontime);
        self.any.then_some(Admission { at, ontime })
    }

    /// The state with these admissions, the oldest first: the last is its last
    /// admission, and those of the last second are its ledger. For those who
    /// make states to test with.
    pub fn with_admissions(mut self, admissions: &[Admission]) -> State {
        let last = admissions.last();
        self.any = last.is_some();
        Admission {
            at: self.at,
            ontime: self.ontime,
        } = last.copied().unwrap_or_default();
        let young = |admission: &&Admission| rules::young(self.time, admission.at);
        let held: Vec<Admission> = admissions.iter().filter(young).copied().collect();
        self.ledger = Ledger::of(&held);
        self
    }

    /// The state with so many sent, expired and displaced, and as many accepted
    /// as make them add up, for those who make states to test with.
    pub fn counted(mut self, sent: u64, expired: u64, displaced: u64) -> State {
        self.counts = Counts {
            accepted: sent + expired + displaced + self.waiting() as u64,
            sent,
            expired,
            displaced,
        };
        self
    }

    /// The state with so many accepted, at least those that wait; of the others
    /// half were sent, a quarter expired and the rest displaced. For the same
    /// use.
    pub fn with_accepted(self, accepted: u64) -> State {
        let gone = accepted - self.waiting() as u64;
        let (sent, expired) = (gone / 2, gone / 4);
        self.counted(sent, expired, gone - sent - expired)
    }
}

/// One rule of soundness: its name, and whether it holds of a state.
type Rule = (&'static str, fn(&State) -> bool);

/// The rules in the order of the paper's list, then W-201's two, W-205's, those
/// of W-207 in the order of its list, W-209's two and W-213's.
const RULES: [Rule; 40] = [
    ("live", |s| s.live),
    ("profile 1 to 5", |s| rules::profile_known(s.profile)),
    ("level at most 4", |s| {
        rules::needs_list(s.profile) || s.level <= rules::LEVEL_MOST
    }),
    ("duty within limits", |s| rules::duty_allowed(s.duty)),
    ("smoothed load at most 1,000,000", |s| {
        s.smoothed <= rules::LOAD_MOST
    }),
    ("kept load at most 1,000,000", |s| {
        s.kept <= rules::LOAD_MOST
    }),
    ("sample kept only in profile 3", |s| {
        !s.haskept || s.profile == 3
    }),
    ("running time at most 10^15", |s| s.time <= rules::TIME_END),
    ("admission not after running time", |s| {
        !s.any || s.at <= s.time
    }),
    ("admission on-time allowed", |s| {
        !s.any || rules::on_time_allowed(s.profile, s.ontime)
    }),
    ("queue length at most 5", lengths_good),
    ("waiting on-time allowed", waiting_on_times_good),
    ("waiting lifetime within limits", waiting_lifetimes_good),
    ("waiting in its own priority's queue", waiting_places_good),
    ("arrival not after running time", arrivals_past),
    ("arrivals not decreasing", arrivals_in_order),
    ("kept load zero when none kept", |s| {
        s.haskept || s.kept == 0
    }),
    ("admission time zero before the first", |s| {
        s.any || s.at == 0
    }),
    ("admission on-time zero before the first", |s| {
        s.any || s.ontime == 0
    }),
    ("slots past the length zero", unused_slots_zero),
    ("counts add up", |s| s.counts.add_up(s.waiting() as u64)),
    ("accepted at most 10^15", |s| {
        s.counts.accepted <= rules::ACCEPTED_MOST
    }),
    ("old way 0 or 1", |s| rules::way_known(s.oldway)),
    ("ledger length at most 40", |s| {
        s.ledger.len <= LEDGER_ROOM as u64
    }),
    ("ledger in order, gaps at least 25,000", ledger_spaced),
    ("ledger on-times allowed", |s| {
        let good = |held: &Admission| rules::on_time_allowed(s.profile, held.ontime);
        s.ledger.held().iter().all(good)
    }),
    ("ledger younger than 1,000,000", |s| {
        let young = |held: &Admission| rules::young(s.time, held.at);
        s.ledger.held().iter().all(young)
    }),
    ("ledger sum at most 30,000", |s| {
        s.ledger.sum() <= rules::SECOND_MOST
    }),
    ("ledger newest the last admission, or empty", ledger_current),
    ("ledger room past the length zero", |s| {
        let zero = |room: &Admission| *room == Admission::default();
        s.ledger.unused().iter().all(zero)
    }),
    ("latest load at most 1,000,000", |s| {
        s.latest <= rules::LOAD_MOST
    }),
    ("latest load zero outside profile 4", |s| {
        s.profile == 4 || s.latest == 0
    }),
    ("list good in profile 5", |s| listed(s, |s| s.levels.good())),
    ("list room past the length zero", |s| {
        listed(s, |s| s.levels.unused_zero())
    }),
    ("level at most the list's in profile 5", |s| {
        listed(s, |s| u64::from(s.level) <= s.levels.len)
    }),
    ("list zero outside profile 5", |s| {
        rules::needs_list(s.profile) || s.levels == Levels::default()
    }),
    ("last loads at most 50", |s| {
        listed(s, |s| s.loads.len <= LOADS_ROOM as u64)
    }),
    ("last loads at most 1,000,000", |s| {
        listed(s, |s| {
            s.loads.held().iter().all(|load| *load <= rules::LOAD_MOST)
        })
    }),
    ("last loads' room past the length zero", |s| {
        listed(s, |s| s.loads.unused().iter().all(|room| *room == 0))
    }),
    ("last loads zero outside profile 5", |s| {
        rules::needs_list(s.profile) || s.loads == Loads::default()
    }),
];

/// W-213: what a rule of profile 5 says of the others is nothing.
fn listed(state: &State, holds: fn(&State) -> bool) -> bool {
    !rules::needs_list(state.profile) || holds(state)
}

/// W-207: "in order of time, gaps at least 25,000 µs".
fn ledger_spaced(state: &State) -> bool {
    state.ledger.held().windows(2).all(|pair| {
        let gap = pair[1].at.checked_sub(pair[0].at);
        gap.is_some_and(|gap| gap >= rules::GAP_LEAST)
    })
}

/// W-207: "its newest being the last admission whenever that is young enough,
/// empty otherwise".
fn ledger_current(state: &State) -> bool {
    let last = state
        .last()
        .filter(|last| rules::young(state.time, last.at));
    match last {
        Some(last) => state.ledger.held().last() == Some(&last),
        None => state.ledger.held().is_empty(),
    }
}

fn lengths_good(state: &State) -> bool {
    state.queues.iter().all(|queue| queue.len <= SLOTS as u64)
}

fn waiting_on_times_good(state: &State) -> bool {
    let good = |packet: &Packet| rules::on_time_allowed(state.profile, packet.ontime);
    state
        .queues
        .iter()
        .all(|queue| queue.waiting().iter().all(good))
}

fn waiting_lifetimes_good(state: &State) -> bool {
    let good = |packet: &Packet| rules::lifetime_allowed(packet.lifetime);
    state
        .queues
        .iter()
        .all(|queue| queue.waiting().iter().all(good))
}

fn waiting_places_good(state: &State) -> bool {
    (0u32..).zip(&state.queues).all(|(priority, queue)| {
        let own = |packet: &Packet| packet.priority == priority;
        queue.waiting().iter().all(own)
    })
}

fn arrivals_past(state: &State) -> bool {
    let past = |packet: &Packet| packet.arrival <= state.time;
    state
        .queues
        .iter()
        .all(|queue| queue.waiting().iter().all(past))
}

fn arrivals_in_order(state: &State) -> bool {
    let in_order = |pair: &[Packet]| pair[0].arrival <= pair[1].arrival;
    state
        .queues
        .iter()
        .all(|queue| queue.waiting().windows(2).all(in_order))
}

fn unused_slots_zero(state: &State) -> bool {
    let zero = |packet: &Packet| *packet == Packet::default();
    state
        .queues
        .iter()
        .all(|queue| queue.unused().iter().all(zero))
}

/// The names of all rules, in their order.
pub fn rule_names() -> Vec<&'static str> {
    RULES.iter().map(|(name, _)| *name).collect()
}

/// The names of the rules that a state breaks.
pub fn broken_rules(state: &State) -> Vec<&'static str> {
    let broken = RULES.iter().filter(|(_, holds)| !holds(state));
    broken.map(|(name, _)| *name).collect()
}

/// Whether a state is sound: it breaks no rule.
pub fn sound(state: &State) -> bool {
    RULES.iter().all(|(_, holds)| holds(state))
}
