//! W-213: the first edition's state machine: the list of levels that a gate of
//! profile 5 is made with, its last loads, and the level that they lead to.
//!
//! The fields are raw, so that any list a host could build can be judged.

use std::fmt;

use crate::rules::{LOAD_MOST, PROFILE_5};

/// The number of levels above level 0 that a list has room for.
pub const LEVELS_ROOM: usize = 8;
/// The number of last loads that a state has room for.
pub const LOADS_ROOM: usize = 50;

/// A list of levels. The default one is empty, all-zero: it is what the other
/// profiles have.
#[derive(Clone, Copy, Debug, Default, PartialEq, Eq)]
pub struct Levels {
    /// How many levels are listed above level 0; in a good list 1 to 8.
    pub len: u64,
    /// The wait of level 0. Its threshold is 0 and isn't listed.
    pub wait: u32,
    /// The load thresholds of levels 1 to 8.
    pub above: [u32; LEVELS_ROOM],
    /// The waits of levels 1 to 8.
    pub waits: [u32; LEVELS_ROOM],
}

/// One rule of a list: its name, and whether it holds of a list.
type Rule = (&'static str, fn(&Levels) -> bool);

/// The rules in the order of the request. What lies past the length is free.
const RULES: [Rule; 5] = [
    ("1 to 8 levels", |list| {
        (1..=LEVELS_ROOM as u64).contains(&list.len)
    }),
    ("thresholds at most 1,000,000", |list| {
        list.thresholds().iter().all(|above| *above <= LOAD_MOST)
    }),
    ("listed waits 40,000 to 1,000,000", |list| {
        list.listed_waits().iter().all(|wait| wait_good(*wait))
    }),
    ("level 0's wait 40,000 to 1,000,000", |list| {
        wait_good(list.wait)
    }),
    ("thresholds rise strictly from 0", |list| {
        let mut below = 0; // level 0's
        list.thresholds().iter().all(|above| {
            let rises = below < *above;
            below = *above;
            rises
        })
    }),
];

fn wait_good(wait: u32) -> bool {
    (PROFILE_5.wait_least..=PROFILE_5.wait_most).contains(&wait)
}

/// The names of all rules of a list, in their order.
pub fn rule_names() -> Vec<&'static str> {
    RULES.iter().map(|(name, _)| *name).collect()
}

impl Levels {
    /// A list of level 0's wait and of the levels above it, each a threshold and
    /// a wait, unused room zero; levels past the eighth have no room and are left
    /// out.
    pub fn of(wait: u32, listed: &[(u32, u32)]) -> Levels {
        let mut list = Levels {
            wait,
            ..Levels::default()
        };
        for (place, (above, wait)) in listed.iter().take(LEVELS_ROOM).enumerate() {
            list.above[place] = *above;
            list.waits[place] = *wait;
            list.len += 1;
        }
        list
    }

    /// The levels above level 0, each its threshold and wait.
    pub fn listed(&self) -> Vec<(u32, u32)> {
        let thresholds = self.thresholds().iter().copied();
        thresholds
            .zip(self.listed_waits().iter().copied())
            .collect()
    }

    /// The thresholds listed. A length above 8 is judged on the length itself,
    /// and nothing is read with it.
    pub fn thresholds(&self) -> &[u32] {
        &self.above[..used(self.len, LEVELS_ROOM).unwrap_or(0)]
    }

    /// The waits of the levels listed.
    pub fn listed_waits(&self) -> &[u32] {
        &self.waits[..used(self.len, LEVELS_ROOM).unwrap_or(0)]
    }

    /// Whether the room past the length is zero. With a length above 8 there is
    /// none.
    pub fn unused_zero(&self) -> bool {
        let from = used(self.len, LEVELS_ROOM).unwrap_or(LEVELS_ROOM);
        let mut room = self.above[from..].iter().chain(&self.waits[from..]);
        room.all(|number| *number == 0)
    }

    /// The names of the rules that the list breaks.
    pub fn broken_rules(&self) -> Vec<&'static str> {
        let broken = RULES.iter().filter(|(_, holds)| !holds(self));
        broken.map(|(name, _)| *name).collect()
    }

    /// Whether the list breaks no rule.
    pub fn good(&self) -> bool {
        RULES.iter().all(|(_, holds)| holds(self))
    }

    /// The list as a state holds it: unused room zero.
    pub fn cleared(&self) -> Levels {
        Levels::of(self.wait, &self.listed())
    }

    /// The threshold of a level, if the list has it.
    pub fn threshold(&self, level: u32) -> Option<u32> {
        match level {
            0 => Some(0),
            _ => self.thresholds().get(level as usize - 1).copied(),
        }
    }

    /// The wait of a level, if the list has it.
    pub fn wait_of(&self, level: u32) -> Option<u32> {
        match level {
            0 => Some(self.wait),
            _ => self.listed_waits().get(level as usize - 1).copied(),
        }
    }

    /// The highest level whose threshold a load reaches. Every load reaches
    /// level 0's.
    pub fn reached(&self, load: u32) -> u32 {
        let levels = (0..=self.thresholds().len() as u32).rev();
        let reaches = |level: &u32| self.threshold(*level).is_some_and(|above| load >= above);
        levels.into_iter().find(reaches).unwrap_or(0)
    }

    /// The level after a sample, its load the last of the loads: the current one
    /// moved the least needed to lie from up to down.
    pub fn level_next(&self, level: u32, loads: &[u32]) -> u32 {
        let up = self.reached(low(loads));
        let down = self.reached(high(loads));
        if level < up {
            up
        } else if level > down {
            down
        } else {
            level
        }
    }
}

/// The least load of the last 10 samples; 0 before there are ten.
pub fn low(loads: &[u32]) -> u32 {
    match loads.len().checked_sub(PROFILE_5.low_samples) {
        Some(from) => loads[from..].iter().copied().min().unwrap_or(0),
        None => 0,
    }
}

/// The greatest load of the last 50 samples, or of those there are.
pub fn high(loads: &[u32]) -> u32 {
    let from = loads.len().saturating_sub(PROFILE_5.high_samples);
    loads[from..].iter().copied().max().unwrap_or(0)
}

/// The last loads, in order of coming, the oldest first.
#[derive(Clone, Copy, PartialEq, Eq)]
pub struct Loads {
    /// How many are held; in a sound state at most 50.
    pub len: u64,
    /// The room.
    pub slots: [u32; LOADS_ROOM],
}

impl Default for Loads {
    fn default() -> Loads {
        Loads {
            len: 0,
            slots: [0; LOADS_ROOM],
        }
    }
}

impl fmt::Debug for Loads {
    /// Only as much of the room as has something in it, or is held.
    fn fmt(&self, f: &mut fmt::Formatter) -> fmt::Result {
        let end = self.slots.iter().rposition(|load| *load != 0);
        let end = end.map_or(0, |at| at + 1).max(self.held().len());
        f.debug_struct("Loads")
            .field("len", &self.len)
            .field("slots", &&self.slots[..end])
            .finish()
    }
}

impl Loads {
    /// The loads held. A length above 50 is judged on the length itself, and
    /// nothing is read with it.
    pub fn held(&self) -> &[u32] {
        &self.slots[..used(self.len, LOADS_ROOM).unwrap_or(0)]
    }

    /// The room past the length. With a length above 50 there is none.
    pub fn unused(&self) -> &[u32] {
        &self.slots[used(self.len, LOADS_ROOM).unwrap_or(LOADS_ROOM)..]
    }

    /// The last 50 of these loads, in this order, unused room zero.
    pub fn of(loads: &[u32]) -> Loads {
        let last = &loads[loads.len().saturating_sub(LOADS_ROOM)..];
        let mut held = Loads::default();
        held.slots[..last.len()].copy_from_slice(last);
        held.len = last.len() as u64;
        held
    }

    /// The loads after a sample of that load.
    pub fn after(&self, load: u32) -> Loads {
        let mut loads = self.held().to_vec();
        loads.push(load);
        Loads::of(&loads)
    }
}

/// How much of the room a length uses; none if it is longer than the room.
fn used(len: u64, room: usize) -> Option<usize> {
    usize::try_from(len).ok().filter(|len| *len <= room)
}
