//! The archive beside the reference, on states, calls and bursts that libFuzzer makes up, and on calls written to a log.
//!
//! The input is read number by number. Most numbers are picked from those where a rule turns; any other can come
//! too. An input that is used up gives zeros. A difference panics, which libFuzzer reports with the input.

#[path = "../../presscurlew/tests/gate/help.rs"]
#[allow(dead_code)]
mod help;

use help::{
    archive_write, bytes_of, fresh, hold, hold_burst, hold_no_state, hold_no_state_burst,
    hold_write, levels_of, raw, raw_if, read_state, word, Call, LogCall, ACCEPTED_MOST,
    EDGE_COUNTS, EDGE_LIFETIMES, EDGE_ONTIMES, EDGE_PRIORITIES, EDGE_PROBES, EDGE_STEPS, TIME_END,
};
use reference::levels::{Levels, Loads};
use reference::log::{read, Record, RECORD_BYTES};
use reference::state::{sound, Admission, Packet, State};

/// What is left of the input.
struct Input<'a> {
    bytes: &'a [u8],
}

impl Input<'_> {
    fn byte(&mut self) -> u8 {
        let Some((&first, rest)) = self.bytes.split_first() else {
            return 0;
        };
        self.bytes = rest;
        first
    }

    fn number(&mut self) -> u32 {
        u32::from_le_bytes([(); 4].map(|()| self.byte()))
    }

    /// A number of the list, or any.
    fn of(&mut self, edges: &[u32]) -> u32 {
        let index = usize::from(self.byte());
        if index < 200 {
            edges[index % edges.len()]
        } else {
            self.number()
        }
    }

    /// A time not far before `now`, now and then one after it.
    fn time_before(&mut self, now: u64) -> u64 {
        let back = self.of(&[0, 1, 25_000, 59_999, 60_000, 999_999, 1_000_000, 60_000_000]);
        match self.byte() {
            255 => now.wrapping_add(u64::from(back)),
            _ => now.saturating_sub(u64::from(back)),
        }
    }

    /// A packet, its priority left open.
    fn packet(&mut self, now: u64) -> Packet {
        Packet {
            id: u32::from(self.byte()),
            priority: 0,
            ontime: self.of(&[1, 400, 500, 501, 1_000, 1_001, 4_000, 4_001, 0]),
            lifetime: self.of(&[60_000, 1, 1_000_000, 60_000_000, 60_000_001, 0]),
            arrival: self.time_before(now),
        }
    }

    /// Any state of the archive, often a sound one.
    fn state(&mut self) -> presscurlew::State {
        let profile = self.of(&[1, 2, 3, 4, 5, 0, 6]);
        let (way, stamp) = (
            self.of(&[0, 1, 0, 1, 2]),
            self.of(&[0, 1, 1 << 31, u32::MAX]),
        );
        let mut state = State::fresh(profile, way, stamp);
        state.time = match self.byte() % 4 {
            0 => u64::from(self.number()),
            1 => (TIME_END + 2).saturating_sub(u64::from(self.byte())),
            2 => TIME_END - u64::from(self.number()),
            _ => 5_000_000_000,
        };
        state.live = self.byte() != 255;
        state.level = self.of(&[0, 1, 2, 3, 4, 5]);
        state.duty = self.of(&[600_000, 30_000_000, 10_000_000, 599_999, 30_000_001]);
        state.smoothed = self.of(&[0, 680_000, 1_000_000, 1_000_001]);
        state.haskept = self.byte() % 2 == 1;
        state.kept = self.of(&[0, 400_000, 1_000_000, 1_000_001]);
        state.latest = match state.profile {
            4 => self.of(&[0, 620_000, 620_001, 650_000, 1_000_000, 1_000_001]),
            _ if self.byte() == 255 => self.number(),
            _ => 0,
        };
        self.fill_queues(&mut state);
        let state = self.listed(state);
        let state = self.admitted(state);
        let state = self.counted(state);
        // A time or an on-time that no word can say: the state is then one without admissions.
        let state = raw_if(&state).unwrap_or_else(|| raw(&state.with_admissions(&[])));
        let state = self.reworded(state);
        self.bent(state)
    }

    /// The state, now and then with another number in a place of a queue, unused or not, a packet that has gone to another
    /// queue without its arrival, or any byte of the whole another one.
    fn bent(&mut self, mut state: presscurlew::State) -> presscurlew::State {
        let (queue, place) = (usize::from(self.byte() % 4), usize::from(self.byte() % 5));
        match self.byte() {
            249 => state.arrivals[queue][place] = self.time_before(state.time),
            250 => state.queues[queue].packets[place].id = self.number(),
            251 => state.queues[queue].packets[place].ontime = self.of(&[0, 1, 500, 4_001]),
            252 => state.queues[queue].packets[place].lifetime = self.of(&[0, 1, 60_000_001]),
            253 => state.queues[queue].len = self.of(&[0, 1, 4, 5, 6, 1 << 16, u32::MAX]),
            254 => {
                let other = usize::from(self.byte() % 4);
                state.queues.swap(queue, other);
            }
            255 => {
                let mut bytes = bytes_of(&state);
                bytes[usize::from(self.number() as u16) % size_of::<presscurlew::State>()] =
                    self.byte();
                state = state_of(bytes);
            }
            _ => {}
        }
        state
    }

    /// The state, now and then with another word in its ledger, another length, or another time of the last admission.
    fn reworded(&mut self, mut state: presscurlew::State) -> presscurlew::State {
        let place = usize::from(self.byte()) % state.air.len();
        match self.byte() {
            250 => state.air[place] = self.number(),
            251 => state.air[place] ^= 1 << (self.byte() % 32),
            252 => {
                let age = self.of(&[0, 1, 24_999, 25_000, 999_999, 1_000_000]) % (1 << 20);
                let ontime = self.of(&[0, 1, 500, 501, 1_000, 1_001, 4_000, 4_001]) % (1 << 12);
                state.air[place] = word(age, ontime);
            }
            253 => state.admissions = self.number() << (self.byte() % 32),
            254 => state.admissions = u32::from(self.byte() % 42),
            255 => state.last_at = self.time_before(state.time),
            _ => {}
        }
        state
    }

    /// The state with a list of levels and last loads if it is of profile 5; now and then one number is another, in any
    /// profile.
    fn listed(&mut self, mut state: State) -> State {
        if state.profile == 5 {
            let waits = [40_000, 1_000_000, 100_000, 39_999, 1_000_001];
            let (mut above, mut listed) = (0u32, vec![]);
            for _ in 0..1 + self.byte() % 8 {
                let more = self.of(&[1, 1_000, 100_000, 125_000, 0]);
                above = above.saturating_add(more);
                listed.push((above, self.of(&waits)));
            }
            state.levels = Levels::of(self.of(&waits), &listed);
            let mut loads = vec![];
            for _ in 0..self.byte() % 8 {
                let load = self.of(&[0, above, above.saturating_sub(1), 1_000_000, 1_000_001]);
                loads.extend(vec![load; usize::from(self.byte() % 16)]);
            }
            state.loads = Loads::of(&loads);
            state.level = self.of(&[0, 1, 4, 5, 8, 9]);
        }
        let place = usize::from(self.byte());
        match self.byte() {
            250 => state.levels.len = u64::from(self.number() << (self.byte() % 32)),
            251 => state.levels.wait = self.of(&[0, 40_000]),
            252 => state.levels.above[place % 8] = self.number(),
            253 => state.levels.waits[place % 8] = self.number(),
            254 => state.loads.len = u64::from(self.of(&[0, 10, 49, 50, 51])),
            255 => state.loads.slots[place % 50] = self.of(&[0, 1, 1_000_000, 1_000_001]),
            _ => {}
        }
        state
    }

    /// The state with a last admission and those before it in a ledger, often a sound one.
    fn admitted(&mut self, state: State) -> State {
        let many = self.of(&[0, 1, 2, 7, 8, 30, 39, 40, 41]) % 64;
        let mut at = self.time_before(state.time);
        let mut admissions = vec![];
        for _ in 0..many {
            let ontime = self.of(&[1, 500, 750, 751, 501, 1_000, 1_001, 4_000, 4_001, 0]);
            admissions.push(Admission { at, ontime });
            let apart = self.of(&[25_000, 25_001, 30_000, 24_999, 133_334, 0]);
            at = at.saturating_sub(u64::from(apart));
        }
        admissions.reverse();
        let mut state = state.with_admissions(&admissions);
        match self.byte() {
            254 => state.ontime = self.of(&[1, 500, 0]),
            255 => state.any = !state.any,
            _ => {}
        }
        state
    }

    /// The state with counts that add up, now and then with one that is off.
    fn counted(&mut self, state: State) -> State {
        let mut state = match self.byte() % 3 {
            0 => {
                let [sent, expired, displaced] = [(); 3].map(|()| u64::from(self.number()));
                state.counted(sent, expired, displaced)
            }
            // The last offers, and one too many.
            1 => state.with_accepted(ACCEPTED_MOST + 1 - u64::from(self.byte() % 8)),
            _ => state.counted(0, 0, 0),
        };
        let off = u64::from(self.number()) << (self.byte() % 64);
        let counts = &mut state.counts;
        match self.byte() {
            252 => counts.accepted = counts.accepted.wrapping_add(off),
            253 => counts.sent = counts.sent.wrapping_add(off),
            254 => counts.displaced = counts.displaced.wrapping_add(off),
            // The sum stays right modulo 2^64.
            255 => {
                counts.displaced = counts.displaced.wrapping_add(off);
                counts.expired = counts.expired.wrapping_sub(off);
            }
            _ => {}
        }
        state
    }

    fn fill_queues(&mut self, state: &mut State) {
        for priority in 0..4 {
            let queue = &mut state.queues[priority as usize];
            queue.len = u64::from(self.of(&[0, 1, 2, 3, 4, 5, 6]));
            for slot in 0..5 {
                // An unused place has no priority, nor has one that is all zero where too many are said to wait.
                let waits = slot < queue.len;
                if waits || self.byte() == 255 {
                    let packet = self.packet(state.time);
                    let named = waits && (queue.len <= 5 || packet != Packet::default());
                    queue.slots[slot as usize] = Packet {
                        priority: if named { priority } else { 0 },
                        ..packet
                    };
                }
            }
        }
    }

    /// A probe count, with words: mostly just enough. The last are zeros where the input is used up.
    fn words(&mut self) -> (u32, Vec<u64>) {
        let probes = self.of(&EDGE_PROBES);
        let enough = probes.div_ceil(64).min(200);
        let length = match self.byte() {
            byte @ 224.. => u32::from(byte - 224),
            0 => enough + 1,
            _ => enough,
        };
        let word = |_| u64::from(self.number()) << (self.byte() % 64);
        (probes, (0..length).map(word).collect())
    }

    fn stamp_after(&mut self, last: u32) -> u32 {
        // Waits, those after the longest on-time, and times until an admission has aged.
        let turns = [
            0, 25_000, 50_000, 50_500, 60_000, 66_662, 100_000, 101_000, 975_000, 999_999,
            1_000_000, 1_000_500, 1_001_000,
        ];
        let step = self.of(&EDGE_STEPS) ^ self.of(&turns);
        last.wrapping_add(step)
    }

    /// A record of a burst: mostly an offer, its numbers as far as they fit.
    fn record(&mut self, last: u32) -> Record {
        let kind = match self.byte() {
            kind @ 240.. => kind % 5,
            _ => 2,
        };
        Record {
            kind,
            priority: self.of(&EDGE_PRIORITIES) as u8,
            ontime: self.of(&EDGE_ONTIMES) as u16,
            lifetime: self.of(&EDGE_LIFETIMES),
            id: u32::from(self.byte()),
            stamp: self.stamp_after(last),
        }
    }

    /// The bytes of a burst, and its room for answers: mostly whole records and enough.
    fn burst(&mut self, last: u32) -> (Vec<u8>, usize) {
        let mut records = vec![];
        for _ in 0..self.byte() % 12 {
            records.extend(self.record(last).to_bytes());
        }
        let room = match self.byte() {
            byte @ 200.. => usize::from(byte) % 12,
            _ => records.len() / RECORD_BYTES,
        };
        let torn = usize::from(self.byte().saturating_sub(240));
        records.truncate(records.len().saturating_sub(torn));
        (records, room)
    }

    fn call(&mut self, last: u32) -> Call {
        let stamp = self.stamp_after(last);
        match self.byte() % 4 {
            0 => {
                let (probes, words) = self.words();
                Call::SampleWords {
                    probes,
                    words,
                    stamp,
                }
            }
            1 => Call::SampleCount {
                busy: self.of(&EDGE_COUNTS),
                probes: self.of(&EDGE_PROBES),
                stamp,
            },
            2 => Call::Offer {
                id: u32::from(self.byte()),
                priority: self.of(&EDGE_PRIORITIES),
                ontime: self.of(&EDGE_ONTIMES),
                lifetime: self.of(&EDGE_LIFETIMES),
                stamp,
            },
            _ => Call::Poll { stamp },
        }
    }

    /// What is written: a make, an offer with numbers at the edges of their fields, or the call.
    fn log_call(&mut self, call: &Call) -> LogCall {
        let stamp = self.number();
        match self.byte() % 4 {
            0 => LogCall::Make {
                profile: self.of(&[1, 2, 3, 4, 0, 5, 255, 256, u32::MAX]),
                oldway: self.of(&[0, 1, 2, 256, u32::MAX]),
                levels: levels_of(5),
                stamp,
            },
            1 => LogCall::On(Call::Offer {
                id: self.number(),
                priority: self.of(&[0, 3, 255, 256, 257, u32::MAX]),
                ontime: self.of(&[0, 400, 65_535, 65_536, u32::MAX]),
                lifetime: self.number(),
                stamp,
            }),
            _ => LogCall::On(call.clone()),
        }
    }

    /// A place of a log, now and then one near the end of all numbers.
    fn place(&mut self) -> usize {
        match self.byte() {
            byte @ 224.. => usize::MAX - usize::from(byte - 224),
            byte => usize::from(byte % 64),
        }
    }
}

/// The state of some bytes: any are one.
fn state_of(bytes: [u8; size_of::<presscurlew::State>()]) -> presscurlew::State {
    // SAFETY: the state is numbers of 4 and 8 bytes, which fill it.
    unsafe { std::mem::transmute(bytes) }
}

/// A call written at a place of a log, and any record read and written back.
fn try_write(input: &mut Input, call: &Call) {
    let call = input.log_call(call);
    let (room, at) = (usize::from(input.byte() % 64), input.place());
    hold_write(&call, room, at, &"fuzz");
    let mut bytes = [(); RECORD_BYTES].map(|()| input.byte());
    bytes[0] %= 4;
    let call = read(&Record::from_bytes(&bytes)).expect("a kind of 0 to 3");
    let mut back = [0xa5; RECORD_BYTES];
    if archive_write(&call, &mut back, 0) == 0 {
        // A make that was read has no list, and reads back so.
        let again = read(&Record::from_bytes(&back));
        assert_eq!(again, Ok(call), "fuzz: {bytes:?} written back as {back:?}");
    }
}

/// A call and a burst on a state with a flag that the reference has no word for.
fn try_flags(input: &mut Input, state: &presscurlew::State) {
    let mut bent = *state;
    let flag = input.of(&[2, 3, 256, u32::MAX]).max(2);
    match input.byte() % 3 {
        0 => bent.live = flag,
        1 => bent.pairing = flag,
        _ => bent.admitted = flag,
    }
    let stamp = state.stamp;
    hold_no_state(&bent, &input.call(stamp), &"flag");
    hold_no_state_burst(&bent, stamp, &"flag");
}

/// Follows the calls of an input from its state on.
fn follow(bytes: &[u8]) {
    let mut input = Input { bytes };
    let given = input.state();
    try_flags(&mut input, &given);
    let mut state = read_state(&given).unwrap_or_else(|| {
        // A word that says more than there was before the last admission.
        let stamp = given.stamp;
        hold_no_state(&given, &input.call(stamp), &"word");
        hold_no_state_burst(&given, stamp, &"word");
        fresh(1 + stamp % 5, stamp / 5 % 2, stamp)
    });
    while !input.bytes.is_empty() {
        if input.byte() % 4 == 3 {
            let (records, room) = input.burst(state.stamp);
            state = hold_burst(&state, &records, room, &"fuzz").0;
            continue;
        }
        let call = input.call(state.stamp);
        if input.byte() % 4 == 3 {
            try_write(&mut input, &call);
        }
        if sound(&state) {
            state = hold(&state, &call, &"fuzz").0;
        } else {
            hold_no_state(&raw(&state), &call, &"fuzz");
            // What was broken stays so: on with a fresh state.
            state = fresh(1 + state.stamp % 5, state.stamp / 5 % 2, state.stamp);
        }
    }
}

/// libFuzzer's entry.
///
/// # Safety
///
/// `data` points to `size` bytes that can be read.
#[no_mangle]
pub unsafe extern "C" fn LLVMFuzzerTestOneInput(data: *const u8, size: usize) -> i32 {
    if size > 0 {
        // SAFETY: libFuzzer hands over `size` bytes.
        follow(unsafe { std::slice::from_raw_parts(data, size) });
    }
    0
}
