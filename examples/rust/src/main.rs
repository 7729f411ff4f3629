//! A host of the gate to start from: a trailer at roadworks that warns of the closed lane, tells its status and
//! sends the map of the site in pieces, over 4 s in which the channel gets crowded for a while.
//!
//! `examples/c/roadworks.c` is the same host in C, and both must write the same.
//!
//! The radio is played: its clock is `now`, which wraps on the way, and `hear_channel` makes up what it probes.
//! All else is what a host does: sample, offer, poll, and wait as long as `Closed` says. What comes together, warnings
//! among it, is offered together, as a burst.
//!
//! And a host stays silent for a second after it starts. What this trailer sent before it was switched off, or crashed,
//! a new gate can't know: two runs closer than that can put more on air together than the label says of each.
//!
//! ```text
//! roadworks [LOG [ANSWERS]]
//! ```
//!
//! records its calls to LOG, each before it is made, and writes what they were answered to ANSWERS, in the words of the
//! program `replay`: played, the log gives these answers. Without a LOG nothing is recorded.

use std::env;
use std::error::Error;
use std::fs::File;
use std::io::{self, BufWriter, Write};
use std::mem;

use presscurlew::{Answer, Counts, Offer, Packet, Recorder, WhenFull};

const START: u32 = 4_294_000_000;
const TICK_US: u32 = 10_000;
const TICKS: u32 = 400;

/// So long it does not poll after each start. What is offered meanwhile waits, and goes after it.
const SILENCE_US: u32 = 1_000_000;

/// The radio probes the channel each 8 µs, and is asked each 100 ms.
const PROBES: usize = 12_500;

/// What the host sends.
#[derive(Clone, Copy)]
struct Message {
    name: &'static str,
    priority: u32,
    ontime: u32,
    lifetime: u32,
}

const WARNING: usize = 0;
const STATUS: usize = 1;
const MAP: usize = 2;

const MESSAGES: [Message; 3] = [
    Message {
        name: "warning",
        priority: 0,
        ontime: 600,
        lifetime: 1_000_000,
    },
    Message {
        name: "status",
        priority: 2,
        ontime: 300,
        lifetime: 400_000,
    },
    Message {
        name: "map",
        priority: 3,
        ontime: 900,
        lifetime: 3_000_000,
    },
];

/// The message of an identifier.
fn message(id: u32) -> Message {
    MESSAGES[id as usize & 3]
}

/// Where the host writes to: a file, or nowhere.
type Sink = Box<dyn Write>;

/// What the host can't go on after: a refusal that it does not expect, or a file that can't be written.
type Fault = Box<dyn Error>;

struct Host {
    /// The gate, which records each call before it makes it.
    gate: Recorder<Sink>,
    /// What the calls were answered.
    answers: Sink,
    /// The radio's clock.
    now: u32,
    /// No poll before: a run before this one may have sent just now.
    silent_until: u32,
    /// No use to poll before: the gate said CLOSED.
    quiet_until: u32,
    /// The messages to offer next.
    ready: Vec<(Offer, u32)>,
    offered: u32,
    refused: u32,
    air_time: u32,
}

/// The probes of the channel, of which so many are busy.
fn hear_channel(busy: usize) -> [u64; PROBES.div_ceil(64)] {
    let mut words = [0; PROBES.div_ceil(64)];
    for k in 0..PROBES {
        if k * 7_919 % PROBES < busy {
            words[k / 64] |= 1 << (k % 64);
        }
    }
    words
}

impl Host {
    fn new(log: Sink, mut answers: Sink) -> Result<Host, Fault> {
        // The map's pieces all differ: none that was taken may be displaced, and one that finds no room is told.
        let gate = Recorder::new(1, WhenFull::RefuseNew, START, log)?;
        writeln!(answers, "READY")?;
        Ok(Host {
            gate,
            answers,
            now: START,
            silent_until: START.wrapping_add(SILENCE_US),
            quiet_until: START,
            ready: Vec::new(),
            offered: 0,
            refused: 0,
            air_time: 0,
        })
    }

    /// Writes a line with the time.
    fn tell(&self, what: &str) {
        let since_start = self.now.wrapping_sub(START);
        println!("{:5} ms  {what}", since_start / 1_000);
    }

    fn level(&self) -> u32 {
        self.gate.gate().state().level
    }

    fn sample(&mut self, busy: usize) -> Result<(), Fault> {
        let level = self.level();
        let words = hear_channel(busy);
        self.gate.sample_words(PROBES as u32, &words, self.now)?;
        writeln!(self.answers, "TAKEN")?;
        // The wait may be another one now, so the next poll is not put off any longer.
        self.quiet_until = self.now;
        let next = self.level();
        if next != level {
            self.tell(&format!("level {next}"));
        }
        Ok(())
    }

    /// Makes a message ready to be offered.
    fn prepare(&mut self, kind: usize) {
        let Message {
            priority,
            ontime,
            lifetime,
            ..
        } = MESSAGES[kind];
        let offer = Offer {
            // The host finds the message by the identifier when it is sent: the kind stands in its last two bits.
            id: self.offered << 2 | kind as u32,
            priority,
            ontime,
            lifetime,
        };
        self.offered += 1;
        self.ready.push((offer, self.now));
    }

    /// Offers all that is ready in one call.
    fn offer_burst(&mut self) -> Result<(), Fault> {
        let answers = self.gate.offer_burst(&self.ready)?;
        for ((offer, _), answer) in mem::take(&mut self.ready).into_iter().zip(answers) {
            let Err(refusal) = answer else {
                writeln!(self.answers, "TAKEN")?;
                continue;
            };
            writeln!(self.answers, "REFUSED {}", refusal.number())?;
            self.refused += 1;
            let (name, number) = (message(offer.id).name, offer.id >> 2);
            self.tell(&format!("{name} {number} refused: {}", refusal.name()));
        }
        Ok(())
    }

    /// Puts a packet on air.
    fn transmit(&mut self, packet: Packet) {
        self.air_time += packet.ontime;
        let waited = self.gate.gate().state().time - packet.arrival;
        let (name, number) = (message(packet.id).name, packet.id >> 2);
        self.tell(&format!(
            "{name} {number} sent, it waited {} ms",
            waited / 1_000
        ));
    }

    fn poll(&mut self) -> Result<(), Fault> {
        let answer = self.gate.poll(self.now)?;
        writeln!(self.answers, "{answer}")?;
        match answer {
            Answer::Sent(packet) => self.transmit(packet),
            // The gate is closed for at most 1,001,000 µs, so it fits.
            Answer::Closed { micros } => self.quiet_until = self.now.wrapping_add(micros as u32),
            Answer::Idle => {}
        }
        Ok(())
    }

    /// Whether a moment has come; on a clock that wraps, only differences tell.
    fn has_come(&self, moment: u32) -> bool {
        self.now.wrapping_sub(moment) < 1 << 31
    }

    fn tick(&mut self, t: u32) -> Result<(), Fault> {
        if t % 10 == 0 {
            self.sample(match t {
                0..150 => 2_500,
                150..250 => 8_750,
                _ => 1_250,
            })?;
        }
        if t % 50 == 2 {
            self.prepare(WARNING);
        }
        if t % 20 == 1 {
            self.prepare(STATUS);
        }
        if t == 155 {
            (0..6).for_each(|_| self.prepare(MAP));
        }
        if !self.ready.is_empty() {
            self.offer_burst()?;
        }
        if self.has_come(self.silent_until) && self.has_come(self.quiet_until) {
            self.poll()?;
        }
        self.now = self.now.wrapping_add(TICK_US);
        Ok(())
    }

    /// What the host has counted, and what the gate has: accepted is sent, expired, displaced and waiting together.
    fn sum_up(&self) {
        let Host {
            offered,
            refused,
            air_time,
            ..
        } = *self;
        println!("{offered} offered, {refused} refused; {air_time} us on air");
        let Counts {
            accepted,
            sent,
            expired,
            displaced,
        } = self.gate.gate().counts();
        let queues = self.gate.gate().state().queues.iter();
        let waiting: u32 = queues.map(|queue| queue.len).sum();
        println!("{accepted} accepted: {sent} sent, {expired} expired, {displaced} displaced, {waiting} waiting");
    }
}

/// The file of an argument, or nowhere if there is none.
fn sink(path: Option<String>) -> io::Result<Sink> {
    Ok(match path {
        Some(path) => Box::new(File::create(path)?),
        None => Box::new(io::sink()),
    })
}

fn main() -> Result<(), Fault> {
    let mut paths = env::args().skip(1);
    let log = sink(paths.next())?;
    let answers = BufWriter::new(sink(paths.next())?);
    let mut host = Host::new(log, Box::new(answers))?;
    for t in 0..TICKS {
        host.tick(t)?;
    }
    host.sum_up();
    writeln!(host.answers, "END")?;
    host.answers.flush()?;
    Ok(())
}
