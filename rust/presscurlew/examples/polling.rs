//! A host that sleeps as long as the gate says.
//!
//! It wakes for three things: a sample of the channel, a new warning, and the moment that CLOSED named. Each time it polls
//! until nothing more may go. In the first second after the make it doesn't poll: what the radio sent before, a fresh gate
//! doesn't know.
//!
//! The radio is played. Its clock wraps on the way, and from 2 s to 3 s its channel is crowded.

use presscurlew::{Answer, Gate, Offer, Profile, Refusal, WhenFull};

/// The radio's clock when the host starts, half a second before it wraps.
const START: u32 = 4_294_467_296;

/// In µs since the start: how long the host runs, and how often it samples and warns.
const END: u32 = 4_000_000;
const SAMPLE_EACH: u32 = 100_000;
const WARN_EACH: u32 = 350_000;

fn stamp(time: u32) -> u32 {
    START.wrapping_add(time)
}

fn tell(time: u32, what: &str) {
    println!("{:5} ms  {what}", time / 1_000);
}

/// How many of 1,000 probes find the channel busy.
fn busy(time: u32) -> u32 {
    match time {
        2_000_000..3_000_000 => 900,
        _ => 200,
    }
}

fn sample(gate: &mut Gate, time: u32) -> Result<(), Refusal> {
    let level = gate.state().level;
    gate.sample_count(busy(time), 1_000, stamp(time))?;
    if gate.state().level != level {
        tell(time, &format!("level {}", gate.state().level));
    }
    Ok(())
}

fn warn(gate: &mut Gate, time: u32) -> Result<(), Refusal> {
    let warning = Offer {
        id: time / WARN_EACH,
        priority: 0,
        ontime: 600,
        lifetime: 1_500_000,
    };
    gate.offer(warning, stamp(time))
}

/// Polls until nothing more may go. When to ask again, if something waits.
fn poll(gate: &mut Gate, time: u32) -> Result<Option<u32>, Refusal> {
    loop {
        match gate.poll(stamp(time))? {
            // Here it goes on air, now and once.
            Answer::Sent(packet) => {
                let waited = (gate.state().time - packet.arrival) / 1_000;
                let what = format!("warning {} goes, it waited {waited} ms", packet.id);
                tell(time, &what);
            }
            // It is 1,001,000 at most, and fits.
            Answer::Closed { micros } => return Ok(Some(time + micros as u32)),
            Answer::Idle => return Ok(None),
        }
    }
}

fn main() -> Result<(), Refusal> {
    let mut gate = Gate::new(Profile::ReactiveA1, WhenFull::DropOldest, START)?;
    let (mut sample_at, mut warn_at) = (0, WARN_EACH);
    let mut poll_at = Some(Gate::SILENCE);
    loop {
        // A radio would sleep until the first of the three.
        let time = sample_at.min(warn_at).min(poll_at.unwrap_or(END));
        if time >= END {
            break;
        }
        if time == sample_at {
            sample(&mut gate, time)?;
            sample_at += SAMPLE_EACH;
        }
        if time == warn_at {
            warn(&mut gate, time)?;
            warn_at += WARN_EACH;
        }
        // Also after a sample: the wait may be another one now.
        if time >= Gate::SILENCE {
            poll_at = poll(&mut gate, time)?;
        }
    }
    println!("{gate:#?}");
    Ok(())
}
