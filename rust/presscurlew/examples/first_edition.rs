//! An older trailer abroad: profile 5, by a list of levels that the radio maker gives.
//!
//! A sample comes each 100 ms, and each 50 ms a warning of 500 µs. The level goes up once the last ten samples reach its
//! load: a second after the noise began, and at once as far as all ten reach. It goes down once none of the last fifty
//! does, after five seconds of quiet. Each line is a second of it. The first is silent, as always after a make.

use presscurlew::{Answer, Gate, Level, Offer, Refusal, WhenFull};

/// The wait of level 0, and the levels above it: the load that leads to each, and its wait.
const BASE_WAIT: u32 = 60_000;
const LEVELS: [Level; 3] = [
    Level {
        threshold: 200_000,
        wait: 100_000,
    },
    Level {
        threshold: 400_000,
        wait: 300_000,
    },
    Level {
        threshold: 700_000,
        wait: 1_000_000,
    },
];

/// How many of 1,000 probes find the channel busy, by the second.
const BUSY: [u32; 13] = [
    50, 50, 450, 450, 900, 900, 100, 100, 100, 100, 100, 100, 100,
];

const STEP: u32 = 50_000;
const STEPS: u32 = 20;

/// Plays a second: how many warnings were sent in it.
fn play(gate: &mut Gate, second: u32, busy: u32) -> Result<u32, Refusal> {
    let mut sent = 0;
    for step in 0..STEPS {
        let now = (second * STEPS + step) * STEP;
        if step % 2 == 0 {
            gate.sample_count(busy, 1_000, now)?;
        }
        let warning = Offer {
            id: now,
            priority: 0,
            ontime: 500,
            lifetime: STEP,
        };
        gate.offer(warning, now)?;
        if now >= Gate::SILENCE {
            sent += u32::from(matches!(gate.poll(now)?, Answer::Sent(_)));
        }
    }
    Ok(sent)
}

/// The wait of the level that the gate is at.
fn wait(gate: &Gate) -> u32 {
    match gate.state().level {
        0 => BASE_WAIT,
        level => LEVELS[level as usize - 1].wait,
    }
}

fn main() -> Result<(), Refusal> {
    let mut gate = Gate::first_edition(BASE_WAIT, &LEVELS, WhenFull::DropOldest, 0)?;
    for (second, busy) in (0..).zip(BUSY) {
        let sent = play(&mut gate, second, busy)?;
        let (level, wait) = (gate.state().level, wait(&gate) / 1_000);
        println!(
            "{second:2} s: load {:2} %, level {level}, wait {wait:4} ms, {sent:2} sent",
            busy / 10
        );
    }

    // A list that breaks a rule makes no gate: thresholds have to rise.
    let [low, high, _] = LEVELS;
    for bad in [&[high, low][..], &[low, low], &[]] {
        let refused = Gate::first_edition(BASE_WAIT, bad, WhenFull::DropOldest, 0);
        println!("{} levels: {}", bad.len(), refused.expect_err("a bad list"));
    }
    Ok(())
}
