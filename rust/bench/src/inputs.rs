//! Random numbers that no call refuses, made before anything is timed. The same in every run.

use crate::draw::Draw;

/// Inputs for each call: more than most branch predictors learn by heart.
const INPUTS: usize = 1 << 15;

impl Draw {
    fn load(&mut self) -> u32 {
        self.between(0, 1_000_000)
    }

    fn duty(&mut self) -> u32 {
        self.between(600_000, 30_000_000)
    }
}

fn many<const N: usize>(one: impl Fn(&mut Draw) -> [u32; N]) -> Vec<[u32; N]> {
    let mut draw = Draw::new();
    (0..INPUTS).map(|_| one(&mut draw)).collect()
}

/// Profile and load.
pub fn wanted_level() -> Vec<[u32; 2]> {
    many(|draw| [draw.between(1, 2), draw.load()])
}

/// Profile, load and level.
pub fn level_step() -> Vec<[u32; 3]> {
    many(|draw| [draw.between(1, 2), draw.load(), draw.between(0, 4)])
}

/// Duty and three loads.
pub fn duty_update() -> Vec<[u32; 4]> {
    many(|draw| [draw.duty(), draw.load(), draw.load(), draw.load()])
}

/// Duty and three loads, as fractions of 1.
pub fn float_update() -> Vec<[f64; 4]> {
    let fractions = |[duty, smoothed, kept, new]: [u32; 4]| {
        let loads = [smoothed, kept, new].map(|load| f64::from(load) / 1e6);
        [f64::from(duty) / 1e9, loads[0], loads[1], loads[2]]
    };
    duty_update().into_iter().map(fractions).collect()
}

/// Profile of a range, level, duty, an on-time that the profile allows, and a load.
pub fn wait(first: u32, last: u32) -> Vec<[u32; 5]> {
    many(|draw| {
        let profile = draw.between(first, last);
        let most_ontime = [1_000, 500, 4_000, 4_000][profile as usize - 1];
        [
            profile,
            draw.between(0, 4),
            draw.duty(),
            draw.between(1, most_ontime),
            draw.load(),
        ]
    })
}
