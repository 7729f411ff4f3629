//! `Gate` by `{:#?}`: a screenful, with what a person wants to see.

use crate::help::{gate_of, PROFILES, WHEN_FULL};
use crate::safe::{any_call, said};
use presscurlew::{Gate, Level, Offer, WhenFull};
use reference::rng::Rng;

/// The lines and columns of a small terminal.
const LINES: usize = 24;
const COLUMNS: usize = 120;

#[test]
fn a_fresh_gate_is_shown() {
    let gate = Gate::of_number(3, WhenFull::RefuseNew, 77).unwrap();
    let due = "\
Gate {
    profile: Adaptive,
    when_full: RefuseNew,
    time: 0,
    stamp: 77,
    duty: 600000,
    smoothed: 0,
    counts: Counts { accepted: 0, sent: 0, expired: 0, displaced: 0 },
    waiting: {},
    last: None,
    last_second: { admissions: 0, ontime: 0 },
    ..
}";
    assert_eq!(format!("{gate:#?}"), due);
}

#[test]
fn a_gate_in_one_line() {
    let levels = [Level {
        threshold: 300_000,
        wait: 200_000,
    }];
    let mut gate = Gate::first_edition(60_000, &levels, WhenFull::DropOldest, 0).unwrap();
    for (id, priority) in [(7, 3), (8, 0), (7, 3)] {
        let offer = Offer {
            id,
            priority,
            ontime: 400,
            lifetime: 60_000,
        };
        gate.offer(offer, 1_000_000).unwrap();
    }
    (0..10).for_each(|_| gate.sample_count(1_000, 1_000, 1_000_001).unwrap());
    let due = "Gate { profile: FirstEdition, when_full: DropOldest, time: 1000001, stamp: 1000001, level: 1, \
               counts: Counts { accepted: 3, sent: 0, expired: 0, displaced: 0 }, waiting: {0: [8], 3: [7, 7]}, \
               last: None, last_second: { admissions: 0, ontime: 0 }, .. }";
    assert_eq!(format!("{gate:?}"), due);
}

/// Whatever the gate has, a screen is enough, and each identifier that waits is on it.
#[test]
fn a_gate_is_a_screenful_throughout_a_run() {
    let (mut most_lines, mut most_columns) = (0, 0);
    for profile in PROFILES {
        for way in WHEN_FULL {
            let seed = 0x5c4ee + u64::from(profile);
            println!("profile {profile}, {way:?}, seed {seed:#x}");
            let mut rng = Rng::new(seed);
            let mut gate = gate_of(profile, way, rng.next_u32());
            for _ in 0..5_000 {
                let call = any_call(&mut rng, gate.state().stamp);
                said(&mut gate, &call);
                let shown = format!("{gate:#?}");
                hold_all_waiting(&gate, &shown);
                most_lines = most_lines.max(shown.lines().count());
                let columns = shown.lines().map(|line| line.chars().count()).max();
                most_columns = most_columns.max(columns.unwrap());
            }
        }
    }
    assert!((14..=LINES).contains(&most_lines), "{most_lines}");
    assert!(most_columns <= COLUMNS, "{most_columns}");
}

fn hold_all_waiting(gate: &Gate, shown: &str) {
    for (priority, queue) in gate.state().queues.iter().enumerate() {
        let ids: Vec<u32> = queue.waiting().iter().map(|packet| packet.id).collect();
        let line = format!("        {priority}: {ids:?},\n");
        assert_eq!(shown.contains(&line), !ids.is_empty(), "{line}{shown}");
    }
    let counts = gate.counts();
    let line = format!("    counts: {counts:?},\n");
    assert!(shown.contains(&line), "{line}{shown}");
}
