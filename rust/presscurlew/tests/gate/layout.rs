//! Sizes and offsets of the structs. `examples/c/layout.c` and `plain_layout.c` print the same of the headers' structs, and
//! both are held to one file each, so that C and Rust see one layout.

use std::fmt::Write;
use std::mem::{offset_of, size_of};

use presscurlew::sys::{Levels, Reply};
use presscurlew::{Packet, Queue, State, Waiting};

const LAYOUT: &str = include_str!("../../../../examples/c/layout.out");
const PLAIN_LAYOUT: &str = include_str!("../../../../examples/c/plain_layout.out");

/// A line for the struct's size, then one for each field's offset, behind its name in so many places.
macro_rules! layout {
    ($text:ident, $wide:literal, $name:literal, $type:ty, $($field:ident)+) => {
        writeln!($text, "{} {} bytes", $name, size_of::<$type>()).unwrap();
        $(
            let (name, at) = (stringify!($field), offset_of!($type, $field));
            writeln!($text, "  {name:<0$} at {at:>4}", $wide).unwrap();
        )+
    };
}

#[test]
fn structs_lie_as_c_sees_them() {
    let mut text = String::new();
    layout!(text, 11, "packet", Packet, id priority ontime lifetime arrival);
    layout!(text, 11, "waiting", Waiting, id ontime lifetime);
    layout!(text, 11, "queue", Queue, len packets);
    layout!(text, 11, "levels", Levels, count base_wait thresholds waits);
    layout!(text, 11, "reply", Reply, packet number kind);
    layout!(text, 11, "gate", State,
        time last_at accepted sent expired displaced
        arrivals
        stamp last_ontime admitted level duty smoothed kept pairing latest
        admissions load_count profile when_full live level_count base_wait
        queues air loads thresholds waits);
    assert_eq!(text, LAYOUT);
}

#[test]
fn structs_of_the_plain_engine_lie_as_c_sees_them() {
    use plainhost::{
        BurstTurn, Clock, Counts, Last, Ledger, Levels, Line, Loads, State, Tuning, Turn,
    };
    let mut text = String::new();
    layout!(text, 10, "line", Line, len packets);
    layout!(text, 10, "ledger", Ledger, len slots);
    layout!(text, 10, "loads", Loads, len slots);
    layout!(text, 10, "levels", Levels, len base_wait thresholds waits);
    layout!(text, 10, "clock", Clock, time stamp);
    layout!(text, 10, "last", Last, at ontime admitted);
    layout!(text, 10, "counts", Counts, accepted sent expired displaced);
    layout!(text, 10, "tuning", Tuning, level duty smoothed kept pairing latest);
    layout!(text, 10, "state", State,
        line ledger loads levels clock last counts tuning profile when_full live);
    layout!(text, 10, "turn", Turn, state reply);
    layout!(text, 10, "burst_turn", BurstTurn, state number);
    assert_eq!(text, PLAIN_LAYOUT);
}
