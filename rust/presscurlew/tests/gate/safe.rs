//! `Gate` hands on what the archive answers, and keeps the state.

use crate::broken_states::broken_states;
use crate::help::{
    fresh, gate_of, random_count, random_words, raw, raw_counts, Answer, Call, EDGE_STEPS,
    PROFILES, WHEN_FULL,
};
use crate::sound_states::sound_state;
use presscurlew::{Gate, Offer, Packet, Profile, Refusal, State, WhenFull};
use reference::book::Book;
use reference::gate;
use reference::rng::Rng;

/// What a call on a `Gate` says, in the reference's words.
pub fn said(gate: &mut Gate, call: &Call) -> Answer {
    let answer = match *call {
        Call::SampleWords {
            probes,
            ref words,
            stamp,
        } => taken(gate.sample_words(probes, words, stamp)),
        Call::SampleCount {
            busy,
            probes,
            stamp,
        } => taken(gate.sample_count(busy, probes, stamp)),
        Call::Offer {
            id,
            priority,
            ontime,
            lifetime,
            stamp,
        } => taken(gate.offer(
            Offer {
                id,
                priority,
                ontime,
                lifetime,
            },
            stamp,
        )),
        Call::Poll { stamp } => gate.poll(stamp).map(polled),
    };
    answer.unwrap_or_else(|refusal| Answer::Refused(refusal.number()))
}

fn taken(answer: Result<(), Refusal>) -> Result<Answer, Refusal> {
    answer.map(|()| Answer::Taken)
}

/// The answer to a poll in the reference's words.
pub fn polled(answer: presscurlew::Answer) -> Answer {
    match answer {
        presscurlew::Answer::Sent(Packet {
            id,
            priority,
            ontime,
            lifetime,
            arrival,
        }) => Answer::Sent(reference::state::Packet {
            id,
            priority,
            ontime,
            lifetime,
            arrival,
        }),
        presscurlew::Answer::Idle => Answer::Idle,
        presscurlew::Answer::Closed { micros } => Answer::Closed(micros),
    }
}

/// Any call after the stamp `last`, most often one that is taken.
pub fn any_call(rng: &mut Rng, last: u32) -> Call {
    let step = if rng.one_in(30) {
        rng.pick(&EDGE_STEPS)
    } else {
        rng.below(30_000) as u32
    };
    let stamp = last.wrapping_add(step);
    match rng.below(8) {
        0 => {
            let (probes, words) = random_words(rng);
            Call::SampleWords {
                probes,
                words,
                stamp,
            }
        }
        1 => {
            let (busy, probes) = random_count(rng);
            Call::SampleCount {
                busy,
                probes,
                stamp,
            }
        }
        2..=4 => Call::Offer {
            id: rng.next_u32(),
            priority: rng.below(5) as u32,
            ontime: rng.below(510) as u32,
            lifetime: rng.pick(&[0, 1, 80_000, 2_000_000, 60_000_000, 60_000_001]),
            stamp,
        },
        _ => Call::Poll { stamp },
    }
}

#[test]
fn a_gate_says_what_the_reference_says() {
    for profile in PROFILES {
        for way in WHEN_FULL {
            follow(profile, way);
        }
    }
}

/// A gate, the reference and the book, call by call.
fn follow(profile: u32, way: WhenFull) {
    let mut rng = Rng::new(0x5afe + u64::from(profile));
    let stamp = rng.next_u32();
    let mut gate = gate_of(profile, way, stamp);
    let mut state = fresh(profile, way as u32, stamp);
    let mut book = Book::new(profile, stamp);
    for index in 0..100_000 {
        let call = any_call(&mut rng, state.stamp);
        let (next, answer) = gate::call(state, &call);
        let place = format!("profile {profile}, {way:?}, call {index}: {call:?}");
        let given = (said(&mut gate, &call), *gate.state());
        assert_eq!(given, (answer, raw(&next)), "{place}");
        book.feed(&call, &answer).unwrap();
        assert_eq!(gate.counts(), raw_counts(&book.counts()), "{place}");
        state = next;
    }
    let drops = way == WhenFull::DropOldest;
    assert_eq!(state.counts.displaced > 0, drops, "{:?}", state.counts);
}

/// The numbers that the archive knows the two ways by.
#[test]
fn ways_have_their_numbers() {
    assert_eq!(WHEN_FULL.map(|way| way as u32), [0, 1]);
    assert_eq!(WhenFull::default(), WhenFull::DropOldest);
    for way in WHEN_FULL {
        let gate = Gate::of_number(1, way, 0).unwrap();
        assert_eq!(gate.state().when_full, way as u32);
    }
}

#[test]
fn bad_profiles_make_no_gate() {
    for way in WHEN_FULL {
        for profile in [0, 6, u32::MAX] {
            let made = Gate::of_number(profile, way, 0);
            assert_eq!(made, Err(Refusal::BadProfile));
        }
        assert_eq!(Gate::of_number(5, way, 0), Err(Refusal::BadList));
        let named = Gate::new(Profile::FirstEdition, way, 0);
        assert_eq!(named, Err(Refusal::BadList));
    }
}

/// A gate of each profile that needs no list, by its name and by its number.
#[test]
fn a_name_makes_the_gate_of_its_number() {
    for profile in Profile::ALL {
        for way in WHEN_FULL {
            let named = Gate::new(*profile, way, 7);
            assert_eq!(named, Gate::of_number(profile.number(), way, 7));
            if let Ok(gate) = named {
                assert_eq!(gate.state().profile, profile.number());
            }
        }
    }
}

/// A gate that goes on with a stored state answers as the one that was left, to every call of a run.
#[test]
fn a_stored_state_goes_on() {
    for profile in PROFILES {
        for way in WHEN_FULL {
            let mut rng = Rng::new(0x5707e + u64::from(profile));
            let stamp = rng.next_u32();
            let mut gate = gate_of(profile, way, stamp);
            for index in 0..20_000 {
                let call = any_call(&mut rng, gate.state().stamp);
                let mut next = Gate::resume(*gate.state()).expect("a gate's own state");
                let answers = [said(&mut gate, &call), said(&mut next, &call)];
                let place = format!("profile {profile}, {way:?}, call {index}: {call:?}");
                assert_eq!(answers[0], answers[1], "{place}");
                assert_eq!(gate, next, "{place}");
                if rng.one_in(3) {
                    gate = next;
                }
            }
        }
    }
}

/// A state that is not sound is no gate's, whatever rule it breaks.
#[test]
fn a_state_that_is_not_sound_makes_no_gate() {
    assert_eq!(Gate::resume(State::default()), Err(Refusal::NoState));
    let mut seen = 0;
    for (rule, state) in broken_states() {
        let resumed = Gate::resume(raw(&state));
        assert_eq!(resumed, Err(Refusal::NoState), "{rule}: {state:?}");
        seen += 1;
    }
    assert!(seen > 10_000, "{seen}");
    let mut rng = Rng::new(0x5707f);
    for _ in 0..10_000 {
        let profile = rng.pick(&PROFILES);
        let state = raw(&sound_state(&mut rng, profile));
        let gate = Gate::resume(state).expect("a sound state");
        assert_eq!(*gate.state(), state);
    }
}

/// The requirement's table of refusal numbers.
#[test]
fn refusals_have_the_names_and_numbers_of_the_table() {
    let table = [
        (1, "BAD-PROFILE"),
        (2, "CLOCK-BACK"),
        (3, "CLOCK-END"),
        (4, "BAD-SAMPLE"),
        (5, "BAD-PRIORITY"),
        (6, "BAD-ON-TIME"),
        (7, "BAD-LIFETIME"),
        (8, "QUEUE-FULL"),
        (9, "NO-STATE"),
        (10, "BAD-KIND"),
        (11, "SPENT"),
        (12, "NO-ROOM"),
        (13, "TORN-LOG"),
        (15, "BAD-LIST"),
    ];
    for (number, name) in table {
        let refusal = Refusal::from_number(number).unwrap();
        assert_eq!((refusal.number(), refusal.name()), (number, name));
        assert!(refusal.to_string().starts_with(&format!("{name}: ")));
    }
    for number in [0, 14, 16, 255, u32::MAX] {
        assert_eq!(Refusal::from_number(number), None);
    }
}

#[test]
fn answers_are_shown_in_the_words_of_the_log() {
    let packet = Packet {
        id: 7,
        ..Packet::default()
    };
    assert_eq!(presscurlew::Answer::Sent(packet).to_string(), "SENT 7");
    assert_eq!(presscurlew::Answer::Idle.to_string(), "IDLE");
    assert_eq!(
        presscurlew::Answer::Closed { micros: 49_600 }.to_string(),
        "CLOSED 49600"
    );
}
