//! States as bytes: what is stored is read back, what is damaged is refused, and a gate goes on where it was.

use std::mem::size_of;

use crate::broken_states::{base, ledger_states, listed_states};
use crate::help::{
    bytes_of, fresh, gate_of, gates, hold_any, raw, read_state, Call, PROFILES, WHEN_FULL,
};
use crate::safe::{any_call, said};
use crate::sound_states::sound_state;
use presscurlew::{sys, Answer, Gate, Offer, Profile, State, StateError, WhenFull};
use reference::gate;
use reference::rng::Rng;
use reference::state::sound;

const BYTES: usize = State::BYTES;
/// Where the numbers of the state begin.
const HEAD: usize = 16;

/// The CRC-32 of zlib, worked out otherwise than in the package: bit by bit, from the highest on, over bits in the order in
/// which they are sent.
fn sum_of(bytes: &[u8]) -> u32 {
    let sent = |byte: u8| (0..8).map(move |k| (byte >> k) & 1 == 1);
    let shift = |sum: u32, bit: bool| {
        let top = sum >> 31 == 1;
        (sum << 1) ^ if top != bit { 0x04c1_1db7 } else { 0 }
    };
    let sum = bytes.iter().copied().flat_map(sent).fold(u32::MAX, shift);
    !sum.reverse_bits()
}

/// The bytes with the check sum that is theirs.
fn summed(mut bytes: [u8; BYTES]) -> [u8; BYTES] {
    let sum = sum_of(&bytes[8..]);
    bytes[4..8].copy_from_slice(&sum.to_le_bytes());
    bytes
}

/// What a state is stored as, its numbers as they lie in memory here.
fn due_bytes(state: &State) -> [u8; BYTES] {
    let mut bytes = [0; BYTES];
    bytes[..4].copy_from_slice(b"PCST");
    bytes[8..12].copy_from_slice(&sys::VERSION_NUMBER.to_le_bytes());
    bytes[12..16].copy_from_slice(&sys::LAYOUT.to_le_bytes());
    bytes[HEAD..].copy_from_slice(&bytes_of(state));
    summed(bytes)
}

/// States of every kind: fresh, with queues and ledgers of every length, and any sound ones.
fn states() -> Vec<State> {
    let mut rng = Rng::new(0xb17e5);
    let mut states: Vec<State> = gates()
        .map(|(profile, way)| raw(&fresh(profile, way, 77)))
        .collect();
    for profile in PROFILES {
        states.extend((0..=5).map(|length| raw(&base(profile, length))));
        states.extend(ledger_states(profile).iter().map(raw));
        states.extend(listed_states(profile).iter().map(raw));
        states.extend((0..20).map(|_| raw(&sound_state(&mut rng, profile))));
    }
    states
}

#[test]
fn a_stored_state_has_the_form_that_is_said() {
    assert_eq!((BYTES, size_of::<State>()), (968, 952));
    assert_eq!(sum_of(b"123456789"), 0xcbf4_3926);
    for state in states() {
        let bytes = state.to_bytes();
        assert_eq!(bytes, due_bytes(&state), "{state:?}");
        assert_eq!(State::from_bytes(&bytes), Ok(state));
    }
}

/// Numbers of no sense are stored and read back as well: they are judged when a gate is to go on with them.
#[test]
fn any_numbers_at_all_read_back() {
    let mut rng = Rng::new(0xa11);
    for round in 0..2_000 {
        let mut bytes = State::default().to_bytes();
        bytes[HEAD..].fill_with(|| match round % 3 {
            0 => rng.next_u32() as u8,
            1 => rng.pick(&[0, 1, 255]),
            _ => u8::from(rng.one_in(50)),
        });
        let bytes = summed(bytes);
        let state = State::from_bytes(&bytes).expect("stored bytes");
        assert_eq!(state.to_bytes(), bytes);
        let sound = read_state(&state).is_some_and(|state| sound(&state));
        assert_eq!(Gate::resume(state).is_ok(), sound, "{state:?}");
    }
}

/// A gate that is stored and read back now and then, one that is not, and the reference, call by call.
#[test]
fn a_run_goes_on_through_bytes() {
    for profile in PROFILES {
        for way in WHEN_FULL {
            for seed in 0..4 {
                let seed = 0x570e_0000 + 16 * u64::from(profile) + seed;
                println!("profile {profile}, {way:?}, seed {seed:#x}");
                go_on(profile, way, &mut Rng::new(seed));
            }
        }
    }
}

fn go_on(profile: u32, way: WhenFull, rng: &mut Rng) {
    let stamp = rng.next_u32();
    let mut stored = gate_of(profile, way, stamp);
    let mut through = gate_of(profile, way, stamp);
    let mut state = fresh(profile, way as u32, stamp);
    for index in 0..4_000 {
        if rng.one_in(3) {
            let bytes = stored.state().to_bytes();
            let read = State::from_bytes(&bytes).expect("a stored state");
            stored = Gate::resume(read).expect("a gate's own state");
        }
        let call = any_call(rng, state.stamp);
        let (next, answer) = gate::call(state, &call);
        let given = [said(&mut stored, &call), said(&mut through, &call)];
        let place = format!("profile {profile}, {way:?}, call {index}: {call:?}");
        assert_eq!(given, [answer; 2], "{place}");
        assert_eq!(stored, through, "{place}");
        assert_eq!(*stored.state(), raw(&next), "{place}");
        state = next;
    }
}

/// A stored byte that is another one is seen.
#[test]
fn a_byte_that_went_bad_is_refused() {
    for profile in PROFILES {
        let bytes = raw(&base(profile, 3)).to_bytes();
        for place in 0..BYTES {
            for flip in (0..8).map(|bit| 1 << bit).chain([255]) {
                let mut bad = bytes;
                bad[place] ^= flip;
                let error = State::from_bytes(&bad).expect_err("a bad byte");
                let due = match place {
                    0..4 => error == StateError::BadMark,
                    8..16 => matches!(error, StateError::OtherEdition { .. }),
                    _ => error == StateError::BadSum,
                };
                assert!(due, "byte {place} with {flip:#x}: {error:?}");
            }
        }
    }
}

/// Where the check sum agrees with the bad byte, it is the gate that judges: what it goes on with is sound, and it answers
/// as the reference does.
#[test]
fn a_byte_that_the_sum_agrees_with_is_judged_by_the_gate() {
    let mut rng = Rng::new(0xf11b);
    let mut seen = [0; 2];
    for state in states().into_iter().step_by(5) {
        let bytes = state.to_bytes();
        for place in HEAD..BYTES {
            let mut bent = bytes;
            bent[place] ^= rng.pick(&[1, 2, 4, 8, 16, 32, 64, 128, 255]);
            let bent = State::from_bytes(&summed(bent)).expect("its check sum is right");
            assert_ne!(bent, state);
            let call = Call::Poll { stamp: bent.stamp };
            let sound = hold_any(&bent, &call, &format_args!("byte {place} of {state:?}"));
            assert_eq!(Gate::resume(bent).is_ok(), sound, "byte {place}: {bent:?}");
            seen[usize::from(sound)] += 1;
        }
    }
    assert!(seen[0] > 30_000 && seen[1] > 1_000, "{seen:?}");
}

#[test]
fn bytes_that_are_cut_or_too_many_are_refused() {
    let state = raw(&base(3, 4));
    let stored = state.to_bytes();
    for length in 0..BYTES {
        let error = State::from_bytes(&stored[..length]);
        assert_eq!(error, Err(StateError::BadLength { bytes: length }));
    }
    for more in [1, 2, 16, BYTES] {
        let bytes = [&stored[..], &vec![0; more]].concat();
        let due = StateError::BadLength {
            bytes: BYTES + more,
        };
        assert_eq!(State::from_bytes(&bytes), Err(due));
    }
    // As many as are due, but the first is missing; and an empty page of flash.
    let late = [&stored[1..], &[0]].concat();
    assert_eq!(State::from_bytes(&late), Err(StateError::BadMark));
    for blank in [0, 255] {
        let blank = State::from_bytes(&[blank; BYTES]);
        assert_eq!(blank, Err(StateError::BadMark));
    }
}

/// What another version stored is refused, whatever its length, and the error says which it was.
#[test]
fn another_edition_is_refused() {
    let (version, layout) = (sys::VERSION_NUMBER, sys::LAYOUT);
    let others = [
        (version + 1, layout),
        (version - 1, layout),
        (9_000, layout),
        (version, layout ^ 1),
        (version, 0),
        (0, 0),
        (layout, version),
    ];
    for (version, layout) in others {
        let mut bytes = raw(&base(1, 2)).to_bytes();
        bytes[8..12].copy_from_slice(&version.to_le_bytes());
        bytes[12..16].copy_from_slice(&layout.to_le_bytes());
        let bytes = summed(bytes);
        let due = StateError::OtherEdition { version, layout };
        for length in [HEAD, 500, BYTES] {
            assert_eq!(State::from_bytes(&bytes[..length]), Err(due));
        }
        let longer = [&bytes[..], &[0; 40]].concat();
        assert_eq!(State::from_bytes(&longer), Err(due));
    }
}

/// A gate before it sends a packet, and after it.
fn before_and_after() -> [State; 2] {
    let mut gate = Gate::new(Profile::ReactiveA1, WhenFull::DropOldest, 0).unwrap();
    let offer = |id| Offer {
        id,
        priority: 1,
        ontime: 400,
        lifetime: 1_000_000,
    };
    gate.offer(offer(7), 1_000_000).unwrap();
    assert!(matches!(gate.poll(1_000_000), Ok(Answer::Sent(_))));
    gate.offer(offer(8), 1_500_000).unwrap();
    let before = *gate.state();
    assert!(matches!(gate.poll(1_600_000), Ok(Answer::Sent(_))));
    [before, *gate.state()]
}

/// A write over the stored bytes that was cut off leaves the state before, the one after, or bytes that are refused.
#[test]
fn a_write_that_was_cut_off_is_seen() {
    let [before, after] = before_and_after();
    let [old, new] = [before, after].map(|state| state.to_bytes());
    let mut unseen = 0;
    for written in 0..=BYTES {
        let torn = [&new[..written], &old[written..]].concat();
        match State::from_bytes(&torn) {
            Ok(state) => assert!(state == before || state == after, "{written}"),
            Err(error) => assert_eq!(error, StateError::BadSum, "{written}"),
        }
        // What is neither of the two can be sound all the same: without the sum nobody would see it.
        let mixed = State::from_bytes(&summed(torn.try_into().unwrap())).unwrap();
        unseen += u32::from(mixed != before && mixed != after && sys::is_sound(&mixed));
    }
    assert!(unseen > 0);
}
