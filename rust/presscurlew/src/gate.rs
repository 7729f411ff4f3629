//! The gate, what it is offered, and what it answers.

#[cfg(feature = "alloc")]
use alloc::{vec, vec::Vec};
use core::error::Error;
use core::fmt;

use crate::profile::Profile;
use crate::state::{Counts, Level, Packet, Queue, State};
use crate::sys;

/// The gate of one channel: it takes samples and packets, and says when a packet may go.
///
/// **First a second of silence.** A fresh gate knows nothing of what the radio sent before. It is polled for the first
/// time [`Gate::SILENCE`] µs after it was made, or later; it may be sampled and offered packets at once. A gate that goes on
/// with a stored state ([`Gate::resume`]) is polled when the host likes.
///
/// Every call takes the radio's stamp, a 32-bit count of µs that starts anywhere and wraps. The gate has to be
/// called at least once in 2,147,483,647 µs (some 35 minutes); after a longer time the clock seems to have gone
/// back.
///
/// It holds its state and lets nobody change it: every state that it is in is sound, and came from its own calls or from
/// the state that it went on with. It can't be cloned: each of two copies would admit packets for itself, and together
/// they would send more than one gate may.
///
/// ```
/// use presscurlew::{Answer, Gate, Offer, Profile, Refusal, WhenFull};
///
/// // The radio's 32-bit count wraps in the middle of this; the gate does not mind.
/// let made: u32 = 4_293_967_296;
/// let mut gate = Gate::new(Profile::ReactiveA2, WhenFull::DropOldest, made)?;
/// gate.offer(Offer { id: 7, priority: 2, ontime: 400, lifetime: 2_000_000 }, made + 100)?;
/// gate.offer(Offer { id: 8, priority: 1, ontime: 400, lifetime: 2_000_000 }, made + 100)?;
///
/// // A second after the make the radio's count is 0: the first poll.
/// let Answer::Sent(packet) = gate.poll(made.wrapping_add(Gate::SILENCE))? else { panic!() };
/// assert_eq!(packet.id, 8);
/// // It is on air for 400 µs, and then the wait starts: 50,000 µs at level 0.
/// assert_eq!(gate.poll(400)?, Answer::Closed { micros: 50_000 });
/// assert_eq!(gate.poll(50_000)?, Answer::Closed { micros: 400 });
///
/// // A clock that goes back is refused, and the gate stays as it was.
/// assert_eq!(gate.poll(49_999), Err(Refusal::ClockBack));
/// assert_eq!(gate.poll(50_000)?, Answer::Closed { micros: 400 });
///
/// let Answer::Sent(packet) = gate.poll(50_400)? else { panic!() };
/// assert_eq!(packet.id, 7);
/// assert_eq!(gate.poll(50_400)?, Answer::Idle);
///
/// let counts = gate.counts();
/// assert_eq!((counts.accepted, counts.sent, counts.expired), (2, 2, 0));
/// # Ok::<(), Refusal>(())
/// ```
#[derive(PartialEq, Eq)]
pub struct Gate {
    state: State,
}

/// At most a screenful: what steers the gate, what was counted, the identifiers that wait by priority, the last admission,
/// and what was admitted in the last second. [`Gate::state`] has every number.
///
/// ```
/// use presscurlew::{Answer, Gate, Offer, Profile, Refusal, WhenFull};
///
/// let mut gate = Gate::new(Profile::ReactiveA1, WhenFull::DropOldest, 0)?;
/// for (id, priority) in [(7, 0), (8, 0), (9, 2)] {
///     gate.offer(Offer { id, priority, ontime: 600, lifetime: 2_000_000 }, 1_000)?;
/// }
/// assert!(matches!(gate.poll(1_000_000)?, Answer::Sent(_)));
/// let shown = "\
/// Gate {
///     profile: ReactiveA1,
///     when_full: DropOldest,
///     time: 1000000,
///     stamp: 1000000,
///     level: 0,
///     counts: Counts { accepted: 3, sent: 1, expired: 0, displaced: 0 },
///     waiting: {
///         0: [8],
///         2: [9],
///     },
///     last: Some(Admission { at: 1000000, ontime: 600 }),
///     last_second: { admissions: 1, ontime: 600 },
///     ..
/// }";
/// assert_eq!(format!("{gate:#?}"), shown);
/// # Ok::<(), Refusal>(())
/// ```
impl fmt::Debug for Gate {
    fn fmt(&self, f: &mut fmt::Formatter<'_>) -> fmt::Result {
        let state = &self.state;
        let profile = Profile::try_from(state.profile);
        let name: &dyn fmt::Debug = match &profile {
            Ok(profile) => profile,
            // No sound state has another.
            Err(_) => &state.profile,
        };
        let when_full = match state.when_full {
            sys::DROP_OLDEST => WhenFull::DropOldest,
            _ => WhenFull::RefuseNew,
        };
        let mut shown = f.debug_struct("Gate");
        shown
            .field("profile", name)
            .field("when_full", &when_full)
            .field("time", &state.time)
            .field("stamp", &state.stamp);
        match profile {
            Ok(Profile::Adaptive) => shown
                .field("duty", &state.duty)
                .field("smoothed", &state.smoothed),
            Ok(Profile::Harmonised) => shown.field("latest", &state.latest),
            _ => shown.field("level", &state.level),
        };
        let admissions = state.last_second().count();
        let ontime: u32 = state.last_second().map(|one| one.ontime).sum();
        shown
            .field("counts", &format_args!("{:?}", state.counts()))
            .field("waiting", &Identifiers(&state.queues))
            .field("last", &format_args!("{:?}", state.last_admission()))
            .field(
                "last_second",
                &format_args!("{{ admissions: {admissions}, ontime: {ontime} }}"),
            )
            .finish_non_exhaustive()
    }
}

/// Shows the identifiers that wait, a line for each priority that has some.
struct Identifiers<'a>(&'a [Queue; 4]);

impl fmt::Debug for Identifiers<'_> {
    fn fmt(&self, f: &mut fmt::Formatter<'_>) -> fmt::Result {
        let mut shown = f.debug_map();
        for (priority, queue) in self.0.iter().enumerate() {
            let ids = queue.packets.map(|packet| packet.id);
            match queue.waiting().len() {
                0 => continue,
                len => shown.entry(&priority, &format_args!("{:?}", &ids[..len])),
            };
        }
        shown.finish()
    }
}

/// What a gate does with an offer that finds 5 unexpired packets of its priority.
///
/// ```
/// use presscurlew::{Gate, Offer, Profile, Refusal, WhenFull};
///
/// let offer = |id| Offer { id, priority: 1, ontime: 400, lifetime: 60_000 };
/// let mut dropping = Gate::new(Profile::ReactiveA1, WhenFull::DropOldest, 0)?;
/// let mut refusing = Gate::new(Profile::ReactiveA1, WhenFull::RefuseNew, 0)?;
/// for id in 1..=5 {
///     dropping.offer(offer(id), 0)?;
///     refusing.offer(offer(id), 0)?;
/// }
/// dropping.offer(offer(6), 0)?;
/// assert_eq!(dropping.state().queues[1].packets.map(|packet| packet.id), [2, 3, 4, 5, 6]);
/// assert_eq!(dropping.counts().displaced, 1);
///
/// assert_eq!(refusing.offer(offer(6), 0), Err(Refusal::QueueFull));
/// assert_eq!(refusing.state().queues[1].packets.map(|packet| packet.id), [1, 2, 3, 4, 5]);
/// # Ok::<(), Refusal>(())
/// ```
#[repr(u32)]
#[derive(Clone, Copy, Debug, Default, PartialEq, Eq, Hash)]
pub enum WhenFull {
    /// The front one leaves, and the new one joins. What is news goes in; a packet can be displaced, though by none
    /// before the fifth of its own priority that is taken after it.
    #[default]
    DropOldest = sys::DROP_OLDEST,
    /// The new one is refused with [`Refusal::QueueFull`]. A packet that was taken is sent or expires.
    RefuseNew = sys::REFUSE_NEW,
}

/// A packet to send.
#[derive(Clone, Copy, Debug, PartialEq, Eq, Hash)]
pub struct Offer {
    /// The host's own name for it: any number, repeats allowed.
    pub id: u32,
    /// The priority, 0 (highest) to 3.
    pub priority: u32,
    /// The time on air in µs: at most 1,000, 500, 4,000, 4,000 or 1,000, by the profile.
    pub ontime: u32,
    /// How long it may wait, in µs: at most 60,000,000.
    pub lifetime: u32,
}

/// What a poll answers. One that is dropped may be a packet that is never sent, so the compiler warns of it:
///
/// ```compile_fail
/// # #![deny(unused_must_use)]
/// # let mut gate = presscurlew::Gate::of_number(1, presscurlew::WhenFull::DropOldest, 0)?;
/// # let now = presscurlew::Gate::SILENCE;
/// gate.poll(now)?;
/// # Ok::<(), presscurlew::Refusal>(())
/// ```
///
/// ```
/// # #![deny(unused_must_use)]
/// # let mut gate = presscurlew::Gate::of_number(1, presscurlew::WhenFull::DropOldest, 0)?;
/// # let now = presscurlew::Gate::SILENCE;
/// let answer = gate.poll(now)?;
/// # Ok::<(), presscurlew::Refusal>(())
/// ```
#[must_use = "a packet that is SENT has left its queue, and goes on air now or never"]
#[derive(Clone, Copy, Debug, PartialEq, Eq, Hash)]
pub enum Answer {
    /// This packet has left its queue, and goes on air now.
    Sent(Packet),
    /// Nothing waits.
    Idle,
    /// The gate is closed.
    Closed {
        /// The µs after which the packet that is next would go, if no sample and no offer came between and it did not
        /// expire: at least 1, and at most 1,001,000 in profiles 1 and 5, 1,000,500 in profile 2, 1,000,000 in profile 3
        /// and 1,004,000 in profile 4.
        micros: u64,
    },
}

impl fmt::Display for Answer {
    fn fmt(&self, f: &mut fmt::Formatter<'_>) -> fmt::Result {
        match self {
            Answer::Sent(packet) => write!(f, "SENT {}", packet.id),
            Answer::Idle => f.write_str("IDLE"),
            Answer::Closed { micros } => write!(f, "CLOSED {micros}"),
        }
    }
}

impl Offer {
    /// The offer at a stamp as a record of a burst ([`sys::burst`]): kind 2, priority (1 byte), on-time (2), lifetime
    /// (4), identifier (4), stamp (4), little-endian. [`Gate::offer_burst`] does it by itself.
    ///
    /// A priority above 255 is written as 255 and an on-time above 65,535 as 65,535, which is all that their bytes
    /// hold. [`sys::write_offer`] writes the same bytes, and refuses these.
    #[inline]
    pub fn record(self, stamp: u32) -> [u8; sys::RECORD_BYTES] {
        // The record is refused just as the single offer is: no priority above 3 and no on-time above 4,000 is allowed
        // in any profile, so that the number written gets 5 or 6 exactly if the one given does; and no other refusal
        // looks at either number before 5 and 6 are settled.
        let priority = u8::try_from(self.priority).unwrap_or(u8::MAX);
        let ontime = u16::try_from(self.ontime).unwrap_or(u16::MAX);
        let mut record = [0; sys::RECORD_BYTES];
        record[0] = sys::RECORD_OFFER;
        record[1] = priority;
        record[2..4].copy_from_slice(&ontime.to_le_bytes());
        record[4..8].copy_from_slice(&self.lifetime.to_le_bytes());
        record[8..12].copy_from_slice(&self.id.to_le_bytes());
        record[12..16].copy_from_slice(&stamp.to_le_bytes());
        record
    }
}

/// Why a call was refused. A refused call changes nothing, clock and counts included.
#[non_exhaustive]
#[derive(Clone, Copy, Debug, PartialEq, Eq, Hash)]
pub enum Refusal {
    /// The profile is not 1 to 5. ([`sys::make`] answers this also if `when_full` is above 1, and [`sys::write_make`] for
    /// profile 5, of which there is no log.)
    BadProfile = 1,
    /// The step from the last stamp, modulo 2^32, is 2,147,483,648 or more.
    ClockBack = 2,
    /// The running time would pass 10^15 µs, some 31 years.
    ClockEnd = 3,
    /// Not 1 to 12,500 probes, not just enough words, a bit of the last word set that is no probe, or more busy than
    /// probes.
    BadSample = 4,
    /// The priority is above 3.
    BadPriority = 5,
    /// The profile does not allow this on-time.
    BadOnTime = 6,
    /// The lifetime is 0 or above 60,000,000.
    BadLifetime = 7,
    /// 5 unexpired packets of this priority wait. Only a gate of [`WhenFull::RefuseNew`] answers this.
    QueueFull = 8,
    /// The state is not sound. Of a [`Gate`] only [`Gate::resume`] answers this; the calls in [`sys`] may.
    NoState = 9,
    /// The kind of a burst's record is not 2. A [`Gate`] never answers this; [`sys::burst`] may, of one record, and
    /// [`sys::presscurlew_gate_call`] of a kind that is no call.
    BadKind = 10,
    /// The gate has accepted 10^15 offers.
    Spent = 11,
    /// A burst has fewer answer bytes than records, or a log no 16 bytes at a place. A [`Gate`] never answers this;
    /// [`sys::burst`] and the writers of [`sys`] may.
    NoRoom = 12,
    /// The bytes of a burst's records are not a multiple of 16. A [`Gate`] never answers this; [`sys::burst`] may.
    TornLog = 13,
    /// Profile 5's list of levels breaks a rule ([`Gate::first_edition`]), or there is none.
    BadList = 15,
}

/// The refusals in the order of their numbers.
const REFUSALS: [Refusal; 14] = [
    Refusal::BadProfile,
    Refusal::ClockBack,
    Refusal::ClockEnd,
    Refusal::BadSample,
    Refusal::BadPriority,
    Refusal::BadOnTime,
    Refusal::BadLifetime,
    Refusal::QueueFull,
    Refusal::NoState,
    Refusal::BadKind,
    Refusal::Spent,
    Refusal::NoRoom,
    Refusal::TornLog,
    Refusal::BadList,
];

impl Refusal {
    /// The refusal's number, 1 to 13 or 15, as a C caller sees it.
    pub const fn number(self) -> u32 {
        self as u32
    }

    /// The refusal of a number, if there is one.
    ///
    /// ```
    /// use presscurlew::Refusal;
    /// assert_eq!(Refusal::from_number(8), Some(Refusal::QueueFull));
    /// assert_eq!(Refusal::from_number(0), None);
    /// ```
    pub fn from_number(number: u32) -> Option<Refusal> {
        let mut all = REFUSALS.into_iter();
        all.find(|refusal| refusal.number() == number)
    }

    /// The refusal's name, as `"QUEUE-FULL"`.
    pub const fn name(self) -> &'static str {
        match self {
            Refusal::BadProfile => "BAD-PROFILE",
            Refusal::ClockBack => "CLOCK-BACK",
            Refusal::ClockEnd => "CLOCK-END",
            Refusal::BadSample => "BAD-SAMPLE",
            Refusal::BadPriority => "BAD-PRIORITY",
            Refusal::BadOnTime => "BAD-ON-TIME",
            Refusal::BadLifetime => "BAD-LIFETIME",
            Refusal::QueueFull => "QUEUE-FULL",
            Refusal::NoState => "NO-STATE",
            Refusal::BadKind => "BAD-KIND",
            Refusal::Spent => "SPENT",
            Refusal::NoRoom => "NO-ROOM",
            Refusal::TornLog => "TORN-LOG",
            Refusal::BadList => "BAD-LIST",
        }
    }

    const fn reason(self) -> &'static str {
        match self {
            Refusal::BadProfile => "the profile is not 1 to 5, or can't be recorded",
            Refusal::ClockBack => "the clock went back",
            Refusal::ClockEnd => "the running time would pass 10^15 µs",
            Refusal::BadSample => "it is not a sample of 1 to 12,500 probes",
            Refusal::BadPriority => "the priority is above 3",
            Refusal::BadOnTime => "the profile does not allow this on-time",
            Refusal::BadLifetime => "the lifetime is 0 or above 60,000,000",
            Refusal::QueueFull => "5 packets of this priority wait",
            Refusal::NoState => "the state is not sound",
            Refusal::BadKind => "the record is no offer",
            Refusal::Spent => "10^15 offers were accepted already",
            Refusal::NoRoom => "there is no room for the answers or the record",
            Refusal::TornLog => "the bytes are not a multiple of 16",
            Refusal::BadList => "the list of levels breaks a rule",
        }
    }
}

impl fmt::Display for Refusal {
    fn fmt(&self, f: &mut fmt::Formatter<'_>) -> fmt::Result {
        write!(f, "{}: {}", self.name(), self.reason())
    }
}

impl Error for Refusal {}

/// An archive with another layout would read the state for what it is not.
fn hold_layout() {
    let layout = sys::presscurlew_layout();
    assert_eq!(layout, sys::LAYOUT, "the archive is not of this package");
}

/// What a reply refuses, if it does.
fn accepted(reply: &sys::Reply) -> Result<(), Refusal> {
    if reply.kind != sys::REFUSED {
        return Ok(());
    }
    let number = u32::try_from(reply.number).ok();
    // The contracts give no number but those of the refusals.
    let refusal = number.and_then(Refusal::from_number);
    Err(refusal.unwrap_or_else(|| unreachable!("the archive answered {reply:?}")))
}

/// What the answer byte of a burst's record says.
fn taken(answer: u8) -> Result<(), Refusal> {
    if answer == 0 {
        return Ok(());
    }
    let refusal = Refusal::from_number(u32::from(answer));
    // The contract gives no byte but 0 and the numbers of the refusals.
    Err(refusal.unwrap_or_else(|| unreachable!("the archive answered {answer}")))
}

impl Gate {
    /// The µs after a make in which a host does not poll: a second. What the radio sent before, a fresh gate doesn't know,
    /// and for a second it counts. With the silence, what the label says of any second, minute or hour holds across any
    /// number of restarts.
    pub const SILENCE: u32 = 1_000_000;

    /// A fresh gate, at the radio's stamp. It is polled for the first time [`Gate::SILENCE`] µs later, or after that. What
    /// it does when a queue is full is fixed here. [`Profile::FirstEdition`] needs a list of levels, and
    /// [`Gate::first_edition`] makes it.
    ///
    /// # Errors
    ///
    /// Of [`Profile::FirstEdition`] [`Refusal::BadList`]; no other is refused.
    ///
    /// # Panics
    ///
    /// If the archive that is linked has another layout than this package ([`sys::LAYOUT`]).
    pub fn new(profile: Profile, when_full: WhenFull, stamp: u32) -> Result<Gate, Refusal> {
        Gate::of_number(profile.number(), when_full, stamp)
    }

    /// A fresh gate as [`Gate::new`] makes it, where the profile is known by its number, 1 to 4.
    ///
    /// ```
    /// use presscurlew::{Gate, Profile, Refusal, WhenFull};
    ///
    /// let gate = Gate::of_number(3, WhenFull::RefuseNew, 0)?;
    /// assert_eq!(gate, Gate::new(Profile::Adaptive, WhenFull::RefuseNew, 0)?);
    /// assert_eq!(Gate::of_number(6, WhenFull::RefuseNew, 0), Err(Refusal::BadProfile));
    /// # Ok::<(), Refusal>(())
    /// ```
    ///
    /// # Errors
    ///
    /// [`Refusal::BadProfile`], and of profile 5 [`Refusal::BadList`].
    ///
    /// # Panics
    ///
    /// As [`Gate::new`].
    pub fn of_number(profile: u32, when_full: WhenFull, stamp: u32) -> Result<Gate, Refusal> {
        Gate::made(profile, when_full, &sys::Levels::NONE, stamp)
    }

    /// A gate that goes on with a stored state: the one that the last call before a restart left ([`Gate::state`],
    /// [`State::to_bytes`], [`State::from_bytes`]). Then nothing was restarted, all that holds of one gate holds on, and
    /// there is no silence to keep.
    ///
    /// That needs the radio's clock to have run on, for less than 2,147,483,648 µs, and the state to be that of the last
    /// call: one from before the last [`Answer::Sent`] doesn't know of that packet. Whether it is, nobody can see who
    /// has the state alone. A host that isn't sure makes a fresh gate, and polls it for the first time
    /// [`Gate::SILENCE`] µs later.
    ///
    /// ```
    /// use presscurlew::{Answer, Gate, Offer, Profile, Refusal, WhenFull};
    ///
    /// let mut gate = Gate::new(Profile::ReactiveA1, WhenFull::DropOldest, 0)?;
    /// gate.offer(Offer { id: 7, priority: 1, ontime: 400, lifetime: 60_000 }, 1_000_000)?;
    /// assert!(matches!(gate.poll(1_000_000)?, Answer::Sent(_)));
    /// let mut stored = *gate.state();
    /// drop(gate);
    ///
    /// // It knows of the packet that was sent, and is closed after it.
    /// let mut gate = Gate::resume(stored)?;
    /// gate.offer(Offer { id: 8, priority: 1, ontime: 400, lifetime: 200_000 }, 1_010_000)?;
    /// assert_eq!(gate.poll(1_010_000)?, Answer::Closed { micros: 90_400 });
    ///
    /// stored.duty = 0; // as if it had been stored badly
    /// assert_eq!(Gate::resume(stored), Err(Refusal::NoState));
    /// # Ok::<(), Refusal>(())
    /// ```
    ///
    /// # Errors
    ///
    /// [`Refusal::NoState`] if the state is not sound.
    ///
    /// # Panics
    ///
    /// As [`Gate::new`].
    pub fn resume(state: State) -> Result<Gate, Refusal> {
        hold_layout();
        if !sys::is_sound(&state) {
            return Err(Refusal::NoState);
        }
        Ok(Gate { state })
    }

    /// A fresh gate of profile 5, the first edition's: the wait of level 0, and up to eight levels above it, each with
    /// the load that leads to it and its own wait. It is polled for the first time [`Gate::SILENCE`] µs later, or after
    /// that.
    ///
    /// The level goes up once the last ten samples reach its threshold, and down once none of the last fifty does; it
    /// moves at once, by as many levels as that is.
    ///
    /// ```
    /// use presscurlew::{Gate, Level, Refusal, WhenFull};
    ///
    /// let levels = [Level { threshold: 300_000, wait: 200_000 }, Level { threshold: 600_000, wait: 1_000_000 }];
    /// let mut gate = Gate::first_edition(60_000, &levels, WhenFull::DropOldest, 0)?;
    /// for _ in 0..9 {
    ///     gate.sample_count(1_000, 1_000, 0)?;
    /// }
    /// assert_eq!(gate.state().level, 0);
    /// gate.sample_count(1_000, 1_000, 0)?;
    /// assert_eq!(gate.state().level, 2);
    ///
    /// // Thresholds rise, and there are 1 to 8.
    /// let [low, high] = levels;
    /// for bad in [&[high, low][..], &[low, low], &[], &[low; 9]] {
    ///     let refused = Gate::first_edition(60_000, bad, WhenFull::DropOldest, 0);
    ///     assert_eq!(refused, Err(Refusal::BadList));
    /// }
    /// # Ok::<(), Refusal>(())
    /// ```
    ///
    /// # Errors
    ///
    /// [`Refusal::BadList`], unless there are 1 to 8 levels, all waits are 40,000 to 1,000,000 µs, and the thresholds are
    /// at most 1,000,000 and rise strictly, the first above 0.
    ///
    /// # Panics
    ///
    /// As [`Gate::new`].
    pub fn first_edition(
        wait: u32,
        levels: &[Level],
        when_full: WhenFull,
        stamp: u32,
    ) -> Result<Gate, Refusal> {
        let list = sys::Levels::of(wait, levels);
        Gate::made(Profile::FirstEdition.number(), when_full, &list, stamp)
    }

    fn made(
        profile: u32,
        when_full: WhenFull,
        list: &sys::Levels,
        stamp: u32,
    ) -> Result<Gate, Refusal> {
        hold_layout();
        let mut state = State::default();
        let reply = sys::make(&mut state, profile, when_full as u32, list, stamp);
        accepted(&reply)?;
        Ok(Gate { state })
    }

    /// A sample of the channel by words: 1 to 12,500 probes in just enough words. Probe k is bit k mod 64 of word
    /// k / 64, 1 if the channel was busy; the bits of the last word that are no probes are 0.
    ///
    /// The load, in parts per 1,000,000, is 1,000,000 × busy / probes, rounded down.
    ///
    /// ```
    /// use presscurlew::{Gate, Profile, Refusal, WhenFull};
    ///
    /// // The new radio probes each 8 µs: 12,500 probes in 100 ms, in 196 words. Here the first 7,751 are busy.
    /// let mut words = [0; 196];
    /// for k in 0..7_751 {
    ///     words[k / 64] |= 1 << (k % 64);
    /// }
    /// let mut gate = Gate::new(Profile::Adaptive, WhenFull::DropOldest, 0)?;
    /// gate.sample_words(12_500, &words, 100_000)?;
    /// assert_eq!(gate.state().kept, 620_080);
    ///
    /// // Not just enough words, and a probe too many.
    /// assert_eq!(gate.sample_words(12_500, &words[1..], 200_000), Err(Refusal::BadSample));
    /// assert_eq!(gate.sample_count(12_501, 12_500, 200_000), Err(Refusal::BadSample));
    /// # Ok::<(), Refusal>(())
    /// ```
    ///
    /// # Errors
    ///
    /// [`Refusal::ClockBack`], [`Refusal::ClockEnd`], [`Refusal::BadSample`].
    pub fn sample_words(&mut self, probes: u32, words: &[u64], stamp: u32) -> Result<(), Refusal> {
        accepted(&sys::sample_words(&mut self.state, probes, words, stamp))
    }

    /// A sample of the channel by its busy count: how many of 1 to 12,500 probes were busy.
    ///
    /// # Errors
    ///
    /// [`Refusal::ClockBack`], [`Refusal::ClockEnd`], [`Refusal::BadSample`].
    pub fn sample_count(&mut self, busy: u32, probes: u32, stamp: u32) -> Result<(), Refusal> {
        accepted(&sys::sample_count(&mut self.state, busy, probes, stamp))
    }

    /// A packet to send: it joins the back of its priority's queue. Where 5 unexpired packets wait there, [`WhenFull`]
    /// says what happens.
    ///
    /// # Errors
    ///
    /// [`Refusal::ClockBack`], [`Refusal::ClockEnd`], [`Refusal::BadPriority`], [`Refusal::BadOnTime`],
    /// [`Refusal::BadLifetime`], [`Refusal::QueueFull`], [`Refusal::Spent`].
    pub fn offer(&mut self, offer: Offer, stamp: u32) -> Result<(), Refusal> {
        accepted(&sys::offer(&mut self.state, offer, stamp))
    }

    /// Packets to send, each with its stamp, in one call: exactly [`Gate::offer`] of one after the other, and faster.
    /// There is an answer for each, in their order, and one that is refused does not stop those after it.
    ///
    /// ```
    /// use presscurlew::{Gate, Offer, Profile, Refusal, WhenFull};
    ///
    /// let mut gate = Gate::new(Profile::ReactiveA2, WhenFull::DropOldest, 0)?;
    /// let warning = Offer { id: 1, priority: 0, ontime: 400, lifetime: 100_000 };
    /// let too_long = Offer { id: 2, ontime: 501, ..warning };
    /// let map = Offer { id: 3, priority: 3, ..warning };
    /// let answers = gate.offer_burst(&[(warning, 10), (too_long, 10), (map, 20)]);
    /// assert_eq!(answers, [Ok(()), Err(Refusal::BadOnTime), Ok(())]);
    /// assert_eq!(gate.counts().accepted, 2);
    /// # Ok::<(), Refusal>(())
    /// ```
    ///
    /// # Errors
    ///
    /// Each answer has those of [`Gate::offer`].
    #[cfg(feature = "alloc")]
    #[must_use = "an offer may be refused: there is an answer for each"]
    pub fn offer_burst(&mut self, offers: &[(Offer, u32)]) -> Vec<Result<(), Refusal>> {
        let records: Vec<_> = offers.iter().map(|(o, stamp)| o.record(*stamp)).collect();
        self.offer_records(&records)
    }

    /// The same where there is no heap: the answers go to the first places of `answers`.
    ///
    /// ```
    /// use presscurlew::{Gate, Offer, Profile, Refusal, WhenFull};
    ///
    /// let mut gate = Gate::new(Profile::ReactiveA2, WhenFull::DropOldest, 0)?;
    /// let warning = Offer { id: 1, priority: 0, ontime: 400, lifetime: 100_000 };
    /// let too_long = Offer { id: 2, ontime: 501, ..warning };
    /// let mut answers = [Ok(()); 2];
    /// gate.offer_burst_into(&[(warning, 10), (too_long, 10)], &mut answers)?;
    /// assert_eq!(answers, [Ok(()), Err(Refusal::BadOnTime)]);
    /// # Ok::<(), Refusal>(())
    /// ```
    ///
    /// # Errors
    ///
    /// [`Refusal::NoRoom`] if there are fewer places than offers; then nothing is offered.
    pub fn offer_burst_into(
        &mut self,
        offers: &[(Offer, u32)],
        answers: &mut [Result<(), Refusal>],
    ) -> Result<(), Refusal> {
        // As many records as a gate has places stand on the stack; bursts one after the other are one burst.
        const MOST: usize = 20;
        if answers.len() < offers.len() {
            return Err(Refusal::NoRoom);
        }
        for (offers, answers) in offers.chunks(MOST).zip(answers.chunks_mut(MOST)) {
            let mut records = [[0; sys::RECORD_BYTES]; MOST];
            for (record, (offer, stamp)) in records.iter_mut().zip(offers) {
                *record = offer.record(*stamp);
            }
            let mut bytes = [0; MOST];
            self.burst(&records[..offers.len()], &mut bytes[..offers.len()]);
            for (answer, byte) in answers.iter_mut().zip(&bytes[..offers.len()]) {
                *answer = taken(*byte);
            }
        }
        Ok(())
    }

    /// A burst of records, with a byte for each.
    fn burst(&mut self, records: &[[u8; sys::RECORD_BYTES]], answers: &mut [u8]) {
        let number = sys::burst(&mut self.state, records.as_flattened(), answers);
        // Whole records and a byte for each: such a burst is not refused.
        assert_eq!(number, 0, "the archive refused a whole burst");
    }

    /// A burst of records.
    #[cfg(feature = "alloc")]
    pub(crate) fn offer_records(
        &mut self,
        records: &[[u8; sys::RECORD_BYTES]],
    ) -> Vec<Result<(), Refusal>> {
        let mut answers = vec![0; records.len()];
        self.burst(records, &mut answers);
        answers.into_iter().map(taken).collect()
    }

    /// Whether a packet may go, and which: the oldest of the lowest-numbered queue that has one.
    ///
    /// After an admission the gate is closed until the wait is over: that of [`rules::wait`](crate::rules::wait), and in
    /// profile 5 that of its level in the list. In profiles 1, 2, 4 and 5 the wait starts when the packet is off the air,
    /// its on-time after the admission; in profile 3 with the admission.
    ///
    /// It is closed for a packet, too, with which more than 30,000 µs would be admitted in the 1,000,000 µs up to and
    /// including now; an admission exactly 1,000,000 µs ago is left out. So any second has at most 30 ms of on-time.
    /// A shorter packet behind it has to wait as well.
    ///
    /// The gate can't know what was admitted before it was made: the first poll comes [`Gate::SILENCE`] µs after that, or
    /// later.
    ///
    /// ```
    /// use presscurlew::{Answer, Gate, Offer, Profile, WhenFull};
    ///
    /// // A quiet channel brings profile 3 to its highest duty: a packet of 4,000 µs may go each 133,334 µs.
    /// let mut gate = Gate::new(Profile::Adaptive, WhenFull::DropOldest, 0)?;
    /// for _ in 0..1_000 {
    ///     gate.sample_count(0, 1_000, 0)?;
    /// }
    /// for id in 0..7 {
    ///     let stamp = 1_000_000 + id * 133_334;
    ///     gate.offer(Offer { id, priority: 0, ontime: 4_000, lifetime: 60_000_000 }, stamp)?;
    ///     assert!(matches!(gate.poll(stamp)?, Answer::Sent(_)));
    /// }
    /// // The eighth would make 32 ms in a second: it waits until the first is a second old.
    /// gate.offer(Offer { id: 7, priority: 0, ontime: 4_000, lifetime: 60_000_000 }, 1_933_338)?;
    /// assert_eq!(gate.poll(1_933_338)?, Answer::Closed { micros: 66_662 });
    /// assert_eq!(gate.poll(1_999_999)?, Answer::Closed { micros: 1 });
    /// assert!(matches!(gate.poll(2_000_000)?, Answer::Sent(_)));
    /// # Ok::<(), presscurlew::Refusal>(())
    /// ```
    ///
    /// # Errors
    ///
    /// [`Refusal::ClockBack`], [`Refusal::ClockEnd`].
    pub fn poll(&mut self, stamp: u32) -> Result<Answer, Refusal> {
        let reply = sys::poll(&mut self.state, stamp);
        accepted(&reply)?;
        Ok(match reply.kind {
            sys::SENT => Answer::Sent(reply.packet),
            sys::IDLE => Answer::Idle,
            sys::CLOSED => Answer::Closed {
                micros: reply.number,
            },
            // The contract of a poll gives no other kind.
            _ => unreachable!("the archive answered a poll with {reply:?}"),
        })
    }

    /// How many offers were accepted, and how many of their packets were sent, expired and were displaced; the others
    /// wait. A packet counts as expired when it is removed: at the first offer or poll that finds it so.
    ///
    /// ```
    /// use presscurlew::{Answer, Counts, Gate, Offer, Profile, WhenFull};
    ///
    /// let mut gate = Gate::new(Profile::ReactiveA1, WhenFull::DropOldest, 0)?;
    /// for id in 0..3 {
    ///     gate.offer(Offer { id, priority: 1, ontime: 400, lifetime: 60_000 }, 1_000_000)?;
    /// }
    /// assert!(matches!(gate.poll(1_000_000)?, Answer::Sent(_)));
    /// assert_eq!(gate.counts(), Counts { accepted: 3, sent: 1, ..Counts::default() });
    ///
    /// // The gate opens after 100 ms: too late for the other two.
    /// assert_eq!(gate.poll(1_100_000)?, Answer::Idle);
    /// assert_eq!(gate.counts(), Counts { accepted: 3, sent: 1, expired: 2, displaced: 0 });
    /// # Ok::<(), presscurlew::Refusal>(())
    /// ```
    pub fn counts(&self) -> Counts {
        self.state.counts()
    }

    /// The state, to look at and to store ([`State::to_bytes`]): level, duty, what waits, the running time, the admissions
    /// of the last second. A copy of it can be gone on with after a restart ([`Gate::resume`]).
    ///
    /// ```
    /// use presscurlew::{Gate, Profile, WhenFull};
    ///
    /// let mut gate = Gate::new(Profile::ReactiveA1, WhenFull::DropOldest, 0)?;
    /// gate.sample_count(700, 1_000, 100_000)?;
    /// assert_eq!(gate.state().level, 1);
    /// assert_eq!(gate.state().last_second().count(), 0);
    /// # Ok::<(), presscurlew::Refusal>(())
    /// ```
    pub fn state(&self) -> &State {
        &self.state
    }
}
