//! A gate that records its own calls, so that the run can be played and judged afterwards.

use std::error::Error;
use std::fmt;
use std::io::{self, Write};
use std::vec::Vec;

use crate::gate::{Answer, Gate, Offer, Refusal, WhenFull};
use crate::profile::Profile;
use crate::sys::{self, RECORD_BYTES};

/// A [`Gate`] that writes each call to a log before it makes it, so that the run can be played and judged afterwards.
///
/// ```
/// use presscurlew::{Answer, Offer, RecordError, Recorder, WhenFull};
///
/// let mut log = Vec::new(); // or a File
/// let mut gate = Recorder::new(2, WhenFull::DropOldest, 1_000, &mut log)?;
/// gate.offer(Offer { id: 7, priority: 1, ontime: 400, lifetime: 2_000_000 }, 1_100)?;
/// // The first poll comes a second after the make: `Gate::SILENCE`.
/// assert!(matches!(gate.poll(1_001_000)?, Answer::Sent(packet) if packet.id == 7));
///
/// // A call that is refused is in the log too, and is refused again when the log is played.
/// let refused = gate.poll(1_000_999);
/// assert!(matches!(refused, Err(RecordError::Refused(refusal)) if refusal.number() == 2));
///
/// // 16 bytes a call: make, offer, poll, poll.
/// let kinds: Vec<u8> = log.chunks(16).map(|record| record[0]).collect();
/// assert_eq!(kinds, [0, 2, 3, 3]);
/// # Ok::<(), RecordError>(())
/// ```
///
/// **The log.** It starts with the make and has a record of 16 bytes for every call that was made, refused ones
/// included, in their order; a burst has one for each offer. The program `replay` plays it and writes a line for each
/// record: the answers that this host got.
///
/// **Record first, then call.** The record is handed to the sink, the sink is flushed, and only then the call is made.
/// So the log of a host that crashed has the last call in it, and nothing goes on air that is not in the log. What
/// `flush` is worth is the sink's own matter: bytes in a [`File`](std::fs::File) outlive the process, but not a power
/// cut; a sink that has to survive one syncs in its `flush`. A [`BufWriter`](io::BufWriter) gains nothing here.
///
/// **A sink that fails.** The call is then not made ([`RecordError::Log`]). Nobody knows how much of the record the sink
/// took, and a record behind it could be out of place. So the recorder ends there: each further call answers
/// [`RecordError::Log`] and does nothing. Of what is in the log, only the last call, or some of the last burst, may not
/// have been made. A host that has to go on without a log takes the gate out ([`Recorder::into_parts`]).
///
/// **The call that is made is the one in the log**, to the last number. A sample by words is made by its busy count and
/// its probe count, which are all that the gate looks at. What fits no record the gate refuses, in any state; the
/// recorder then records, and makes, a call that fits and is refused in the same way: profile 255, priority 255 or
/// on-time 65,535 for one above it, and 4,294,967,295 busy of 1,000 probes for words that are no sample and for a count
/// of 0 probes.
///
/// **No recorder of profile 5.** No record has room for its list of levels, so that its make is refused here with
/// [`Refusal::BadProfile`], as a log is that says 5, and is recorded as profile 255 too.
#[derive(Debug)]
pub struct Recorder<W> {
    gate: Gate,
    log: Log<W>,
}

/// Why a recorder's call has no answer of the gate, or has a refusal.
#[derive(Debug)]
pub enum RecordError {
    /// The call is in the log, and the gate refused it.
    Refused(Refusal),
    /// The log could not be written, now or earlier. The call was not made.
    Log(io::Error),
}

impl fmt::Display for RecordError {
    fn fmt(&self, f: &mut fmt::Formatter<'_>) -> fmt::Result {
        match self {
            RecordError::Refused(refusal) => refusal.fmt(f),
            RecordError::Log(error) => write!(f, "the call log: {error}"),
        }
    }
}

impl Error for RecordError {
    fn source(&self) -> Option<&(dyn Error + 'static)> {
        match self {
            RecordError::Refused(refusal) => Some(refusal),
            RecordError::Log(error) => Some(error),
        }
    }
}

impl From<Refusal> for RecordError {
    fn from(refusal: Refusal) -> RecordError {
        RecordError::Refused(refusal)
    }
}

impl From<io::Error> for RecordError {
    fn from(error: io::Error) -> RecordError {
        RecordError::Log(error)
    }
}

/// The sink, and whether it has failed.
#[derive(Debug)]
struct Log<W> {
    sink: W,
    failed: bool,
}

impl<W: Write> Log<W> {
    /// Hands whole records over, and flushes.
    fn put(&mut self, records: &[u8]) -> io::Result<()> {
        if self.failed {
            return Err(io::Error::other("it failed before, and has ended"));
        }
        // Also if the sink panics.
        self.failed = true;
        self.sink.write_all(records)?;
        self.sink.flush()?;
        self.failed = false;
        Ok(())
    }

    /// Hands over the record that a writer makes. Its number is 0: all that it is given fits.
    fn record(&mut self, write: impl FnOnce(&mut [u8]) -> u32) -> io::Result<()> {
        let mut record = [0; RECORD_BYTES];
        let number = write(&mut record);
        assert_eq!(number, 0, "the archive refused to write a record that fits");
        self.put(&record)
    }
}

/// The busy count in the record of a sample.
fn busy_in(record: [u8; RECORD_BYTES]) -> u32 {
    let [.., a, b, c, d, _, _, _, _] = record;
    u32::from_le_bytes([a, b, c, d])
}

impl<W: Write> Recorder<W> {
    /// A fresh gate ([`Gate::of_number`]) that records to the sink, the make first. A sink that the host wants back if the
    /// make is refused is lent: `&mut W` is a sink too.
    ///
    /// # Errors
    ///
    /// [`RecordError::Log`], or [`RecordError::Refused`] with [`Refusal::BadProfile`].
    pub fn new(
        profile: u32,
        when_full: WhenFull,
        stamp: u32,
        sink: W,
    ) -> Result<Recorder<W>, RecordError> {
        let failed = false;
        let mut log = Log { sink, failed };
        // A profile that no record says: the most that fits is refused as it is.
        let unsaid = profile == Profile::FirstEdition.number() || profile > u8::MAX.into();
        let profile = if unsaid { u8::MAX.into() } else { profile };
        let way = when_full as u32;
        log.record(|place| sys::write_make(profile, way, stamp, place, 0))?;
        let gate = Gate::of_number(profile, when_full, stamp)?;
        Ok(Recorder { gate, log })
    }

    /// Records a sample by words, by its busy count of so many probes, and then is [`Gate::sample_words`].
    ///
    /// ```
    /// use presscurlew::{Recorder, WhenFull};
    ///
    /// let mut log = Vec::new();
    /// let mut gate = Recorder::new(1, WhenFull::DropOldest, 0, &mut log)?;
    /// gate.sample_words(65, &[7, 1], 100)?; // four busy of 65 probes
    /// gate.sample_count(400, 1_000, 200)?; // of 1,000 probes the record says 0
    /// assert_eq!(log[16..32], [1, 0, 0, 0, 65, 0, 0, 0, 4, 0, 0, 0, 100, 0, 0, 0]);
    /// assert_eq!(log[32..], [1, 0, 0, 0, 0, 0, 0, 0, 144, 1, 0, 0, 200, 0, 0, 0]);
    /// # Ok::<(), presscurlew::RecordError>(())
    /// ```
    ///
    /// # Errors
    ///
    /// [`RecordError::Log`], or the refusals of the gate.
    pub fn sample_words(
        &mut self,
        probes: u32,
        words: &[u64],
        stamp: u32,
    ) -> Result<(), RecordError> {
        let mut record = [0; RECORD_BYTES];
        if sys::write_sample_words(probes, words, stamp, &mut record, 0) != 0 {
            return self.no_sample(stamp);
        }
        self.log.put(&record)?;
        // By the count, so that the words are counted once.
        Ok(self.gate.sample_count(busy_in(record), probes, stamp)?)
    }

    /// Records a sample by its busy count of so many probes, and then is [`Gate::sample_count`].
    ///
    /// # Errors
    ///
    /// [`RecordError::Log`], or the refusals of the gate.
    pub fn sample_count(&mut self, busy: u32, probes: u32, stamp: u32) -> Result<(), RecordError> {
        if probes == 0 {
            // A record's 0 means 1,000.
            return self.no_sample(stamp);
        }
        self.log
            .record(|place| sys::write_sample_count(busy, probes, stamp, place, 0))?;
        Ok(self.gate.sample_count(busy, probes, stamp)?)
    }

    /// A call that is no sample, for those that no record has room for: all are refused alike.
    fn no_sample(&mut self, stamp: u32) -> Result<(), RecordError> {
        self.sample_count(u32::MAX, 1_000, stamp)
    }

    /// Records an offer, and then is [`Gate::offer`].
    ///
    /// # Errors
    ///
    /// [`RecordError::Log`], or the refusals of the gate.
    pub fn offer(&mut self, offer: Offer, stamp: u32) -> Result<(), RecordError> {
        // No profile allows the most that fits, nor any above it.
        let offer = Offer {
            priority: offer.priority.min(u8::MAX.into()),
            ontime: offer.ontime.min(u16::MAX.into()),
            ..offer
        };
        self.log
            .record(|place| sys::write_offer(offer, stamp, place, 0))?;
        Ok(self.gate.offer(offer, stamp)?)
    }

    /// Records a burst, and then is [`Gate::offer_burst`]. The log gets the bytes that the burst itself is made of, all
    /// before the call.
    ///
    /// ```
    /// use presscurlew::{Offer, Recorder, Refusal, WhenFull};
    ///
    /// let mut log = Vec::new();
    /// let mut gate = Recorder::new(2, WhenFull::DropOldest, 0, &mut log)?;
    /// let warning = Offer { id: 1, priority: 0, ontime: 400, lifetime: 100_000 };
    /// let too_long = Offer { id: 2, ontime: 501, ..warning };
    /// let answers = gate.offer_burst(&[(warning, 10), (too_long, 20)])?;
    /// assert_eq!(answers, [Ok(()), Err(Refusal::BadOnTime)]);
    /// assert_eq!(log[16..], [warning.record(10), too_long.record(20)].concat());
    /// # Ok::<(), presscurlew::RecordError>(())
    /// ```
    ///
    /// # Errors
    ///
    /// That of the sink, and then no offer was made. What the gate refuses stands in the answers.
    pub fn offer_burst(&mut self, offers: &[(Offer, u32)]) -> io::Result<Vec<Result<(), Refusal>>> {
        let records: Vec<_> = offers.iter().map(|(o, stamp)| o.record(*stamp)).collect();
        self.log.put(records.as_flattened())?;
        Ok(self.gate.offer_records(&records))
    }

    /// Records a poll, and then is [`Gate::poll`].
    ///
    /// # Errors
    ///
    /// [`RecordError::Log`], or the refusals of the gate.
    pub fn poll(&mut self, stamp: u32) -> Result<Answer, RecordError> {
        self.log.record(|place| sys::write_poll(stamp, place, 0))?;
        Ok(self.gate.poll(stamp)?)
    }
}

impl<W> Recorder<W> {
    /// The gate, to look at: [`Gate::state`], [`Gate::counts`].
    pub fn gate(&self) -> &Gate {
        &self.gate
    }

    /// The gate and the sink. Calls on the gate are from then on in no log.
    ///
    /// ```
    /// use presscurlew::{Answer, RecordError, Recorder, WhenFull};
    ///
    /// // Room for three calls.
    /// let mut disk = [0; 48];
    /// let mut gate = Recorder::new(1, WhenFull::DropOldest, 0, &mut disk[..])?;
    /// gate.sample_count(700, 1_000, 100_000)?;
    /// assert_eq!(gate.poll(1_000_000)?, Answer::Idle);
    /// assert!(matches!(gate.poll(1_010_000), Err(RecordError::Log(_))));
    ///
    /// let (mut gate, _) = gate.into_parts();
    /// assert_eq!(gate.state().time, 1_000_000); // the last poll was not made
    /// assert_eq!(gate.poll(1_010_000)?, Answer::Idle);
    /// # Ok::<(), RecordError>(())
    /// ```
    pub fn into_parts(self) -> (Gate, W) {
        (self.gate, self.log.sink)
    }
}
