//! The profiles by name.

use core::fmt;

use crate::gate::Refusal;

/// A profile: by which standard a gate waits. Each has a number, by which every call knows it.
///
/// ```
/// use presscurlew::{Profile, Refusal};
///
/// assert_eq!(Profile::Adaptive.number(), 3);
/// assert_eq!(Profile::try_from(3), Ok(Profile::Adaptive));
/// assert_eq!(Profile::try_from(0), Err(Refusal::BadProfile));
/// ```
#[non_exhaustive]
#[repr(u32)]
#[derive(Clone, Copy, Debug, PartialEq, Eq, PartialOrd, Ord, Hash)]
pub enum Profile {
    /// 1: reactive, ETSI TS 102 687 V1.2.1, Table A.1: packets of up to 1,000 µs.
    ReactiveA1 = 1,
    /// 2: reactive, ETSI TS 102 687 V1.2.1, Table A.2: packets of up to 500 µs.
    ReactiveA2 = 2,
    /// 3: adaptive, ETSI TS 102 687 V1.2.1, clause 5.4: packets of up to 4,000 µs.
    Adaptive = 3,
    /// 4: harmonised, ETSI EN 302 571, clause 4.2.10: packets of up to 4,000 µs.
    Harmonised = 4,
    /// 5: by a list of levels, ETSI TS 102 687 V1.1.1, clause 6.4: packets of up to 1,000 µs. It needs its list
    /// ([`Gate::first_edition`](crate::Gate::first_edition)).
    FirstEdition = 5,
}

impl Profile {
    /// All of them, in the order of their numbers.
    pub const ALL: &'static [Profile] = &[
        Profile::ReactiveA1,
        Profile::ReactiveA2,
        Profile::Adaptive,
        Profile::Harmonised,
        Profile::FirstEdition,
    ];

    /// The profile's number.
    pub const fn number(self) -> u32 {
        self as u32
    }
}

impl From<Profile> for u32 {
    fn from(profile: Profile) -> u32 {
        profile.number()
    }
}

impl TryFrom<u32> for Profile {
    type Error = Refusal;

    fn try_from(number: u32) -> Result<Profile, Refusal> {
        let mut all = Profile::ALL.iter().copied();
        all.find(|profile| profile.number() == number)
            .ok_or(Refusal::BadProfile)
    }
}

impl fmt::Display for Profile {
    fn fmt(&self, f: &mut fmt::Formatter<'_>) -> fmt::Result {
        f.write_str(match self {
            Profile::ReactiveA1 => "1, reactive by Table A.1",
            Profile::ReactiveA2 => "2, reactive by Table A.2",
            Profile::Adaptive => "3, adaptive",
            Profile::Harmonised => "4, harmonised",
            Profile::FirstEdition => "5, first edition",
        })
    }
}
