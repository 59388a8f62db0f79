//! Refusals by name and number.
use std::fmt;

/// Why a call was refused. A refused call has changed nothing; a builder or rebuild goes on.
#[derive(Clone, Copy, Debug, PartialEq, Eq, Hash)]
#[repr(u64)]
pub enum Refusal {
    /// The bucket occupancy is not 1 to 7.
    InvalidBucketOccupancy = 1,
    /// The tick length is zero.
    ZeroExpiryTick = 2,
    /// More records than announced or allowed, fewer at finish, a size past 64 bits, a wrong number of
    /// keep flags, or a record of a segment that isn't kept.
    CapacityOverflow = 3,
    /// The key is in the set.
    DuplicateKey = 4,
    /// A lifetime where the setting has no expiry.
    ExpiryDisabled = 5,
    /// The deadline would be past tick 65,534.
    ExpiryOutOfRange = 6,
    /// More than 256 segments.
    ArenaTooLarge = 7,
    /// The segment target is not 1 to 100,663,296.
    InvalidSegmentTarget = 8,
    /// Nanoseconds of a second or more; [`std::time::Duration`] has none.
    InvalidNanoseconds = 9,
    /// The arena's rest is too short for the record, the arena is too long at open or load, or too short for
    /// a file's records.
    AreaTooShort = 10,
    /// Set and arena don't belong together, or the set to rebuild from isn't the newest.
    InvalidState = 11,
    /// No such record stands at the location to reuse.
    RecordMismatch = 12,
    /// A block of the file runs past its end, or bytes follow the fifth.
    FileFraming = 13,
    /// A kind of block is missing, unknown or out of place.
    FileKinds = 14,
    /// A number of the file is out of its bounds, a block's length doesn't fit the counts, or the segments'
    /// lengths don't add up.
    FileContent = 15,
    /// A key or value has more bytes than its columns of a chart room sheet show.
    FieldTooLong = 16,
}

// Those that have a number in every call: all but that of sheets.
const ALL: [Refusal; 15] = [
    Refusal::InvalidBucketOccupancy,
    Refusal::ZeroExpiryTick,
    Refusal::CapacityOverflow,
    Refusal::DuplicateKey,
    Refusal::ExpiryDisabled,
    Refusal::ExpiryOutOfRange,
    Refusal::ArenaTooLarge,
    Refusal::InvalidSegmentTarget,
    Refusal::InvalidNanoseconds,
    Refusal::AreaTooShort,
    Refusal::InvalidState,
    Refusal::RecordMismatch,
    Refusal::FileFraming,
    Refusal::FileKinds,
    Refusal::FileContent,
];

impl Refusal {
    /// The refusal's number, 1 to 16.
    pub fn number(self) -> u64 {
        self as u64
    }

    /// The refusal of a number, 1 to 15: [`Refusal::FieldTooLong`] comes from sheets alone.
    ///
    /// ```
    /// use segment_cache::Refusal;
    /// assert_eq!(Refusal::from_number(4), Some(Refusal::DuplicateKey));
    /// assert_eq!(Refusal::from_number(0), None);
    /// ```
    pub fn from_number(number: u64) -> Option<Refusal> {
        ALL.into_iter().find(|refusal| refusal.number() == number)
    }

    // What a call of the library answered: 0, or a refusal's number. Any other number would be
    // another library's.
    pub(crate) fn check(number: u64) -> Result<(), Refusal> {
        match (number, Refusal::from_number(number)) {
            (0, _) => Ok(()),
            (_, Some(refusal)) => Err(refusal),
            (_, None) => panic!("libcapi.a answered {number}, which is no refusal"),
        }
    }

    // The same of a call on sheets.
    pub(crate) fn check_sheet(number: u64) -> Result<(), Refusal> {
        if number == Refusal::FieldTooLong.number() {
            return Err(Refusal::FieldTooLong);
        }
        Refusal::check(number)
    }
}

impl fmt::Display for Refusal {
    fn fmt(&self, f: &mut fmt::Formatter<'_>) -> fmt::Result {
        write!(f, "{self:?} (refusal {})", self.number())
    }
}

impl std::error::Error for Refusal {}

/// A finish that was refused: why, and the builder or rebuild, which is still open.
pub struct Unfinished<B> {
    /// Why.
    pub refusal: Refusal,
    /// What was to be finished, as it was.
    pub builder: B,
}

impl<B> fmt::Debug for Unfinished<B> {
    fn fmt(&self, f: &mut fmt::Formatter<'_>) -> fmt::Result {
        write!(f, "Unfinished({:?})", self.refusal)
    }
}

impl<B> From<Unfinished<B>> for Refusal {
    fn from(unfinished: Unfinished<B>) -> Refusal {
        unfinished.refusal
    }
}
