//! Settings, and the words of settings and lifetimes.
use crate::ffi;
use crate::refusal::Refusal;
use crate::stored::{SegmentRecords, StoredRecord, record_at};
use std::time::Duration;

pub(crate) const SETTING_WORDS: usize = 6;

/// How a set is laid out and whether its records lapse. Each change takes the old setting and hands
/// back the new one; nothing is asked before a builder is opened.
///
/// ```
/// use segment_cache::Setting;
/// use std::time::Duration;
///
/// let setting = Setting::with_relative_expiry(Duration::from_secs(60))
///     .with_atomic_word_index()
///     .with_negative_filter_bits_per_entry(8);
/// // A one-byte key and a two-byte value: two lengths, two bytes of deadline, three bytes.
/// assert_eq!(setting.encoded_record_bytes(1, 2), Ok(7));
/// ```
#[derive(Clone, Copy, Debug, PartialEq, Eq)]
pub struct Setting {
    tick: Option<Duration>,
    occupancy: u8,
    packed: bool,
    filter_bits: u8,
}

impl Setting {
    /// No expiry, occupancy 7, packed index, no filter.
    pub fn without_expiry() -> Setting {
        Setting {
            tick: None,
            occupancy: 7,
            packed: true,
            filter_bits: 0,
        }
    }

    /// The same with lifetimes counted in ticks of this length.
    pub fn with_relative_expiry(tick: Duration) -> Setting {
        Setting {
            tick: Some(tick),
            ..Setting::without_expiry()
        }
    }

    /// How many of a bucket's eight slots are reckoned with: 1 to 7.
    #[must_use]
    pub fn with_target_bucket_occupancy(self, occupancy: u8) -> Setting {
        Setting { occupancy, ..self }
    }

    /// Seven bytes a slot and a control word a bucket.
    #[must_use]
    pub fn with_packed_bucket_index(self) -> Setting {
        Setting {
            packed: true,
            ..self
        }
    }

    /// One word a slot.
    #[must_use]
    pub fn with_atomic_word_index(self) -> Setting {
        Setting {
            packed: false,
            ..self
        }
    }

    /// Bits of the negative filter for each record; 0 for no filter.
    #[must_use]
    pub fn with_negative_filter_bits_per_entry(self, filter_bits: u8) -> Setting {
        Setting {
            filter_bits,
            ..self
        }
    }

    /// The length of a tick, where records may lapse.
    pub fn tick(&self) -> Option<Duration> {
        self.tick
    }

    /// The bucket occupancy.
    pub fn target_bucket_occupancy(&self) -> u8 {
        self.occupancy
    }

    /// Whether the index is packed.
    pub fn packed_bucket_index(&self) -> bool {
        self.packed
    }

    /// Bits of the negative filter for each record.
    pub fn negative_filter_bits_per_entry(&self) -> u8 {
        self.filter_bits
    }

    /// How many arena bytes a record with a key and a value of these lengths takes.
    pub fn encoded_record_bytes(
        &self,
        key_bytes: usize,
        value_bytes: usize,
    ) -> Result<usize, Refusal> {
        let mut size = [0];
        Refusal::check(ffi::segment_cache_encoded_record_bytes(
            &self.words(),
            key_bytes,
            value_bytes,
            &mut size,
        ))?;
        Ok(size[0] as usize)
    }

    /// The record at a position of these bytes, lapsed or not, or `None` where no record is read there, as
    /// past the end. Of the setting, only whether records keep a deadline
    /// counts.
    ///
    /// ```
    /// use segment_cache::Setting;
    ///
    /// let bytes = [1, 2, b'a', b'A', b'B'];
    /// let record = Setting::without_expiry().record_at(&bytes, 0).unwrap().unwrap();
    /// assert_eq!((record.key, record.value, record.end), (&b"a"[..], &b"AB"[..], 5));
    /// assert_eq!(Setting::without_expiry().record_at(&bytes, 5), Ok(None));
    /// ```
    pub fn record_at<'a>(
        &self,
        records: &'a [u8],
        position: usize,
    ) -> Result<Option<StoredRecord<'a>>, Refusal> {
        record_at(&self.words(), records, position)
    }

    /// The records of a segment's bytes one after the other, without an index. For a segment of a set see
    /// [`Set::segment_records`](crate::Set::segment_records).
    pub fn segment_records<'a>(&self, segment: &'a [u8]) -> SegmentRecords<'a> {
        SegmentRecords::new(self.words(), segment)
    }

    pub(crate) fn words(&self) -> [u64; SETTING_WORDS] {
        let tick = self.tick.unwrap_or(Duration::ZERO);
        [
            u64::from(self.tick.is_some()),
            tick.as_secs(),
            u64::from(tick.subsec_nanos()),
            u64::from(self.occupancy),
            u64::from(self.packed),
            u64::from(self.filter_bits),
        ]
    }
}

// The words of a lifetime: none for never.
pub(crate) struct LifetimeWords {
    words: [u64; 2],
    len: usize,
}

impl LifetimeWords {
    pub(crate) fn of(lifetime: Option<Duration>) -> LifetimeWords {
        match lifetime {
            None => LifetimeWords {
                words: [0, 0],
                len: 0,
            },
            Some(time) => LifetimeWords {
                words: [time.as_secs(), u64::from(time.subsec_nanos())],
                len: 2,
            },
        }
    }

    pub(crate) fn as_slice(&self) -> &[u64] {
        &self.words[..self.len]
    }
}
