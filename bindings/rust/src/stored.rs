//! Records read from a segment's bytes, without an index.
use crate::ffi;
use crate::refusal::Refusal;
use crate::setting::SETTING_WORDS;
use std::fmt;
use std::iter::FusedIterator;

const STORED_WORDS: usize = 9;

// The deadline of a record that never lapses.
const NEVER: u64 = 65_535;

/// A record as it stands in a segment. Its positions count from the front of the bytes it was read from.
#[derive(Clone, Copy, Debug, PartialEq, Eq)]
pub struct StoredRecord<'a> {
    /// The key, a part of the bytes.
    pub key: &'a [u8],
    /// The value, a part of the bytes.
    pub value: &'a [u8],
    /// The tick from which on it has lapsed; `None` for a record that never lapses.
    pub deadline: Option<u16>,
    /// Where it begins.
    pub location: usize,
    /// The position just after its value, where the next record begins, if there is one.
    pub end: usize,
}

// The record at a position, with the words of a setting.
pub(crate) fn record_at<'a>(
    setting: &[u64; SETTING_WORDS],
    records: &'a [u8],
    position: usize,
) -> Result<Option<StoredRecord<'a>>, Refusal> {
    let mut words = [0; STORED_WORDS];
    Refusal::check(ffi::segment_cache_record_at(
        setting, records, position, &mut words,
    ))?;
    Ok(StoredRecord::of_words(&words, records))
}

impl<'a> StoredRecord<'a> {
    // The nine words: 1, location, bytes before the key, place and length of key and value, deadline and
    // end; or zeros.
    fn of_words(words: &[u64; STORED_WORDS], records: &'a [u8]) -> Option<StoredRecord<'a>> {
        if words[0] == 0 {
            return None;
        }
        let [location, _, key_at, key_len, value_at, value_len] =
            std::array::from_fn(|i| words[i + 1] as usize);
        Some(StoredRecord {
            key: &records[key_at..key_at + key_len],
            value: &records[value_at..value_at + value_len],
            deadline: (words[7] != NEVER).then_some(words[7] as u16),
            location,
            end: words[8] as usize,
        })
    }
}

/// Bytes of a segment that read as no record.
#[derive(Clone, Copy, Debug, PartialEq, Eq)]
pub struct Unreadable {
    /// Where they begin, which is before the segment's end.
    pub position: usize,
}

impl fmt::Display for Unreadable {
    fn fmt(&self, f: &mut fmt::Formatter<'_>) -> fmt::Result {
        write!(f, "no record is read at byte {}", self.position)
    }
}

impl std::error::Error for Unreadable {}

/// The records of a segment in the order in which they stand there, lapsed ones too: the first at 0, each
/// next at the end of the last, until an end is the segment's length. See
/// [`Set::segment_records`](crate::Set::segment_records) and
/// [`Setting::segment_records`](crate::Setting::segment_records).
///
/// Where bytes before the segment's end read as no record, an item is [`Unreadable`] with their position,
/// and nothing comes after it, since only a record tells where the next one begins. A segment of a set has
/// no such bytes; bytes from elsewhere may.
///
/// ```
/// use segment_cache::{Arena, Builder, Refusal, Setting, Unreadable};
///
/// let mut arena = Arena::new(64);
/// let setting = Setting::without_expiry();
/// let mut builder = Builder::open(&mut arena, &setting, 2)?;
/// builder.push(1, b"x", b"east", None)?;
/// builder.push(2, b"y", b"west", None)?;
/// let set = builder.finish(4096)?;
///
/// let records: Result<Vec<_>, Unreadable> = set.segment_records(&arena, 0)?.unwrap().collect();
/// let ends: Vec<_> = records.unwrap().iter().map(|record| (record.value, record.end)).collect();
/// assert_eq!(ends, [(&b"east"[..], 7), (&b"west"[..], 14)]);
/// assert!(set.segment_records(&arena, 1)?.is_none());
///
/// // The last byte of the second record is missing.
/// let mut cut = setting.segment_records(&arena.bytes()[..13]);
/// assert_eq!(cut.next().unwrap().unwrap().key, b"x");
/// assert_eq!(cut.next(), Some(Err(Unreadable { position: 7 })));
/// assert_eq!(cut.next(), None);
/// # Ok::<(), Refusal>(())
/// ```
#[derive(Clone, Debug)]
pub struct SegmentRecords<'a> {
    setting: [u64; SETTING_WORDS],
    bytes: &'a [u8],
    // The end of the last record; past an unreadable one the length of the segment.
    position: usize,
}

impl<'a> SegmentRecords<'a> {
    pub(crate) fn new(setting: [u64; SETTING_WORDS], bytes: &'a [u8]) -> SegmentRecords<'a> {
        SegmentRecords {
            setting,
            bytes,
            position: 0,
        }
    }
}

impl<'a> Iterator for SegmentRecords<'a> {
    type Item = Result<StoredRecord<'a>, Unreadable>;

    fn next(&mut self) -> Option<Self::Item> {
        let position = self.position;
        if position == self.bytes.len() {
            return None;
        }
        let record = record_at(&self.setting, self.bytes, position)
            .expect("a setting of this crate has no words that are refused");
        self.position = record.map_or(self.bytes.len(), |record| record.end);
        Some(record.ok_or(Unreadable { position }))
    }
}

impl FusedIterator for SegmentRecords<'_> {}
