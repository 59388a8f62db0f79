//! Asking a finished set.
use crate::areas::Areas;
use crate::arena::{Arena, Stamp};
use crate::entry::{Entries, Entry, RECORD_WORDS};
use crate::ffi;
use crate::refusal::Refusal;
use crate::setting::SETTING_WORDS;
use crate::stats::Stats;
use crate::stored::SegmentRecords;
use std::fmt;

pub(crate) const SET_WORDS: usize = 15;

const SPAN_WORDS: usize = 3;

// Words of a set behind those of its setting.
const ENTRIES: usize = 6;
const SEGMENTS: usize = 9;
const FILLED: usize = 10;

/// A frozen set of records. It owns its index and refers to the arena that it was built in or loaded into,
/// which is lent to each call; with another arena, or one in which another builder was opened or a file was
/// loaded since, every call answers [`Refusal::InvalidState`].
///
/// ```
/// use segment_cache::{Arena, Builder, Refusal, Setting};
///
/// let mut arena = Arena::new(64);
/// let mut builder = Builder::open(&mut arena, &Setting::without_expiry(), 1)?;
/// builder.push(7, b"cell", b"11.4", None)?;
/// let mut set = builder.finish(4096)?;
///
/// assert_eq!(set.get(&arena, 7, b"cell", 0)?, Some(&b"11.4"[..]));
/// assert!(set.take_accessed(&arena, 7, b"cell")?);
/// assert_eq!(set.get(&Arena::new(64), 7, b"cell", 0), Err(Refusal::InvalidState));
/// # Ok::<(), Refusal>(())
/// ```
pub struct Set {
    words: [u64; SET_WORDS],
    areas: Areas,
    stamp: Stamp,
}

impl Set {
    pub(crate) fn new(words: [u64; SET_WORDS], areas: Areas, stamp: Stamp) -> Set {
        Set {
            words,
            areas,
            stamp,
        }
    }

    /// How many records there are.
    pub fn len(&self) -> usize {
        self.words[ENTRIES] as usize
    }

    /// Whether there are none.
    pub fn is_empty(&self) -> bool {
        self.len() == 0
    }

    /// How many segments the records stand in, 1 to 256.
    pub fn segments(&self) -> usize {
        self.words[SEGMENTS] as usize
    }

    /// How many bytes of the arena are in use; a rebuild appends behind them.
    pub fn filled_bytes(&self) -> usize {
        self.words[FILLED] as usize
    }

    /// The value of a key that has not lapsed at this tick, as a part of the arena. A hit sets the
    /// record's access mark.
    pub fn get<'a>(
        &mut self,
        arena: &'a Arena,
        hash: u64,
        key: &[u8],
        tick: u64,
    ) -> Result<Option<&'a [u8]>, Refusal> {
        arena.holds(self.stamp)?;
        let mut span = [0; SPAN_WORDS];
        Refusal::check(ffi::segment_cache_get(
            &self.words,
            hash,
            key,
            tick,
            &mut self.areas.index,
            &self.areas.filter,
            &self.areas.starts,
            &self.areas.lengths,
            arena.bytes(),
            &mut span,
        ))?;
        Ok(value_of(arena, span))
    }

    /// The same without the mark.
    pub fn peek<'a>(
        &self,
        arena: &'a Arena,
        hash: u64,
        key: &[u8],
        tick: u64,
    ) -> Result<Option<&'a [u8]>, Refusal> {
        arena.holds(self.stamp)?;
        let mut span = [0; SPAN_WORDS];
        Refusal::check(ffi::segment_cache_peek(
            &self.words,
            hash,
            key,
            tick,
            &self.areas.index,
            &self.areas.filter,
            &self.areas.starts,
            &self.areas.lengths,
            arena.bytes(),
            &mut span,
        ))?;
        Ok(value_of(arena, span))
    }

    /// Clears the access mark of a key, lapsed or not, and tells whether it was set.
    pub fn take_accessed(&mut self, arena: &Arena, hash: u64, key: &[u8]) -> Result<bool, Refusal> {
        arena.holds(self.stamp)?;
        let mut accessed = [0];
        Refusal::check(ffi::segment_cache_take_accessed(
            &self.words,
            hash,
            key,
            &mut self.areas.index,
            &self.areas.filter,
            &self.areas.starts,
            &self.areas.lengths,
            arena.bytes(),
            &mut accessed,
        ))?;
        Ok(accessed[0] == 1)
    }

    /// The record of a key, lapsed or not, with what is left of its time at this tick. Sets no mark.
    pub fn probe<'a>(
        &self,
        arena: &'a Arena,
        hash: u64,
        key: &[u8],
        tick: u64,
    ) -> Result<Option<Entry<'a>>, Refusal> {
        arena.holds(self.stamp)?;
        let mut record = [0; RECORD_WORDS];
        Refusal::check(ffi::segment_cache_probe(
            &self.words,
            hash,
            key,
            tick,
            &self.areas.index,
            &self.areas.filter,
            &self.areas.starts,
            &self.areas.lengths,
            arena.bytes(),
            &mut record,
        ))?;
        Ok(Entry::of_words(&record, arena, self.stamp, tick))
    }

    /// All records, lapsed or not, by ascending slots, with what is left of their time at this tick.
    pub fn entries<'a>(&'a self, arena: &'a Arena, tick: u64) -> Result<Entries<'a>, Refusal> {
        arena.holds(self.stamp)?;
        Ok(Entries::new(self, arena, tick))
    }

    /// The records of a segment one after the other, without the index: from the segment's front on, each
    /// next one at the end of the last. `None` for a number past the last segment. A rebuilt set keeps whole
    /// segments: records that were not reused are given too, and one reused inside another's value is not.
    pub fn segment_records<'a>(
        &self,
        arena: &'a Arena,
        segment: usize,
    ) -> Result<Option<SegmentRecords<'a>>, Refusal> {
        arena.holds(self.stamp)?;
        if segment >= self.segments() {
            return Ok(None);
        }
        let setting: [u64; SETTING_WORDS] = std::array::from_fn(|i| self.words[i]);
        let start = self.areas.starts[segment] as usize;
        let length = self.areas.lengths[segment] as usize;
        let bytes = &arena.bytes()[start..start + length];
        Ok(Some(SegmentRecords::new(setting, bytes)))
    }

    // The first record from a slot on.
    pub(crate) fn next_entry<'a>(
        &self,
        arena: &'a Arena,
        from: usize,
        tick: u64,
    ) -> Result<Option<Entry<'a>>, Refusal> {
        let mut record = [0; RECORD_WORDS];
        Refusal::check(ffi::segment_cache_next_entry(
            &self.words,
            from,
            tick,
            &self.areas.index,
            &self.areas.starts,
            &self.areas.lengths,
            arena.bytes(),
            &mut record,
        ))?;
        Ok(Entry::of_words(&record, arena, self.stamp, tick))
    }

    /// Counts of the set.
    pub fn stats(&self) -> Result<Stats, Refusal> {
        Stats::of_set(&self.words)
    }

    pub(crate) fn parts(&self) -> (&[u64; SET_WORDS], &Areas, Stamp) {
        (&self.words, &self.areas, self.stamp)
    }
}

// The bytes of a span: 1, place and length; or zeros.
fn value_of(arena: &Arena, span: [u64; SPAN_WORDS]) -> Option<&[u8]> {
    let [found, at, len] = span.map(|word| word as usize);
    (found == 1).then(|| &arena.bytes()[at..at + len])
}

impl fmt::Debug for Set {
    fn fmt(&self, f: &mut fmt::Formatter<'_>) -> fmt::Result {
        f.debug_struct("Set")
            .field("entries", &self.len())
            .field("segments", &self.segments())
            .field("stamp", &self.stamp)
            .finish_non_exhaustive()
    }
}
