//! Records as probe and walk tell them.
use crate::arena::{Arena, Stamp};
use crate::set::Set;
use std::time::Duration;

pub(crate) const RECORD_WORDS: usize = 12;

/// What is left of a record's time.
#[derive(Clone, Copy, Debug, PartialEq, Eq)]
pub enum Remaining {
    /// It never lapses.
    Never,
    /// It lapses after this time.
    Finite(Duration),
    /// It has lapsed; or the time is longer than a [`Duration`].
    Nothing,
}

/// A record of a set.
#[derive(Clone, Copy, Debug, PartialEq, Eq)]
pub struct Entry<'a> {
    /// The slot of the index.
    pub slot: usize,
    /// The key, a part of the arena.
    pub key: &'a [u8],
    /// The value, a part of the arena.
    pub value: &'a [u8],
    /// What is left of its time at the tick that was asked for.
    pub remaining: Remaining,
    tick: u64,
    place: Place,
}

/// Where a record stands, for reuse in a rebuild and to go on behind it. Unlike an [`Entry`] it borrows
/// nothing.
#[derive(Clone, Copy, Debug, PartialEq, Eq)]
pub struct Place {
    pub(crate) location: u64,
    end: u64,
    pub(crate) header_bytes: usize,
    pub(crate) key: (usize, usize),
    pub(crate) value: (usize, usize),
    pub(crate) source: Stamp,
}

impl Place {
    /// The number of the segment that the record stands in.
    pub fn segment(&self) -> usize {
        (self.location >> 32) as usize
    }

    /// Where the record begins, as the library counts it: segment * 2^32 + offset in the segment.
    pub fn location(&self) -> u64 {
        self.location
    }

    /// The position just after the record's value, counted as the location is. The next record of the
    /// segment begins there, if it has one; see [`Set::segment_records`].
    pub fn end(&self) -> u64 {
        self.end
    }
}

impl<'a> Entry<'a> {
    // The twelve words: 1, slot, location, bytes before the key, place and length of key and value, what is
    // left, and the end; or zeros.
    pub(crate) fn of_words(
        words: &[u64; RECORD_WORDS],
        arena: &'a Arena,
        source: Stamp,
        tick: u64,
    ) -> Option<Entry<'a>> {
        if words[0] == 0 {
            return None;
        }
        let [slot, _, header_bytes, key_at, key_len, value_at, value_len] =
            std::array::from_fn(|i| words[i + 1] as usize);
        Some(Entry {
            slot,
            key: &arena.bytes()[key_at..key_at + key_len],
            value: &arena.bytes()[value_at..value_at + value_len],
            remaining: remaining_of(words[8], words[9], words[10]),
            tick,
            place: Place {
                location: words[2],
                end: words[11],
                header_bytes,
                key: (key_at, key_len),
                value: (value_at, value_len),
                source,
            },
        })
    }

    /// Where the record stands.
    pub fn place(&self) -> Place {
        self.place
    }

    /// Where the record ends; see [`Place::end`].
    pub fn end(&self) -> u64 {
        self.place.end
    }

    /// Key, value and what is left of the time, for [`Rebuild::copy`](crate::Rebuild::copy).
    pub fn copy_out(&self) -> OwnedEntry {
        OwnedEntry {
            key: self.key.to_vec(),
            value: self.value.to_vec(),
            remaining: self.remaining,
            tick: self.tick,
        }
    }
}

/// A record taken out of its arena, to be copied in a rebuild. It knows at which tick it was asked for.
#[derive(Clone, Debug, PartialEq, Eq)]
pub struct OwnedEntry {
    /// The key.
    pub key: Vec<u8>,
    /// The value.
    pub value: Vec<u8>,
    remaining: Remaining,
    tick: u64,
}

impl OwnedEntry {
    // What is left at another tick of the same count. What is left is a whole number of ticks, so that the
    // deadline stays the same.
    pub(crate) fn lifetime_at(&self, tick: u64, tick_length: Duration) -> Option<Duration> {
        let left = match self.remaining {
            Remaining::Never => return None,
            Remaining::Finite(left) => left,
            Remaining::Nothing => return Some(Duration::ZERO),
        };
        let span = u32::try_from(tick.abs_diff(self.tick)).unwrap_or(u32::MAX);
        let passed = tick_length.saturating_mul(span);
        Some(if tick < self.tick {
            left.saturating_add(passed)
        } else {
            left.saturating_sub(passed)
        })
    }
}

fn remaining_of(kind: u64, seconds: u64, nanoseconds: u64) -> Remaining {
    match kind {
        0 => Remaining::Never,
        1 => Remaining::Finite(Duration::new(seconds, nanoseconds as u32)),
        _ => Remaining::Nothing,
    }
}

/// The walk over all records of a set, by ascending slots; see [`Set::entries`].
///
/// ```
/// use segment_cache::{Arena, Builder, Refusal, Remaining, Setting};
///
/// let mut arena = Arena::new(64);
/// let mut builder = Builder::open(&mut arena, &Setting::without_expiry(), 2)?;
/// builder.push(1, b"x", b"east", None)?;
/// builder.push(2, b"y", b"west", None)?;
/// let set = builder.finish(4096)?;
///
/// let values: Vec<&[u8]> = set.entries(&arena, 0)?.map(|entry| entry.value).collect();
/// assert_eq!(values, [b"east", b"west"]);
/// assert!(set.entries(&arena, 0)?.all(|entry| entry.remaining == Remaining::Never));
/// # Ok::<(), Refusal>(())
/// ```
#[derive(Clone, Debug)]
pub struct Entries<'a> {
    set: &'a Set,
    arena: &'a Arena,
    tick: u64,
    from: usize,
}

impl<'a> Entries<'a> {
    pub(crate) fn new(set: &'a Set, arena: &'a Arena, tick: u64) -> Entries<'a> {
        Entries {
            set,
            arena,
            tick,
            from: 0,
        }
    }
}

impl<'a> Iterator for Entries<'a> {
    type Item = Entry<'a>;

    fn next(&mut self) -> Option<Entry<'a>> {
        // The set was asked for this arena when the walk began, and neither can change while it goes on.
        let entry = self
            .set
            .next_entry(self.arena, self.from, self.tick)
            .expect("a set and its own arena belong together")?;
        self.from = entry.slot + 1;
        Some(entry)
    }
}
