//! Rebuilding a set from the newest one of its arena.
use crate::areas::{AreaWords, Areas};
use crate::arena::Arena;
use crate::builder::Placed;
use crate::entry::{OwnedEntry, Place};
use crate::ffi;
use crate::refusal::{Refusal, Unfinished};
use crate::set::{SET_WORDS, Set};
use crate::setting::LifetimeWords;
use std::time::Duration;

const REBUILD_WORDS: usize = 22;

// Words of a rebuild: the length of a tick, and the tick that lifetimes count from.
const TICK_SECONDS: usize = 1;
const TICK_NANOSECONDS: usize = 2;
const SOURCE_NOW_TICK: usize = 21;

/// What a rebuild is to do.
#[derive(Clone, Copy, Debug)]
pub struct Plan<'p> {
    /// How many records the new set has.
    pub records: usize,
    /// Bytes to be copied; only 0, for none, is told apart from others.
    pub copied_record_capacity: usize,
    /// For each segment of the source whether it is kept.
    pub keep: &'p [bool],
    /// The present tick in the source's count. Lifetimes of copied records count from it.
    pub now_tick: u64,
}

/// A set that is being rebuilt: records of kept segments are taken over where they stand, others are
/// copied behind the filled part of the arena. Dropped unfinished, it leaves the source the newest.
///
/// ```
/// use segment_cache::{Arena, Builder, Plan, Rebuild, Refusal, Setting};
///
/// let mut arena = Arena::new(64);
/// let mut builder = Builder::open(&mut arena, &Setting::without_expiry(), 1)?;
/// builder.push(1, b"x", b"east", None)?;
/// let mut old = builder.finish(4096)?;
/// let east = old.probe(&arena, 1, b"x", 0)?.unwrap().place();
///
/// let plan = Plan { records: 2, copied_record_capacity: 7, keep: &[true], now_tick: 0 };
/// let mut rebuild = Rebuild::open(&mut arena, &old, &plan)?;
/// rebuild.push_reused(1, east)?;
/// rebuild.push_copied(2, b"y", b"west", None)?;
/// let mut new = rebuild.finish()?.set;
///
/// assert_eq!(new.get(&arena, 1, b"x", 0)?, Some(&b"east"[..]));
/// assert_eq!(new.get(&arena, 2, b"y", 0)?, Some(&b"west"[..]));
/// assert_eq!(old.get(&arena, 2, b"y", 0)?, None);
/// assert_eq!(Rebuild::open(&mut arena, &old, &plan).err(), Some(Refusal::InvalidState));
/// # Ok::<(), Refusal>(())
/// ```
pub struct Rebuild<'a> {
    arena: &'a mut Arena,
    words: [u64; REBUILD_WORDS],
    areas: Areas,
    scratch_words: usize,
}

/// A rebuilt set and what it took.
#[derive(Debug)]
pub struct Rebuilt {
    /// The set, now the newest of its arena.
    pub set: Set,
    /// Records taken over.
    pub reused_entries: usize,
    /// Their bytes.
    pub reused_record_bytes: usize,
    /// Bytes of the copied records.
    pub copied_record_bytes: usize,
    /// Bytes of the new index, filter and copied records.
    pub newly_allocated_bytes: usize,
}

impl<'a> Rebuild<'a> {
    /// Opens a rebuild; the source must be the newest set of the arena.
    pub fn open(
        arena: &'a mut Arena,
        source: &Set,
        plan: &Plan<'_>,
    ) -> Result<Rebuild<'a>, Refusal> {
        let (set, source_areas, stamp) = source.parts();
        arena.is_newest(stamp)?;
        let need = AreaWords::of_setting_words(&set[..6], plan.records)?;
        let mut areas = Areas::new(&need);
        let mut words = [0; REBUILD_WORDS];
        let keep: Vec<u8> = plan.keep.iter().map(|kept| u8::from(*kept)).collect();
        Refusal::check(ffi::segment_cache_rebuild_open(
            set,
            &source_areas.starts,
            &source_areas.lengths,
            arena.bytes(),
            plan.records,
            plan.copied_record_capacity,
            &keep,
            plan.now_tick,
            &mut words,
            &mut areas.index,
            &mut areas.filter,
            &mut areas.starts,
            &mut areas.lengths,
        ))?;
        Ok(Rebuild {
            arena,
            words,
            areas,
            scratch_words: need.scratch,
        })
    }

    /// The arena, so that older sets can be asked while the rebuild has it.
    pub fn arena(&self) -> &Arena {
        self.arena
    }

    /// Takes over a record that probe or walk found in the source, with its own deadline.
    pub fn push_reused(&mut self, hash: u64, place: Place) -> Result<Placed, Refusal> {
        self.arena.is_newest(place.source)?;
        let bytes = self.arena.bytes();
        let mut placed = [0; 2];
        Refusal::check(ffi::segment_cache_push_reused(
            &mut self.words,
            hash,
            &bytes[place.key.0..][..place.key.1],
            &bytes[place.value.0..][..place.value.1],
            place.location as usize,
            place.header_bytes,
            &mut self.areas.index,
            &mut self.areas.filter,
            &self.areas.starts,
            &self.areas.lengths,
            bytes,
            &mut placed,
        ))?;
        Ok(Placed::of_words(placed))
    }

    /// Appends a record that probe or walk told of a set in this line of rebuilds, with its own deadline:
    /// what is left of its time is worked out for the plan's tick, whenever it was asked for. The copy of a
    /// record of which nothing is left then (it has lapsed, or more than a duration can hold is left) is
    /// lapsed as well.
    ///
    /// ```
    /// use segment_cache::{Arena, Builder, Plan, Rebuild, Refusal, Setting};
    /// use std::time::Duration;
    ///
    /// let mut arena = Arena::new(64);
    /// let setting = Setting::with_relative_expiry(Duration::from_secs(60));
    /// let mut builder = Builder::open(&mut arena, &setting, 1)?;
    /// builder.push(1, b"x", b"east", Some(Duration::from_secs(90 * 60)))?;
    /// let old = builder.finish(4096)?;
    /// let east = old.probe(&arena, 1, b"x", 30)?.unwrap().copy_out();
    ///
    /// let plan = Plan { records: 1, copied_record_capacity: 9, keep: &[false], now_tick: 35 };
    /// let mut rebuild = Rebuild::open(&mut arena, &old, &plan)?;
    /// rebuild.copy(1, &east)?;
    /// let new = rebuild.finish()?.set;
    /// assert_eq!(new.peek(&arena, 1, b"x", 89)?, Some(&b"east"[..]));
    /// assert_eq!(new.peek(&arena, 1, b"x", 90)?, None);
    /// # Ok::<(), Refusal>(())
    /// ```
    pub fn copy(&mut self, hash: u64, record: &OwnedEntry) -> Result<Placed, Refusal> {
        // The library has asked that the nanoseconds are less than a second.
        let tick_length = Duration::new(
            self.words[TICK_SECONDS],
            self.words[TICK_NANOSECONDS] as u32,
        );
        let lifetime = record.lifetime_at(self.words[SOURCE_NOW_TICK], tick_length);
        self.push_copied(hash, &record.key, &record.value, lifetime)
    }

    /// Appends a record, which lapses its lifetime after the plan's tick, rounded up to whole ticks. For
    /// one that stands in the arena see [`Rebuild::copy`]: with what was left of its time at an earlier
    /// tick than the plan's the copy would outlive it.
    pub fn push_copied(
        &mut self,
        hash: u64,
        key: &[u8],
        value: &[u8],
        lifetime: Option<Duration>,
    ) -> Result<Placed, Refusal> {
        let mut placed = [0; 2];
        Refusal::check(ffi::segment_cache_push_copied(
            &mut self.words,
            hash,
            key,
            value,
            LifetimeWords::of(lifetime).as_slice(),
            &mut self.areas.index,
            &mut self.areas.filter,
            &self.areas.starts,
            &self.areas.lengths,
            self.arena.bytes_mut(),
            &mut placed,
        ))?;
        Ok(Placed::of_words(placed))
    }

    /// Freezes the rebuilt set, which is then the newest of its arena.
    // The set of an accepted finish is as large as what a refusal hands back.
    #[allow(clippy::result_large_err)]
    pub fn finish(mut self) -> Result<Rebuilt, Unfinished<Rebuild<'a>>> {
        let mut scratch = vec![0; self.scratch_words];
        let mut set = [0; SET_WORDS];
        let mut totals = [0; 4];
        let answer = Refusal::check(ffi::segment_cache_rebuild_finish(
            &self.words,
            &mut self.areas.index,
            &mut self.areas.starts,
            &mut self.areas.lengths,
            &mut scratch,
            self.arena.bytes(),
            &mut set,
            &mut totals,
        ));
        if let Err(refusal) = answer {
            return Err(Unfinished {
                refusal,
                builder: self,
            });
        }
        let [
            reused_entries,
            reused_record_bytes,
            copied_record_bytes,
            newly_allocated_bytes,
        ] = totals.map(|total| total as usize);
        Ok(Rebuilt {
            set: Set::new(set, self.areas, self.arena.next_set()),
            reused_entries,
            reused_record_bytes,
            copied_record_bytes,
            newly_allocated_bytes,
        })
    }
}
