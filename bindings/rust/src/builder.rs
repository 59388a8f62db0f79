//! Filling a set.
use crate::areas::{AreaWords, Areas};
use crate::arena::Arena;
use crate::ffi;
use crate::refusal::{Refusal, Unfinished};
use crate::set::{SET_WORDS, Set};
use crate::setting::{LifetimeWords, Setting};
use std::time::Duration;

const BUILDER_WORDS: usize = 13;

/// Where a record went.
#[derive(Clone, Copy, Debug, PartialEq, Eq)]
pub struct Placed {
    /// Its slot of the index.
    pub slot: usize,
    /// Its location: in a build the arena byte, in a rebuild segment * 2^32 + offset.
    pub location: u64,
}

impl Placed {
    pub(crate) fn of_words(words: [u64; 2]) -> Placed {
        Placed {
            slot: words[0] as usize,
            location: words[1],
        }
    }
}

/// A set that is being filled. It has the arena for itself until it is finished or dropped.
///
/// ```
/// use segment_cache::{Arena, Builder, Refusal, Setting};
/// use std::time::Duration;
///
/// let mut arena = Arena::new(4096);
/// let setting = Setting::with_relative_expiry(Duration::from_secs(1));
/// let mut builder = Builder::open(&mut arena, &setting, 2)?;
/// builder.push(1, b"a", b"AB", Some(Duration::from_millis(9_500)))?;
/// assert_eq!(builder.push(1, b"a", b"again", None), Err(Refusal::DuplicateKey));
/// builder.push(2, b"b", b"", None)?;
/// let mut set = builder.finish(4096)?;
///
/// assert_eq!(set.get(&arena, 1, b"a", 9)?, Some(&b"AB"[..]));
/// assert_eq!(set.get(&arena, 1, b"a", 10)?, None);
/// # Ok::<(), Refusal>(())
/// ```
///
/// The set can't be asked, nor another built, while the builder has the arena:
///
/// ```compile_fail
/// # use segment_cache::{Arena, Builder, Setting};
/// let mut arena = Arena::new(4096);
/// let setting = Setting::without_expiry();
/// let first = Builder::open(&mut arena, &setting, 0).unwrap();
/// let second = Builder::open(&mut arena, &setting, 0).unwrap();
/// first.finish(4096).unwrap();
/// ```
pub struct Builder<'a> {
    arena: &'a mut Arena,
    words: [u64; BUILDER_WORDS],
    areas: Areas,
    scratch_words: usize,
}

impl<'a> Builder<'a> {
    /// Opens a builder for just this many records. Sets that stood in the arena are ended.
    pub fn open(
        arena: &'a mut Arena,
        setting: &Setting,
        records: usize,
    ) -> Result<Builder<'a>, Refusal> {
        let need = AreaWords::of(setting, records)?;
        let mut areas = Areas::new(&need);
        let mut words = [0; BUILDER_WORDS];
        Refusal::check(ffi::segment_cache_open(
            &setting.words(),
            records,
            &mut words,
            &mut areas.index,
            &mut areas.filter,
            &areas.starts,
            &areas.lengths,
            arena.bytes(),
        ))?;
        arena.begin_line();
        Ok(Builder {
            arena,
            words,
            areas,
            scratch_words: need.scratch,
        })
    }

    /// Adds a record, which lapses its lifetime after tick 0, rounded up to whole ticks; without one it
    /// never lapses. Equal keys must come with equal hashes.
    pub fn push(
        &mut self,
        hash: u64,
        key: &[u8],
        value: &[u8],
        lifetime: Option<Duration>,
    ) -> Result<Placed, Refusal> {
        let mut place = [0; 2];
        Refusal::check(ffi::segment_cache_push(
            &mut self.words,
            hash,
            key,
            value,
            LifetimeWords::of(lifetime).as_slice(),
            &mut self.areas.index,
            &mut self.areas.filter,
            self.arena.bytes_mut(),
            &mut place,
        ))?;
        Ok(Placed::of_words(place))
    }

    /// Freezes the records into a set, in segments of about `target` bytes.
    // The set of an accepted finish is as large as what a refusal hands back.
    #[allow(clippy::result_large_err)]
    pub fn finish(mut self, target: usize) -> Result<Set, Unfinished<Builder<'a>>> {
        let mut scratch = vec![0; self.scratch_words];
        let mut set = [0; SET_WORDS];
        let answer = Refusal::check(ffi::segment_cache_finish(
            &self.words,
            target,
            &mut self.areas.index,
            &mut self.areas.starts,
            &mut self.areas.lengths,
            &mut scratch,
            self.arena.bytes(),
            &mut set,
        ));
        match answer {
            Ok(()) => Ok(Set::new(set, self.areas, self.arena.next_set())),
            Err(refusal) => Err(Unfinished {
                refusal,
                builder: self,
            }),
        }
    }
}
