//! A set as a file.
use crate::areas::{AreaWords, Areas};
use crate::arena::Arena;
use crate::ffi;
use crate::refusal::Refusal;
use crate::set::{SET_WORDS, Set};

/// What a file's set needs: words of each of its areas, which the wrapper lends, and bytes of the arena.
#[derive(Clone, Copy, Debug, PartialEq, Eq)]
pub struct FileNeeds {
    /// Eight words a bucket.
    pub index: usize,
    /// The negative filter.
    pub filter: usize,
    /// Starts of segments.
    pub starts: usize,
    /// Lengths of segments.
    pub lengths: usize,
    /// The bytes of the records. A longer arena has room for what a rebuild copies.
    pub arena: usize,
}

impl FileNeeds {
    /// What this file needs, or why it is none: [`Refusal::FileFraming`], [`Refusal::FileKinds`] or
    /// [`Refusal::FileContent`].
    pub fn of(file: &[u8]) -> Result<FileNeeds, Refusal> {
        let mut needs = [0; 5];
        Refusal::check(ffi::segment_cache_file_needs(file, &mut needs))?;
        let [index, filter, starts, lengths, arena] = needs.map(|count| count as usize);
        Ok(FileNeeds {
            index,
            filter,
            starts,
            lengths,
            arena,
        })
    }

    // A load takes no scratch.
    fn areas(&self) -> Areas {
        Areas::new(&AreaWords {
            index: self.index,
            filter: self.filter,
            starts: self.starts,
            lengths: self.lengths,
            scratch: 0,
        })
    }
}

impl Set {
    /// The set as a file. Access marks don't travel, and of a rebuilt set only its own segments do.
    ///
    /// ```
    /// use segment_cache::{Arena, Builder, FileNeeds, Refusal, Set, Setting};
    ///
    /// let mut arena = Arena::new(64);
    /// let mut builder = Builder::open(&mut arena, &Setting::without_expiry(), 1)?;
    /// builder.push(7, b"cell", b"11.4", None)?;
    /// let file = builder.finish(4096)?.to_file(&arena)?;
    ///
    /// let mut unit = Arena::new(FileNeeds::of(&file)?.arena);
    /// let set = Set::from_file(&mut unit, &file)?;
    /// assert_eq!(set.peek(&unit, 7, b"cell", 0)?, Some(&b"11.4"[..]));
    /// # Ok::<(), Refusal>(())
    /// ```
    pub fn to_file(&self, arena: &Arena) -> Result<Vec<u8>, Refusal> {
        let (words, areas, stamp) = self.parts();
        arena.holds(stamp)?;
        let mut bytes = [0];
        Refusal::check(ffi::segment_cache_file_bytes(
            words,
            &areas.starts,
            &areas.lengths,
            &mut bytes,
        ))?;
        let mut file = vec![0; bytes[0] as usize];
        Refusal::check(ffi::segment_cache_write_file(
            words,
            &areas.index,
            &areas.filter,
            &areas.starts,
            &areas.lengths,
            arena.bytes(),
            &mut file,
            &mut bytes,
        ))?;
        Ok(file)
    }

    /// Loads a file into an arena, as long as [`FileNeeds::of`] tells or longer; the set has areas of its own.
    /// Other sets that stand in the arena end, as they do where a builder is opened; a refused load leaves
    /// them as they were. The ticks and hashes of the set are those of its writer.
    ///
    /// A file tells nothing of who made it: one that loads has the right form; whether its index, filter and
    /// counts fit its records is not asked.
    pub fn from_file(arena: &mut Arena, file: &[u8]) -> Result<Set, Refusal> {
        let mut areas = FileNeeds::of(file)?.areas();
        let mut words = [0; SET_WORDS];
        Refusal::check(ffi::segment_cache_load_file(
            file,
            &mut areas.index,
            &mut areas.filter,
            &mut areas.starts,
            &mut areas.lengths,
            arena.bytes_mut(),
            &mut words,
        ))?;
        arena.begin_line();
        Ok(Set::new(words, areas, arena.next_set()))
    }
}
