//! A set on paper.
use crate::arena::Arena;
use crate::ffi;
use crate::refusal::Refusal;
use crate::set::Set;

// Fifty lines of 64 columns, each with its line feed.
const PAGE_BYTES: usize = 50 * 65;

impl Set {
    /// How many pages [`Set::sheet`] has: fifty records of the walk make one, and a set without records has
    /// none. Refuses as that does.
    pub fn sheet_pages(&self, arena: &Arena) -> Result<usize, Refusal> {
        let (words, areas, stamp) = self.parts();
        arena.holds(stamp)?;
        let mut pages = [0];
        Refusal::check_sheet(ffi::segment_cache_sheet_pages(
            words,
            &areas.index,
            &areas.starts,
            &areas.lengths,
            arena.bytes(),
            &mut pages,
        ))?;
        Ok(pages[0] as usize)
    }

    /// The chart room sheet: a line to each record, in the order of [`Set::entries`], of 64 columns and a line
    /// feed. Columns 1 to 8 have the slot, right-aligned; 10 to 33 the key and 35 to 58 the value, in small
    /// hexadecimal digits, left-aligned; 60 to 64 the deadline, right-aligned, or `never`. Fifty lines make a
    /// page; the last one is filled up with lines of 64 spaces.
    ///
    /// The deadline is the tick that stands in the record, in the count of the set's ticks, and not what is
    /// left; lapsed records are printed as all others are. Two sets whose records differ in a slot, key, value
    /// or deadline never have the same sheet. A key or value of more than 12 bytes is refused with
    /// [`Refusal::FieldTooLong`].
    ///
    /// ```
    /// use segment_cache::{Arena, Builder, Refusal, Setting};
    /// use std::time::Duration;
    ///
    /// let mut arena = Arena::new(64);
    /// let setting = Setting::with_relative_expiry(Duration::from_secs(1));
    /// let mut builder = Builder::open(&mut arena, &setting, 2)?;
    /// builder.push(1, b"a", b"AB", Some(Duration::from_millis(9_500)))?;
    /// builder.push(2, b"b", b"", None)?;
    /// let sheet = builder.finish(4096)?.sheet(&arena)?;
    ///
    /// let lines: Vec<&str> = sheet.lines().collect();
    /// assert_eq!(lines[0], "       0 61                       4142                        10");
    /// assert_eq!(lines[1], "       1 62                                                never");
    /// assert_eq!((lines.len(), lines[49]), (50, " ".repeat(64).as_str()));
    /// # Ok::<(), Refusal>(())
    /// ```
    pub fn sheet(&self, arena: &Arena) -> Result<String, Refusal> {
        let mut page = vec![0; PAGE_BYTES * self.sheet_pages(arena)?];
        let (words, areas, _) = self.parts();
        let mut pages = [0];
        Refusal::check_sheet(ffi::segment_cache_print_sheet(
            words,
            &areas.index,
            &areas.starts,
            &areas.lengths,
            arena.bytes(),
            &mut page,
            &mut pages,
        ))?;
        Ok(String::from_utf8(page).expect("a sheet is ASCII"))
    }
}
