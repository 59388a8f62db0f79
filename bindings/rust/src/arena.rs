//! The arena, and which sets stand in it.
use crate::refusal::Refusal;
use std::fmt;
use std::sync::atomic::{AtomicU64, Ordering};

// Numbers of lines are unique in the process, so that a set can't be asked with another's arena.
static NEXT_LINE: AtomicU64 = AtomicU64::new(0);

// A line of rebuilds begins where a builder is opened or a file is loaded; its sets are numbered from 1.
#[derive(Clone, Copy, Debug, PartialEq, Eq)]
pub(crate) struct Stamp {
    line: u64,
    generation: u64,
}

/// The bytes that records stand in. All sets of one line of rebuilds share an arena: they read it, and
/// a rebuild only appends to it, so that older sets can still be asked. Opening a new builder or loading a
/// file in an arena ends the sets that stand in it; they then answer [`Refusal::InvalidState`].
pub struct Arena {
    bytes: Vec<u8>,
    newest: Stamp,
}

impl Arena {
    /// An arena of this many bytes, at most 1,073,741,824.
    pub fn new(bytes: usize) -> Arena {
        Arena {
            bytes: vec![0; bytes],
            newest: Stamp::of_new_line(),
        }
    }

    /// All bytes, records first.
    pub fn bytes(&self) -> &[u8] {
        &self.bytes
    }

    pub(crate) fn bytes_mut(&mut self) -> &mut [u8] {
        &mut self.bytes
    }

    // Ends all sets that stand here.
    pub(crate) fn begin_line(&mut self) {
        self.newest = Stamp::of_new_line();
    }

    // The stamp of a set just finished, which is now the newest.
    pub(crate) fn next_set(&mut self) -> Stamp {
        self.newest.generation += 1;
        self.newest
    }

    // Whether a set stands in this arena.
    pub(crate) fn holds(&self, set: Stamp) -> Result<(), Refusal> {
        if set.line == self.newest.line {
            Ok(())
        } else {
            Err(Refusal::InvalidState)
        }
    }

    // Whether a set is the newest in this arena.
    pub(crate) fn is_newest(&self, set: Stamp) -> Result<(), Refusal> {
        if set == self.newest {
            Ok(())
        } else {
            Err(Refusal::InvalidState)
        }
    }
}

impl Stamp {
    fn of_new_line() -> Stamp {
        Stamp {
            line: NEXT_LINE.fetch_add(1, Ordering::Relaxed),
            generation: 0,
        }
    }
}

impl fmt::Debug for Arena {
    fn fmt(&self, f: &mut fmt::Formatter<'_>) -> fmt::Result {
        f.debug_struct("Arena")
            .field("bytes", &self.bytes.len())
            .field("newest", &self.newest)
            .finish()
    }
}
