// Looking up keys in areas of the port, against any other way to do so.
use crate::port::index::{self as port, Areas};
use crate::report::Group;
use crate::rng::{Rng, lent, word_pattern};

// The areas and counts of one set, each area longer than the set needs.
pub struct Lent {
    pub on: bool,
    pub packed: bool,
    pub filled: usize,
    pub segments: usize,
    pub buckets: usize,
    pub filter_words: usize,
    pub arena: Vec<u8>,
    pub index: Vec<u64>,
    pub filter: Vec<u64>,
    pub starts: Vec<u64>,
    pub lengths: Vec<u64>,
}

impl Lent {
    // As an open leaves them.
    pub fn cleared(on: bool, packed: bool, buckets: usize, filter_words: usize) -> Lent {
        let cleared = |words: usize| {
            let mut area = lent(&word_pattern(words));
            port::test_clear_words(&mut area, words);
            area
        };
        Lent {
            on,
            packed,
            filled: 0,
            segments: 0,
            buckets,
            filter_words,
            arena: Vec::new(),
            index: cleared(8 * buckets),
            filter: cleared(filter_words),
            starts: word_pattern(259),
            lengths: word_pattern(259),
        }
    }

    pub fn areas(&self) -> Areas<'_> {
        Areas {
            on: self.on,
            packed: self.packed,
            filled: self.filled,
            segments: self.segments,
            buckets: self.buckets,
            filter_words: self.filter_words,
            arena: &self.arena,
            index: &self.index,
            filter: &self.filter,
            starts: &self.starts,
            lengths: &self.lengths,
        }
    }

    pub fn mark(&mut self, slot: usize) {
        if self.packed {
            let control = &mut self.index[slot / 8];
            *control = port::test_mark_control(*control, slot);
        } else {
            self.index[slot] = port::test_mark_accessed(self.index[slot]);
        }
    }

    pub fn clear(&mut self, slot: usize) {
        if self.packed {
            let control = &mut self.index[slot / 8];
            *control = port::test_clear_control(*control, slot);
        } else {
            self.index[slot] = port::test_clear_accessed(self.index[slot]);
        }
    }
}

// One lookup by the port and by the Rust.
pub fn compare(
    group: &mut Group,
    about: &str,
    lent: &Lent,
    rust: &dyn Fn(&[u8], u64) -> Option<[u64; 9]>,
    key: &[u8],
    hash: u64,
) {
    let found = port::find(&lent.areas(), key, hash);
    let input = || format!("{about}, {key:x?}, {hash:#x}");
    group.rust("find_record", found, rust(key, hash), input);
}

// The record at a stored location and at those beside it.
pub fn locations(
    group: &mut Group,
    about: &str,
    lent: &Lent,
    rust: &dyn Fn(u64) -> Option<[u64; 8]>,
    stored: u64,
) {
    let beside = [stored, stored + 1, stored.saturating_sub(1)];
    let outside = [stored + (1 << 32), stored | 0xff_0000_0000];
    for stored in beside.into_iter().chain(outside) {
        let found = port::record_at_location(&lent.areas(), stored);
        let input = || format!("{about}, stored {stored:#x}");
        group.rust("record_at_location", found, rust(stored), input);
    }
}

// A key with one byte changed, or one more where it has none.
pub fn changed(rng: &mut Rng, key: &[u8]) -> Vec<u8> {
    let mut key = key.to_vec();
    if key.is_empty() {
        return vec![0];
    }
    let place = rng.index(key.len());
    key[place] ^= 1 << rng.below(8);
    key
}
