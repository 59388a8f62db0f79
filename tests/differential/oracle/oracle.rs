// The crate root of the oracle: the unchanged source with the accessor modules behind it, and in
// place of its hashing a stub, since the port takes the hash as an argument.
pub mod segment_cache;

pub use segment_cache::{access, access_index, access_rebuilds, access_sets};

use std::cell::Cell;
use std::hash::{BuildHasher, Hasher};

thread_local! {
    static HASH: Cell<u64> = const { Cell::new(0) };
}

// Every key hashes to this number until it is set anew.
pub fn set_hash(hash: u64) {
    HASH.set(hash);
}

#[derive(Clone, Debug, Default)]
pub struct GenerationHashBuilder;

impl BuildHasher for GenerationHashBuilder {
    type Hasher = SetHash;

    fn build_hasher(&self) -> SetHash {
        SetHash
    }
}

pub struct SetHash;

impl Hasher for SetHash {
    fn finish(&self) -> u64 {
        HASH.get()
    }

    fn write(&mut self, _bytes: &[u8]) {}
}
