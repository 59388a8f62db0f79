// The rebuild calls by the port, in the form of the model's.
use crate::calls::world::{Opened, Pushed, Reused, Source};
use crate::ffi::{
    segment_cache_push_copied, segment_cache_push_reused, segment_cache_rebuild_open,
};
pub use crate::ffi::{
    segment_cache_rebuild_finish as rebuild_finish, segment_cache_rebuild_words as rebuild_words,
};

pub fn rebuild_open(
    source: &Source,
    arena: &[u8],
    opened: &Opened,
    rebuild: &mut [u64],
    index: &mut [u64],
    filter: &mut [u64],
    starts: &mut [u64],
    lengths: &mut [u64],
) -> u64 {
    segment_cache_rebuild_open(
        &source.set,
        &source.starts,
        &source.lengths,
        arena,
        opened.records as usize,
        opened.capacity as usize,
        opened.keep,
        opened.now,
        rebuild,
        index,
        filter,
        starts,
        lengths,
    )
}

pub fn push_reused(
    rebuild: &mut [u64],
    reused: &Reused,
    index: &mut [u64],
    filter: &mut [u64],
    starts: &[u64],
    lengths: &[u64],
    arena: &[u8],
    place: &mut [u64],
) -> u64 {
    segment_cache_push_reused(
        rebuild,
        reused.hash,
        reused.key,
        reused.value,
        reused.location as usize,
        reused.header as usize,
        index,
        filter,
        starts,
        lengths,
        arena,
        place,
    )
}

pub fn push_copied(
    rebuild: &mut [u64],
    copied: &Pushed,
    index: &mut [u64],
    filter: &mut [u64],
    starts: &[u64],
    lengths: &[u64],
    arena: &mut [u8],
    place: &mut [u64],
) -> u64 {
    segment_cache_push_copied(
        rebuild,
        copied.hash,
        copied.key,
        copied.value,
        copied.lifetime,
        index,
        filter,
        starts,
        lengths,
        arena,
        place,
    )
}
