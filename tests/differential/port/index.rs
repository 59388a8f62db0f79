// The port's exports of the index, as in parts.rs.
unsafe extern "C" {
    pub safe fn test_encode_index_word(tag: u64, location: u64) -> u64;
    pub safe fn test_index_tag(word: u64) -> u64;
    pub safe fn test_index_location(word: u64) -> u64;
    pub safe fn test_mark_accessed(word: u64) -> u64;
    pub safe fn test_clear_accessed(word: u64) -> u64;
    pub safe fn test_is_accessed(word: u64) -> bool;
    pub safe fn test_bucket_count(records: usize, occupied: u8) -> usize;
    pub safe fn test_bucket_displacement(primary: usize, current: usize, buckets: usize) -> usize;
    pub safe fn test_next_bucket(bucket: usize, buckets: usize) -> usize;
    pub safe fn test_negative_filter_words(records: u32, bits: u8) -> usize;
    pub safe fn test_negative_filter_word(words: usize, hash: u64) -> usize;
    pub safe fn test_negative_filter_mask(words: usize, hash: u64) -> u64;
    pub safe fn test_packed_reference_at(before: u64, word: u64, slot: usize) -> u64;
    pub safe fn test_mark_control(control: u64, slot: usize) -> u64;
    pub safe fn test_clear_control(control: u64, slot: usize) -> u64;
}

export!(fn test_clear_words(words: &mut [u64], count: usize,) -> ());

export!(fn test_find_build_slot(
    index: &[u64],
    buckets: usize,
    records: &[u8],
    on: bool,
    key: &[u8],
    hash: u64,
) -> u64);

export!(fn test_find_empty_build_slot(index: &[u64], buckets: usize, hash: u64,) -> u64);

export!(fn test_mark_negative_filter(filter: &mut [u64], words: usize, hash: u64,) -> ());

export!(fn test_negative_filter_may_contain(filter: &[u64], words: usize, hash: u64,) -> bool);

export!(fn test_next_start(index: &[u64], buckets: usize, bound: u64,) -> u64);

export!(fn test_locations_inside(index: &[u64], buckets: usize, filled: usize,) -> bool);

export!(fn test_split_record_segments(
    index: &mut [u64],
    buckets: usize,
    filled: usize,
    target: usize,
    starts: &mut [u64],
    lengths: &mut [u64],
) -> u64);

export!(fn test_finish_packed_index(
    index: &mut [u64],
    buckets: usize,
    scratch: &mut [u64],
) -> ());

export!(fn test_record_at_location(
    arena: &[u8],
    filled: usize,
    segments: usize,
    on: bool,
    starts: &[u64],
    lengths: &[u64],
    stored: u64,
    out: &mut [u64],
) -> bool);

export!(fn test_find_record(
    arena: &[u8],
    filled: usize,
    segments: usize,
    on: bool,
    packed: bool,
    index: &[u64],
    buckets: usize,
    filter: &[u64],
    filter_words: usize,
    starts: &[u64],
    lengths: &[u64],
    key: &[u8],
    hash: u64,
    out: &mut [u64],
) -> bool);

// Answers of the build walks that name no slot.
const NO_SLOT: u64 = 1 << 63;

const REFUSED: u64 = 1 << 32;

fn slot(answer: u64) -> Result<usize, u64> {
    if answer < NO_SLOT {
        Ok(answer as usize)
    } else {
        Err(answer - NO_SLOT)
    }
}

pub fn find_build_slot(
    index: &[u64],
    buckets: usize,
    records: &[u8],
    on: bool,
    key: &[u8],
    hash: u64,
) -> Result<usize, u64> {
    slot(test_find_build_slot(index, buckets, records, on, key, hash))
}

pub fn find_empty_build_slot(index: &[u64], buckets: usize, hash: u64) -> Result<usize, u64> {
    slot(test_find_empty_build_slot(index, buckets, hash))
}

// How many segments, or the refusal.
pub fn split_record_segments(
    index: &mut [u64],
    buckets: usize,
    filled: usize,
    target: usize,
    starts: &mut [u64],
    lengths: &mut [u64],
) -> Result<u64, u64> {
    let answer = test_split_record_segments(index, buckets, filled, target, starts, lengths);
    if answer < REFUSED {
        Ok(answer)
    } else {
        Err(answer - REFUSED)
    }
}

// All that is lent for reading a finished set, and its counts.
#[derive(Clone, Copy, Debug)]
pub struct Areas<'a> {
    pub on: bool,
    pub packed: bool,
    pub filled: usize,
    pub segments: usize,
    pub buckets: usize,
    pub filter_words: usize,
    pub arena: &'a [u8],
    pub index: &'a [u64],
    pub filter: &'a [u64],
    pub starts: &'a [u64],
    pub lengths: &'a [u64],
}

pub fn location_words(areas: &Areas, stored: u64, out: &mut [u64]) -> bool {
    test_record_at_location(
        areas.arena,
        areas.filled,
        areas.segments,
        areas.on,
        areas.starts,
        areas.lengths,
        stored,
        out,
    )
}

pub fn record_at_location(areas: &Areas, stored: u64) -> Option<[u64; 8]> {
    let mut out = [0; 8];
    location_words(areas, stored, &mut out).then_some(out)
}

pub fn find_words(areas: &Areas, key: &[u8], hash: u64, out: &mut [u64]) -> bool {
    test_find_record(
        areas.arena,
        areas.filled,
        areas.segments,
        areas.on,
        areas.packed,
        areas.index,
        areas.buckets,
        areas.filter,
        areas.filter_words,
        areas.starts,
        areas.lengths,
        key,
        hash,
        out,
    )
}

pub fn find(areas: &Areas, key: &[u8], hash: u64) -> Option<[u64; 9]> {
    let mut out = [0; 9];
    find_words(areas, key, hash, &mut out).then_some(out)
}
