// What the index must do, written down once more for where the Rust has no answer: counts that
// don't fit their areas, locations at which it would panic, targets that are not its own. Where it
// has one, the groups compare this with it too.
use crate::model::rules::{SEGMENTS_MAX, word_stored, word_tag, write_segments};
use crate::parts::record_write::tick;
use crate::port::index::Areas;
use oracle_large::access;

pub const NO_START: u64 = 1 << 40;

const TOO_MANY: u64 = 7;

const TOO_SHORT: u64 = 10;

// The words of so many buckets, if there are as many.
fn words_of(index: &[u64], buckets: usize) -> Option<&[u64]> {
    index.get(..buckets.checked_mul(8)?)
}

pub fn next_start(index: &[u64], buckets: usize, bound: u64) -> u64 {
    let words = words_of(index, buckets).unwrap_or(&[]);
    let locations = words
        .iter()
        .filter_map(|&word| word_stored(word).checked_sub(1));
    let far = locations.filter(|&location| location >= bound);
    far.min().unwrap_or(NO_START)
}

pub fn locations_inside(index: &[u64], buckets: usize, filled: usize) -> bool {
    let inside = |&word: &u64| word == 0 || (1..=filled as u64).contains(&word_stored(word));
    words_of(index, buckets).is_some_and(|words| words.iter().all(inside))
}

// Where each segment starts, 257 at most.
pub fn starts(index: &[u64], buckets: usize, filled: usize, target: usize) -> Vec<u64> {
    let mut starts = vec![0_u64];
    while target > 0 && starts.len() <= SEGMENTS_MAX {
        let bound = u128::from(starts[starts.len() - 1]) + target as u128;
        if bound >= filled as u128 {
            break;
        }
        match next_start(index, buckets, bound as u64) {
            NO_START => break,
            start => starts.push(start),
        }
    }
    starts
}

// Splits in place and says how many segments there are, or the refusal.
pub fn split(
    index: &mut [u64],
    buckets: usize,
    filled: usize,
    target: usize,
    starts_area: &mut [u64],
    lengths_area: &mut [u64],
) -> Result<u64, u64> {
    let fit = words_of(index, buckets).is_some();
    if !fit || starts_area.len().min(lengths_area.len()) < SEGMENTS_MAX {
        return Err(TOO_SHORT);
    }
    let starts = starts(index, buckets, filled, target);
    if !write_segments(&starts, filled as u64, starts_area, lengths_area) {
        return Err(TOO_MANY);
    }
    if filled > target {
        for word in &mut index[..8 * buckets] {
            *word = split_word(*word, &starts);
        }
    }
    Ok(starts.len() as u64)
}

fn split_word(word: u64, starts: &[u64]) -> u64 {
    let Some(location) = word_stored(word).checked_sub(1) else {
        return word;
    };
    let (segment, start) = (starts.iter().enumerate())
        .rfind(|&(_, &start)| start <= location)
        .unwrap_or((0, &0));
    let location = ((segment as u64) << 32) + (location - start) + 1;
    word_tag(word) << 40 | location % (1 << 40)
}

// The record under a stored location; a segment that is not inside the filled bytes has none.
pub fn record_at_location(areas: &Areas, stored: u64) -> Option<[u64; 8]> {
    let location = stored.checked_sub(1)?;
    let segment = usize::try_from(location >> 32).ok()?;
    if segment >= areas.segments {
        return None;
    }
    let (start, length) = (*areas.starts.get(segment)?, *areas.lengths.get(segment)?);
    let end = usize::try_from(start.checked_add(length)?).ok()?;
    let filled = &areas.arena[..areas.filled.min(areas.arena.len())];
    let bytes = filled.get(start as usize..end)?;
    let offset = (location % (1 << 32)) as usize;
    let mut record = access::record_at(bytes, tick(areas.on), offset)?;
    record[0] = location;
    record[2] += start;
    record[4] += start;
    record[7] += location - offset as u64;
    Some(record)
}

// A slot as its layout keeps it: what is kept of the tag, and the stored location.
type Slot = Option<(u64, u64)>;

fn slot_in(areas: &Areas, slot: usize) -> Slot {
    if !areas.packed {
        let word = areas.index[slot];
        return (word != 0).then(|| (word_tag(word), word_stored(word)));
    }
    let bytes: Vec<u8> = (areas.index.iter())
        .flat_map(|word| word.to_le_bytes())
        .collect();
    let at = 8 * areas.buckets + 7 * slot;
    let mut reference = [0; 8];
    reference[..7].copy_from_slice(&bytes[at..at + 7]);
    let reference = u64::from_le_bytes(reference);
    // The control byte of a slot has the slot's own number.
    let control = u64::from(bytes[slot] % 128);
    let kept = reference % 65_536 * 128 + control;
    (control != 0).then_some((kept, reference >> 16))
}

pub fn find(areas: &Areas, key: &[u8], hash: u64) -> Option<[u64; 9]> {
    words_of(areas.index, areas.buckets)?;
    let first = access::reduce_hash(hash, areas.buckets);
    for i in 0..areas.buckets {
        let bucket = (first + i) % areas.buckets;
        match find_in_bucket(areas, bucket, key, hash) {
            Step::On => {}
            Step::Hit(found) => return Some(found),
            Step::End => return None,
        }
        if i == 1 && !may_contain(areas, hash) {
            return None;
        }
    }
    None
}

enum Step {
    Hit([u64; 9]),
    End,
    On,
}

// In words an empty slot ends the walk at once; packed, after the whole bucket.
fn find_in_bucket(areas: &Areas, bucket: usize, key: &[u8], hash: u64) -> Step {
    let tag = access::hash_tag(hash);
    let control = u64::from(access::packed_control_tag(tag));
    let packed = (tag >> 7) * 128 + control;
    let wanted = if areas.packed { packed } else { tag };
    let mut after = Step::On;
    for slot in 8 * bucket..8 * bucket + 8 {
        match slot_in(areas, slot) {
            None if areas.packed => after = Step::End,
            None => return Step::End,
            Some((kept, stored)) if kept == wanted => {
                let Some(record) = record_at_location(areas, stored) else {
                    return Step::End;
                };
                let (at, len) = (record[2] as usize, record[3] as usize);
                if areas.arena[at..at + len] == *key {
                    let [a, b, c, d, e, f, g, h] = record;
                    return Step::Hit([slot as u64, a, b, c, d, e, f, g, h]);
                }
            }
            Some(_) => {}
        }
    }
    after
}

fn may_contain(areas: &Areas, hash: u64) -> bool {
    if areas.filter_words == 0 || areas.filter.len() < areas.filter_words {
        return true;
    }
    let (word, mask) = access::negative_filter_location(areas.filter_words, hash);
    areas.filter[word] & mask == mask
}
