// The rebuild calls in the form and by the rules of calls.rs.
use crate::calls::world::{Opened, Pushed, Reused, Source};
use crate::model::calls::{
    FORM, SET_WORDS, STATE, State, arena_passes, bound, deadline, enter, holds, pack,
    segment_areas_pass, state, too_many_nanos,
};
use crate::model::rules::*;

pub const REBUILD_WORDS: usize = 22;

pub fn rebuild_words() -> usize {
    REBUILD_WORDS
}

// Whether the first segments lie in the filled bytes.
fn segments_inside(count: u64, filled: u128, starts: &[u64], lengths: &[u64]) -> bool {
    let segments = starts.iter().zip(lengths).take(count as usize);
    let mut ends = segments.map(|(&start, &length)| u128::from(start) + u128::from(length));
    ends.all(|end| end <= filled)
}

pub fn rebuild_open(
    source: &Source,
    arena: &[u8],
    opened: &Opened,
    rebuild: &mut [u64],
    index: &mut [u64],
    filter: &mut [u64],
    starts: &mut [u64],
    lengths: &mut [u64],
) -> u64 {
    let form = rebuild.len() == REBUILD_WORDS;
    let Some(given) = state(&source.set, SET_WORDS).filter(|_| form) else {
        return FORM;
    };
    if !source_passes(&given, source, arena) {
        return STATE;
    }
    let (buckets, words) = match asked_open(&given, opened) {
        Ok(counts) => counts,
        Err(refusal) => return refusal,
    };
    let fit = holds(index, 8 * u128::from(buckets)) && holds(filter, words.into());
    if !fit || !segment_areas_pass(starts, lengths) {
        return 10;
    }
    index[..8 * buckets as usize].fill(0);
    filter[..words as usize].fill(0);
    write_kept(opened.keep, &source.starts, starts);
    write_kept(opened.keep, &source.lengths, lengths);
    write_rebuild(&source.set, opened, [buckets, words], rebuild);
    0
}

// The questions of a rebuild open between its source and its areas: buckets and filter words.
fn asked_open(given: &State<'_>, opened: &Opened) -> Result<(u64, u64), u64> {
    let (keep, records) = (opened.keep, opened.records);
    if keep.len() as u64 != given.numbers[3] || records > RECORDS_MAX {
        return Err(3);
    }
    let kept = keep.iter().filter(|&&flag| flag != 0).count();
    if kept + usize::from(opened.capacity != 0) > SEGMENTS_MAX {
        return Err(7);
    }
    let setting = &given.setting;
    Ok((setting.buckets(records), setting.filter_words(records)))
}

fn write_rebuild(set: &[u64], opened: &Opened, counts: [u64; 2], rebuild: &mut [u64]) {
    let [buckets, words] = counts;
    rebuild.fill(0);
    rebuild[..6].copy_from_slice(&set[..6]);
    rebuild[6..10].copy_from_slice(&[opened.records, 0, buckets, words]);
    let flags = opened.keep.iter().enumerate();
    for (segment, _) in flags.filter(|(_, flag)| **flag != 0) {
        rebuild[10 + segment / 64] |= 1 << (segment % 64);
    }
    (rebuild[14], rebuild[21]) = (set[10], opened.now);
}

fn source_passes(given: &State<'_>, source: &Source, arena: &[u8]) -> bool {
    let (segments, filled) = (given.numbers[3], given.numbers[4]);
    let Source {
        starts, lengths, ..
    } = source;
    given.set_passes()
        && segment_areas_pass(starts, lengths)
        && arena_passes(arena, filled)
        && segments_inside(segments, filled.into(), starts, lengths)
}

// The numbers of the kept segments one after the other, and 0 in the rest of the 256.
fn write_kept(keep: &[u8], source: &[u64], area: &mut [u64]) {
    let kept = keep.iter().zip(source).filter(|(flag, _)| **flag != 0);
    let numbers = kept.map(|(_, &number)| number).chain(std::iter::repeat(0));
    for (word, number) in area[..SEGMENTS_MAX].iter_mut().zip(numbers) {
        *word = number;
    }
}

// How many of the source's segments before this one are kept.
fn kept_before(kept: &[u64], segment: u64) -> u64 {
    let bits = (0..segment).filter(|&bit| is_kept(kept, bit));
    bits.count() as u64
}

fn is_kept(kept: &[u64], segment: u64) -> bool {
    segment < 256 && kept[segment as usize / 64] >> (segment % 64) & 1 == 1
}

// A rebuild that has passed question 1: kept segments, and where the next copy goes.
struct Passed<'a> {
    given: State<'a>,
    retained: u64,
    end: u64,
}

fn passed<'a>(
    rebuild: &'a [u64],
    index: &[u64],
    filter: Option<&[u64]>,
    starts: &[u64],
    lengths: &[u64],
    arena: &[u8],
) -> Option<Passed<'a>> {
    let given = state(rebuild, REBUILD_WORDS)?;
    let &[expected, inserted, buckets, words, ..] = given.numbers else {
        return None;
    };
    let retained = kept_before(&given.numbers[4..8], 256);
    let (source_filled, copied) = (given.numbers[8], given.numbers[9]);
    let end = u128::from(source_filled) + u128::from(copied);
    let bytes_pass = given.numbers[10..13]
        .iter()
        .all(|&bytes| bound(inserted, bytes));
    let areas_pass = holds(index, 8 * u128::from(buckets))
        && filter.is_none_or(|filter| holds(filter, words.into()))
        && segment_areas_pass(starts, lengths)
        && arena_passes(arena, end);
    let passes = given.counts_pass(expected, buckets, words)
        && inserted <= expected
        && retained + u64::from(copied != 0) <= 256
        && bytes_pass
        && areas_pass
        && segments_inside(retained, end, starts, lengths);
    passes.then_some(Passed {
        given,
        retained,
        end: end as u64,
    })
}

fn empty_slot(index: &[u64], buckets: u64, hash: u64) -> Result<usize, u64> {
    let mut slots = walk(first(hash, buckets), buckets).map(|(_, slot)| slot);
    slots.find(|&slot| index[slot] == 0).ok_or(3)
}

// What a push adds: to the records in, to the copied bytes, to the bytes of keys, values and
// headers, to the reused records and their bytes. The last two are in no question, so they wrap.
fn add(rebuild: &mut [u64], copied: u64, parts: [u64; 3], reused: [u64; 2]) {
    rebuild[7] += 1;
    rebuild[15] += copied;
    for (word, bytes) in rebuild[16..19].iter_mut().zip(parts) {
        *word += bytes;
    }
    for (word, more) in rebuild[19..21].iter_mut().zip(reused) {
        *word = word.wrapping_add(more);
    }
}

pub fn push_reused(
    rebuild: &mut [u64],
    reused: &Reused,
    index: &mut [u64],
    filter: &mut [u64],
    starts: &[u64],
    lengths: &[u64],
    arena: &[u8],
    place: &mut [u64],
) -> u64 {
    let given = passed(rebuild, index, Some(filter), starts, lengths, arena);
    let Some(given) = given.filter(|_| place.len() == 2) else {
        return STATE;
    };
    let asked = asked_reused(&given, reused, starts, lengths, arena);
    let asked = asked.and_then(|location| {
        let slot = empty_slot(index, given.given.numbers[2], reused.hash)?;
        Ok((slot, location))
    });
    let (slot, location) = match asked {
        Ok(found) => found,
        Err(refusal) => return refusal,
    };
    enter(&given.given, reused.hash, location, slot, index, filter);
    place.copy_from_slice(&[slot as u64, location]);
    let (key, value) = (reused.key.len() as u64, reused.value.len() as u64);
    let bytes = key + value + reused.header;
    add(rebuild, 0, [key, value, reused.header], [1, bytes]);
    0
}

// The questions of a reused push between its state and its walk: the new location.
fn asked_reused(
    passed: &Passed<'_>,
    reused: &Reused,
    starts: &[u64],
    lengths: &[u64],
    arena: &[u8],
) -> Result<u64, u64> {
    let (numbers, setting) = (passed.given.numbers, &passed.given.setting);
    if numbers[1] >= numbers[0] {
        return Err(3);
    }
    let (segment, offset) = (reused.location >> 32, reused.location % (1 << 32));
    if !is_kept(&numbers[4..8], segment) {
        return Err(3);
    }
    let number = kept_before(&numbers[4..8], segment);
    let (start, length) = (starts[number as usize], lengths[number as usize]);
    let bytes = &arena[start as usize..(start + length) as usize];
    let same = |record: &Record| {
        bytes[record.key_at..record.value_at()] == *reused.key
            && bytes[record.value_at()..][..record.value_len] == *reused.value
            && record.key_offset as u64 == reused.header
    };
    match record_at(bytes, setting.on, offset).filter(same) {
        Some(_) => Ok((number << 32) + offset),
        None => Err(12),
    }
}

pub fn push_copied(
    rebuild: &mut [u64],
    copied: &Pushed,
    index: &mut [u64],
    filter: &mut [u64],
    starts: &[u64],
    lengths: &[u64],
    arena: &mut [u8],
    place: &mut [u64],
) -> u64 {
    let form = matches!(copied.lifetime.len(), 0 | 2) && place.len() == 2;
    let given = passed(rebuild, index, Some(filter), starts, lengths, arena);
    let Some(given) = given.filter(|_| form) else {
        return STATE;
    };
    let asked = asked_copied(&given, copied, arena);
    let asked = asked.and_then(|bytes| {
        let slot = empty_slot(index, given.given.numbers[2], copied.hash)?;
        Ok((slot, bytes))
    });
    let (slot, bytes) = match asked {
        Ok(found) => found,
        Err(refusal) => return refusal,
    };
    let location = (given.retained << 32) + given.given.numbers[9];
    enter(&given.given, copied.hash, location, slot, index, filter);
    arena[given.end as usize..][..bytes.len()].copy_from_slice(&bytes);
    place.copy_from_slice(&[slot as u64, location]);
    let (key, value) = (copied.key.len() as u64, copied.value.len() as u64);
    let bytes = bytes.len() as u64;
    add(rebuild, bytes, [key, value, bytes - key - value], [0, 0]);
    0
}

// The questions of a copied push between its state and its walk: the record's bytes.
fn asked_copied(passed: &Passed<'_>, copied: &Pushed, arena: &[u8]) -> Result<Vec<u8>, u64> {
    let (numbers, setting) = (passed.given.numbers, &passed.given.setting);
    if too_many_nanos(copied.lifetime) {
        return Err(9);
    }
    if numbers[1] >= numbers[0] {
        return Err(3);
    }
    let deadline = deadline(setting, numbers[15], copied.lifetime)?;
    let bytes = record_bytes(setting.on, copied.key, copied.value, deadline);
    if !holds(arena, u128::from(passed.end) + bytes.len() as u128) {
        return Err(10);
    }
    if passed.retained >= 256 {
        return Err(7);
    }
    Ok(bytes)
}

pub fn rebuild_finish(
    rebuild: &[u64],
    index: &mut [u64],
    starts: &mut [u64],
    lengths: &mut [u64],
    scratch: &mut [u64],
    arena: &[u8],
    set: &mut [u64],
    totals: &mut [u64],
) -> u64 {
    let form = set.len() == SET_WORDS && totals.len() == 4;
    let given = passed(rebuild, index, None, starts, lengths, arena);
    let Some(given) = given.filter(|_| form) else {
        return STATE;
    };
    let numbers = given.given.numbers;
    let (buckets, words, copied) = (numbers[2], numbers[3], numbers[9]);
    if numbers[1] != numbers[0] {
        return 3;
    }
    let packed = given.given.setting.packed;
    if packed && !holds(scratch, buckets.into()) {
        return 10;
    }
    let segments = write_last(&given, starts, lengths);
    if packed {
        pack(&mut index[..8 * buckets as usize], scratch);
    }
    let record_bytes = lengths[..segments].iter().sum();
    set[..6].copy_from_slice(&rebuild[..6]);
    set[6..9].copy_from_slice(&[numbers[0], buckets, words]);
    set[9..12].copy_from_slice(&[segments as u64, given.end, record_bytes]);
    set[12..].copy_from_slice(&numbers[10..13]);
    let new = 64 * buckets + 8 * words + copied;
    totals.copy_from_slice(&[numbers[13], numbers[14], copied, new]);
    0
}

// The segment of the copied bytes, where there are some or nothing else is; how many there are.
fn write_last(given: &Passed<'_>, starts: &mut [u64], lengths: &mut [u64]) -> usize {
    let (source_filled, copied) = (given.given.numbers[8], given.given.numbers[9]);
    let retained = given.retained as usize;
    if copied == 0 && retained > 0 {
        return retained;
    }
    starts[retained] = source_filled;
    lengths[retained] = copied;
    retained + 1
}
