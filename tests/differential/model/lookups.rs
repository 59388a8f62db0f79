// The model's calls on a finished set: lookup, peek, mark clearing, probe and walk step.
use crate::model::calls::{SET_WORDS, arena_passes, holds, segment_areas_pass, state};
use crate::model::rules::*;

const REFUSED: u64 = 11;

// A finished set whose question 1 is answered, with the areas that it was lent.
struct View<'a> {
    setting: Setting,
    buckets: u64,
    filter_words: u64,
    segments: u64,
    filled: u64,
    filter: &'a [u64],
    starts: &'a [u64],
    lengths: &'a [u64],
    arena: &'a [u8],
}

// A walk lends no filter: nothing is asked of it then.
fn view<'a>(
    set: &'a [u64],
    index: &[u64],
    filter: Option<&'a [u64]>,
    starts: &'a [u64],
    lengths: &'a [u64],
    arena: &'a [u8],
) -> Option<View<'a>> {
    let given = state(set, SET_WORDS)?;
    let &[_, buckets, filter_words, segments, filled, ..] = given.numbers else {
        return None;
    };
    let fit = holds(index, 8 * u128::from(buckets))
        && filter.is_none_or(|filter| holds(filter, filter_words.into()));
    let passes = given.set_passes()
        && fit
        && segment_areas_pass(starts, lengths)
        && arena_passes(arena, filled);
    passes.then_some(View {
        setting: given.setting,
        buckets,
        filter_words,
        segments,
        filled,
        filter: filter.unwrap_or(&[]),
        starts,
        lengths,
        arena,
    })
}

impl View<'_> {
    // A segment that is not inside the filled bytes holds no record.
    fn record(&self, stored: u64) -> Option<Record> {
        let location = stored.checked_sub(1)?;
        let segment = location >> 32;
        if segment >= self.segments {
            return None;
        }
        let (start, length) = (
            self.starts[segment as usize],
            self.lengths[segment as usize],
        );
        let end = u128::from(start) + u128::from(length);
        if end > self.filled.into() {
            return None;
        }
        let bytes = &self.arena[start as usize..end as usize];
        let mut record = record_at(bytes, self.setting.on, location % (1 << 32))?;
        record.key_at += start as usize;
        Some(record)
    }

    fn may_contain(&self, hash: u64) -> bool {
        filter_has(self.filter, self.filter_words, hash)
    }
}

// A slot, its stored location and the record there.
type Hit = (usize, u64, Record);

fn find(view: &View<'_>, index: &[u64], key: &[u8], hash: u64) -> Option<Hit> {
    let same_key = |record: &Record| view.arena[record.key_at..record.value_at()] == *key;
    let mut empty = false;
    for (i, slot) in walk(first(hash, view.buckets), view.buckets) {
        let (occupied, candidate, stored) = slot_for(view, index, slot, hash);
        // In words an empty slot ends the walk at once, packed after its whole bucket.
        if !occupied && !view.setting.packed {
            return None;
        }
        empty |= !occupied;
        if candidate {
            let record = view.record(stored)?;
            if same_key(&record) {
                return Some((slot, stored, record));
            }
        }
        let last = slot % 8 == 7;
        if last && (empty || i == 1 && !view.may_contain(hash)) {
            return None;
        }
    }
    None
}

// Whether a slot is occupied, whether it has what the index keeps of this tag, its location.
fn slot_for(view: &View<'_>, index: &[u64], slot: usize, hash: u64) -> (bool, bool, u64) {
    if !view.setting.packed {
        let word = index[slot];
        return (word != 0, word_tag(word) == tag(hash), word_stored(word));
    }
    let byte = index[slot / 8] >> (8 * (slot % 8)) & 0x7f;
    if byte != control(tag(hash)) {
        return (byte != 0, false, 0);
    }
    let (_, rest, stored) = packed_slot(index, view.buckets, slot);
    (true, rest == tag(hash) / 128, stored)
}

// The word and the bit that hold the mark of a slot.
fn mark(view: &View<'_>, slot: usize) -> (usize, u64) {
    match view.setting.packed {
        true => (slot / 8, 1 << (8 * (slot % 8) + 7)),
        false => (slot, 1 << 63),
    }
}

fn live(view: &View<'_>, index: &[u64], key: &[u8], hash: u64, tick: u64) -> Option<Hit> {
    find(view, index, key, hash).filter(|(_, _, record)| lives(record.deadline, tick))
}

fn tell(span: &mut [u64], hit: Option<&Hit>) {
    span.fill(0);
    if let Some((_, _, record)) = hit {
        span.copy_from_slice(&[1, record.value_at() as u64, record.value_len as u64]);
    }
}

pub fn get(
    set: &[u64],
    hash: u64,
    key: &[u8],
    tick: u64,
    index: &mut [u64],
    filter: &[u64],
    starts: &[u64],
    lengths: &[u64],
    arena: &[u8],
    span: &mut [u64],
) -> u64 {
    let view = view(set, index, Some(filter), starts, lengths, arena);
    let Some(view) = view.filter(|_| span.len() == 3) else {
        return REFUSED;
    };
    let hit = live(&view, index, key, hash, tick);
    if let Some((slot, ..)) = hit {
        let (word, bit) = mark(&view, slot);
        index[word] |= bit;
    }
    tell(span, hit.as_ref());
    0
}

pub fn peek(
    set: &[u64],
    hash: u64,
    key: &[u8],
    tick: u64,
    index: &[u64],
    filter: &[u64],
    starts: &[u64],
    lengths: &[u64],
    arena: &[u8],
    span: &mut [u64],
) -> u64 {
    let view = view(set, index, Some(filter), starts, lengths, arena);
    let Some(view) = view.filter(|_| span.len() == 3) else {
        return REFUSED;
    };
    tell(span, live(&view, index, key, hash, tick).as_ref());
    0
}

pub fn take_accessed(
    set: &[u64],
    hash: u64,
    key: &[u8],
    index: &mut [u64],
    filter: &[u64],
    starts: &[u64],
    lengths: &[u64],
    arena: &[u8],
    accessed: &mut [u64],
) -> u64 {
    let view = view(set, index, Some(filter), starts, lengths, arena);
    let Some(view) = view.filter(|_| accessed.len() == 1) else {
        return REFUSED;
    };
    accessed[0] = 0;
    if let Some((slot, ..)) = find(&view, index, key, hash) {
        let (word, bit) = mark(&view, slot);
        accessed[0] = u64::from(index[word] & bit != 0);
        index[word] &= !bit;
    }
    0
}

// How many words `describe` writes.
const RECORD_WORDS: usize = 12;

// Slot, location, parts of the record, the time that is left, and the end, counted as the location is.
fn describe(view: &View<'_>, tick: u64, hit: &Hit, out: &mut [u64]) {
    let &(slot, stored, record) = hit;
    out[..4].copy_from_slice(&[1, slot as u64, stored - 1, record.key_offset as u64]);
    out[4..6].copy_from_slice(&[record.key_at as u64, record.key_len as u64]);
    out[6..8].copy_from_slice(&[record.value_at() as u64, record.value_len as u64]);
    out[8..11].copy_from_slice(&view.setting.remaining(record.deadline, tick));
    out[11] = stored - 1 + record.bytes;
}

pub fn probe(
    set: &[u64],
    hash: u64,
    key: &[u8],
    tick: u64,
    index: &[u64],
    filter: &[u64],
    starts: &[u64],
    lengths: &[u64],
    arena: &[u8],
    record: &mut [u64],
) -> u64 {
    let view = view(set, index, Some(filter), starts, lengths, arena);
    let Some(view) = view.filter(|_| record.len() == RECORD_WORDS) else {
        return REFUSED;
    };
    record.fill(0);
    if let Some(hit) = find(&view, index, key, hash) {
        describe(&view, tick, &hit, record);
    }
    0
}

// The record in a slot, whatever its tag is.
fn entry(view: &View<'_>, index: &[u64], slot: usize) -> Option<Hit> {
    let (occupied, stored) = match view.setting.packed {
        true => {
            let (byte, _, stored) = packed_slot(index, view.buckets, slot);
            (byte % 128 != 0, stored)
        }
        false => (index[slot] != 0, word_stored(index[slot])),
    };
    let record = view.record(stored).filter(|_| occupied)?;
    Some((slot, stored, record))
}

// Slot, key, value and deadline of a record.
type Visit<'a> = &'a mut dyn FnMut(usize, &[u8], &[u8], u64);

// A whole walk, or nothing where question 1 is answered by 11.
pub fn visited(
    set: &[u64],
    index: &[u64],
    starts: &[u64],
    lengths: &[u64],
    arena: &[u8],
    visit: Visit,
) -> Option<()> {
    let view = view(set, index, None, starts, lengths, arena)?;
    for slot in 0..8 * view.buckets as usize {
        if let Some((slot, _, record)) = entry(&view, index, slot) {
            let value_at = record.value_at();
            let (key, value) = (
                &arena[record.key_at..value_at],
                &arena[value_at..][..record.value_len],
            );
            visit(slot, key, value, record.deadline);
        }
    }
    Some(())
}

pub fn next_entry(
    set: &[u64],
    from: usize,
    tick: u64,
    index: &[u64],
    starts: &[u64],
    lengths: &[u64],
    arena: &[u8],
    record: &mut [u64],
) -> u64 {
    let view = view(set, index, None, starts, lengths, arena);
    let Some(view) = view.filter(|_| record.len() == RECORD_WORDS) else {
        return REFUSED;
    };
    record.fill(0);
    let mut slots = from..8 * view.buckets as usize;
    if let Some(hit) = slots.find_map(|slot| entry(&view, index, slot)) {
        describe(&view, tick, &hit, record);
    }
    0
}
