// The calls of sets as an executable model, in the form in which the port exports them: states in
// words, answers in lent words, the refusal's number back. Written from the papers alone.
pub use crate::model::files::{file_bytes, file_needs, load_file, write_file};
pub use crate::model::lookups::{get, next_entry, peek, probe, take_accessed};
pub use crate::model::rebuilds::{push_copied, push_reused, rebuild_finish, rebuild_open};
use crate::model::rules::{self, *};
pub use crate::model::sheets::{print_sheet, sheet_pages};
pub use crate::model::stored::{encoded_record_bytes, record_at};

pub const FORM: u64 = 11;

pub const STATE: u64 = 11;

pub const BUILDER_WORDS: usize = 13;

pub const SET_WORDS: usize = 15;

// Key, value and header bytes against the records in.
pub fn bound(records: u64, bytes: u64) -> bool {
    u128::from(bytes) <= u128::from(records) * ARENA_MAX
}

pub fn holds<T>(area: &[T], count: u128) -> bool {
    count <= area.len() as u128
}

pub fn arena_passes(arena: &[u8], filled: impl Into<u128>) -> bool {
    holds(arena, filled.into()) && arena.len() as u128 <= ARENA_MAX
}

// The numbers of a builder or of a set behind the setting.
pub struct State<'a> {
    pub setting: Setting,
    pub numbers: &'a [u64],
}

pub fn state(words: &[u64], count: usize) -> Option<State<'_>> {
    let setting = Setting::of(words.get(..6)?)?;
    (words.len() == count).then_some(State {
        setting,
        numbers: &words[6..],
    })
}

impl State<'_> {
    // Setting, records, buckets and filter words.
    pub fn counts_pass(&self, records: u64, buckets: u64, filter_words: u64) -> bool {
        self.setting.passes()
            && records <= RECORDS_MAX
            && buckets == self.setting.buckets(records)
            && filter_words == self.setting.filter_words(records)
    }

    fn builder_passes(&self) -> bool {
        let &[expected, inserted, buckets, words, filled, key, value] = self.numbers else {
            return false;
        };
        self.counts_pass(expected, buckets, words)
            && inserted <= expected
            && bound(inserted, key)
            && bound(inserted, value)
            && u128::from(key) + u128::from(value) <= filled.into()
            && bound(inserted, filled - key - value)
    }

    pub fn set_passes(&self) -> bool {
        let &[entries, buckets, words, segments, _, _, key, value, header] = self.numbers else {
            return false;
        };
        self.counts_pass(entries, buckets, words)
            && (1..=256).contains(&segments)
            && [key, value, header]
                .iter()
                .all(|&bytes| bound(entries, bytes))
    }
}

pub fn segment_areas_pass(starts: &[u64], lengths: &[u64]) -> bool {
    starts.len().min(lengths.len()) >= SEGMENTS_MAX
}

pub fn open(
    setting: &[u64],
    records: usize,
    builder: &mut [u64],
    index: &mut [u64],
    filter: &mut [u64],
    starts: &[u64],
    lengths: &[u64],
    arena: &[u8],
) -> u64 {
    let Some(form) = Setting::of(setting).filter(|_| builder.len() == BUILDER_WORDS) else {
        return FORM;
    };
    let records = records as u64;
    let refusal = form.refusal(records);
    if refusal != 0 {
        return refusal;
    }
    let (buckets, words) = (form.buckets(records), form.filter_words(records));
    let fit = holds(index, 8 * u128::from(buckets)) && holds(filter, words.into());
    if !fit || !segment_areas_pass(starts, lengths) || !arena_passes(arena, 0_u64) {
        return 10;
    }
    index[..8 * buckets as usize].fill(0);
    filter[..words as usize].fill(0);
    builder[..6].copy_from_slice(setting);
    builder[6..].copy_from_slice(&[records, 0, buckets, words, 0, 0, 0]);
    0
}

// Index, filter, starts, lengths, scratch.
pub fn area_words(setting: &[u64], records: usize, words: &mut [u64]) -> u64 {
    let Some(form) = Setting::of(setting).filter(|_| words.len() == 5) else {
        return FORM;
    };
    let records = records as u64;
    let refusal = form.refusal(records);
    if refusal == 0 {
        let (buckets, filter) = (form.buckets(records), form.filter_words(records));
        let scratch = if form.packed { buckets } else { 0 };
        words.copy_from_slice(&[8 * buckets, filter, 256, 256, scratch]);
    }
    refusal
}

// The empty slot for a new key, or the refusal.
fn build_slot(
    setting: &Setting,
    buckets: u64,
    index: &[u64],
    records: &[u8],
    key: &[u8],
    hash: u64,
) -> Result<usize, u64> {
    for (_, slot) in walk(first(hash, buckets), buckets) {
        let word = index[slot];
        if word == 0 {
            return Ok(slot);
        }
        if word_tag(word) != tag(hash) || word_stored(word) == 0 {
            continue;
        }
        if let Some(found) = rules::record_at(records, setting.on, word_stored(word) - 1)
            && records[found.key_at..found.value_at()] == *key
        {
            return Err(4);
        }
    }
    Err(3)
}

pub fn too_many_nanos(lifetime: &[u64]) -> bool {
    lifetime.get(1).is_some_and(|&nanos| nanos >= 1_000_000_000)
}

// The word of a record, and its mark in the filter where it is two or more buckets past its first.
pub fn enter(
    given: &State<'_>,
    hash: u64,
    location: u64,
    slot: usize,
    index: &mut [u64],
    filter: &mut [u64],
) {
    let (buckets, words) = (given.numbers[2], given.numbers[3]);
    index[slot] = (tag(hash) << 40) + location + 1;
    let displaced = slot as u64 / 8 + buckets - first(hash, buckets);
    if displaced % buckets >= 2 {
        filter_mark(filter, words, hash);
    }
}

// The deadline of a lifetime from a base tick on, or the refusal.
pub fn deadline(setting: &Setting, base: u64, lifetime: &[u64]) -> Result<u64, u64> {
    let &[secs, nanos] = lifetime else {
        return Ok(NEVER);
    };
    if !setting.on {
        return Err(5);
    }
    match u128::from(base) + setting.deadline(secs, nanos) {
        ticks @ ..=65_534 => Ok(ticks as u64),
        _ => Err(6),
    }
}

pub fn push(
    builder: &mut [u64],
    hash: u64,
    key: &[u8],
    value: &[u8],
    lifetime: &[u64],
    index: &mut [u64],
    filter: &mut [u64],
    arena: &mut [u8],
    place: &mut [u64],
) -> u64 {
    let form = (lifetime.is_empty() || lifetime.len() == 2) && place.len() == 2;
    let Some(given) = state(builder, BUILDER_WORDS).filter(|_| form) else {
        return FORM;
    };
    let (buckets, words, filled) = (given.numbers[2], given.numbers[3], given.numbers[4]);
    let fit = holds(index, 8 * u128::from(buckets)) && holds(filter, words.into());
    if !given.builder_passes() || !fit || !arena_passes(arena, filled) {
        return STATE;
    }
    let asked = asked_push(&given, hash, key, value, lifetime, index, arena);
    let (slot, bytes) = match asked {
        Ok(pushed) => pushed,
        Err(refusal) => return refusal,
    };
    enter(&given, hash, filled, slot, index, filter);
    arena[filled as usize..][..bytes.len()].copy_from_slice(&bytes);
    place.copy_from_slice(&[slot as u64, filled]);
    let more = [1, 0, 0, bytes.len(), key.len(), value.len()];
    for (word, more) in builder[7..].iter_mut().zip(more) {
        *word += more as u64;
    }
    0
}

// The questions of a push behind that of its state: the slot and the record's bytes.
fn asked_push(
    given: &State<'_>,
    hash: u64,
    key: &[u8],
    value: &[u8],
    lifetime: &[u64],
    index: &[u64],
    arena: &[u8],
) -> Result<(usize, Vec<u8>), u64> {
    let &[expected, inserted, buckets, _, filled, ..] = given.numbers else {
        return Err(STATE);
    };
    if too_many_nanos(lifetime) {
        return Err(9);
    }
    if inserted >= expected {
        return Err(3);
    }
    let (setting, records) = (&given.setting, &arena[..filled as usize]);
    let slot = build_slot(setting, buckets, index, records, key, hash)?;
    let deadline = deadline(setting, 0, lifetime)?;
    let bytes = record_bytes(setting.on, key, value, deadline);
    match holds(arena, filled as u128 + bytes.len() as u128) {
        true => Ok((slot, bytes)),
        false => Err(10),
    }
}

pub fn finish(
    builder: &[u64],
    target: usize,
    index: &mut [u64],
    starts: &mut [u64],
    lengths: &mut [u64],
    scratch: &mut [u64],
    arena: &[u8],
    set: &mut [u64],
) -> u64 {
    let Some(given) = state(builder, BUILDER_WORDS).filter(|_| set.len() == SET_WORDS) else {
        return FORM;
    };
    let (buckets, filled) = (given.numbers[2], given.numbers[4]);
    let fit = holds(index, 8 * u128::from(buckets)) && segment_areas_pass(starts, lengths);
    if !given.builder_passes() || !fit || !arena_passes(arena, filled) {
        return STATE;
    }
    let index = &mut index[..8 * buckets as usize];
    let refusal = asked_finish(&given, target as u64, index, scratch);
    if refusal != 0 {
        return refusal;
    }
    let found = segment_starts(index, target as u64);
    if !write_segments(&found, filled, starts, lengths) {
        return 7;
    }
    if filled > target as u64 {
        let split = |word: &mut u64| *word = split_word(*word, &found);
        index.iter_mut().for_each(split);
    }
    if given.setting.packed {
        pack(index, scratch);
    }
    write_set(builder, found.len() as u64, set);
    0
}

// Eight words to a bucket; the control words stand in the scratch as well.
pub fn pack(index: &mut [u64], scratch: &mut [u64]) {
    let (words, buckets) = (packed(index), index.len() / 8);
    index.copy_from_slice(&words);
    scratch[..buckets].copy_from_slice(&words[..buckets]);
}

fn write_set(builder: &[u64], segments: u64, set: &mut [u64]) {
    let (filled, key, value) = (builder[10], builder[11], builder[12]);
    set[..6].copy_from_slice(&builder[..6]);
    set[6..9].copy_from_slice(&[builder[6], builder[8], builder[9]]);
    set[9..12].copy_from_slice(&[segments, filled, filled]);
    set[12..].copy_from_slice(&[key, value, filled - key - value]);
}

// The questions of a finish between its state and the count of segments.
fn asked_finish(given: &State<'_>, target: u64, index: &[u64], scratch: &[u64]) -> u64 {
    let &[expected, inserted, buckets, _, filled, ..] = given.numbers else {
        return STATE;
    };
    if inserted != expected {
        return 3;
    }
    if !(1..=100_663_296).contains(&target) {
        return 8;
    }
    if given.setting.packed && !holds(scratch, buckets.into()) {
        return 10;
    }
    let inside = |&word: &u64| word == 0 || (1..=filled).contains(&word_stored(word));
    if index.iter().all(inside) { 0 } else { STATE }
}

// Statistics: only the numbers are asked.
pub fn stats(set: &[u64], stats: &mut [u64]) -> u64 {
    let Some(given) = state(set, SET_WORDS).filter(|_| stats.len() == 8) else {
        return FORM;
    };
    if !given.set_passes() {
        return STATE;
    }
    let &[entries, buckets, words, _, _, record, key, value, header] = given.numbers else {
        return STATE;
    };
    let bytes = 64 * buckets + 8 * words;
    stats.copy_from_slice(&[
        entries,
        buckets,
        8 * buckets,
        bytes,
        record,
        key,
        value,
        header,
    ]);
    0
}

fn of_statistics(stats: &[u64], out: &mut [u64], answer: fn(&[u64]) -> u64) -> u64 {
    if stats.len() != 8 || out.len() != 1 {
        return FORM;
    }
    out[0] = answer(stats);
    0
}

fn retained(stats: &[u64]) -> u64 {
    (u128::from(stats[3]) + u128::from(stats[4])) as u64
}

pub fn modeled_retained_bytes(stats: &[u64], out: &mut [u64]) -> u64 {
    of_statistics(stats, out, retained)
}

pub fn modeled_overhead_bytes(stats: &[u64], out: &mut [u64]) -> u64 {
    of_statistics(stats, out, |stats| {
        let payload = (u128::from(stats[5]) + u128::from(stats[6])) as u64;
        retained(stats).saturating_sub(payload)
    })
}

pub fn index_load_bps(stats: &[u64], out: &mut [u64]) -> u64 {
    of_statistics(stats, out, |stats| {
        let entries = (u128::from(stats[0]) * 10_000).min(u64::MAX.into()) as u64;
        match entries.checked_div(stats[2]) {
            None => 0,
            Some(load @ ..=65_535) => load,
            Some(_) => 10_000,
        }
    })
}
