// A set as a file, by document 02 alone: what the writer makes, and what the loader says and leaves, in
// the form in which the port exports them. Sums are worked out in 128 bits.
use crate::model::calls::{
    FORM, SET_WORDS, STATE, arena_passes, bound, holds, segment_areas_pass, state,
};
use crate::model::rules::{ARENA_MAX, RECORDS_MAX, SEGMENTS_MAX, Setting};
use std::borrow::Cow;

// Expiry, seconds, nanoseconds, occupancy, packed, filter bits, records, key, value and header bytes.
pub const WIDTHS: [usize; 10] = [1, 8, 4, 1, 1, 1, 4, 8, 8, 8];

pub const KINDS: u16 = 5;

const MARK: u64 = 1 << 63;

const CONTROL_MARKS: u64 = 0x8080_8080_8080_8080;

// The words of a set that is written.
pub struct Words<'a> {
    pub set: &'a [u64],
    pub index: &'a [u64],
    pub filter: &'a [u64],
    pub starts: &'a [u64],
    pub lengths: &'a [u64],
}

// Index words without their marks: of words each top bit, of a packed index those of its control bytes.
pub fn unmarked(packed: bool, index: &[u64]) -> Vec<u64> {
    let buckets = index.len() / 8;
    let word = |(i, &word): (usize, &u64)| match packed {
        true if i < buckets => word & !CONTROL_MARKS,
        true => word,
        false => word & !MARK,
    };
    index.iter().enumerate().map(word).collect()
}

// ---- writing

// The sum of the segments' lengths, or 11.
fn asked_set(set: &[u64], starts: &[u64], lengths: &[u64]) -> Result<u128, u64> {
    let given = state(set, SET_WORDS).ok_or(FORM)?;
    let &[_, _, _, segments, filled, ..] = given.numbers else {
        return Err(STATE);
    };
    if !given.set_passes() || !segment_areas_pass(starts, lengths) || filled as u128 > ARENA_MAX {
        return Err(STATE);
    }
    let mut sum = 0;
    for i in 0..segments as usize {
        let length = u128::from(lengths[i]);
        if u128::from(starts[i]) + length > filled.into() {
            return Err(STATE);
        }
        sum += length;
    }
    if sum > ARENA_MAX {
        return Err(STATE);
    }
    Ok(sum)
}

// Five headers of six bytes, and the contents.
fn size(set: &[u64], sum: u128) -> u128 {
    let counts: usize = WIDTHS.iter().sum();
    let words = u128::from(set[9]) + 8 * u128::from(set[7]) + u128::from(set[8]);
    30 + counts as u128 + 8 * words + sum
}

pub fn file_bytes(set: &[u64], starts: &[u64], lengths: &[u64], bytes: &mut [u64]) -> u64 {
    if bytes.len() != 1 {
        return FORM;
    }
    match asked_set(set, starts, lengths) {
        Ok(sum) => {
            bytes[0] = size(set, sum) as u64;
            0
        }
        Err(refusal) => refusal,
    }
}

fn counts(set: &[u64]) -> Vec<u8> {
    let tick = match set[0] {
        0 => [0, 0, 0],
        _ => [1, set[1], set[2]],
    };
    let rest = [set[3], set[4], set[5], set[6], set[12], set[13], set[14]];
    let numbers = tick.iter().chain(&rest).zip(WIDTHS);
    numbers
        .flat_map(|(number, width)| number.to_le_bytes().into_iter().take(width))
        .collect()
}

fn bytes_of(words: &[u64]) -> Vec<u8> {
    words.iter().flat_map(|word| word.to_le_bytes()).collect()
}

pub fn header(bytes: usize, kind: u16) -> Vec<u8> {
    [&(bytes as u32).to_le_bytes()[..], &kind.to_le_bytes()].concat()
}

// The file of a set that passes its questions, in pieces; those of kind 5 are parts of the arena.
pub fn pieces<'a>(lent: &Words, arena: &'a [u8]) -> Vec<Cow<'a, [u8]>> {
    let set = lent.set;
    let [segments, buckets, words] = [set[9], set[7], set[8]].map(|count| count as usize);
    let contents = [
        counts(set),
        bytes_of(&lent.lengths[..segments]),
        bytes_of(&unmarked(set[4] == 1, &lent.index[..8 * buckets])),
        bytes_of(&lent.filter[..words]),
    ];
    let mut pieces: Vec<Cow<'a, [u8]>> = Vec::new();
    for (kind, content) in (1..).zip(contents) {
        pieces.push(header(content.len(), kind).into());
        pieces.push(content.into());
    }
    let segment = |i: usize| &arena[lent.starts[i] as usize..][..lent.lengths[i] as usize];
    let segments = (0..segments).map(segment);
    let sum = segments.clone().map(<[u8]>::len).sum();
    pieces.push(header(sum, KINDS).into());
    pieces.extend(segments.map(Cow::from));
    pieces
}

// The length of the file, or the refusal.
fn asked_write(lent: &Words, arena: &[u8], file: usize) -> Result<usize, u64> {
    let sum = asked_set(lent.set, lent.starts, lent.lengths)?;
    let index = 8 * u128::from(lent.set[7]);
    let fit = holds(lent.index, index) && holds(lent.filter, lent.set[8].into());
    if !fit || !arena_passes(arena, lent.set[10]) {
        return Err(STATE);
    }
    let size = size(lent.set, sum) as usize;
    if size > file { Err(10) } else { Ok(size) }
}

pub fn write_file(
    set: &[u64],
    index: &[u64],
    filter: &[u64],
    starts: &[u64],
    lengths: &[u64],
    arena: &[u8],
    file: &mut [u8],
    bytes: &mut [u64],
) -> u64 {
    let lent = Words {
        set,
        index,
        filter,
        starts,
        lengths,
    };
    if bytes.len() != 1 {
        return FORM;
    }
    let size = match asked_write(&lent, arena, file.len()) {
        Ok(size) => size,
        Err(refusal) => return refusal,
    };
    file[..size].copy_from_slice(&pieces(&lent, arena).concat());
    bytes[0] = size as u64;
    0
}

// ---- loading

// The blocks with their kinds: five at most, fewer where the file ends with one; or 13.
fn blocks(file: &[u8]) -> Result<Vec<(u16, &[u8])>, u64> {
    let (mut rest, mut blocks) = (file, Vec::new());
    while !rest.is_empty() && blocks.len() < KINDS.into() {
        let Some((&[a, b, c, d, e, f], behind)) = rest.split_first_chunk() else {
            return Err(13);
        };
        let size = u32::from_le_bytes([a, b, c, d]) as usize;
        let content = behind.get(..size).ok_or(13_u64)?;
        blocks.push((u16::from_le_bytes([e, f]), content));
        rest = &behind[size..];
    }
    if rest.is_empty() { Ok(blocks) } else { Err(13) }
}

// What a file holds: the set's words, and the contents of kinds 2 to 5.
pub struct Held<'a> {
    pub set: Vec<u64>,
    pub lengths: Vec<u64>,
    pub index: Vec<u64>,
    pub filter: Vec<u64>,
    pub records: &'a [u8],
}

fn number(bytes: &[u8]) -> u64 {
    bytes
        .iter()
        .rev()
        .fold(0, |all, &byte| all << 8 | u64::from(byte))
}

fn words_of(bytes: &[u8]) -> Vec<u64> {
    bytes.chunks(8).map(number).collect()
}

// Setting, records, and key, value and header bytes, each in its bounds; or nothing.
fn numbers_of(mut counts: &[u8]) -> Option<(Setting, [u64; 10])> {
    if counts.len() != WIDTHS.iter().sum() {
        return None;
    }
    let mut numbers = [0; 10];
    for (place, width) in numbers.iter_mut().zip(WIDTHS) {
        *place = number(&counts[..width]);
        counts = &counts[width..];
    }
    let [on, secs, nanos, .., records, key, value, header] = numbers;
    let setting = Setting::of(&numbers[..6])?;
    let still = on == 1 || secs == 0 && nanos == 0;
    let bounds = [key, value, header]
        .iter()
        .all(|&bytes| bound(records, bytes));
    let fit = setting.passes() && still && records <= RECORDS_MAX && bounds;
    fit.then_some((setting, numbers))
}

// All of question 15; or nothing.
fn content<'a>(contents: &[&'a [u8]]) -> Option<Held<'a>> {
    let &[counts, lengths, index, filter, records] = contents else {
        return None;
    };
    let (setting, numbers) = numbers_of(counts)?;
    let (buckets, words) = (
        setting.buckets(numbers[6]),
        setting.filter_words(numbers[6]),
    );
    let segments = lengths.len() as u64 / 8;
    let bytes = records.len() as u64;
    let fit = lengths.len() % 8 == 0
        && (1..=SEGMENTS_MAX as u64).contains(&segments)
        && index.len() as u64 == 64 * buckets
        && filter.len() as u64 == 8 * words
        && records.len() as u128 <= ARENA_MAX;
    let lengths = words_of(lengths);
    let sum: u128 = lengths.iter().map(|&length| u128::from(length)).sum();
    let behind = [numbers[6], buckets, words, segments, bytes, bytes];
    (fit && sum == records.len() as u128).then(|| Held {
        set: [&numbers[..6], &behind, &numbers[7..]].concat(),
        lengths,
        index: unmarked(setting.packed, &words_of(index)),
        filter: words_of(filter),
        records,
    })
}

// 13, 14 and 15 in this order, each over the whole file.
pub fn held(file: &[u8]) -> Result<Held<'_>, u64> {
    let blocks = blocks(file)?;
    if !blocks.iter().map(|&(kind, _)| kind).eq(1..=KINDS) {
        return Err(14);
    }
    let contents: Vec<&[u8]> = blocks.iter().map(|&(_, content)| content).collect();
    content(&contents).ok_or(15)
}

impl Held<'_> {
    // Words of index, filter, starts and lengths, and bytes of the arena.
    pub fn needs(&self) -> [u64; 5] {
        let [index, filter] = [&self.index, &self.filter].map(|words| words.len() as u64);
        let segments = SEGMENTS_MAX as u64;
        [index, filter, segments, segments, self.records.len() as u64]
    }

    // Each segment starts where the one before ends; 0 behind the last.
    pub fn starts(&self) -> Vec<u64> {
        let mut starts = vec![0; SEGMENTS_MAX];
        for i in 1..self.lengths.len() {
            starts[i] = starts[i - 1] + self.lengths[i - 1];
        }
        starts
    }

    pub fn all_lengths(&self) -> Vec<u64> {
        let mut lengths = self.lengths.clone();
        lengths.resize(SEGMENTS_MAX, 0);
        lengths
    }
}

pub fn file_needs(file: &[u8], needs: &mut [u64]) -> u64 {
    if needs.len() != 5 {
        return FORM;
    }
    match held(file) {
        Ok(held) => {
            needs.copy_from_slice(&held.needs());
            0
        }
        Err(refusal) => refusal,
    }
}

pub fn load_file(
    file: &[u8],
    index: &mut [u64],
    filter: &mut [u64],
    starts: &mut [u64],
    lengths: &mut [u64],
    arena: &mut [u8],
    set: &mut [u64],
) -> u64 {
    if set.len() != SET_WORDS {
        return FORM;
    }
    let held = match held(file) {
        Ok(held) => held,
        Err(refusal) => return refusal,
    };
    let fit = holds(index, held.index.len() as u128) && holds(filter, held.filter.len() as u128);
    let bytes = held.records.len() as u64;
    if !fit || !segment_areas_pass(starts, lengths) || !arena_passes(arena, bytes) {
        return 10;
    }
    index[..held.index.len()].copy_from_slice(&held.index);
    filter[..held.filter.len()].copy_from_slice(&held.filter);
    starts[..SEGMENTS_MAX].copy_from_slice(&held.starts());
    lengths[..SEGMENTS_MAX].copy_from_slice(&held.all_lengths());
    arena[..held.records.len()].copy_from_slice(held.records);
    set.copy_from_slice(&held.set);
    0
}
