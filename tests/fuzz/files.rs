// What an accepted call on files must have left, read in its bytes: five blocks with their kinds and lengths, the
// words of the areas with marks cleared, the segments' bytes, starts by the lengths.
use crate::lent::Lent;
use crate::lent::Role::{self, *};
use crate::rng::Rng;
use crate::world::{World, word_of};

// A file and areas for one are never longer, so that they can be placed.
const MOST_BYTES: u64 = 60_000;

const MOST_WORDS: usize = 7_000;

const HEADER: usize = 6;

// Five headers and the numbers of the first block.
const FIXED: u64 = 74;

// The bytes of a set's segments; nothing where they are no number.
pub fn segment_bytes(world: &World) -> Option<u64> {
    let segments = world.word(Set, 9).min(256) as usize;
    let mut lengths = (0..segments).map(|i| world.word(Lengths, i));
    lengths.try_fold(0, |sum: u64, length| sum.checked_add(length))
}

// The bytes that a set takes as a file.
pub fn size(world: &World) -> Option<u64> {
    let words = [8, 64, 8].into_iter().zip([9, 7, 8]);
    let words = words.map(|(bytes, at)| world.word(Set, at).checked_mul(bytes));
    words
        .chain([segment_bytes(world)])
        .try_fold(FIXED, |sum, more| sum.checked_add(more?))
}

// An area for the file of the world's set, or a little longer.
pub fn room(rng: &mut Rng, world: &mut World) {
    let bytes = size(world).unwrap_or(0).min(MOST_BYTES) as usize;
    world.resize(File, bytes + rng.index(3));
}

// Areas for the set that was written, or a little longer; the arena has at times room for a rebuild.
pub fn areas(rng: &mut Rng, written: &World, world: &mut World) {
    let need = |at| written.word(Set, at) as usize;
    let areas = [
        (Index, 8 * need(7)),
        (Filter, need(8)),
        (Starts, 256),
        (Lengths, 256),
    ];
    for (role, len) in areas {
        world.resize(role, len.min(MOST_WORDS) + rng.index(3));
    }
    let bytes = segment_bytes(written).unwrap_or(0).min(MOST_BYTES) as usize;
    world.resize(Arena, bytes + rng.pick(&[0, 0, 1, 400]));
}

// Where a block's content begins and ends, one after the other as far as they go on.
fn blocks(file: &[u8]) -> Vec<(u16, usize, usize)> {
    let (mut blocks, mut at) = (Vec::new(), 0);
    while let Some(&[a, b, c, d, e, f]) = file.get(at..at + HEADER) {
        let begin = at + HEADER;
        at = begin + u32::from_le_bytes([a, b, c, d]) as usize;
        blocks.push((u16::from_le_bytes([e, f]), begin, at));
    }
    blocks
}

// A byte of some header, for damage.
pub fn header(rng: &mut Rng, file: &[u8]) -> usize {
    let begins: Vec<usize> = blocks(file).iter().map(|&(_, begin, _)| begin).collect();
    let begin = if begins.is_empty() {
        HEADER
    } else {
        rng.pick(&begins)
    };
    (begin - HEADER + rng.index(HEADER)).min(file.len().saturating_sub(1))
}

// The bits of an index word that travel: all but the mark of a word, or of the control bytes in the words of a
// packed index that has so many buckets.
fn mask(packed: bool, buckets: usize, i: usize) -> u64 {
    match packed {
        true if i < buckets => 0x7f7f_7f7f_7f7f_7f7f,
        true => u64::MAX,
        false => u64::MAX >> 1,
    }
}

// Whether the file's blocks of lengths, index and filter hold the words of the areas, marks cleared.
fn same_words<'a>(
    set: impl Fn(usize) -> u64,
    file: &[u8],
    area: impl Fn(Role) -> &'a [u8],
    masks_file: bool,
) -> bool {
    let blocks = blocks(file);
    let (packed, buckets) = (set(4) == 1, set(7) as usize);
    let areas = [(1, Lengths), (2, Index), (3, Filter)];
    areas.into_iter().all(|(place, role)| {
        let Some(content) = blocks
            .get(place)
            .and_then(|&(_, begin, end)| file.get(begin..end))
        else {
            return false;
        };
        content.chunks_exact(8).enumerate().all(|(i, bytes)| {
            let bits = if role == Index {
                mask(packed, buckets, i)
            } else {
                u64::MAX
            };
            let (there, here) = (word_of(bytes, 0), word_of(area(role), i));
            match masks_file {
                true => there & bits == here,
                false => there == here & bits,
            }
        })
    })
}

// Nothing for a call that is not one of these.
pub fn right(name: &str, before: &World, lent: &Lent) -> Option<bool> {
    let content = |role: Role| {
        lent.places[role as usize]
            .as_ref()
            .map_or(&[][..], |at| at.content())
    };
    let out = |at| word_of(content(Out), at);
    match name {
        "file_bytes" => Some(Some(out(0)) == size(before)),
        "write_file" => {
            let file = content(File).get(..out(0) as usize);
            let well = file.is_some_and(|file| written(before, lent, file));
            Some(well && Some(out(0)) == size(before))
        }
        "file_needs" => {
            let blocks = blocks(before.area(File));
            let bytes = |i: usize| {
                blocks
                    .get(i)
                    .map_or(0, |&(_, begin, end)| (end - begin) as u64)
            };
            let needs = [bytes(2) / 8, bytes(3) / 8, 256, 256, bytes(4)];
            Some((0..5).all(|i| out(i) == needs[i]))
        }
        "load_file" => Some(loaded(before.area(File), content)),
        _ => None,
    }
}

fn written(before: &World, lent: &Lent, file: &[u8]) -> bool {
    let (blocks, set) = (blocks(file), |at| before.word(Set, at));
    let content = |role: Role| before.area(role);
    // A vast arena is all zeros.
    let arena = |at: usize, len: usize| match lent.is_vast(Arena) {
        true => Some(vec![0; len]),
        false => Some(before.area(Arena).get(at..at + len)?.to_vec()),
    };
    let place = |role, i| before.word(role, i) as usize;
    let segments = (0..set(9) as usize).map(|i| arena(place(Starts, i), place(Lengths, i)));
    let records = segments
        .collect::<Option<Vec<_>>>()
        .map(|parts| parts.concat());
    blocks.iter().map(|&(kind, ..)| kind).eq(1..=5)
        && blocks[4].2 == file.len()
        && records.as_deref() == file.get(blocks[4].1..)
        && same_words(set, file, content, false)
}

fn loaded<'a>(file: &[u8], content: impl Fn(Role) -> &'a [u8]) -> bool {
    let set = |at| word_of(content(Set), at);
    let (mut start, segments) = (0, set(9) as usize);
    let follow = (0..256).all(|i| {
        let wanted = if i < segments { start } else { 0 };
        start += word_of(content(Lengths), i);
        word_of(content(Starts), i) == wanted
    });
    let blocks = blocks(file);
    let Some(&(_, begin, end)) = blocks.get(4) else {
        return false;
    };
    let bytes = end - begin;
    follow
        && start == bytes as u64
        && [set(10), set(11)] == [start; 2]
        && content(Arena).get(..bytes) == file.get(begin..end)
        && same_words(set, file, &content, true)
}
