// Splitting, compared with the Rust at its own target and with the model at others. This file is a
// module twice, once for each build of the Rust.
use super::oracle::access::SEGMENT_TARGET;
use super::oracle::access_index as access;
use crate::index::starts::any_words;
use crate::model::index as model;
use crate::port::index as port;
use crate::report::Group;
use crate::rng::{Rng, lent, word_pattern};

// Whether arenas of several segments are small enough to make many of them for the Rust.
const SMALL: bool = SEGMENT_TARGET < 1_000_000;

pub fn split(group: &mut Group, random: u64) {
    let mut rng = Rng::new(25 + SEGMENT_TARGET as u64);
    for count in [1, 2, 3, 254, 255, 256, 257, 258, 300] {
        full_segments(group, &mut rng, count);
    }
    let about = SEGMENT_TARGET - 2..SEGMENT_TARGET + 3;
    if SMALL || crate::long(random) {
        for filled in about.chain([2 * SEGMENT_TARGET, 2 * SEGMENT_TARGET + 1]) {
            at_the_target(group, &mut rng, filled);
        }
    } else {
        at_the_target(group, &mut rng, SEGMENT_TARGET + 1);
    }
    for _ in 0..random / 30 {
        any_split(group, &mut rng);
    }
    for _ in 0..random / 4_000 {
        many_starts(group, &mut rng);
    }
    short_areas(group, &mut rng);
}

fn any_split(group: &mut Group, rng: &mut Rng) {
    let buckets = rng.index(12);
    let own = rng.one_in(2);
    let several = own && SMALL;
    let filled = rng.index(if several { 40_000 } else { 4_000 });
    let words = any_words(rng, buckets, filled);
    let about = filled.saturating_sub(1) + rng.index(3);
    let others = [0, 1, 2, 5, 100, 1_000, about, usize::MAX];
    let other = rng.pick(&others);
    let target = if own { SEGMENT_TARGET } else { other };
    compare(group, &words, filled, target);
}

// So many records that there are about 256 segments of the small target.
fn many_starts(group: &mut Group, rng: &mut Rng) {
    let target = SEGMENT_TARGET.min(4_096);
    let buckets = 120 + rng.index(60);
    let filled = 256 * target + rng.index(80 * target);
    let words: Vec<u64> = (0..8 * buckets)
        .map(|_| rng.below(1 << 23) << 40 | (rng.below(filled as u64) + 1))
        .collect();
    compare(group, &words, filled, target);
}

// Records of exactly the target's length, with a last one of two bytes and without.
fn full_segments(group: &mut Group, rng: &mut Rng, count: usize) {
    let target = SEGMENT_TARGET.min(4_096);
    for last in [0, 2] {
        let mut words: Vec<u64> = (0..count)
            .map(|i| rng.below(1 << 23) << 40 | (i * target + 1) as u64)
            .collect();
        if last > 0 {
            words.push((count * target + 1) as u64);
        }
        let filled = count * target + last;
        words.resize(words.len().next_multiple_of(8), 0);
        compare(group, &words, filled, target);
        // The shorter record first, so that every other start is moved by it.
        let moved = |&word: &u64| if word == 0 { 0 } else { word + last as u64 };
        let mut words: Vec<u64> = words.iter().map(moved).collect();
        words.extend([1, 0, 0, 0, 0, 0, 0, 0]);
        compare(group, &words, filled + last, target);
    }
}

// Few records, so that one segment may well be longer than the target, or none starts at 0.
fn at_the_target(group: &mut Group, rng: &mut Rng, filled: usize) {
    for first in [0, 1, SEGMENT_TARGET - 1, SEGMENT_TARGET, filled - 1] {
        let mut words = vec![0; 8];
        words[rng.index(4)] = 1 << 63 | (first as u64 + 1);
        words[4] = 5 << 40 | (filled as u64 / 2 + 1);
        words[7] = 7 << 40 | filled as u64;
        compare(group, &words, filled, SEGMENT_TARGET);
    }
}

// The areas after a split by the port, by the model, and by the Rust where it can say.
fn compare(group: &mut Group, words: &[u64], filled: usize, target: usize) {
    let buckets = words.len() / 8;
    let before = [
        lent(words),
        lent(&word_pattern(256)),
        lent(&word_pattern(256)),
    ];
    let [mut index, mut starts, mut lengths] = before.clone();
    let found = port::split_record_segments(
        &mut index,
        buckets,
        filled,
        target,
        &mut starts,
        &mut lengths,
    );
    let [mut index2, mut starts2, mut lengths2] = before;
    let wanted = model::split(
        &mut index2,
        buckets,
        filled,
        target,
        &mut starts2,
        &mut lengths2,
    );
    let input = || format!("{filled}, {target}, {words:x?}");
    group.rule("split_record_segments", found, wanted, input);
    group.area("split index", &index, &index2, input);
    group.area("split starts", &starts, &starts2, input);
    group.area("split lengths", &lengths, &lengths2, input);
    if target == SEGMENT_TARGET && rust_can(words, filled, target) {
        with_rust(group, words, filled, found, [&index, &starts, &lengths]);
    }
}

// Whether the Rust splits so without a panic: with more than the target, no start past the filled
// bytes and no word without a location.
fn rust_can(words: &[u64], filled: usize, target: usize) -> bool {
    let starts = model::starts(words, words.len() / 8, filled, target);
    let named = |&word: &u64| word == 0 || (1..1 << 32).contains(&(word % (1 << 40)));
    let inside = |&start: &u64| start <= filled as u64;
    filled <= target || (words.iter().all(named) && starts.iter().all(inside))
}

fn with_rust(
    group: &mut Group,
    words: &[u64],
    filled: usize,
    found: Result<u64, u64>,
    [index, starts, lengths]: [&[u64]; 3],
) {
    let input = || format!("{filled}, {words:x?}");
    let mut rust = words.to_vec();
    let parts = access::split_record_segments(&mut rust, vec![0; filled]);
    let count = parts.as_ref().map(|parts| parts.len() as u64);
    group.rust("split_record_segments", found, count.map_err(|&e| e), input);
    group.area("split index", &index[..words.len()], &rust, input);
    let Ok(parts) = parts else {
        return;
    };
    let parts: Vec<u64> = parts.iter().map(|part| part.len() as u64).collect();
    group.area("split lengths", &lengths[..parts.len()], &parts, input);
    let sums: Vec<u64> = (0..parts.len()).map(|i| parts[..i].iter().sum()).collect();
    group.area("split starts", &starts[..parts.len()], &sums, input);
}

// Nothing is written where an area is too short.
fn short_areas(group: &mut Group, rng: &mut Rng) {
    for (buckets, starts_len, lengths_len) in [
        (3, 256, 256),
        (2, 255, 256),
        (2, 256, 255),
        (2, 0, 0),
        (usize::MAX / 8 + 1, 256, 256),
    ] {
        let words = any_words(rng, 2, 9_000);
        let before = [
            lent(&words),
            word_pattern(starts_len),
            word_pattern(lengths_len),
        ];
        let [mut index, mut starts, mut lengths] = before.clone();
        let found =
            port::split_record_segments(&mut index, buckets, 9_000, 100, &mut starts, &mut lengths);
        let input = || format!("{buckets} buckets, areas of {starts_len} and {lengths_len}");
        group.rule("split short", found, Err(10), input);
        for (after, before) in [&index, &starts, &lengths].into_iter().zip(&before) {
            group.area("split short", after, before, input);
        }
    }
}
