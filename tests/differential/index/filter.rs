// The negative filter: its words, the bits of a hash, marking and asking.
use crate::port::index as port;
use crate::report::Group;
use crate::rng::{Rng, edges, lent, word_pattern};
use oracle_large::access;
use oracle_large::access_index;

pub fn filter(group: &mut Group, random: u64) {
    counts(group);
    let edges = edges();
    for &hash in &edges {
        for words in (0..=70).chain([1 << 20, 4_177_920, 1 << 32, u64::MAX]) {
            location(group, words as usize, hash);
        }
    }
    let mut rng = Rng::new(23);
    for _ in 0..random {
        let hash = rng.next();
        location(group, rng.number(&edges) as usize, hash);
        location(group, 1 + rng.index(5_000), hash);
    }
    for _ in 0..random / 2 {
        mark_and_ask(group, &mut rng);
    }
}

// The Rust allocates the words that it counts.
fn counts(group: &mut Group) {
    let small = (0..300).chain([4_095, 4_096, 4_097, 65_536, 1_048_576]);
    for records in small.chain([1 << 31, u32::MAX - 1, u32::MAX]) {
        for bits in 0..=255 {
            let found = port::test_negative_filter_words(records, bits);
            let input = || format!("{records}, {bits}");
            if records < 10_000 {
                let rust = access_index::negative_filter_words(records as usize, bits);
                let rust = rust.map_or(0, |words| words.len());
                group.rust("negative_filter_words", found, rust, input);
            } else {
                let wanted = (u128::from(records) * u128::from(bits)).div_ceil(64);
                group.rule("negative_filter_words", found as u128, wanted, input);
            }
        }
    }
}

fn location(group: &mut Group, words: usize, hash: u64) {
    let found = (
        port::test_negative_filter_word(words, hash),
        port::test_negative_filter_mask(words, hash),
    );
    let rust = access::negative_filter_location(words, hash);
    let input = || format!("{words}, {hash:#x}");
    group.rust("negative_filter_location", found, rust, input);
}

// One call of each on a filter that may have the hash's bits, all or all but one. Every eighth
// area is too short for the count: nothing is marked, and every hash may have been.
fn mark_and_ask(group: &mut Group, rng: &mut Rng) {
    let words = rng.index(12);
    let hash = rng.next();
    let mut filter: Vec<u64> = (0..words).map(|_| rng.next() & rng.next()).collect();
    let (word, mask) = access::negative_filter_location(words, hash);
    if words > 0 && rng.one_in(2) {
        filter[word] |= mask;
        if rng.one_in(2) {
            filter[word] &= !lowest_bits(mask, rng.index(3));
        }
    }
    if rng.one_in(8) {
        short(group, rng, hash);
    }
    let mut area = lent(&filter);
    let input = || format!("{filter:x?}, {words}, {hash:#x}");
    let mut rust = Some(filter.clone()).filter(|words| !words.is_empty());
    let found = port::test_negative_filter_may_contain(&area, words, hash);
    let wanted = access_index::negative_filter_may_contain(rust.as_deref(), hash);
    group.rust("negative_filter_may_contain", found, wanted, input);
    port::test_mark_negative_filter(&mut area, words, hash);
    access_index::mark_negative_filter(&mut rust, hash);
    let wanted = lent(&rust.unwrap_or_default());
    group.area("mark_negative_filter", &area, &wanted, input);
    let found = port::test_negative_filter_may_contain(&area, words, hash);
    group.rule("marked hash", found, true, input);
}

// One bit of a mask: the lowest, after so many were taken away.
fn lowest_bits(mask: u64, skip: usize) -> u64 {
    let rest = (0..skip).fold(mask, |rest, _| rest & (rest - 1));
    rest & rest.wrapping_neg()
}

fn short(group: &mut Group, rng: &mut Rng, hash: u64) {
    let before = word_pattern(rng.index(6));
    let words = before.len() + 1 + rng.index(4);
    let words = if rng.one_in(8) { usize::MAX } else { words };
    let input = || format!("area of {}, {words}, {hash:#x}", before.len());
    let mut area = lent(&before);
    let wanted = area.clone();
    port::test_mark_negative_filter(&mut area[..before.len()], words, hash);
    group.area("mark_negative_filter short", &area, &wanted, input);
    let found = port::test_negative_filter_may_contain(&before, words, hash);
    group.rule("negative_filter_may_contain short", found, true, input);
}
