// The packed index: packing in place, and the reference of a slot read back.
use crate::port::index as port;
use crate::report::Group;
use crate::rng::{Rng, lent, word_pattern};
use oracle_large::access_index as access;

pub fn packing(group: &mut Group, random: u64) {
    let mut rng = Rng::new(24);
    for _ in 0..random.div_ceil(1_200_000) {
        for buckets in 0..=600 {
            for kind in 0..KINDS {
                pack(group, &mut rng, buckets, kind);
            }
            too_short(group, &mut rng, buckets);
        }
    }
    if crate::long(random) {
        for buckets in [149_797, 1_048_576] {
            pack(group, &mut rng, buckets, 1);
        }
    }
    for _ in 0..random {
        any_reference(group, &mut rng);
    }
}

const KINDS: u64 = 4;

// Random words; words with empty ones between; few set bits; and words such as no build makes.
fn index_word(rng: &mut Rng, kind: u64) -> u64 {
    match kind {
        0 => rng.next(),
        1 if rng.one_in(8) => 0,
        1 => rng.next() >> 1,
        2 => rng.next() & rng.next() & rng.next() & rng.next(),
        _ => rng.pick(&[
            0,
            1 << 63,
            1,
            1 << 40,
            127 << 40,
            (1 << 40) - 1,
            u64::MAX,
            u64::MAX >> 24 << 24,
            0x7fff_ff00_0000_0000,
        ]),
    }
}

fn pack(group: &mut Group, rng: &mut Rng, buckets: usize, kind: u64) {
    let words: Vec<u64> = (0..8 * buckets).map(|_| index_word(rng, kind)).collect();
    let mut index = lent(&words);
    let mut scratch = lent(&word_pattern(buckets));
    port::test_finish_packed_index(&mut index, buckets, &mut scratch);
    let input = || format!("{buckets} buckets, kind {kind}, {words:x?}");
    let packed = access::finish_packed_index(words.clone(), buckets).unwrap_or_default();
    group.area("finish_packed_index", &index, &lent(&packed), input);
    let mut wanted = lent(&word_pattern(buckets));
    wanted[..buckets].copy_from_slice(&packed[..buckets]);
    group.area("finish_packed_index scratch", &scratch, &wanted, input);
    for _ in 0..buckets.min(30) {
        let slot = rng.index(8 * buckets);
        reference(group, &packed, buckets, slot);
    }
}

// The reference of a slot ends in the word of its own number among its bucket's, and begins in the
// one before, except that slot 0 needs none before and slot 7 none of its own.
fn reference(group: &mut Group, packed: &[u64], buckets: usize, slot: usize) {
    let at = buckets + slot / 8 * 7 + slot % 8;
    let own = packed.get(at).copied().unwrap_or(u64::MAX);
    let found = port::test_packed_reference_at(packed[at - 1], own, slot);
    let rust = access::packed_reference_at(packed, buckets, slot);
    let wanted = rust.map(|(tag, location)| {
        let stored = (location as u64).wrapping_add(1);
        u64::from(tag) + (stored << 16)
    });
    let input = || format!("{:x?}, {buckets}, slot {slot}", &packed[at - 1..]);
    group.rust("packed_reference_at", Some(found), wanted, input);
}

// The seven bytes that a slot has in two words.
fn any_reference(group: &mut Group, rng: &mut Rng) {
    let (before, word) = (rng.next(), rng.next());
    let slot = match rng.one_in(4) {
        true => rng.any_size() as usize,
        false => rng.index(8),
    };
    let mut bytes = before.to_le_bytes().to_vec();
    bytes.extend(word.to_le_bytes());
    let first = 8 - slot % 8;
    let mut wanted = [0; 8];
    wanted[..7].copy_from_slice(&bytes[first..first + 7]);
    let found = port::test_packed_reference_at(before, word, slot);
    let input = || format!("{before:#x}, {word:#x}, {slot}");
    group.rule(
        "packed_reference_at",
        found,
        u64::from_le_bytes(wanted),
        input,
    );
}

// Nothing is written where the index or the scratch words are too few.
fn too_short(group: &mut Group, rng: &mut Rng, buckets: usize) {
    let needed = 8 * buckets;
    let mut lengths = vec![(needed, buckets / 2)];
    if buckets > 0 {
        lengths.extend([(needed - 1, buckets), (needed, buckets - 1), (0, buckets)]);
    }
    for (index_len, scratch_len) in lengths {
        if scratch_len >= buckets && index_len >= needed {
            continue;
        }
        let words: Vec<u64> = (0..index_len).map(|_| rng.next()).collect();
        let mut index = lent(&words);
        let mut scratch = lent(&word_pattern(scratch_len));
        port::test_finish_packed_index(
            &mut index[..index_len],
            buckets,
            &mut scratch[..scratch_len],
        );
        let input = || format!("{buckets} buckets in {index_len} words, scratch {scratch_len}");
        group.area("finish_packed_index short", &index, &lent(&words), input);
        let wanted = lent(&word_pattern(scratch_len));
        group.area("scratch short", &scratch, &wanted, input);
    }
}
