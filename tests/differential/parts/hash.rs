// Hash parts, zero bytes and marks, and the mixed hash of the negative filter.
use crate::port::parts as port;
use crate::report::Group;
use crate::rng::{Rng, edges};
use oracle_large::access;

// The first tag that has more bits than a hash's tag.
const TAG_END: u64 = 1 << 23;

fn hashes() -> Vec<u64> {
    let mut hashes = edges();
    hashes.extend([
        0x0000_fe00_0000_0000,
        0x0000_fdff_ffff_ffff,
        0x0001_0000_0000_0000,
    ]);
    hashes.extend([
        0x7fff_ffff_0000_0001,
        0xaaaa_aaaa_aaaa_aaaa,
        0x0123_4567_89ab_cdef,
    ]);
    hashes
}

fn bucket_counts() -> Vec<u64> {
    let mut counts: Vec<u64> = (0..=600).collect();
    counts.extend([149_797, 1_048_576, 4_177_920]);
    counts.extend([(1 << 32) - 1, 1 << 32, (1 << 32) + 1, 1 << 63, u64::MAX]);
    counts
}

pub fn parts(group: &mut Group, random: u64) {
    let edges = edges();
    for hash in hashes() {
        single(group, hash);
        for buckets in bucket_counts().into_iter().chain(edges.iter().copied()) {
            reduce(group, hash, buckets);
        }
    }
    for &a in &edges {
        for &b in &edges {
            product(group, a, b);
        }
    }
    let mut rng = Rng::new(1);
    for _ in 0..random {
        let hash = rng.next();
        single(group, hash);
        reduce(group, hash, rng.number(&edges));
        reduce(group, rng.number(&edges), rng.number(&edges));
        product(group, rng.number(&edges), rng.number(&edges));
    }
}

fn single(group: &mut Group, hash: u64) {
    let input = || format!("{hash:#x}");
    group.rust(
        "hash_tag",
        port::test_hash_tag(hash),
        access::hash_tag(hash),
        input,
    );
    group.rule(
        "rotate_left_27",
        port::test_rotate_left_27(hash),
        hash.rotate_left(27),
        input,
    );
}

fn reduce(group: &mut Group, hash: u64, buckets: u64) {
    let buckets = buckets as usize;
    let found = port::test_reduce_hash(hash, buckets);
    let input = || format!("{hash:#x}, {buckets}");
    group.rust(
        "reduce_hash",
        found,
        access::reduce_hash(hash, buckets),
        input,
    );
}

fn product(group: &mut Group, a: u64, b: u64) {
    let found = port::test_wrapping_mul(a, b);
    group.rule("wrapping_mul", found, a.wrapping_mul(b), || {
        format!("{a:#x}, {b:#x}")
    });
}

pub fn tags(group: &mut Group, random: u64) {
    // The long run has every tag, the short one a sample.
    let step = if random > TAG_END { 1 } else { 61 };
    for tag in (0..TAG_END)
        .step_by(step)
        .chain(TAG_END - 300..TAG_END)
        .chain(hashes())
    {
        one_tag(group, tag);
    }
    let mut rng = Rng::new(2);
    for _ in 0..random {
        one_tag(group, rng.below(TAG_END));
        one_tag(group, rng.any_size());
    }
}

fn one_tag(group: &mut Group, tag: u64) {
    let input = || format!("{tag:#x}");
    let control = port::test_packed_control_tag(tag);
    group.rust(
        "packed_control_tag",
        control,
        access::packed_control_tag(tag),
        input,
    );
    let secondary = port::test_packed_secondary_tag(tag);
    // The Rust panics on more bits; the port keeps the lowest sixteen.
    if tag < TAG_END {
        group.rust(
            "packed_secondary_tag",
            secondary,
            access::packed_secondary_tag(tag),
            input,
        );
    } else {
        group.rule(
            "packed_secondary_tag",
            secondary,
            (tag / 128 % 65_536) as u16,
            input,
        );
    }
}

pub fn marks(group: &mut Group, random: u64) {
    for place in 0..8 {
        for byte in 0..=255 {
            for below in [0x00, 0x01, 0x7f, 0x80, 0xff] {
                for above in [0x00, 0x01, 0x7f, 0x80, 0xff] {
                    let mut bytes = [below; 8];
                    bytes[place..].fill(above);
                    bytes[place] = byte;
                    one_word(group, u64::from_le_bytes(bytes));
                }
            }
        }
    }
    for word in hashes() {
        one_word(group, word);
    }
    let mut rng = Rng::new(3);
    for _ in 0..random {
        one_word(group, rng.next());
        let mut bytes = rng.next().to_le_bytes();
        let zeros = rng.next();
        for (i, byte) in bytes.iter_mut().enumerate() {
            if zeros >> i & 1 == 1 {
                *byte = (zeros >> (8 + i)) as u8 & 1;
            }
        }
        one_word(group, u64::from_le_bytes(bytes));
    }
}

// The marks of a word, and what is read off marks: of those, and of the word itself, since the
// port's functions take any word.
fn one_word(group: &mut Group, word: u64) {
    let marks = access::zero_byte_high_bits(word);
    let found = port::test_zero_byte_high_bits(word);
    group.rust("zero_byte_high_bits", found, marks, || format!("{word:#x}"));
    for marks in [marks, word] {
        let input = || format!("{marks:#x}");
        let lowest = port::test_lowest_marked_byte(marks);
        group.rule(
            "lowest_marked_byte",
            lowest,
            marks.trailing_zeros() as usize / 8,
            input,
        );
        let others = port::test_without_lowest_mark(marks);
        group.rule(
            "without_lowest_mark",
            others,
            marks & marks.wrapping_sub(1),
            input,
        );
    }
}

pub fn mixed(group: &mut Group, random: u64) {
    let edges = edges();
    for hash in hashes() {
        for &words in edges.iter().filter(|&&words| words > 0) {
            one_location(group, hash, words);
        }
    }
    let mut rng = Rng::new(4);
    for _ in 0..random {
        let hash = rng.number(&edges);
        // With the largest count the word shows all bits of the mixed hash but the last.
        one_location(group, hash, u64::MAX);
        one_location(group, rng.next(), 1 + rng.below(4_177_920));
    }
}

// The Rust keeps the mixed hash to itself, but word and mask are made of it and of the hash.
fn one_location(group: &mut Group, hash: u64, words: u64) {
    let found = filter_location(port::test_mixed_hash(hash), hash, words);
    let wanted = access::negative_filter_location(words as usize, hash);
    let input = || format!("{hash:#x}; as word and mask of {words} words");
    group.rust("mixed_hash", found, wanted, input);
}

// Three different bits: each is moved up, past bit 63 to bit 0, until it is free.
fn filter_location(mixed: u64, hash: u64, words: u64) -> (usize, u64) {
    let word = (u128::from(mixed) * u128::from(words)) >> 64;
    let mut mask = 0_u64;
    for bits in [hash, mixed >> 21, mixed >> 42] {
        let mut bit = bits % 64;
        while mask >> bit & 1 == 1 {
            bit = (bit + 1) % 64;
        }
        mask |= 1 << bit;
    }
    (word as usize, mask)
}
