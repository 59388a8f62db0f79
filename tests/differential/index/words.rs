// Index words, control words and bucket numbers.
use crate::port::index as port;
use crate::report::Group;
use crate::rng::{Rng, edges, lent, word_pattern};
use oracle_large::access_index::{self as access, Builder, Parts, Set, Setting};

// Numbers of records at which the number of buckets or of prefixes changes.
const RECORDS: [u64; 14] = [
    895, 896, 897, 4_095, 4_096, 4_097, 65_535, 65_536, 65_537, 149_797, 1_048_575, 1_048_576,
    1_048_577, 8_388_608,
];

pub fn words(group: &mut Group, random: u64) {
    let edges = edges();
    for &a in &edges {
        parts(group, a);
        for &b in &edges {
            encode(group, a, b);
        }
    }
    let mut rng = Rng::new(21);
    for _ in 0..random {
        encode(group, rng.number(&edges), rng.number(&edges));
        encode(group, rng.below(1 << 23), rng.below(1 << 40));
        parts(group, rng.next());
        parts(group, rng.number(&edges));
    }
    for _ in 0..random / 20 {
        marks(group, &mut rng);
    }
}

// The Rust takes the tag in a hash, and refuses the two highest locations.
fn encode(group: &mut Group, tag: u64, location: u64) {
    let found = port::test_encode_index_word(tag, location);
    let input = || format!("{tag:#x}, {location:#x}");
    let fits = tag < 1 << 23;
    let rust = access::encode_index_word(tag << 41 | 0x1ff, location as usize);
    if let Some(word) = rust.filter(|_| fits) {
        group.rust("encode_index_word", found, word, input);
        return;
    }
    let stored = (u128::from(location) + 1) % (1 << 40);
    let word = u128::from(tag % (1 << 23)) * (1 << 40) + stored;
    group.rule("encode_index_word", u128::from(found), word, input);
}

fn parts(group: &mut Group, word: u64) {
    let input = || format!("{word:#x}");
    let tag = port::test_index_tag(word);
    group.rust("index_tag", tag, access::index_tag(word), input);
    // The port gives the location plus 1; the Rust takes 1 from it, around at 0.
    let location = port::test_index_location(word).wrapping_sub(1) as usize;
    let wanted = access::index_location(word);
    group.rust("index_location", location, wanted, input);
    let mark = 1 << 63;
    let marks = (
        port::test_mark_accessed(word),
        port::test_clear_accessed(word),
        port::test_is_accessed(word),
    );
    let wanted = (word | mark, word & !mark, word & mark != 0);
    group.rule("marks of a word", marks, wanted, input);
}

// A slot of a set of one bucket marked and cleared by the Rust, in both layouts.
fn marks(group: &mut Group, rng: &mut Rng) {
    let words: Vec<u64> = (0..8).map(|_| rng.any_size()).collect();
    let slot = rng.index(8);
    let input = || format!("{words:x?}, slot {slot}");
    let word = words[slot];
    let (marked, was, cleared) = rust_marks(false, &words, slot);
    let found = port::test_mark_accessed(word);
    group.rust("mark_accessed", found, marked[slot], input);
    let found = (
        port::test_is_accessed(word),
        port::test_clear_accessed(word),
    );
    group.rust("clear_accessed", found, (was, cleared[slot]), input);

    let control = words[0];
    let (marked, _, cleared) = rust_marks(true, &words, slot);
    // Slots count modulo 8.
    for counted in [slot, slot + 8 * rng.index(1 << 20)] {
        let found = port::test_mark_control(control, counted);
        group.rust("mark_control", found, marked[0], input);
        let found = port::test_clear_control(control, counted);
        group.rust("clear_control", found, cleared[0], input);
    }
}

// The words with the slot marked, whether it was marked before, and the words with it cleared.
fn rust_marks(packed: bool, words: &[u64], slot: usize) -> (Vec<u64>, bool, Vec<u64>) {
    let parts = Parts {
        setting: setting(packed),
        index: words,
        filter: &[],
        arena: &[],
        starts: &[],
        lengths: &[],
    };
    let set = Set::forged(&parts);
    let was = set.clear(slot);
    let cleared = set.words();
    set.mark(slot);
    (set.words(), was, cleared)
}

fn setting(packed: bool) -> Setting {
    Setting {
        tick: None,
        occupied: 7,
        packed,
        bits: 0,
    }
}

pub fn buckets(group: &mut Group, random: u64) {
    let edges = edges();
    for records in (0..=600).chain(RECORDS).chain(edges.iter().copied()) {
        for occupied in 0..=255 {
            bucket_count(group, records as usize, occupied);
        }
    }
    for buckets in 0..40 {
        for bucket in 0..44 {
            next(group, bucket, buckets);
            for current in 0..44 {
                displacement(group, bucket, current, buckets);
            }
        }
    }
    let mut rng = Rng::new(22);
    for _ in 0..random {
        let number = |rng: &mut Rng| rng.number(&edges) as usize;
        let (a, b, c) = (number(&mut rng), number(&mut rng), number(&mut rng));
        next(group, a, b);
        next(group, a, a.wrapping_add(rng.index(3)));
        displacement(group, a, b, c);
        let buckets = a.max(1);
        displacement(group, b % buckets, c % buckets, buckets);
        bucket_count(group, a, rng.below(256) as u8);
    }
    clearing(group);
}

// The Rust's builder says it for up to ten thousand records; it allocates for them.
fn bucket_count(group: &mut Group, records: usize, occupied: u8) {
    let found = port::test_bucket_count(records, occupied);
    let input = || format!("{records}, {occupied}");
    if (1..=7).contains(&occupied) && records < 10_000 {
        let setting = Setting {
            occupied,
            ..setting(true)
        };
        let rust = Builder::open(setting, records).map(|builder| builder.buckets());
        group.rust("bucket_count", Ok(found), rust, input);
        return;
    }
    // Without occupancy there is one bucket.
    let wanted = records.checked_div(occupied.into()).map_or(1, |whole| {
        let over = whole * usize::from(occupied) < records;
        (whole + usize::from(over)).max(1)
    });
    group.rule("bucket_count", found, wanted, input);
}

fn next(group: &mut Group, bucket: usize, buckets: usize) {
    let next = bucket as u128 + 1;
    let wanted = if next < buckets as u128 { next } else { 0 };
    let found = port::test_next_bucket(bucket, buckets) as u128;
    let input = || format!("{bucket}, {buckets}");
    group.rule("next_bucket", found, wanted, input);
}

// Where the first bucket lies past the last one, the Rust would go below 0.
fn displacement(group: &mut Group, primary: usize, current: usize, buckets: usize) {
    let found = port::test_bucket_displacement(primary, current, buckets);
    let input = || format!("{primary}, {current}, {buckets}");
    if primary <= buckets {
        let rust = access::bucket_displacement(primary, current, buckets);
        group.rust("bucket_displacement", found, rust, input);
    } else {
        let wanted = current.checked_sub(primary).unwrap_or(current);
        group.rule("bucket_displacement", found, wanted, input);
    }
}

fn clearing(group: &mut Group) {
    for len in 0..40 {
        for count in (0..44).chain([usize::MAX / 8, usize::MAX]) {
            let before = word_pattern(len);
            let mut area = lent(&before);
            let mut wanted = area.clone();
            port::test_clear_words(&mut area[..len], count);
            if count <= len {
                wanted[..count].fill(0);
            }
            let input = || format!("area of {len}, {count}");
            group.area("clear_words", &area, &wanted, input);
        }
    }
}
