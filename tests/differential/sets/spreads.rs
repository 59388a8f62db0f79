// Records for whole sets, and the ways in which their hashes are spread over the buckets.
use crate::rng::Rng;

pub struct Record {
    pub hash: u64,
    pub key: Vec<u8>,
    pub value: Vec<u8>,
    // In seconds.
    pub lifetime: Option<u64>,
}

pub struct Spread {
    pub name: &'static str,
    // Nearly all records stand behind one another, so that work grows with the square of them.
    pub crowded: bool,
    // Hashes for so many records in so many buckets.
    pub hashes: fn(&mut Rng, usize, usize) -> Vec<u64>,
}

impl Spread {
    // With tens of thousands of records: sequential tags then stand behind one another, too.
    pub fn crowded_by_many(&self) -> bool {
        self.crowded || self.name == "sequential tags"
    }
}

const fn spread(
    name: &'static str,
    crowded: bool,
    hashes: fn(&mut Rng, usize, usize) -> Vec<u64>,
) -> Spread {
    Spread {
        name,
        crowded,
        hashes,
    }
}

// First bucket and tag come from the same top bits, so that equal tags mean neighbouring buckets.
pub const SPREADS: [Spread; 9] = [
    spread("random", false, |rng, count, _| each(count, || rng.next())),
    spread("equal", true, |rng, count, _| vec![rng.next(); count]),
    spread("last bucket", true, |rng, count, _| {
        each(count, || u64::MAX - rng.below(1_000))
    }),
    spread("one tag", true, |rng, count, _| {
        let tag = rng.below(1 << 23);
        each(count, || of_tag(rng, tag))
    }),
    spread("tags 0 and 127", true, |rng, count, _| {
        each(count, || {
            let tag = rng.pick(&[0, 127]);
            of_tag(rng, tag)
        })
    }),
    spread("sequential", true, |_, count, _| {
        (0..count as u64).collect()
    }),
    spread("sequential tags", false, |rng, count, _| {
        let first = rng.next();
        let tag = |i: u64| first.wrapping_add(i << 41);
        (0..count as u64).map(tag).collect()
    }),
    spread("two full buckets", false, two_full_buckets),
    spread("clusters", false, clusters),
];

fn each(count: usize, mut hash: impl FnMut() -> u64) -> Vec<u64> {
    (0..count).map(|_| hash()).collect()
}

fn of_tag(rng: &mut Rng, tag: u64) -> u64 {
    tag << 41 | rng.below(1 << 41)
}

fn in_bucket(rng: &mut Rng, bucket: usize, buckets: usize) -> u64 {
    let first = ((bucket as u128) << 64).div_ceil(buckets as u128);
    let width = (1 << 64) / buckets as u128;
    (first + u128::from(rng.next()) % width) as u64
}

// Sixteen records of one bucket come first, so that they fill it and the next exactly; no other
// record begins in either. Now and then the next is the first.
fn two_full_buckets(rng: &mut Rng, count: usize, buckets: usize) -> Vec<u64> {
    let full = match rng.one_in(4) {
        true => buckets - 1,
        false => rng.index(buckets),
    };
    let next = (full + 1) % buckets;
    let other = |rng: &mut Rng| loop {
        let bucket = rng.index(buckets);
        if buckets < 3 || (bucket != full && bucket != next) {
            return in_bucket(rng, bucket, buckets);
        }
    };
    let hash = |i: usize, rng: &mut Rng| match i < 16 {
        true => in_bucket(rng, full, buckets),
        false => other(rng),
    };
    (0..count).map(|i| hash(i, rng)).collect()
}

// Groups of up to forty records of one tag among random ones.
fn clusters(rng: &mut Rng, count: usize, _: usize) -> Vec<u64> {
    let mut hashes = Vec::new();
    while hashes.len() < count {
        let tag = rng.below(1 << 23);
        for _ in 0..rng.index(40) {
            hashes.push(of_tag(rng, tag));
        }
        for _ in 0..rng.index(80) {
            hashes.push(rng.next());
        }
    }
    hashes.truncate(count);
    hashes
}

// No two keys are equal: each has its number, the number 0 as no bytes at all in half of the sets.
pub fn records(rng: &mut Rng, hashes: &[u64], on: bool) -> Vec<Record> {
    let no_bytes = rng.one_in(2);
    let record = |rng: &mut Rng, (i, &hash): (usize, &u64)| {
        let mut key = (i as u32).to_le_bytes().to_vec();
        if i == 0 && no_bytes {
            key.clear();
        } else if rng.one_in(2) {
            let more = length(rng, 16, 160);
            key.extend(rng.bytes(more));
        }
        let len = length(rng, 50, 300);
        Record {
            hash,
            key,
            value: rng.bytes(len),
            lifetime: (on && rng.one_in(2)).then(|| rng.below(65_535)),
        }
    };
    let numbered = hashes.iter().enumerate();
    numbered.map(|hash| record(rng, hash)).collect()
}

// A short length mostly, now and then one whose prefix may take two bytes.
fn length(rng: &mut Rng, short: usize, long: usize) -> usize {
    let limit = if rng.one_in(16) { long } else { short };
    rng.index(limit)
}
