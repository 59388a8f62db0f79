// Passes over a whole index: packing, and splitting into 256 segments. Inputs are laid out before
// the clock starts, and what the Rust hands back is freed after it stops.
use crate::measure::{Pass, Table, timed};
use crate::port_index as port;
use crate::records::checksum;
use crate::rng::{Rng, lent};
use oracle_large::access_index::finish_packed_words;
use oracle_small::access::SEGMENT_TARGET;
use oracle_small::access_index::split_record_segments;
use std::sync::atomic::Ordering;

// The buckets of 1,048,576 records.
const BUCKETS: usize = 149_797;

pub fn packing(table: &mut Table, rng: &mut Rng) {
    let word = |_| if rng.one_in(8) { 0 } else { rng.next() >> 1 };
    let words: Vec<u64> = (0..8 * BUCKETS).map(word).collect();
    let rust = || {
        let (input, mut packed) = (words.clone(), None);
        let (time, _) = timed(|| {
            packed = finish_packed_words(input, BUCKETS).ok();
            0
        });
        let packed = packed.expect("as many words as the buckets have");
        (
            time,
            checksum(packed.iter().map(|word| word.load(Ordering::Relaxed))),
        )
    };
    let port = || {
        let (mut index, mut scratch) = (lent(&words), vec![0; BUCKETS]);
        let (time, _) = timed(|| {
            port::test_finish_packed_index(&mut index, BUCKETS, &mut scratch);
            0
        });
        (time, checksum(index[..8 * BUCKETS].iter().copied()))
    };
    table.row("finish_packed_index, a bucket", BUCKETS, rust, port);
}

// Records of 64 bytes, each segment with as many as the target holds.
pub fn splitting(table: &mut Table, rng: &mut Rng) {
    let filled = 256 * SEGMENT_TARGET;
    let records = filled / 64;
    let mut words: Vec<u64> = (0..records as u64)
        .map(|i| rng.below(1 << 23) << 40 | (64 * i + 1))
        .collect();
    words.resize((records * 8 / 7).next_multiple_of(8), 0);
    for place in (1..words.len()).rev() {
        words.swap(place, rng.index(place + 1));
    }
    let rust = || rust_split(&words, filled);
    let port = || port_split(&words, filled);
    table.row("split_record_segments, 256 segments", 1, rust, port);
}

fn rust_split(words: &[u64], filled: usize) -> Pass {
    let (mut index, records, mut parts) = (words.to_vec(), vec![1; filled], None);
    let (time, _) = timed(|| {
        parts = split_record_segments(&mut index, records).ok();
        0
    });
    let parts = parts.expect("no more than 256 segments");
    (
        time,
        checksum(index.into_iter()).wrapping_add(parts.len() as u64),
    )
}

fn port_split(words: &[u64], filled: usize) -> Pass {
    let (mut index, mut starts, mut lengths) = (lent(words), vec![0; 256], vec![0; 256]);
    let buckets = words.len() / 8;
    let mut count = Err(0);
    let (time, _) = timed(|| {
        count = port::split_record_segments(
            &mut index,
            buckets,
            filled,
            SEGMENT_TARGET,
            &mut starts,
            &mut lengths,
        );
        0
    });
    let count = count.expect("no more than 256 segments");
    let index = index[..words.len()].iter().copied();
    (time, checksum(index).wrapping_add(count))
}
