// Records for the largest sets: so many of given lengths, the number of each in front of its key.
use crate::calls::records::{Entry, taken};
use crate::model::rules::prefix;
use crate::rng::Rng;
use crate::sets::spreads::Spread;
use std::time::Duration;

// Lengths of key and value of the record of a number.
pub type Lengths<'a> = &'a dyn Fn(&mut Rng, usize) -> (usize, usize);

const NUMBER: usize = 4;

// Short ones, now and then with prefixes of two bytes.
pub fn short(rng: &mut Rng, _: usize) -> (usize, usize) {
    let value = if rng.one_in(16) { 300 } else { 50 };
    (NUMBER + rng.index(12), rng.index(value))
}

// As long as the columns of a sheet show, or shorter.
pub fn twelve(rng: &mut Rng, _: usize) -> (usize, usize) {
    (NUMBER + rng.index(9), rng.index(13))
}

// About 1,000 bytes: a little under a gibibyte for 1,048,576 of them.
pub fn thousand(rng: &mut Rng, _: usize) -> (usize, usize) {
    (NUMBER + rng.index(12), 900 + rng.index(190))
}

// A record of so many bytes, with a key of four: the lengths of both.
pub fn exact(bytes: usize, on: bool) -> (usize, usize) {
    let deadline = if on { 2 } else { 0 };
    let fits = |prefix_bytes: &usize| {
        let value = bytes.checked_sub(1 + prefix_bytes + deadline + NUMBER);
        value.is_some_and(|value| prefix(value as u64).len() == *prefix_bytes)
    };
    let prefix_bytes = (1..6).find(fits).unwrap_or(1);
    (NUMBER, bytes - (1 + prefix_bytes + deadline + NUMBER))
}

pub fn made(
    rng: &mut Rng,
    spread: &Spread,
    count: usize,
    occupied: u8,
    tick: Option<Duration>,
    lengths: Lengths,
) -> Vec<Entry> {
    let buckets = count.div_ceil(occupied.into()).max(1);
    let hashes = (spread.hashes)(rng, count, buckets);
    let mut list = Vec::with_capacity(count);
    for (i, &hash) in hashes.iter().enumerate() {
        let (key, value) = lengths(rng, i);
        let mut key = bytes(rng, key);
        key[..NUMBER].copy_from_slice(&(i as u32).to_le_bytes());
        let lapses = tick.filter(|_| rng.one_in(2));
        list.push(Entry {
            hash,
            key,
            value: bytes(rng, value),
            lifetime: lapses.map_or(Vec::new(), |tick| taken(rng, tick)),
        });
    }
    list
}

// Eight to a number: a gibibyte of them is made in a second.
fn bytes(rng: &mut Rng, length: usize) -> Vec<u8> {
    let mut bytes = vec![0; length];
    for part in bytes.chunks_mut(8) {
        let number = rng.next().to_le_bytes();
        part.copy_from_slice(&number[..part.len()]);
    }
    bytes
}

// The number in front of a key.
pub fn number(key: &[u8]) -> usize {
    let bytes = key.first_chunk::<NUMBER>().copied().unwrap_or_default();
    u32::from_le_bytes(bytes) as usize
}
