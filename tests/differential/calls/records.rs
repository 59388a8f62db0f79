// Records for the calls of sets: those of sets/spreads.rs with lifetimes at the boundaries of a tick.
use crate::calls::world::Pushed;
use crate::rng::Rng;
use crate::sets::spreads::{self, Spread};
use std::time::Duration;

pub const SECOND: u128 = 1_000_000_000;

// The longest deadline, in ticks.
pub const LAST: u128 = 65_534;

pub struct Entry {
    pub hash: u64,
    pub key: Vec<u8>,
    pub value: Vec<u8>,
    // No words for never, else seconds and nanoseconds.
    pub lifetime: Vec<u64>,
}

impl Entry {
    pub fn pushed(&self) -> Pushed<'_> {
        Pushed {
            hash: self.hash,
            key: &self.key,
            value: &self.value,
            lifetime: &self.lifetime,
        }
    }
}

// A lifetime in words, if it has as many seconds as a word holds.
pub fn lifetime(nanoseconds: u128) -> Option<Vec<u64>> {
    let secs = u64::try_from(nanoseconds / SECOND).ok()?;
    Some(vec![secs, (nanoseconds % SECOND) as u64])
}

pub fn duration(lifetime: &[u64]) -> Option<Duration> {
    let &[secs, nanos] = lifetime else {
        return None;
    };
    Some(Duration::new(secs, nanos as u32))
}

// A lifetime that the tick takes: at a boundary, or of any length.
pub fn taken(rng: &mut Rng, tick: Duration) -> Vec<u64> {
    let tick = tick.as_nanos();
    let last = LAST * tick;
    let nanoseconds = match rng.below(12) {
        0 => 0,
        1 => 1,
        2 => tick - 1,
        3 => tick,
        4 => tick + 1,
        5 => last - 1,
        6 => last,
        _ => u128::from(rng.below(LAST as u64)) * tick + u128::from(rng.next()) % tick,
    };
    lifetime(nanoseconds.min(last)).unwrap_or(vec![u64::MAX, 999_999_999])
}

// One nanosecond too long, or much too long; nothing where every lifetime fits.
pub fn too_long(rng: &mut Rng, tick: Duration) -> Option<Vec<u64>> {
    let least = LAST * tick.as_nanos() + 1;
    let most = u128::from(u64::MAX) * SECOND + 999_999_999;
    match rng.below(3) {
        _ if least > most => None,
        0 => lifetime(most),
        1 => lifetime(least.max(most / (1 + u128::from(rng.next())))),
        _ => lifetime(least),
    }
}

// So many records of a spread in so many buckets; half of them lapse where expiry is on.
pub fn entries(
    rng: &mut Rng,
    spread: &Spread,
    count: usize,
    buckets: usize,
    tick: Option<Duration>,
) -> Vec<Entry> {
    let hashes = (spread.hashes)(rng, count, buckets);
    let records = spreads::records(rng, &hashes, false);
    let mut entries = Vec::new();
    for record in records {
        let mut lifetime = Vec::new();
        if let Some(tick) = tick.filter(|_| rng.one_in(2)) {
            lifetime = taken(rng, tick);
        }
        entries.push(Entry {
            hash: record.hash,
            key: record.key,
            value: record.value,
            lifetime,
        });
    }
    entries
}

// No key or value is longer than the columns of a sheet show. The keys still differ: each begins with its number.
pub fn cut(entries: &mut [Entry]) {
    for entry in entries {
        entry.key.truncate(12);
        entry.value.truncate(12);
    }
}

// The bytes that all of them take, and a little more in no case.
pub fn total(entries: &[Entry], on: bool) -> usize {
    let size = |entry: &Entry| {
        let header = prefix(entry.key.len()) + prefix(entry.value.len());
        header + if on { 2 } else { 0 } + entry.key.len() + entry.value.len()
    };
    entries.iter().map(size).sum()
}

fn prefix(length: usize) -> usize {
    crate::model::rules::prefix(length as u64).len()
}
