// Lookups in a set of 1,048,576 records, and the walk of a push in its index before the finish.
use crate::measure::{Pass, Table, timed};
use crate::port_index::{self as port, Areas};
use crate::records::{Entry, random_entries};
use crate::rng::{Rng, lent};
use oracle_large::access_index::{self as access, Builder, Set, Setting};

const RECORDS: usize = 1 << 20;

const QUERIES: usize = 1 << 18;

fn setting(packed: bool, bits: u8) -> Setting {
    Setting {
        tick: None,
        occupied: 7,
        packed,
        bits,
    }
}

// Random keys of 16 bytes are not equal by chance.
fn build(rng: &mut Rng, setting: Setting, entries: &[Entry]) -> Builder {
    let mut builder = Builder::open(setting, entries.len()).expect("a valid setting");
    for (key, hash) in entries {
        oracle_large::set_hash(*hash);
        let value = rng.bytes(32);
        builder.push(key, &value, None).expect("room for each");
    }
    builder
}

pub fn finds(table: &mut Table, rng: &mut Rng, packed: bool, bits: u8) {
    let entries = random_entries(rng, RECORDS);
    let builder = build(rng, setting(packed, bits), &entries);
    let (buckets, arena) = (builder.buckets(), builder.records().to_vec());
    let set = builder.finish().expect("one segment");
    let index = lent(&set.words());
    let filter = set.filter().unwrap_or(&[]);
    let (starts, lengths) = (set.starts().to_vec(), set.lengths());
    let areas = Areas {
        on: false,
        packed,
        filled: arena.len(),
        segments: starts.len(),
        buckets,
        filter_words: filter.len(),
        arena: &arena,
        index: &index,
        filter,
        starts: &starts,
        lengths: &lengths,
    };
    let hits: Vec<Entry> = (0..QUERIES).map(|_| rng.pick(&entries)).collect();
    let misses = random_entries(rng, QUERIES);
    let layout = if packed { "packed" } else { "words" };
    for (kind, queries) in [("hit", hits), ("miss", misses)] {
        let name = format!("find {kind}, {layout}, filter bits {bits}");
        let (rust, port) = (
            || rust_finds(&set, &queries),
            || port_finds(&areas, &queries),
        );
        table.row(&name, QUERIES, rust, port);
    }
}

// The sum of slots, places of values and a number for each hit.
fn summed(sum: u64, found: Option<[u64; 9]>) -> u64 {
    found.map_or(sum, |found| {
        sum.wrapping_add(found[0] + found[5] + (1 << 40))
    })
}

fn rust_finds(set: &Set, queries: &[Entry]) -> Pass {
    let find = |sum, (key, hash): &Entry| summed(sum, set.find(key, *hash));
    timed(|| queries.iter().fold(0, find))
}

fn port_finds(areas: &Areas, queries: &[Entry]) -> Pass {
    let find = |sum, (key, hash): &Entry| summed(sum, port::find(areas, key, *hash));
    timed(|| queries.iter().fold(0, find))
}

// The slots of further records, in an index whose slots are seven eighths full.
pub fn build_slots(table: &mut Table, rng: &mut Rng) {
    let entries = random_entries(rng, RECORDS);
    let builder = build(rng, setting(false, 0), &entries);
    let index = lent(builder.index());
    let (buckets, bytes) = (builder.buckets(), builder.records());
    let queries = random_entries(rng, QUERIES);
    let slot = |sum: u64, found: Result<usize, u64>| {
        sum.wrapping_mul(3)
            .wrapping_add(found.map_or(u64::MAX, |slot| slot as u64))
    };
    let rust = |sum, (key, hash): &Entry| {
        let found = access::find_build_slot(builder.index(), bytes, None, key, *hash);
        slot(sum, found)
    };
    let port = |sum, (key, hash): &Entry| {
        let found = port::find_build_slot(&index, buckets, bytes, false, key, *hash);
        slot(sum, found)
    };
    table.row(
        "find_build_slot, 7/8 full",
        QUERIES,
        || timed(|| queries.iter().fold(0, rust)),
        || timed(|| queries.iter().fold(0, port)),
    );
}
