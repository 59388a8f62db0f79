// Lookups in areas such as no build makes: with the Rust where it can hold them, and with the model
// where counts or segments don't fit.
use crate::forged::arenas::World;
use crate::model::index as model;
use crate::parts::record_write::tick;
use crate::port::index as port;
use crate::report::Group;
use crate::rng::{Rng, edges, lent, pattern};
use crate::sets::finds::Lent;
use oracle_large::access;
use oracle_large::access_index::{Parts, Set, Setting, finish_packed_index};

pub fn finds(group: &mut Group, random: u64) {
    let edges = edges();
    let mut rng = Rng::new(29);
    for _ in 0..random / 6 {
        let world = World::new(&mut rng);
        let hash = world.hash(&mut rng);
        let mut areas = areas(&mut rng, &world, hash);
        let set = rust_set(&areas);
        for _ in 0..4 {
            let key = world.key(&mut rng);
            let other = world.hash(&mut rng);
            for hash in [hash, other] {
                find(group, &areas, &set, &key, hash);
            }
        }
        let places = stored(&areas, &world);
        for _ in 0..3 {
            let word = world.word(&mut rng, &places, 40);
            location(group, &areas, &set, word % (1 << 40));
        }
        forge_counts(&mut rng, &mut areas, &edges);
        for _ in 0..3 {
            let key = world.key(&mut rng);
            by_model(group, &areas, &key, hash);
            let word = world.word(&mut rng, &places, 40);
            location_by_model(group, &areas, word % (1 << 40));
            location_by_model(group, &areas, rng.number(&edges));
        }
    }
}

// The areas of a set: one to five segments, words in either layout, and a filter that has the bits
// of a hash, all of them or all but one, or has other bits.
fn areas(rng: &mut Rng, world: &World, hash: u64) -> Lent {
    let buckets = rng.index(7);
    let packed = rng.one_in(2);
    let mut areas = Lent::cleared(world.on, packed, buckets, rng.index(4));
    areas.filled = world.arena.len();
    areas.arena = world.arena.clone();
    areas.arena.extend(pattern(7));
    segments(rng, &mut areas, world);
    let empty = rng.pick(&[3, 12, 40, 1_000]);
    let stored = stored(&areas, world);
    let word = |_| world.word(rng, &stored, empty);
    let words: Vec<u64> = (0..8 * buckets).map(word).collect();
    areas.index = match packed {
        true => lent(&damaged(rng, packed_words(words, buckets))),
        false => lent(&words),
    };
    fill_filter(rng, &mut areas, hash);
    areas
}

fn packed_words(words: Vec<u64>, buckets: usize) -> Vec<u64> {
    finish_packed_index(words, buckets).unwrap_or_default()
}

// Segments that begin at records, and now and then anywhere, one over the other.
fn segments(rng: &mut Rng, areas: &mut Lent, world: &World) {
    let anywhere = rng.one_in(4);
    let mut starts = vec![0];
    for _ in 0..rng.index(5) {
        starts.push(match anywhere {
            true => rng.below(areas.filled as u64 + 1),
            false => rng.pick(&world.locations),
        });
    }
    starts.sort_unstable();
    starts.dedup();
    areas.segments = starts.len();
    for (i, &start) in starts.iter().enumerate() {
        let end = starts.get(i + 1).copied().unwrap_or(areas.filled as u64);
        let length = match anywhere {
            true => rng.below(areas.filled as u64 - start + 1),
            false => end - start,
        };
        areas.starts[i] = start;
        areas.lengths[i] = length;
    }
}

// The stored locations of the world's records: segment and offset, plus 1.
fn stored(areas: &Lent, world: &World) -> Vec<u64> {
    let starts = &areas.starts[..areas.segments];
    let place = |&location: &u64| {
        let segment = starts.iter().rposition(|&start| start <= location);
        let segment = segment.unwrap_or(0);
        ((segment as u64) << 32) + (location - starts[segment]) + 1
    };
    world.locations.iter().map(place).collect()
}

// Control bytes emptied, marked, emptied but for the mark, or changed; and references changed.
fn damaged(rng: &mut Rng, mut words: Vec<u64>) -> Vec<u64> {
    let buckets = words.len() / 8;
    if buckets == 0 {
        return words;
    }
    for _ in 0..rng.index(8) {
        let shift = 8 * rng.below(8);
        let control = &mut words[rng.index(buckets)];
        match rng.below(6) {
            0 => *control &= !(0xff << shift),
            1 => *control = *control & !(0xff << shift) | 0x80 << shift,
            2 | 3 => *control ^= 0x80 << shift,
            4 => *control ^= 1 << rng.below(64),
            _ => {
                let place = buckets + rng.index(7 * buckets);
                words[place] ^= 1 << rng.below(64);
            }
        }
    }
    words
}

fn fill_filter(rng: &mut Rng, areas: &mut Lent, hash: u64) {
    let words = areas.filter_words;
    for word in &mut areas.filter[..words] {
        *word = rng.pick(&[0, u64::MAX, 0x0f0f_0f0f_0f0f_0f0f]);
    }
    if words > 0 && rng.one_in(2) {
        let (word, mask) = access::negative_filter_location(words, hash);
        let left_out = match rng.one_in(2) {
            true => mask & mask.wrapping_neg(),
            false => 0,
        };
        areas.filter[word] = mask & !left_out;
    }
}

fn rust_set(areas: &Lent) -> Set {
    let setting = Setting {
        tick: tick(areas.on),
        occupied: 7,
        packed: areas.packed,
        bits: 0,
    };
    Set::forged(&Parts {
        setting,
        index: &areas.index[..8 * areas.buckets],
        filter: &areas.filter[..areas.filter_words],
        arena: &areas.arena,
        starts: &areas.starts[..areas.segments],
        lengths: &areas.lengths[..areas.segments],
    })
}

fn find(group: &mut Group, areas: &Lent, set: &Set, key: &[u8], hash: u64) {
    let areas = areas.areas();
    let rust = set.find(key, hash);
    let input = || format!("{key:x?}, {hash:#x}, {areas:x?}");
    group.rust("find_record", port::find(&areas, key, hash), rust, input);
    group.rust("model of find", model::find(&areas, key, hash), rust, input);
}

fn location(group: &mut Group, areas: &Lent, set: &Set, stored: u64) {
    let areas = areas.areas();
    let rust = set.record_at_location(stored);
    let input = || format!("{stored:#x}, {areas:x?}");
    let found = port::record_at_location(&areas, stored);
    group.rust("record_at_location", found, rust, input);
    let found = model::record_at_location(&areas, stored);
    group.rust("model of record_at_location", found, rust, input);
}

// Counts and segments that don't fit the areas, one or two of them at a time.
fn forge_counts(rng: &mut Rng, areas: &mut Lent, edges: &[u64]) {
    for _ in 0..1 + rng.below(2) {
        let segment = rng.index(areas.segments.clamp(1, 3));
        let far = rng.number(edges);
        match rng.below(11) {
            0 => areas.segments = rng.index(9),
            1 => areas.segments = far as usize,
            2 => areas.starts.truncate(rng.index(4)),
            3 => areas.lengths.truncate(rng.index(4)),
            4 => set(&mut areas.starts, segment, far),
            5 => set(&mut areas.lengths, segment, far),
            6 => areas.filled = rng.index(areas.arena.len() + 4),
            7 => areas.filled = far as usize,
            8 => areas.buckets += 1 + rng.index(2),
            9 => areas.filter_words = rng.index(9),
            _ => areas.filter.truncate(rng.index(3)),
        }
    }
}

fn set(words: &mut [u64], place: usize, number: u64) {
    if let Some(word) = words.get_mut(place) {
        *word = number;
    }
}

fn by_model(group: &mut Group, areas: &Lent, key: &[u8], hash: u64) {
    let areas = areas.areas();
    let input = || format!("{key:x?}, {hash:#x}, {areas:x?}");
    let found = port::find(&areas, key, hash);
    group.rule("find_record", found, model::find(&areas, key, hash), input);
}

fn location_by_model(group: &mut Group, areas: &Lent, stored: u64) {
    let areas = areas.areas();
    let input = || format!("{stored:#x}, {areas:x?}");
    let found = port::record_at_location(&areas, stored);
    let wanted = model::record_at_location(&areas, stored);
    group.rule("record_at_location", found, wanted, input);
}
