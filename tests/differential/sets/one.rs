// One set, built and finished by the Rust and by the port beside it, and every key looked up in
// both. This file is a module twice, once for each build of the Rust.
use super::oracle;
use super::oracle::access::SEGMENT_TARGET;
use super::oracle::access_index::{self as access, Builder, Parts, Set, Setting};
use crate::port;
use crate::report::Group;
use crate::rng::{Rng, lent, pattern, word_pattern};
use crate::sets::finds::{self, Lent};
use crate::sets::spreads::Record;
use std::time::Duration;

pub fn one_set(group: &mut Group, rng: &mut Rng, about: &str, setting: Setting, list: &[Record]) {
    let Ok(mut builder) = Builder::open(setting, list.len()) else {
        group.rust("open", Ok(()), Err(about), || about.to_string());
        return;
    };
    let Some(mut areas) = open(group, about, setting, &builder, list.len()) else {
        return;
    };
    build(group, rng, about, setting, &mut builder, &mut areas, list);
    let Some(set) = finish(group, about, setting, builder, &mut areas) else {
        return;
    };
    ask(group, rng, about, &set, &areas, list);
    mark(group, rng, about, &set, &mut areas, list);
    if !list.is_empty() {
        damage(group, rng, about, setting, areas, list);
    }
}

// The areas for so many records; nothing where the counts differ, since no slot is then the same.
fn open(
    group: &mut Group,
    about: &str,
    setting: Setting,
    builder: &Builder,
    count: usize,
) -> Option<Lent> {
    let buckets = port::index::test_bucket_count(count, setting.occupied);
    let filter_words = port::index::test_negative_filter_words(count as u32, setting.bits);
    let found = (buckets, filter_words);
    let rust = (builder.buckets(), builder.filter().map_or(0, <[u64]>::len));
    group.rust("counts", found, rust, || about.to_string());
    let on = setting.tick.is_some();
    (found == rust).then(|| Lent::cleared(on, setting.packed, buckets, filter_words))
}

// Pushes all records, after both walks of each were compared, and compares what both then hold.
fn build(
    group: &mut Group,
    rng: &mut Rng,
    about: &str,
    setting: Setting,
    builder: &mut Builder,
    areas: &mut Lent,
    list: &[Record],
) {
    for (i, record) in list.iter().enumerate() {
        // Before it, now and then, one that stands there already.
        let again = (i > 0 && rng.one_in(8)).then(|| &list[rng.index(i)]);
        for record in again.into_iter().chain([record]) {
            push(group, about, setting, builder, areas, record);
        }
    }
    let input = || about.to_string();
    group.area("built index", &areas.index, &lent(builder.index()), input);
    let filter = lent(builder.filter().unwrap_or(&[]));
    group.area("built filter", &areas.filter, &filter, input);
    areas.filled = builder.records().len();
    areas.arena = builder.records().to_vec();
    areas.arena.extend(pattern(29));
}

fn push(
    group: &mut Group,
    about: &str,
    setting: Setting,
    builder: &mut Builder,
    areas: &mut Lent,
    record: &Record,
) {
    let (key, hash, buckets) = (&record.key[..], record.hash, areas.buckets);
    let (bytes, location) = (builder.records(), builder.records().len() as u64);
    let input = || format!("{about}, {key:x?}, {hash:#x}, location {location}");
    let found = port::index::find_build_slot(&areas.index, buckets, bytes, areas.on, key, hash);
    let rust = access::find_build_slot(builder.index(), bytes, setting.tick, key, hash);
    group.rust("find_build_slot", found, rust, input);
    let empty = port::index::find_empty_build_slot(&areas.index, buckets, hash);
    let rust = access::find_empty_build_slot(builder.index(), hash);
    group.rust("find_empty_build_slot", empty, rust, input);
    oracle::set_hash(hash);
    let lifetime = record.lifetime.map(Duration::from_secs);
    let pushed = builder.push(key, &record.value, lifetime);
    group.rust("push", found.map(|_| ()), pushed, input);
    let Ok(slot) = found else {
        return;
    };
    let Some(word) = areas.index.get_mut(slot) else {
        return;
    };
    *word = port::index::test_encode_index_word(port::parts::test_hash_tag(hash), location);
    let first = port::parts::test_reduce_hash(hash, buckets);
    if port::index::test_bucket_displacement(first, slot / 8, buckets) >= 2 {
        port::index::test_mark_negative_filter(&mut areas.filter, areas.filter_words, hash);
    }
}

// Splits and packs, and compares what both then hold; nothing where both refuse.
fn finish(
    group: &mut Group,
    about: &str,
    setting: Setting,
    builder: Builder,
    areas: &mut Lent,
) -> Option<Set> {
    let input = || about.to_string();
    let found = port::index::split_record_segments(
        &mut areas.index,
        areas.buckets,
        areas.filled,
        SEGMENT_TARGET,
        &mut areas.starts,
        &mut areas.lengths,
    );
    let set = builder.finish();
    let rust = set.as_ref().map(|set| set.starts().len() as u64);
    group.rust("segments", found, rust.map_err(|&e| e), input);
    let (Ok(set), Ok(count)) = (set, found) else {
        return None;
    };
    areas.segments = count as usize;
    let area = |words: &[u64]| {
        let mut area = words.to_vec();
        area.resize(256, 0);
        area.extend(&word_pattern(259)[256..]);
        area
    };
    group.area("starts", &areas.starts, &area(set.starts()), input);
    group.area("lengths", &areas.lengths, &area(&set.lengths()), input);
    if setting.packed {
        let mut scratch = word_pattern(areas.buckets);
        port::index::test_finish_packed_index(&mut areas.index, areas.buckets, &mut scratch);
    }
    group.area("finished index", &areas.index, &lent(&set.words()), input);
    let filter = lent(set.filter().unwrap_or(&[]));
    group.area("finished filter", &areas.filter, &filter, input);
    Some(set)
}

// Each stored key, each with a byte changed, and other keys with a stored hash.
fn ask(group: &mut Group, rng: &mut Rng, about: &str, set: &Set, areas: &Lent, list: &[Record]) {
    let find = |key: &[u8], hash: u64| set.find(key, hash);
    let stored = list.iter().map(|record| (&record.key[..], record.hash));
    for (key, hash) in stored.clone() {
        finds::compare(group, about, areas, &find, key, hash);
    }
    // A miss in a crowded set sees all records.
    let step = if list.len() > 900 { 8 } else { 1 };
    for (key, hash) in stored.step_by(step) {
        let changed = finds::changed(rng, key);
        finds::compare(group, about, areas, &find, &changed, hash);
        finds::compare(group, about, areas, &find, b"absent", hash);
        finds::compare(group, about, areas, &find, key, rng.next());
    }
    for _ in 0..8 {
        finds::compare(group, about, areas, &find, b"", rng.next());
    }
    if !areas.packed {
        for &word in areas.index.iter().step_by(step) {
            let at = |stored: u64| set.record_at_location(stored);
            finds::locations(group, about, areas, &at, word % (1 << 40));
        }
    }
}

// Marks records on both sides, and clears some: all are found as before.
fn mark(
    group: &mut Group,
    rng: &mut Rng,
    about: &str,
    set: &Set,
    areas: &mut Lent,
    list: &[Record],
) {
    for record in list.iter().take(20) {
        let Some([slot, ..]) = set.find(&record.key, record.hash) else {
            continue;
        };
        set.mark(slot as usize);
        areas.mark(slot as usize);
        if rng.one_in(2) {
            set.clear(slot as usize);
            areas.clear(slot as usize);
        }
    }
    let input = || about.to_string();
    group.area("marked index", &areas.index, &lent(&set.words()), input);
    let find = |key: &[u8], hash: u64| set.find(key, hash);
    for record in list.iter().take(20) {
        finds::compare(group, about, areas, &find, &record.key, record.hash);
    }
}

// Some bits of the index and of the records turned over on both sides, and a slot emptied but for
// its mark.
fn damage(
    group: &mut Group,
    rng: &mut Rng,
    about: &str,
    setting: Setting,
    mut areas: Lent,
    list: &[Record],
) {
    let words = 8 * areas.buckets;
    for _ in 0..1 + list.len() / 8 {
        areas.index[rng.index(words)] ^= 1 << rng.below(64);
        areas.arena[rng.index(areas.filled)] ^= 1 << rng.below(8);
    }
    let (slot, shift) = (rng.index(words), 8 * rng.below(8));
    match setting.packed {
        true => areas.index[slot / 8] &= !(0x7f << shift),
        false => areas.index[slot] = 1 << 63,
    }
    let set = Set::forged(&Parts {
        setting,
        index: &areas.index[..words],
        filter: &areas.filter[..areas.filter_words],
        arena: &areas.arena,
        starts: &areas.starts[..areas.segments],
        lengths: &areas.lengths[..areas.segments],
    });
    let about = format!("damaged, {about}");
    let find = |key: &[u8], hash: u64| set.find(key, hash);
    for record in list.iter().take(300) {
        finds::compare(group, &about, &areas, &find, &record.key, record.hash);
        finds::compare(group, &about, &areas, &find, b"absent", record.hash);
    }
}
