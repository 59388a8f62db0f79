// The largest sets: as many records as there may be, arenas of a gibibyte, and the spreads of hashes
// with as many records as each allows. This file is a module twice, once for each build of the Rust.
use super::calls::build::built;
use super::oracle::access::SEGMENT_TARGET;
use super::oracle::access_index::Setting;
use crate::calls::records::{Entry, total};
use crate::calls::world::port;
use crate::full::records::{Lengths, exact, made, short, thousand, twelve};
use crate::report::Group;
use crate::rng::Rng;
use crate::sets::finds::changed;
use crate::sets::spreads::{SPREADS, Spread};
use std::time::Duration;

const RECORDS: usize = 1_048_576;

const GIBIBYTE: usize = 1 << 30;

// Spreads with which work grows with the square of the records have so many.
const CROWDED: usize = 16_384;

const fn setting(occupied: u8, packed: bool, bits: u8, tick: Option<Duration>) -> Setting {
    Setting {
        tick,
        occupied,
        packed,
        bits,
    }
}

// Every occupancy and tick, and each number of filter bits in both layouts; and the number of a
// spread.
const MOST: [(Setting, usize); 8] = {
    let second = Some(Duration::from_secs(1));
    let nanosecond = Some(Duration::from_nanos(1));
    [
        (setting(1, true, 255, second), 0),
        (setting(2, false, 8, None), 8),
        (setting(3, true, 1, Some(Duration::from_secs(60))), 7),
        (setting(4, false, 255, nanosecond), 0),
        (setting(5, true, 8, None), 8),
        (setting(6, false, 0, Some(Duration::from_secs(1 << 63))), 7),
        (setting(7, true, 0, second), 8),
        (setting(7, false, 1, nanosecond), 0),
    ]
};

fn named(spread: &Spread, list: &[Entry], setting: Setting) -> String {
    format!(
        "{}, {} records, target {SEGMENT_TARGET}, {setting:?}",
        spread.name,
        list.len()
    )
}

// One set from open to the last lookup.
fn one(
    group: &mut Group,
    rng: &mut Rng,
    (setting, spread): (Setting, usize),
    count: usize,
    lengths: Lengths,
) {
    let spread = &SPREADS[spread];
    let list = made(rng, spread, count, setting.occupied, setting.tick, lengths);
    let about = named(spread, &list, setting);
    asked(group, rng, &about, setting, &list, !spread.crowded);
    group.done(&about);
}

// In a crowded set only the first and the last records are asked in every way.
fn asked(
    group: &mut Group,
    rng: &mut Rng,
    about: &str,
    setting: Setting,
    list: &[Entry],
    whole: bool,
) {
    let arena = total(list, setting.tick.is_some());
    let Some(mut set) = built(group, rng, port, about, setting, list, arena) else {
        return;
    };
    set.stats(group);
    // Every second set goes on as it is loaded from its file.
    let file = set.written(group);
    if rng.one_in(2) {
        set.load(group, &file);
        set.stats(group);
    }
    let part = if whole { 0 } else { 512 };
    if whole {
        set.lookups(group, rng, list, 1);
    } else {
        set.lookups(group, rng, &list[..part], 1);
        set.lookups(group, rng, &list[list.len() - part..], 1);
    }
    for entry in list {
        let tick = rng.below(65_540);
        set.get(group, &entry.key, entry.hash, tick);
        if whole {
            let key = changed(rng, &entry.key);
            set.get(group, &key, entry.hash, tick);
        }
    }
    set.walk(group, rng.pick(&[0, 1, 65_534]));
    set.steps(group);
    set.sheet(group);
    set.written_again(group, &file);
    set.end(group);
}

// With the small target a set of so many records is refused at first: more than 256 segments.
pub fn most_records(group: &mut Group, _: u64) {
    let mut rng = Rng::new(61 + SEGMENT_TARGET as u64);
    let settings = match SEGMENT_TARGET > 4_096 {
        true => &[0, 1, 2, 3, 4, 5, 6, 7][..],
        false => &[0, 3, 4, 7],
    };
    for &i in settings {
        one(group, &mut rng, MOST[i], RECORDS, &short);
    }
    // One set of each layout fits a sheet, of 20,972 pages.
    for i in [0, 3] {
        one(group, &mut rng, MOST[i], RECORDS, &twelve);
    }
    one(group, &mut rng, MOST[2], RECORDS - 1, &short);
}

// At this length a prefix has five bytes, before it four.
const FIVE_BYTES: usize = 1 << 28;

// An arena of 2^30 bytes: with the large target records of about 1,000 bytes in 11 segments, with
// the small one 256 of 4 MiB, each a segment; and one record that fills it exactly. Then two keys and
// two values, the second with a prefix that has a byte more.
pub fn gibibytes(group: &mut Group, _: u64) {
    let mut rng = Rng::new(62 + SEGMENT_TARGET as u64);
    if SEGMENT_TARGET > 4_096 {
        one(group, &mut rng, MOST[6], RECORDS, &thousand);
    } else {
        let parts = |_: &mut Rng, _| exact(4 << 20, true);
        one(group, &mut rng, MOST[3], 256, &parts);
    }
    for most in [MOST[1], MOST[2]] {
        let on = most.0.tick.is_some();
        one(group, &mut rng, most, 1, &|_, _| exact(GIBIBYTE, on));
    }
    let keys = |_: &mut Rng, i| (FIVE_BYTES - 1 + i, 4);
    let values = |_: &mut Rng, i| (4, FIVE_BYTES - 1 + i);
    one(group, &mut rng, MOST[1], 2, &keys);
    one(group, &mut rng, MOST[2], 2, &values);
}

// Records that fill the target exactly, with one byte more, and with a record of two bytes behind,
// which is a second segment.
pub fn totals(group: &mut Group, _: u64) {
    let mut rng = Rng::new(63 + SEGMENT_TARGET as u64);
    for more in 0..3 {
        for most in [MOST[0], MOST[1]] {
            let (setting, on) = (most.0, most.0.tick.is_some());
            let count = if SEGMENT_TARGET > 4_096 { 98_304 } else { 4 };
            let last = if more == 1 { 1_025 } else { 1_024 };
            let lengths = |_: &mut Rng, i| exact(if i + 1 < count { 1_024 } else { last }, on);
            let spread = &SPREADS[0];
            let mut list = made(&mut rng, spread, count, 7, setting.tick, &lengths);
            assert_eq!(total(&list, on), SEGMENT_TARGET + more % 2);
            if more == 2 {
                list.push(Entry {
                    hash: rng.next(),
                    key: Vec::new(),
                    value: Vec::new(),
                    lifetime: Vec::new(),
                });
            }
            let about = named(spread, &list, setting);
            asked(group, &mut rng, &about, setting, &list, true);
            group.done(&about);
        }
    }
}

// Every spread; the layout and the filter bits of each differ between the two targets.
pub fn spreads(group: &mut Group, _: u64) {
    let mut rng = Rng::new(64 + SEGMENT_TARGET as u64);
    let first = if SEGMENT_TARGET > 4_096 { 0 } else { 1 };
    for (i, spread) in SPREADS.iter().enumerate() {
        let crowded = spread.crowded_by_many();
        let count = if crowded { CROWDED } else { 16 * CROWDED };
        let (setting, _) = MOST[(first + i) % MOST.len()];
        one(group, &mut rng, (setting, i), count, &short);
    }
}
