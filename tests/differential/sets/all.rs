// Whole sets of all sizes, settings and spreads. This file is a module twice, once for each build
// of the Rust.
use super::one::one_set;
use super::oracle::access::SEGMENT_TARGET;
use super::oracle::access_index::Setting;
use crate::parts::record_write::tick;
use crate::report::Group;
use crate::rng::Rng;
use crate::sets::spreads::{Record, SPREADS, Spread, records};

const FEW: [usize; 21] = [
    0, 1, 2, 6, 7, 8, 9, 13, 14, 15, 16, 17, 48, 49, 50, 55, 56, 57, 63, 64, 65,
];

const MANY: [usize; 9] = [255, 256, 257, 895, 896, 897, 2_000, 4_095, 4_097];

// Crowded sets have at most so many records.
const CROWDED: usize = 2_000;

const BITS: [u8; 4] = [0, 1, 8, 255];

pub fn sets(group: &mut Group, random: u64) {
    let mut rng = Rng::new(27 + SEGMENT_TARGET as u64);
    let rounds = random / 600_000;
    for spread in &SPREADS {
        for count in FEW {
            for _ in 0..4 * rounds {
                spread_set(group, &mut rng, spread, count);
            }
        }
        for count in MANY {
            if spread.crowded && count > CROWDED {
                continue;
            }
            for _ in 0..rounds {
                spread_set(group, &mut rng, spread, count);
            }
        }
    }
    for full in [1, 2, 254, 255, 256] {
        full_segments(group, &mut rng, full);
    }
    if crate::long(random) {
        for count in [65_535, 65_536, 65_537] {
            spread_set(group, &mut rng, &SPREADS[0], count);
        }
        for buckets in 1..=600 {
            let occupied = 1 + rng.below(7) as usize;
            set_of(group, &mut rng, &SPREADS[0], buckets * occupied, occupied);
        }
        // 149,797 buckets, and as many as records.
        for occupied in [7, 1] {
            set_of(group, &mut rng, &SPREADS[0], 1_048_576, occupied);
        }
    }
}

fn spread_set(group: &mut Group, rng: &mut Rng, spread: &Spread, count: usize) {
    let occupied = 1 + rng.below(7) as usize;
    set_of(group, rng, spread, count, occupied);
}

// One setting, in both layouts.
fn set_of(group: &mut Group, rng: &mut Rng, spread: &Spread, count: usize, occupied: usize) {
    let on = rng.one_in(2);
    let setting = Setting {
        tick: tick(on),
        occupied: occupied as u8,
        packed: false,
        bits: rng.pick(&BITS),
    };
    let buckets = count.div_ceil(occupied).max(1);
    let hashes = (spread.hashes)(rng, count, buckets);
    let list = records(rng, &hashes, on);
    both_layouts(group, rng, spread.name, setting, &list);
}

fn both_layouts(group: &mut Group, rng: &mut Rng, name: &str, setting: Setting, list: &[Record]) {
    for packed in [false, true] {
        let setting = Setting { packed, ..setting };
        let about = format!("{name}, {} records, {setting:?}", list.len());
        one_set(group, rng, &about, setting, list);
    }
}

// Records of 4,096 bytes and one of 2 behind them: with 256 of them there are too many segments for
// the small target.
fn full_segments(group: &mut Group, rng: &mut Rng, full: usize) {
    let record = |i: usize, rng: &mut Rng| Record {
        hash: rng.next(),
        key: (i as u64).to_le_bytes().to_vec(),
        value: rng.bytes(4_096 - 3 - 8),
        lifetime: None,
    };
    let mut list: Vec<Record> = (0..full).map(|i| record(i, rng)).collect();
    list.push(Record {
        hash: rng.next(),
        key: Vec::new(),
        value: Vec::new(),
        lifetime: None,
    });
    let setting = Setting {
        tick: None,
        occupied: 7,
        packed: false,
        bits: 8,
    };
    both_layouts(group, rng, "full segments", setting, &list);
    // With the short record first, it ends in the first segment.
    list.rotate_right(1);
    both_layouts(group, rng, "full segments", setting, &list);
}
