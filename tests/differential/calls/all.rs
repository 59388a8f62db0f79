// Sets of all sizes, settings and spreads through the public calls. This file is a module twice,
// once for each build of the Rust.
use super::build::{built, damaged};
use super::oracle::access::SEGMENT_TARGET;
use super::oracle::access_index::Setting;
use crate::calls::records::{Entry, cut, entries, total};
use crate::calls::world::{By, model, port};
use crate::files::load::loaded;
use crate::full::records::made;
use crate::report::Group;
use crate::rng::Rng;
use crate::sets::spreads::{SPREADS, Spread};
use std::time::Duration;

// With each of these and of the next, every setting.
const FEW: [usize; 24] = [
    0, 1, 2, 6, 7, 8, 9, 13, 14, 15, 16, 17, 48, 49, 50, 55, 56, 57, 63, 64, 65, 255, 256, 257,
];

const MANY: [usize; 6] = [895, 896, 897, 4_095, 4_096, 4_097];

// Lengths of keys and of values on both sides of where a prefix takes a byte more.
const LENGTHS: [usize; 6] = [127, 128, 16_383, 16_384, 2_097_151, 2_097_152];

const BITS: [u8; 4] = [0, 1, 8, 255];

const TICKS: [Option<Duration>; 6] = [
    None,
    Some(Duration::from_secs(1)),
    Some(Duration::from_nanos(1)),
    Some(Duration::from_secs(60)),
    // 2^64 nanoseconds and one: lifetimes are searched for.
    Some(Duration::new(18_446_744_073, 709_551_617)),
    Some(Duration::from_secs(1 << 63)),
];

fn settings() -> Vec<Setting> {
    let mut settings = Vec::new();
    for packed in [false, true] {
        for occupied in 1..=7 {
            for bits in BITS {
                for tick in TICKS {
                    settings.push(Setting {
                        tick,
                        occupied,
                        packed,
                        bits,
                    });
                }
            }
        }
    }
    settings
}

pub fn calls(group: &mut Group, random: u64) {
    let mut rng = Rng::new(31 + SEGMENT_TARGET as u64);
    let (settings, long) = (settings(), crate::long(random));
    let rounds = if long { 3 } else { 1 };
    let mut spreads = SPREADS.iter().cycle();
    for count in FEW {
        for (i, &setting) in (0..rounds * settings.len()).zip(settings.iter().cycle()) {
            // Crowded sets take long: fewer of them where they are not small.
            let crowded = long || count < 100 || i % 6 == 0;
            let spread = spreads.find(|spread| crowded || !spread.crowded);
            one(
                group,
                &mut rng,
                port,
                spread.unwrap_or(&SPREADS[0]),
                count,
                setting,
            );
        }
    }
    large_sets(group, &mut rng, &settings, long);
    for full in [1, 2, 254, 255, 256] {
        full_segments(group, &mut rng, full);
    }
    for packed in [false, true] {
        for tick in [None, TICKS[1]] {
            boundary_lengths(group, &mut rng, packed, tick);
        }
    }
    for setting in settings {
        for count in [2, 9, 20] {
            damaged_builds(group, &mut rng, setting, count);
        }
    }
}

fn large_sets(group: &mut Group, rng: &mut Rng, settings: &[Setting], long: bool) {
    let plain: Vec<&Spread> = SPREADS.iter().filter(|spread| !spread.crowded).collect();
    let all: Vec<&Spread> = SPREADS.iter().collect();
    for (turn, count) in MANY.into_iter().enumerate() {
        for (i, &setting) in settings.iter().enumerate() {
            // Crowded sets take long: fewer of them, and none with more records.
            let crowded = count < 1_000 && (long || i % 14 == turn);
            let spreads = if crowded { &all } else { &plain };
            // The settings have a factor in common with the spreads: each meets another at each turn.
            let spread = spreads[(i + i / 20 + turn) % spreads.len()];
            one(group, rng, port, spread, count, setting);
        }
        if long {
            group.done(&format!("every setting, {count} records"));
        }
    }
    if long {
        let many: Vec<&Spread> = SPREADS
            .iter()
            .filter(|spread| !spread.crowded_by_many())
            .collect();
        for (i, &setting) in settings.iter().step_by(3).enumerate() {
            let spread = many[i / 3 % many.len()];
            one(group, rng, port, spread, 65_535 + i % 3, setting);
        }
        group.done("a third of the settings, 65,535 to 65,537 records");
        for setting in [settings[7], settings[279]] {
            one(group, rng, port, &SPREADS[0], 1_048_576, setting);
        }
    }
}

// By the port, and by the model, which decides about forged builders elsewhere.
fn damaged_builds(group: &mut Group, rng: &mut Rng, setting: Setting, count: usize) {
    let buckets = count.div_ceil(setting.occupied.into());
    let spread = &SPREADS[rng.index(SPREADS.len())];
    let list = entries(rng, spread, count, buckets, setting.tick);
    for (by, name) in [(port as By, "damaged"), (model, "model of a damaged build")] {
        let about = format!("{name}, {}, {count} records, {setting:?}", spread.name);
        damaged(group, rng, by, &about, setting, &list);
    }
}

// The model against the Rust: it decides elsewhere.
pub fn model_of_calls(group: &mut Group, random: u64) {
    let mut rng = Rng::new(32 + SEGMENT_TARGET as u64);
    let mut spreads = SPREADS.iter().cycle();
    let counts = if crate::long(random) {
        &FEW[..]
    } else {
        &[0, 1, 9, 17, 65]
    };
    for &count in counts {
        for setting in settings() {
            let spread = spreads.next().unwrap_or(&SPREADS[0]);
            one(group, &mut rng, model, spread, count, setting);
        }
    }
}

fn one(group: &mut Group, rng: &mut Rng, by: By, spread: &Spread, count: usize, setting: Setting) {
    let buckets = count.div_ceil(setting.occupied.into()).max(1);
    let mut list = entries(rng, spread, count, buckets, setting.tick);
    let about = format!("{}, {count} records, {setting:?}", spread.name);
    asked(group, rng, by, &about, setting, &list);
    // Every fourth set once more, so that it fits a sheet.
    if rng.one_in(4) {
        cut(&mut list);
        asked(group, rng, by, &format!("{about}, cut"), setting, &list);
    }
}

fn asked(group: &mut Group, rng: &mut Rng, by: By, about: &str, setting: Setting, list: &[Entry]) {
    let arena = total(list, setting.tick.is_some());
    let Some(mut set) = built(group, rng, by, about, setting, list, arena) else {
        return;
    };
    set.stats(group);
    // Every set is loaded from its file; every second one goes on so.
    let file = set.written(group);
    if rng.one_in(2) {
        set.load(group, &file);
        set.stats(group);
    } else {
        loaded(group, by, about, &file);
    }
    // Of many records a part is asked in every way.
    let one_in = if list.len() > 1_000 { 8 } else { 1 };
    set.lookups(group, rng, list, one_in);
    let tick = rng.pick(&[0, 1, 65_533, 65_534, 65_535, u64::MAX]);
    set.walk(group, tick);
    if list.len() < 20 {
        set.walk(group, rng.below(65_535));
    }
    set.steps(group);
    set.sheet(group);
    set.written_again(group, &file);
    set.end(group);
}

// Records of 4,096 bytes and one of 2 bytes: behind 256 of them there are too many segments for the
// small target; with the short one first there are not.
fn full_segments(group: &mut Group, rng: &mut Rng, full: usize) {
    let entry = |hash: u64, key: &[u8], value: Vec<u8>| Entry {
        hash,
        key: key.to_vec(),
        value,
        lifetime: Vec::new(),
    };
    let mut list = Vec::new();
    for i in 0..full as u64 {
        list.push(entry(
            rng.next(),
            &i.to_le_bytes(),
            rng.bytes(4_096 - 3 - 8),
        ));
    }
    list.push(entry(rng.next(), &[], Vec::new()));
    for turn in [0, 1] {
        list.rotate_right(turn);
        for packed in [false, true] {
            let setting = Setting {
                tick: None,
                occupied: 7,
                packed,
                bits: 8,
            };
            let about = format!("{full} full segments, turn {turn}, {setting:?}");
            asked(group, rng, port, &about, setting, &list);
        }
    }
}

// Each of the lengths for a key, and for a value.
fn boundary_lengths(group: &mut Group, rng: &mut Rng, packed: bool, tick: Option<Duration>) {
    let setting = Setting {
        tick,
        occupied: 7,
        packed,
        bits: 8,
    };
    let lengths = |_: &mut Rng, i: usize| match (i % 2, LENGTHS[i / 2]) {
        (0, key) => (key, 3),
        (_, value) => (4, value),
    };
    let list = made(rng, &SPREADS[0], 2 * LENGTHS.len(), 7, tick, &lengths);
    let about = format!("lengths where a prefix grows, {setting:?}");
    asked(group, rng, port, &about, setting, &list);
}
