// Lines of rebuilds over large sets: some segments are kept, many records reused and many copied,
// three times over. This file is a module twice, once for each build of the Rust.
use super::calls::build::built;
use super::calls::lookups::Finished;
use super::oracle::access::SEGMENT_TARGET;
use super::oracle::access_index::Setting;
use super::rebuild::{Chosen, Plan, rebuilt};
use crate::calls::records::{Entry, taken, total};
use crate::calls::world::port;
use crate::full::records::{exact, made, number, thousand};
use crate::report::Group;
use crate::rng::Rng;
use crate::sets::spreads::SPREADS;
use std::mem::take;
use std::time::Duration;

const DEEP: usize = 3;

pub fn lines(group: &mut Group, _: u64) {
    let mut rng = Rng::new(71 + SEGMENT_TARGET as u64);
    for (packed, bits, tick) in [(true, 8, Some(Duration::from_secs(1))), (false, 1, None)] {
        let setting = Setting {
            tick,
            occupied: 6,
            packed,
            bits,
        };
        let list = first_list(&mut rng, setting);
        let about = format!("line, {} records, {setting:?}", list.len());
        line(group, &mut rng, &about, setting, list);
        group.done(&about);
    }
}

// With the large target six segments of 96 MiB, with the small one 256 of 4 KiB.
fn first_list(rng: &mut Rng, setting: Setting) -> Vec<Entry> {
    let (on, tick) = (setting.tick.is_some(), setting.tick);
    if SEGMENT_TARGET > 4_096 {
        return made(rng, &SPREADS[0], 524_288, setting.occupied, tick, &thousand);
    }
    let lengths = |_: &mut Rng, _| exact(16, on);
    made(rng, &SPREADS[8], 65_536, setting.occupied, tick, &lengths)
}

fn line(group: &mut Group, rng: &mut Rng, about: &str, setting: Setting, list: Vec<Entry>) {
    let room = 2 * total(&list, setting.tick.is_some());
    let first = built(group, rng, port, about, setting, &list, room.min(1 << 30));
    let Some(mut first) = first else {
        return;
    };
    first.steps(group);
    let hashes: Vec<u64> = list.iter().map(|entry| entry.hash).collect();
    let mut sets = vec![(first, keys(list))];
    for deep in 0..DEEP {
        let (source, _) = sets.last_mut().unwrap_or_else(|| unreachable!());
        let about = format!("rebuild {deep}, {about}");
        let Some(next) = next(group, rng, &about, setting, source, &hashes, DEEP - deep) else {
            return;
        };
        sets.push(next);
        ask_all(group, rng, setting, &mut sets);
        group.done(&about);
    }
}

// The values stand in the arena.
fn keys(mut list: Vec<Entry>) -> Vec<Entry> {
    for entry in &mut list {
        entry.value = Vec::new();
    }
    list
}

fn next(
    group: &mut Group,
    rng: &mut Rng,
    about: &str,
    setting: Setting,
    source: &mut Finished,
    hashes: &[u64],
    left: usize,
) -> Option<(Finished, Vec<Entry>)> {
    let segments = source.set.starts().len();
    // Two of three, with flags of any value.
    let flag = |i: usize| {
        if i % 3 == 1 {
            0
        } else {
            1 + rng.below(255) as u8
        }
    };
    let keep: Vec<u8> = (0..segments).map(flag).collect();
    let room = (source.world.lent.arena - source.filled) / left;
    let (records, copied_bytes) = choose(rng, setting, source, hashes, &keep, room);
    let plan = Plan {
        about,
        setting,
        keep: &keep,
        now: rng.pick(&[0, 5, 900]),
        records: &records,
        copied_bytes,
    };
    let set = rebuilt(group, source, &plan)?;
    let entries = records.into_iter().map(|chosen| chosen.entry).collect();
    Some((set, keys(entries)))
}

// Most records of kept segments are reused, some copied; of the others half, as far as there is room.
fn choose(
    rng: &mut Rng,
    setting: Setting,
    source: &Finished,
    hashes: &[u64],
    keep: &[u8],
    room: usize,
) -> (Vec<Chosen>, usize) {
    let (mut records, mut copied) = (Vec::new(), 0);
    let arena = &source.world.arena;
    for record in source.set.walk(0) {
        let [_, location, header, key, key_len, value, value_len, ..] = record;
        let part = |at: u64, len: u64| arena[at as usize..][..len as usize].to_vec();
        let key = part(key, key_len);
        let mut entry = Entry {
            hash: hashes[number(&key)],
            key,
            value: part(value, value_len),
            lifetime: Vec::new(),
        };
        let (kept, way) = (keep[(location >> 32) as usize] != 0, rng.below(8));
        if kept && way > 1 {
            let from = Some((location, header));
            records.push(Chosen { entry, from });
            continue;
        }
        let lapses = setting.tick.filter(|_| rng.one_in(2));
        entry.lifetime = lapses.map_or(Vec::new(), |tick| taken(rng, tick));
        let bytes = total(std::slice::from_ref(&entry), setting.tick.is_some());
        if (way > 3 || kept && way == 1) && copied + bytes <= room {
            copied += bytes;
            records.push(Chosen { entry, from: None });
        }
    }
    (records, copied)
}

// The newest set whole, and some of each older one, which is lent the arena meanwhile.
fn ask_all(
    group: &mut Group,
    rng: &mut Rng,
    setting: Setting,
    sets: &mut [(Finished, Vec<Entry>)],
) {
    let Some(((newest, list), older)) = sets.split_last_mut() else {
        return;
    };
    newest.stats(group);
    newest.lookups(group, rng, list, 1);
    newest.walk(group, 3);
    newest.steps_as_read(group);
    newest.sheet(group);
    newest.end(group);
    ask_loaded(group, rng, setting, newest, list);
    for (set, list) in older {
        set.borrow_arena(newest);
        for entry in list.iter().step_by(64) {
            set.all_ways(group, &entry.key, entry.hash, rng.below(65_540));
        }
        set.end(group);
        newest.world.arena = take(&mut set.world.arena);
    }
}

// A part of the newest set as it is loaded from its file.
fn ask_loaded(
    group: &mut Group,
    rng: &mut Rng,
    setting: Setting,
    newest: &mut Finished,
    list: &[Entry],
) {
    let file = newest.written(group);
    let Some(mut loaded) = newest.beside(group, setting, &file) else {
        return;
    };
    loaded.stats_are(group, &newest.set.stats());
    for entry in list.iter().step_by(16) {
        loaded.all_ways(group, &entry.key, entry.hash, rng.below(65_540));
    }
    loaded.walk(group, 3);
    loaded.steps_as_read(group);
    loaded.sheet(group);
    loaded.end(group);
    loaded.written_again(group, &file);
}
