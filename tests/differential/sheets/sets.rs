// Sets for sheets, made by the model; and their sheets, by the port and by the model, beside the Rust's walk.
use crate::calls::records::{Entry, total};
use crate::calls::world::{Ask, By, Sizes, World, model, port};
use crate::forged::calls::beside;
use crate::model::rules::Setting;
use crate::report::Group;
use crate::rng::Rng;

// Expiry with a tick of a second or none, occupancy, layout; no filter.
pub fn setting(on: bool, occupied: u64, packed: bool) -> [u64; 6] {
    let on = u64::from(on);
    [on, on, 0, occupied, packed.into(), 0]
}

// Both layouts, with expiry and without.
pub fn settings() -> [[u64; 6]; 4] {
    let kinds = [(true, true), (true, false), (false, true), (false, false)];
    kinds.map(|(on, packed)| setting(on, 7, packed))
}

// A lifetime of so many ticks of a second; 65,535 is never.
pub fn entry(hash: u64, key: &[u8], value: &[u8], ticks: u64) -> Entry {
    let lifetime = match ticks {
        65_535 => Vec::new(),
        ticks => vec![ticks, 0],
    };
    Entry {
        hash,
        key: key.to_vec(),
        value: value.to_vec(),
        lifetime,
    }
}

// So many records of any hash, each with its number in front of its key.
pub fn numbered(rng: &mut Rng, count: usize, on: bool) -> Vec<Entry> {
    let record = |i: usize| {
        let (more, length) = (rng.index(11), rng.index(13));
        let key = [&(i as u16).to_be_bytes()[..], &rng.bytes(more)].concat();
        let ticks = match on {
            true => rng.pick(&[0, 1, 9, 10, 99, 100, 9_999, 10_000, 65_534, 65_535]),
            false => 65_535,
        };
        let value = rng.bytes(length);
        entry(rng.next(), &key, &value, ticks)
    };
    (0..count).map(record).collect()
}

pub fn frozen(setting: &[u64; 6], list: &[Entry], target: u64) -> World {
    let (records, on) = (list.len() as u64, setting[0] == 1);
    let buckets = Setting::of(setting).map_or(1, |setting| setting.buckets(records));
    let sizes = Sizes::for_counts(buckets as usize, 0, total(list, on));
    let mut world = World::new(setting, sizes);
    model(&mut world, &Ask::Open { records }, 0);
    for entry in list {
        model(&mut world, &Ask::Push(entry.pushed()), 2);
    }
    model(&mut world, &Ask::Finish { target }, 0);
    world
}

// The sheet, compared with the lines of the records that the Rust's walk visits; its refusal.
pub fn on_paper(group: &mut Group, about: &str, world: &World) -> u64 {
    let mut refusal = 0;
    for (by, name) in [(port as By, "port"), (model, "model")] {
        let mut set = beside(by, format!("{about}, {name}"), world.clone());
        refusal = set.sheet(group);
        set.end(group);
    }
    refusal
}

// What the port prints into an area of so many bytes: its refusal, its pages, and all of the area.
pub fn printed(world: &World, bytes: usize) -> (u64, u64, Vec<u8>) {
    print(&mut world.clone(), bytes)
}

// The same of a set that is too large for a copy.
pub fn print(world: &mut World, bytes: usize) -> (u64, u64, Vec<u8>) {
    world.room_for_page(bytes);
    world.lent.page = bytes;
    let refusal = port(world, &Ask::PrintSheet, 1);
    world.lent.page = 0;
    (refusal, world.out[0], std::mem::take(&mut world.page))
}
