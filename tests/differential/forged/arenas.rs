// Small arenas and index words such as no build makes: random and damaged ones, locations that were
// forged, marks, words without a location.
use crate::parts::record_write::{rust_record, tick};
use crate::rng::Rng;
use oracle_large::access;

pub struct World {
    pub on: bool,
    pub arena: Vec<u8>,
    // Where the records stand that were written; some were then damaged.
    pub locations: Vec<u64>,
    pub keys: Vec<Vec<u8>>,
    // The tags that words and hashes take, few so that they meet.
    tags: Vec<u64>,
}

impl World {
    pub fn new(rng: &mut Rng) -> World {
        let on = rng.one_in(2);
        let mut world = World {
            on,
            arena: Vec::new(),
            locations: Vec::new(),
            keys: vec![Vec::new()],
            tags: tags(rng),
        };
        for _ in 0..1 + rng.index(10) {
            world.add_record(rng);
        }
        if rng.one_in(4) {
            let place = rng.index(world.arena.len());
            world.arena[place] ^= 1 << rng.below(8);
        }
        world
    }

    // Keys are few, so that one stands in several records.
    fn add_record(&mut self, rng: &mut Rng) {
        let mut key = rng.bytes(1);
        key[0] %= 4;
        if rng.one_in(8) {
            key.clear();
        }
        let len = rng.index(6);
        let expires_at = rng.next() as u16;
        let record = rust_record(self.on, &key, &rng.bytes(len), expires_at);
        self.locations.push(self.arena.len() as u64);
        self.arena.extend(record);
        self.keys.push(key);
    }

    pub fn hash(&self, rng: &mut Rng) -> u64 {
        rng.pick(&self.tags) << 41 | rng.next() >> 23
    }

    // A key of some record, or any.
    pub fn key(&self, rng: &mut Rng) -> Vec<u8> {
        match rng.one_in(6) {
            true => vec![rng.next() as u8 % 8],
            false => self.keys[rng.index(self.keys.len())].clone(),
        }
    }

    // The key of the record at a flat location, if it can be read.
    pub fn key_at(&self, location: u64) -> Option<Vec<u8>> {
        let record = access::record_at(&self.arena, tick(self.on), location as usize)?;
        Some(self.arena[record[2] as usize..(record[2] + record[3]) as usize].to_vec())
    }

    // A word with one of the tags and a stored location from the list, or one that is forged. Of
    // `empty` words one is 0.
    pub fn word(&self, rng: &mut Rng, stored: &[u64], empty: u64) -> u64 {
        if rng.one_in(empty) {
            return 0;
        }
        let tag = rng.pick(&self.tags) << 40;
        let mark = if rng.one_in(4) { 1 << 63 } else { 0 };
        let right = rng.pick(stored);
        let stored = match rng.below(40) {
            0 => 0,
            1 => right + rng.below(3) - 1,
            2 => right + (rng.below(4) << 32),
            3 => rng.next() >> 24,
            4 => (1 << 40) - 1,
            5 => self.arena.len() as u64 + rng.below(3),
            6 => return rng.next(),
            7 => return 1 << 63,
            _ => right,
        };
        mark | tag | stored % (1 << 40)
    }
}

// Tags with one control byte and other secondary bits, or the reverse; the first and the last
// bucket; and the two that a packed index can't tell apart.
fn tags(rng: &mut Rng) -> Vec<u64> {
    let base = rng.below(1 << 23);
    let end = rng.pick(&[0, (1 << 23) - 1]);
    match rng.below(6) {
        0 => vec![base],
        1 => vec![end],
        2 => vec![0, 127],
        3 => vec![base, base ^ 1 << 7],
        4 => vec![base, base ^ 1, base ^ 2],
        _ => vec![base, end, end ^ 128, end ^ 1],
    }
}
