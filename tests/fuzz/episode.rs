// One line of sets from open on: what call comes next, and the areas and numbers for it. Calls of this
// kind are mostly accepted; the damage is done to them afterwards.
use crate::exports::EXPORTS;
use crate::files;
use crate::lent::Role::{self, *};
use crate::rng::Rng;
use crate::sheets;
use crate::world::World;

// Places in the table of exports.
pub fn export(name: &str) -> usize {
    let place = EXPORTS.iter().position(|export| export.name == name);
    place.expect("a name of the table")
}

#[derive(Clone, Copy, PartialEq)]
enum Stage {
    New,
    Building,
    Finished,
    Rebuilding,
}

// A record that stands in the newest set.
struct Stored {
    key: Vec<u8>,
    value: Vec<u8>,
    location: u64,
    header: u64,
}

pub struct Episode {
    pub world: World,
    stage: Stage,
    records: usize,
    // How hashes are made from keys: few of them, all in the last bucket, or any.
    spread: u64,
    salt: u64,
    // The longest value is below: half of the sets fit a sheet.
    longest: usize,
    keys: Vec<Vec<u8>>,
    stored: Vec<Stored>,
    // The slot from which a walk goes on, and the place from which steps through a segment do.
    from: u64,
    step: Step,
    // The last file that was written, and the set's words.
    file: Vec<u8>,
    written: World,
}

#[derive(Clone, Copy, Default)]
struct Step {
    segment: usize,
    position: u64,
}

const BITS: [u64; 6] = [0, 1, 8, 8, 64, 255];

// Counts around the most segments.
const MANY: [usize; 6] = [255, 256, 256, 256, 257, 300];

impl Episode {
    pub fn new(rng: &mut Rng) -> Episode {
        let records = match rng.below(60) {
            0 | 1 => rng.pick(&MANY),
            2..10 => rng.index(3),
            _ => rng.index(16),
        };
        let mut world = World::empty();
        world.set_words(Setting, &setting(rng));
        for (role, len) in [(Builder, 13), (Set, 15), (Rebuild, 22), (Stats, 8)] {
            world.resize(role, len);
        }
        for role in [Starts, Lengths, SourceStarts, SourceLengths] {
            world.resize(role, 256 + rng.index(3));
        }
        let room = 24 * records + rng.index(400);
        world.resize(Arena, room * rng.pick(&[1, 3, 3]));
        let mut episode = Episode {
            world,
            stage: Stage::New,
            records,
            spread: rng.below(6),
            salt: rng.next(),
            longest: rng.pick(&[13, 20]),
            keys: Vec::new(),
            stored: Vec::new(),
            from: 0,
            step: Step::default(),
            file: Vec::new(),
            written: World::empty(),
        };
        size_areas(rng, &mut episode.world, Setting, records);
        episode
    }

    pub fn many(&self) -> bool {
        self.records > 100
    }

    fn hash(&self, key: &[u8]) -> u64 {
        let mut hash = self.salt;
        for &byte in key {
            hash = Rng::new(hash ^ u64::from(byte)).next();
        }
        match self.spread {
            0 => self.salt,
            1 => self.salt ^ hash % 3,
            2 => u64::MAX - hash % 100,
            _ => hash,
        }
    }

    // The next call, with the areas and numbers for it in a copy of the world.
    pub fn next(&mut self, rng: &mut Rng) -> (usize, World) {
        let name = match self.stage {
            Stage::New => "open",
            Stage::Building => self.build(rng),
            Stage::Finished => self.ask(rng),
            Stage::Rebuilding => self.rebuild(rng),
        };
        // Now and then any other call on what stands there.
        let number = match rng.one_in(12) {
            true => rng.index(EXPORTS.len()),
            false => export(name),
        };
        let mut world = self.world.clone();
        self.arguments(rng, EXPORTS[number].name, &mut world);
        (number, world)
    }

    fn build(&self, rng: &mut Rng) -> &'static str {
        let (expected, inserted) = (self.world.word(Builder, 6), self.world.word(Builder, 7));
        match inserted < expected {
            true if !rng.one_in(20) => "push",
            _ => "finish",
        }
    }

    fn ask(&self, rng: &mut Rng) -> &'static str {
        match rng.below(38) {
            0..5 => "get",
            5..7 => "peek",
            7..10 => "take_accessed",
            10..13 => "probe",
            13..20 => "next_entry",
            20 => "stats",
            21..25 => "record_at",
            25 => "file_bytes",
            26 | 27 => "write_file",
            28..31 if self.file.is_empty() => "write_file",
            28 => "file_needs",
            29 | 30 => "load_file",
            31 => "sheet_pages",
            32..35 => "print_sheet",
            _ => "rebuild_open",
        }
    }

    fn rebuild(&self, rng: &mut Rng) -> &'static str {
        let (expected, inserted) = (self.world.word(Rebuild, 6), self.world.word(Rebuild, 7));
        match inserted < expected {
            true if rng.one_in(25) => "rebuild_finish",
            true if rng.below(3) > 0 && !self.stored.is_empty() => "push_reused",
            true => "push_copied",
            false if rng.one_in(12) => "push_copied",
            false => "rebuild_finish",
        }
    }

    fn arguments(&mut self, rng: &mut Rng, name: &str, world: &mut World) {
        self.key(rng, world);
        let words = match name {
            "push" | "push_reused" | "push_copied" => 2,
            "get" | "peek" => 3,
            "rebuild_finish" => 4,
            "area_words" | "file_needs" => 5,
            "stats" => 8,
            "record_at" => 9,
            "probe" | "next_entry" => 12,
            _ => 1,
        };
        world.resize(Out, words);
        let numbers = &mut world.numbers;
        numbers.tick = rng.pick(&[0, 1, 3, 9, 65_534, 65_535, 65_536, u64::MAX]);
        match name {
            "open" | "area_words" => numbers.count = self.records as u64,
            "finish" => numbers.count = self.target(rng),
            "next_entry" => numbers.count = self.from,
            "encoded_record_bytes" => {
                numbers.count = rng.number(&[127, 16_383, u64::MAX]);
                numbers.size = rng.number(&[127, 16_383, u64::MAX]);
            }
            "push" | "push_copied" => self.pushed(rng, world),
            "push_reused" => self.reused(rng, world),
            "rebuild_open" => self.opened(rng, world),
            "record_at" => self.stepped(rng, world),
            "write_file" => files::room(rng, world),
            "print_sheet" => sheets::room(rng, world),
            "file_needs" => world.set_bytes(File, &self.file),
            "load_file" => {
                world.set_bytes(File, &self.file);
                files::areas(rng, &self.written, world);
            }
            _ => (),
        }
    }

    // The bytes of a segment, at times cut off, and where the last record ended; or any position.
    fn stepped(&mut self, rng: &mut Rng, world: &mut World) {
        let arena = world.area(Arena);
        let Step { segment, position } = self.step;
        let place = |role| world.word(role, segment) as usize;
        let inside = self.stage == Stage::Finished && segment < world.word(Set, 9) as usize;
        let rest = arena.get(place(Starts)..).filter(|_| inside);
        let bytes = rest.and_then(|rest| rest.get(..place(Lengths)));
        let mut bytes = bytes.unwrap_or(arena).to_vec();
        let len = bytes.len();
        if rng.one_in(6) {
            bytes.truncate(rng.index(len + 1));
        }
        let len = bytes.len() as u64;
        let ends = [len.wrapping_sub(1), len, len + 1, 1 << 32, u64::MAX];
        world.numbers.location = match rng.below(8) {
            0 => rng.pick(&ends),
            1 => rng.below(len + 1),
            _ => position,
        };
        world.set_bytes(Arena, &bytes);
    }

    // The next step begins where the record ended; where none was read, at the front of the next segment.
    fn go_on(&mut self, world: &World) {
        let (read, end) = (world.word(Out, 0) == 1, world.word(Out, 8));
        let segments = self.world.word(Set, 9).clamp(1, 256) as usize;
        self.step = match read {
            true => Step {
                position: end,
                ..self.step
            },
            false => Step {
                segment: (self.step.segment + 1) % segments,
                position: 0,
            },
        };
    }

    // With the smallest target each record is a segment.
    fn target(&self, rng: &mut Rng) -> u64 {
        let targets = [1, 1, 1, 20, 64, 4_096, 100_663_296];
        rng.pick(if self.many() { &targets[..4] } else { &targets })
    }

    // A key that was pushed, or a new one.
    fn key(&mut self, rng: &mut Rng, world: &mut World) {
        let any = rng.index(9);
        let key = match self.keys.is_empty() || rng.one_in(8) {
            true => rng.bytes(any),
            false => self.keys[rng.index(self.keys.len())].clone(),
        };
        world.numbers.hash = self.hash(&key);
        world.set_bytes(Key, &key);
    }

    fn pushed(&mut self, rng: &mut Rng, world: &mut World) {
        if !rng.one_in(12) {
            let longer = rng.index(7);
            let key = rng.bytes(1 + longer);
            world.numbers.hash = self.hash(&key);
            world.set_bytes(Key, &key);
            self.keys.push(key);
        }
        let most = match self.longest {
            20 if rng.one_in(30) => 200,
            longest => longest,
        };
        let length = rng.index(most);
        world.set_bytes(Value, &rng.bytes(length));
        let lapses = world.word(Setting, 0) == 1 && rng.one_in(2) || rng.one_in(30);
        let lifetime = [rng.below(9), rng.below(1_000_000_000)];
        world.set_words(Lifetime, if lapses { &lifetime } else { &[] });
        if rng.below(4) > 0 {
            world.numbers.tick = rng.below(9);
        }
    }

    fn reused(&self, rng: &mut Rng, world: &mut World) {
        if self.stored.is_empty() {
            return;
        }
        let stored = &self.stored[rng.index(self.stored.len())];
        world.numbers.hash = self.hash(&stored.key);
        world.numbers.location = stored.location;
        world.numbers.size = stored.header;
        world.set_bytes(Key, &stored.key);
        world.set_bytes(Value, &stored.value);
    }

    // New areas for the rebuild; the source's segments are lent beside them.
    fn opened(&self, rng: &mut Rng, world: &mut World) {
        for (source, role) in [(SourceStarts, Starts), (SourceLengths, Lengths)] {
            world.areas[source as usize] = world.areas[role as usize].clone();
            world.resize(role, 256 + rng.index(3));
        }
        let records = rng.index(16);
        world.numbers.count = records as u64;
        world.numbers.size = rng.pick(&[0, 0, 1, 100]);
        world.numbers.tick = rng.pick(&[0, 0, 1, 5, 65_530, u64::MAX]);
        // One in so many segments is dropped: all, some or none.
        let dropped = rng.pick(&[1, 4, 8, 1 << 30, 1 << 30]);
        let segments = world.word(Set, 9).min(300) as usize;
        let mut flag = || {
            if rng.one_in(dropped) {
                0
            } else {
                rng.next() as u8 | 1
            }
        };
        let flags: Vec<u8> = (0..segments).map(|_| flag()).collect();
        world.set_bytes(Keep, &flags);
        size_areas(rng, world, Set, records);
    }

    // The call was accepted, and the world is the one that it left.
    pub fn accepted(&mut self, number: usize, world: World) {
        // It was lent a part of the arena, and changes nothing.
        if EXPORTS[number].name == "record_at" {
            self.go_on(&world);
            return;
        }
        if EXPORTS[number].name == "write_file" {
            self.file = world.area(File).to_vec();
            self.file.truncate(world.word(Out, 0) as usize);
            self.written = world.clone();
        }
        self.world = world;
        match EXPORTS[number].name {
            "open" => self.stage = Stage::Building,
            "finish" | "rebuild_finish" | "load_file" => {
                (self.stage, self.from) = (Stage::Finished, 0);
                self.step = Step::default();
                self.stored.clear();
            }
            "rebuild_open" => self.stage = Stage::Rebuilding,
            "next_entry" => self.met(),
            "stats" => self.world.areas[Stats as usize] = self.world.area(Out).to_vec(),
            _ => (),
        }
    }

    // A record that a walk has told.
    fn met(&mut self) {
        let told = |at| self.world.word(Out, at);
        let part = |at, len| {
            let rest = self.world.area(Arena).get(told(at) as usize..)?;
            Some(rest.get(..told(len) as usize)?.to_vec())
        };
        let parts = part(4, 5).zip(part(6, 7)).filter(|_| told(0) == 1);
        let (location, header) = (told(2), told(3));
        self.from = if told(0) == 1 { told(1) + 1 } else { 0 };
        if let Some((key, value)) = parts.filter(|_| self.stored.len() < 64) {
            self.stored.push(Stored {
                key,
                value,
                location,
                header,
            });
        }
    }
}

fn setting(rng: &mut Rng) -> [u64; 6] {
    let on = rng.below(2);
    let tick = rng.pick(&[(1, 0), (0, 1), (0, 500_000_000), (60, 0), (1 << 63, 0)]);
    let (secs, nanos) = if on == 1 { tick } else { (0, 0) };
    [
        on,
        secs,
        nanos,
        1 + rng.below(7),
        rng.below(2),
        rng.pick(&BITS),
    ]
}

// Index, filter and scratch as so many records need, or a little longer.
fn size_areas(rng: &mut Rng, world: &mut World, state: Role, records: usize) {
    let (occupied, bits) = (world.word(state, 3), world.word(state, 5));
    let buckets = records.div_ceil(occupied.clamp(1, 8) as usize).max(1);
    let filter = (records * bits.min(255) as usize).div_ceil(64);
    for (role, len) in [(Index, 8 * buckets), (Filter, filter), (Scratch, buckets)] {
        world.resize(role, len + rng.index(3));
    }
}
