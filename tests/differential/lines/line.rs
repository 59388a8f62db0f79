// A list of calls on one line of sets: by the port, by the model, by the Rust where it takes such a
// call, and in the book. This file is a module twice, once for each build of the Rust.
use super::calls::build::setting_words;
use super::oracle::access::SEGMENT_TARGET;
use super::oracle::access_index::{self as access, Builder, Parts, Set, Setting};
use super::oracle::access_rebuilds::{Opening, Rebuild};
use super::oracle::set_hash;
use crate::calls::records::duration;
use crate::calls::world::{Ask, Opened, Pushed, Reused, Sizes, World, placed, refusal_of};
use crate::lines::sides::{At, Sides};
use crate::model::book::Book;
use crate::model::rules::{self, RECORDS_MAX};
use crate::report::Group;
use std::rc::Rc;

pub struct Line {
    pub about: String,
    pub setting: Setting,
    pub sides: Sides,
    pub book: Book,
    pub sets: Vec<Known>,
    // The first set of the line was built, so that it has all records that were appended.
    pub built: bool,
    building: Option<Builder>,
    // None also where the Rust has gone another way than the rules.
    pub(super) rebuilding: Option<Rebuild>,
}

pub struct Known {
    pub set: Rc<Set>,
    // Made by the Rust itself, so that its statistics are its own.
    pub own: bool,
}

pub type Lend<'a> = &'a dyn Fn(&mut Sizes);

pub const AS_IT_IS: Lend<'static> = &|_| ();

impl Line {
    pub fn open(
        group: &mut Group,
        about: String,
        setting: Setting,
        records: usize,
        arena: usize,
    ) -> Option<Line> {
        let building = Builder::open(setting, records).ok()?;
        let words = building.filter().map_or(0, <[u64]>::len);
        let lent = Sizes::for_counts(building.buckets(), words, arena);
        let rules = rules::Setting::of(&setting_words(setting))?;
        let mut line = Line {
            about,
            setting,
            sides: Sides::new(&setting_words(setting), lent),
            book: Book::open(rules),
            sets: Vec::new(),
            built: true,
            building: Some(building),
            rebuilding: None,
        };
        let records = records as u64;
        line.call(group, At::Open, &Ask::Open { records }, AS_IT_IS);
        line.same_open(group, "open");
        Some(line)
    }

    pub fn call(&mut self, group: &mut Group, at: At, ask: &Ask, lend: Lend) -> u64 {
        self.sides.call_with(group, &self.about, at, ask, lend)
    }

    // The model's, where what is not the port's own is wanted.
    pub fn world(&self, at: At) -> Option<&World> {
        self.sides.wanted.world(at)
    }

    pub fn answer(&self, at: At, words: usize) -> Vec<u64> {
        let world = self.sides.ours.world(at);
        world.map_or(Vec::new(), |world| world.out[..words].to_vec())
    }

    pub fn push(&mut self, group: &mut Group, pushed: Pushed, lend: Lend) -> u64 {
        let number = self.call(group, At::Open, &Ask::Push(pushed), lend);
        let Pushed {
            hash,
            key,
            value,
            lifetime,
        } = pushed;
        if let Some(builder) = self.building.as_mut().filter(|_| number < 8) {
            let tick = self.setting.tick;
            let (index, records) = (builder.index(), builder.records());
            let slot = access::find_build_slot(index, records, tick, key, hash);
            let place = [slot.unwrap_or(0) as u64, records.len() as u64];
            set_hash(hash);
            let rust = builder.push(key, value, duration(lifetime));
            self.same_place(group, "push", number, rust, place);
        }
        if number == 0 {
            self.book.append(key, value, lifetime);
        }
        self.same_open(group, "push");
        number
    }

    // The Rust's refusal, and slot and location where it has none.
    fn same_place(
        &self,
        group: &mut Group,
        call: &str,
        number: u64,
        rust: Result<(), u64>,
        place: [u64; 2],
    ) {
        let (refusal, place) = placed(rust, place);
        let about = || format!("{call}, {}", self.about);
        group.rust("refusal", number, refusal, about);
        group.area(
            "slot and location",
            &self.answer(At::Open, 2),
            &place,
            about,
        );
    }

    // The Rust has one target: elsewhere its set is put together from the model's areas.
    pub fn finish(&mut self, group: &mut Group, target: u64, lend: Lend) -> u64 {
        let number = self.call(group, At::Open, &Ask::Finish { target }, lend);
        if number != 0 {
            self.same_open(group, "finish");
            return number;
        }
        let builder = self.building.take();
        let set = builder.filter(|_| target == SEGMENT_TARGET as u64);
        let set = set.and_then(|builder| builder.finish().ok());
        self.book.finish(target);
        self.close(group, set);
        number
    }

    fn close(&mut self, group: &mut Group, set: Option<Set>) {
        self.sides.close();
        let (at, own) = (At::Set(self.sets.len()), set.is_some());
        let arena = &self.sides.wanted.arena;
        let by_model = || Some(forged(self.setting, self.world(at)?, arena));
        let Some(set) = set.or_else(by_model) else {
            return;
        };
        let set = Rc::new(set);
        self.sets.push(Known { set, own });
        self.same_set(group, self.sets.len() - 1);
        self.same_page(group, at);
        self.travel(group, self.sets.len() - 1);
    }

    // Starts, lengths, filled bytes and the number of records that the book has of a set.
    pub(super) fn same_page(&self, group: &mut Group, at: At) {
        let (Some(world), Some(page)) = (self.sides.ours.world(at), self.book.finished.last())
        else {
            return;
        };
        let about = || format!("book, {}", self.about);
        let segments = world.set[9] as usize;
        let starts = world.starts.get(..segments).unwrap_or(&[]);
        group.area("starts by the book", starts, &page.starts, about);
        let lengths = world.lengths.get(..segments).unwrap_or(&[]);
        group.area("lengths by the book", lengths, &page.lengths, about);
        group.rule("filled by the book", world.set[10], page.filled, about);
        group.rule(
            "records by the book",
            world.set[6],
            page.list.len() as u64,
            about,
        );
    }

    pub fn rebuild_open(
        &mut self,
        group: &mut Group,
        lent: &Sizes,
        opened: Opened,
        forge: &dyn Fn(&mut World),
    ) -> u64 {
        let number = (self.sides).rebuild_open(group, &self.about, lent, opened, forge);
        let asked = number < 8 && opened.records <= RECORDS_MAX;
        let page = self.book.finished.last();
        if let Some((known, page)) = self.sets.last().zip(page).filter(|_| asked) {
            let keep: Vec<bool> = opened.keep.iter().map(|&flag| flag != 0).collect();
            let opening = Opening {
                filled: page.filled,
                records: opened.records as usize,
                capacity: opened.capacity as usize,
                keep: &keep,
                now: opened.now,
            };
            let rust = Rebuild::open(&known.set, &opening);
            let refusal = refusal_of(&rust);
            group.rust("rebuild open", number, refusal, || self.about.clone());
            if number == 0 {
                self.rebuilding = rust.ok();
            }
        }
        if number == 0 {
            self.book.rebuild_open(opened.keep, opened.now);
        }
        self.same_open(group, "rebuild open");
        number
    }

    // The Rust takes a record unseen that is not what stands at the location.
    pub fn reused(&mut self, group: &mut Group, reused: Reused, lend: Lend) -> u64 {
        let number = self.call(group, At::Open, &Ask::Reused(reused), lend);
        let (key, value, header) = (reused.key, reused.value, reused.header as usize);
        let location = reused.location as usize;
        self.push_of_rust(group, number, reused.hash, |rebuild| {
            rebuild.push_reused(key, value, location, header)
        });
        if number == 0 {
            self.book.reuse(key, value, reused.location);
        }
        self.same_open(group, "reused push");
        number
    }

    // After refusal 7 the Rust has appended the bytes, and is asked no more until the next rebuild.
    pub fn copied(&mut self, group: &mut Group, pushed: Pushed, lend: Lend) -> u64 {
        let number = self.call(group, At::Open, &Ask::Copied(pushed), lend);
        let (key, value, lifetime) = (pushed.key, pushed.value, pushed.lifetime);
        self.push_of_rust(group, number, pushed.hash, |rebuild| {
            rebuild.push_copied(key, value, duration(lifetime))
        });
        if number == 7 {
            self.rebuilding = None;
        }
        if number == 0 {
            self.book.append(key, value, lifetime);
        }
        self.same_open(group, "copied push");
        number
    }

    fn push_of_rust(
        &mut self,
        group: &mut Group,
        number: u64,
        hash: u64,
        push: impl FnOnce(&mut Rebuild) -> Result<(), u64>,
    ) {
        let Some(rebuild) = self.rebuilding.as_mut().filter(|_| number < 8) else {
            return;
        };
        let slot = access::find_empty_build_slot(rebuild.index(), hash).unwrap_or(0);
        set_hash(hash);
        let rust = push(rebuild);
        let location = access::index_location(rebuild.index()[slot]);
        self.same_place(
            group,
            "rebuild",
            number,
            rust,
            [slot as u64, location as u64],
        );
    }

    // A finish too early would take the Rust's rebuild away: its counts say that it refuses.
    pub fn rebuild_finish(&mut self, group: &mut Group, lend: Lend) -> u64 {
        let number = self.call(group, At::Open, &Ask::RebuildFinish, lend);
        if number != 0 {
            self.same_open(group, "rebuild finish");
            return number;
        }
        let totals = self.answer(At::Open, 4);
        let rust = self.rebuilding.take().map(Rebuild::finish);
        if let Some(rust) = &rust {
            let refusal = refusal_of(rust);
            let wanted = rust.as_ref().map_or([0; 4], |(_, totals)| *totals);
            let about = || format!("rebuild finish, {}", self.about);
            group.rust("refusal", number, refusal, about);
            group.area("totals", &totals, &wanted, about);
        }
        self.book.rebuild_finish();
        let set = rust.and_then(|rust| rust.ok().map(|(set, _)| set));
        self.close(group, set);
        number
    }

    // What is being made, as the Rust has it.
    fn same_open(&self, group: &mut Group, call: &str) {
        let Some(world) = self.sides.ours.world(At::Open) else {
            return;
        };
        let about = || format!("{call}, {}", self.about);
        let (setting, arena) = (setting_words(self.setting), &self.sides.ours.arena);
        if let Some(builder) = &self.building {
            let state = [&setting[..], &builder.counts()].concat();
            group.area("builder", &world.builder, &state, about);
            front(group, "index", &world.index, builder.index(), about);
            let filter = builder.filter().unwrap_or(&[]);
            front(group, "filter", &world.filter, filter, about);
            front(group, "arena", arena, builder.records(), about);
        }
        if let Some(rebuild) = &self.rebuilding {
            let numbers = rebuild.numbers();
            let state = [&setting[..], &numbers].concat();
            group.area("rebuild", &world.rebuild, &state, about);
            front(group, "index", &world.index, rebuild.index(), about);
            front(group, "filter", &world.filter, rebuild.filter(), about);
            let end = &arena[numbers[8] as usize..];
            front(group, "copied", end, rebuild.copied(), about);
            same_segments(group, about, world, arena, rebuild.kept());
        }
    }

    // A finished set, as the Rust has it.
    pub fn same_set(&mut self, group: &mut Group, set: usize) {
        let known = Rc::clone(&self.sets[set].set);
        if self.sets[set].own {
            let stats = known.stats();
            self.call(group, At::Set(set), &Ask::Stats, AS_IT_IS);
            let about = || self.about.clone();
            group.area("statistics", &self.answer(At::Set(set), 8), &stats, about);
        }
        let Some(world) = self.sides.ours.world(At::Set(set)) else {
            return;
        };
        let about = || format!("set {set}, {}", self.about);
        front(group, "index", &world.index, known.shown(), about);
        let filter = known.filter().unwrap_or(&[]);
        front(group, "filter", &world.filter, filter, about);
        same_segments(
            group,
            about,
            world,
            &self.sides.ours.arena,
            known.segments(),
        );
    }
}

// The set of a world, put together from its areas; it has no statistics.
pub fn forged(setting: Setting, world: &World, arena: &[u8]) -> Set {
    let words = &world.set;
    let segments = words[9] as usize;
    Set::forged(&Parts {
        setting,
        index: &world.index[..8 * words[7] as usize],
        filter: &world.filter[..words[8] as usize],
        arena: &arena[..words[10] as usize],
        starts: &world.starts[..segments],
        lengths: &world.lengths[..segments],
    })
}

// An area against what belongs at its front.
pub fn front<T: PartialEq + std::fmt::Debug>(
    group: &mut Group,
    name: &str,
    area: &[T],
    wanted: &[T],
    about: impl FnOnce() -> String,
) {
    group.area(name, &area[..wanted.len().min(area.len())], wanted, about);
}

pub fn same_segments<B: AsRef<[u8]>>(
    group: &mut Group,
    about: impl Fn() -> String,
    world: &World,
    arena: &[u8],
    segments: impl Iterator<Item = (u64, B)>,
) {
    let mut count = 0;
    for (i, (start, bytes)) in segments.enumerate() {
        count += 1;
        let (bytes, place) = (bytes.as_ref(), (world.starts[i], world.lengths[i]));
        group.rust("segment", place, (start, bytes.len() as u64), &about);
        let there = arena.get(start as usize..).unwrap_or(&[]);
        front(group, "segment's bytes", there, bytes, &about);
    }
    let rest = [&world.starts[count..256], &world.lengths[count..256]].concat();
    let zeros = rest.iter().all(|&word| word == 0);
    group.rule("words behind the segments", zeros, true, about);
}
