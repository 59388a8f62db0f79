// The calls on a finished set, by the port or the model and by the Rust. This file is a module
// twice, once for each build of the Rust.
use super::oracle::access_index::Set;
use super::oracle::access_sets;
use crate::calls::records::Entry;
use crate::calls::world::{Ask, By, UNSET, World};
use crate::port;
use crate::report::Group;
use crate::rng::{Rng, has_pattern};
use std::mem::take;
use std::rc::Rc;

pub struct Finished {
    by: By,
    pub(super) about: String,
    pub world: World,
    // The areas as the finish left them; only the index changes, by marks.
    plain: World,
    pub set: Rc<Set>,
    // Bytes of the arena that are filled, also by later sets of its line.
    pub filled: usize,
    // Made by the Rust itself, so that its statistics are its own.
    own: bool,
    // So many calls were asked.
    asked: usize,
}

// Ticks at which an answer may change whatever the deadline is.
const TICKS: [u64; 5] = [0, 65_534, 65_535, 65_536, u64::MAX];

impl Finished {
    pub fn new(by: By, about: String, mut world: World, set: Set) -> Finished {
        let plain = world.kept();
        Finished {
            by,
            about,
            plain,
            set: Rc::new(set),
            filled: world.set[10] as usize,
            world,
            own: true,
            asked: 0,
        }
    }

    // Who answers, and one call with nothing compared.
    pub(super) fn answers(&self) -> By {
        self.by
    }

    pub(super) fn ask(&mut self, ask: &Ask) -> u64 {
        (self.by)(&mut self.world, ask, ask.answer())
    }

    // In other areas, with the same set of the Rust.
    pub(super) fn go_on(&mut self, about: String, mut world: World) {
        self.plain = world.kept();
        self.filled = world.set[10] as usize;
        self.world = world;
        self.about = about;
    }

    // With a set that was put together from the areas.
    pub fn put_together(self) -> Finished {
        Finished { own: false, ..self }
    }

    // The arena of a later set of the line, in which more is filled than in a copy.
    pub fn borrow_arena(&mut self, later: &mut Finished) {
        self.world.arena = take(&mut later.world.arena);
        self.plain.arena = Vec::new();
        self.filled = later.filled;
    }

    // One call and all areas after it: the index is the Rust's, marks included. In large sets the
    // word that the call may write, and all else at times: what was written there stays.
    pub(super) fn call(
        &mut self,
        group: &mut Group,
        name: &str,
        ask: Ask,
        word: usize,
        wanted: &[u64],
    ) {
        let refusal = (self.by)(&mut self.world, &ask, ask.answer());
        self.asked += 1;
        let (world, plain, asked) = (&self.world, &self.plain, ask.answer());
        let input = || format!("{}, {ask:x?}", self.about);
        group.rust(name, refusal, 0, input);
        group.area(name, &world.out[..asked], wanted, input);
        let words = self.set.shown();
        let same = world.out[asked..].iter().all(|&word| word == UNSET)
            && world.index[words.len()..] == plain.index[words.len()..]
            && world.set == plain.set
            && world.builder == plain.builder;
        group.rust("words past the answer and the index", same, true, input);
        if self.asked % world.interval() > 0 {
            group.rust("index word", world.index[word], words[word], input);
            return;
        }
        group.area("index", &world.index[..words.len()], words, input);
        self.rest(group, name);
    }

    // The word of the index that a lookup of a key may write, before it is asked: nothing was
    // written there by a call before.
    fn word(&self, group: &mut Group, key: &[u8], hash: u64) -> usize {
        let world = &self.world;
        if world.interval() == 1 {
            return 0;
        }
        let slot = self
            .set
            .find(key, hash)
            .map_or(0, |found| found[0] as usize);
        let packed = world.set[4] != 0;
        let word = if packed { slot / 8 } else { slot };
        let (port, rust) = (world.index[word], self.set.shown()[word]);
        group.rust("index word before", port, rust, || self.about.clone());
        word
    }

    fn rest(&self, group: &mut Group, name: &str) {
        let (world, plain) = (&self.world, &self.plain);
        let input = || format!("{}, {name}", self.about);
        if plain.arena.is_empty() {
            self.records(group, input);
        } else {
            group.area("arena", &world.arena, &plain.arena, input);
        }
        let same = world.filter == plain.filter
            && world.starts == plain.starts
            && world.lengths == plain.lengths
            && world.scratch == plain.scratch;
        group.rust("filter, starts, lengths, scratch", same, true, input);
    }

    // An arena of which there is no copy: the Rust's segments, and nothing behind the filled bytes.
    fn records(&self, group: &mut Group, input: impl Fn() -> String) {
        let arena = &self.world.arena;
        for (start, bytes) in self.set.segments() {
            let there = arena.get(start as usize..).unwrap_or(&[]);
            let there = &there[..bytes.len().min(there.len())];
            group.area("segment", there, &bytes, &input);
        }
        let rest = has_pattern(arena, self.filled);
        group.rule("arena past the records", rest, true, input);
    }

    pub fn get(&mut self, group: &mut Group, key: &[u8], hash: u64, tick: u64) {
        let word = self.word(group, key, hash);
        let rust = self.set.get(key, hash, tick, true);
        let wanted = rust.map_or([0; 3], |[at, len]| [1, at, len]);
        self.call(group, "get", Ask::Get { hash, key, tick }, word, &wanted);
    }

    fn peek(&mut self, group: &mut Group, key: &[u8], hash: u64, tick: u64) {
        let rust = self.set.get(key, hash, tick, false);
        let wanted = rust.map_or([0; 3], |[at, len]| [1, at, len]);
        self.call(group, "peek", Ask::Peek { hash, key, tick }, 0, &wanted);
    }

    fn take(&mut self, group: &mut Group, key: &[u8], hash: u64) {
        let word = self.word(group, key, hash);
        let wanted = [self.set.take_accessed(key, hash).into()];
        self.call(
            group,
            "take_accessed",
            Ask::Take { hash, key },
            word,
            &wanted,
        );
    }

    fn probe(&mut self, group: &mut Group, key: &[u8], hash: u64, tick: u64) {
        let wanted = flagged(self.set.probe(key, hash, tick));
        self.call(group, "probe", Ask::Probe { hash, key, tick }, 0, &wanted);
    }

    // Every kind of lookup of one key at one tick, marks set and cleared between them.
    pub fn all_ways(&mut self, group: &mut Group, key: &[u8], hash: u64, tick: u64) {
        self.peek(group, key, hash, tick);
        self.probe(group, key, hash, tick);
        self.get(group, key, hash, tick);
        self.take(group, key, hash);
    }

    // Every stored key at the ticks where its answer may change, and keys that are not stored. One
    // stored key in so many is asked in every way, the others in one.
    pub fn lookups(&mut self, group: &mut Group, rng: &mut Rng, list: &[Entry], one_in: usize) {
        for (i, entry) in list.iter().enumerate() {
            if i % one_in == 0 {
                self.stored(group, rng, entry, list.len());
            } else {
                self.one_way(group, rng, entry);
            }
        }
        // A miss in a crowded set sees all records.
        let step = if list.len() > 100 { 16 } else { 1 };
        for entry in list.iter().step_by(step) {
            let changed = crate::sets::finds::changed(rng, &entry.key);
            let tick = rng.below(65_540);
            self.all_ways(group, &changed, entry.hash, tick);
            self.get(group, b"absent", entry.hash, tick);
            self.get(group, &entry.key, rng.next(), tick);
        }
        for _ in 0..4 {
            self.all_ways(group, b"", rng.next(), 0);
        }
        // Marks that stay.
        for entry in list.iter().step_by(3) {
            self.get(group, &entry.key, entry.hash, rng.below(65_540));
        }
    }

    // One tick before its deadline, at it and one after it.
    fn around(&self, entry: &Entry) -> [u64; 3] {
        let found = self.set.find(&entry.key, entry.hash);
        let deadline = found.map_or(0, |found| found[7]);
        [deadline.saturating_sub(1), deadline, deadline + 1]
    }

    fn one_way(&mut self, group: &mut Group, rng: &mut Rng, entry: &Entry) {
        let (key, hash) = (&entry.key[..], entry.hash);
        let tick = match rng.one_in(4) {
            true => rng.pick(&TICKS),
            false => rng.pick(&self.around(entry)),
        };
        match rng.below(4) {
            0 => self.peek(group, key, hash, tick),
            1 => self.probe(group, key, hash, tick),
            2 => self.get(group, key, hash, tick),
            _ => self.take(group, key, hash),
        }
    }

    fn stored(&mut self, group: &mut Group, rng: &mut Rng, entry: &Entry, count: usize) {
        let (key, hash) = (&entry.key[..], entry.hash);
        let around = self.around(entry);
        if count > 20 {
            self.all_ways(group, key, hash, rng.pick(&around));
            self.get(group, key, hash, rng.pick(&TICKS));
            return;
        }
        for tick in around.into_iter().chain(TICKS) {
            self.all_ways(group, key, hash, tick);
        }
        self.get(group, key, hash, 0);
        self.get(group, key, hash, around[1]);
    }

    // Step by step from the first slot to the end, and from slots that are past it.
    pub fn walk(&mut self, group: &mut Group, tick: u64) {
        let rust = self.set.walk(tick);
        let mut from = 0;
        for record in &rust {
            let wanted = flagged(Some(*record));
            self.call(group, "walk step", Ask::Walk { from, tick }, 0, &wanted);
            from = record[0] + 1;
        }
        let slots = self.set.shown().len() as u64;
        for from in [from, slots - 1, slots, slots + 1, 1 << 63, u64::MAX] {
            let next = rust.iter().find(|record| record[0] >= from);
            let wanted = flagged(next.copied());
            self.call(group, "walk step", Ask::Walk { from, tick }, 0, &wanted);
        }
    }

    pub fn stats(&mut self, group: &mut Group) {
        if !self.own {
            return;
        }
        let stats = self.set.stats();
        self.call(group, "stats", Ask::Stats, 0, &stats);
        methods(group, &stats);
    }

    pub fn end(&self, group: &mut Group) {
        let words = self.set.shown();
        let index = &self.world.index[..words.len()];
        group.area("index", index, words, || format!("{}, end", self.about));
        self.rest(group, "after all lookups");
    }
}

pub fn flagged(record: Option<[u64; 11]>) -> [u64; 12] {
    let mut words = [0; 12];
    if let Some(record) = record {
        words[0] = 1;
        words[1..].copy_from_slice(&record);
    }
    words
}

// The three methods of statistics.
pub fn methods(group: &mut Group, stats: &[u64; 8]) {
    let calls = [
        port::calls::modeled_retained_bytes,
        port::calls::modeled_overhead_bytes,
        port::calls::index_load_bps,
    ];
    let mut found = [UNSET; 3];
    for (call, word) in calls.iter().zip(found.chunks_mut(1)) {
        let refusal = call(stats, word);
        group.rust("methods of statistics", refusal, 0, || format!("{stats:?}"));
    }
    let wanted = access_sets::methods(stats);
    group.area("methods of statistics", &found, &wanted, || {
        format!("{stats:?}")
    });
}
