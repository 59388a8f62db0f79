// What is compared after each call of a build. Small areas are compared whole. Of large ones the
// places that the call is to write, just before it and after it, and all else at times: what a call
// writes elsewhere stays there until it is seen, since no other call writes over it unseen. This file
// is a module twice, once for each build of the Rust.
use super::build::{Build, setting_words};
use super::oracle::access::negative_filter_location;
use crate::calls::world::World;
use crate::report::Group;
use crate::rng::{has_pattern, has_pattern_in, has_pattern_near};
use std::ops::Range;

// The places that a push may write, and the Rust's words there before it.
pub struct Places {
    slot: usize,
    index: u64,
    word: usize,
    filter: Option<u64>,
    // Of the arena; nothing where the push adds no record.
    pub record: Range<usize>,
}

impl Places {
    // Of a push of a hash that has this slot, with the Rust's areas and the end of the records.
    pub fn new(index: &[u64], filter: &[u64], slot: usize, hash: u64, filled: usize) -> Places {
        let (word, _) = negative_filter_location(filter.len().max(1), hash);
        Places {
            slot,
            index: index[slot],
            word,
            filter: filter.get(word).copied(),
            record: filled..filled,
        }
    }

    // Before the port's push: no call before has written there.
    pub fn untouched(&self, group: &mut Group, world: &World, about: impl Fn() -> String + Copy) {
        let about = || format!("before the push, {}", about());
        group.rust("slot", world.index[self.slot], self.index, about);
        if let Some(word) = self.filter {
            group.rust("filter word", world.filter[self.word], word, about);
        }
        let rest = has_pattern_in(&world.arena, self.record.clone());
        group.rule("arena of the record", rest, true, about);
    }

    // After it, with the Rust's areas and record; nothing is written behind the record.
    pub fn written(
        &self,
        group: &mut Group,
        world: &World,
        (index, filter, record): (&[u64], &[u64], &[u8]),
        about: impl Fn() -> String + Copy,
    ) {
        let (slot, word) = (self.slot, self.word);
        group.rust("slot", world.index[slot], index[slot], about);
        if let Some(&filter) = filter.get(word) {
            group.rust("filter word", world.filter[word], filter, about);
        }
        group.area("record", &world.arena[self.record.clone()], record, about);
        let near = has_pattern_near(&world.arena, self.record.end);
        group.rule("arena behind the record", near, true, about);
    }
}

impl Build {
    // As long as nothing is pushed.
    pub(super) fn places(&self, slot: usize, hash: u64) -> Places {
        let (index, filter) = (self.builder.index(), self.builder.filter());
        let filled = self.builder.records().len();
        Places::new(index, filter.unwrap_or(&[]), slot, hash, filled)
    }

    // Builder, index, filter and arena as the Rust has them, and all else as it was.
    pub(super) fn compare(
        &mut self,
        group: &mut Group,
        call: &str,
        places: &Places,
        input: impl Fn() -> String,
    ) {
        self.asked += 1;
        let (world, builder) = (&self.world, &self.builder);
        let about = || format!("{call}, {}, {}", self.about, input());
        let state = [&setting_words(self.setting)[..], &builder.counts()].concat();
        group.area("builder", &world.builder, &state, about);
        if self.asked % world.interval() == 0 {
            self.areas(group, about);
            return;
        }
        let filter = builder.filter().unwrap_or(&[]);
        let record = &builder.records()[places.record.clone()];
        places.written(group, world, (builder.index(), filter, record), about);
    }

    pub(super) fn areas(&self, group: &mut Group, about: impl Fn() -> String + Copy) {
        let (world, plain, builder) = (&self.world, &self.plain, &self.builder);
        let (records, filled) = (builder.records(), builder.records().len());
        let slots = builder.index().len();
        group.area("index", &world.index[..slots], builder.index(), about);
        group.area("index", &world.index[slots..], &plain.index[slots..], about);
        let filter = builder.filter().unwrap_or(&[]);
        let words = filter.len();
        group.area("filter", &world.filter[..words], filter, about);
        let rest = (&world.filter[words..], &plain.filter[words..]);
        group.area("filter", rest.0, rest.1, about);
        group.area("arena", &world.arena[..filled], records, about);
        if plain.arena.is_empty() {
            let rest = has_pattern(&world.arena, filled);
            group.rule("arena past the records", rest, true, about);
        } else {
            let rest = (&world.arena[filled..], &plain.arena[filled..]);
            group.area("arena", rest.0, rest.1, about);
        }
        group.area("starts", &world.starts, &plain.starts, about);
        group.area("lengths", &world.lengths, &plain.lengths, about);
        group.area("scratch", &world.scratch, &plain.scratch, about);
        group.area("set", &world.set, &plain.set, about);
    }
}
