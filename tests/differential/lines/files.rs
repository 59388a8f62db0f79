// The sets of a line as files. This file is a module twice, once for each build of the Rust.
use super::calls::files::travelled;
use super::calls::lookups::Finished;
use super::line::{Known, Line};
use crate::calls::world::{Sizes, port};
use crate::files::load::loaded;
use crate::lines::records::Records;
use crate::lines::sides::At;
use crate::model::files::held;
use crate::report::Group;
use crate::rng::Rng;

impl Line {
    // A set is written, by the model to the same bytes, and loaded into fresh areas.
    pub fn travel(&mut self, group: &mut Group, set: usize) -> Option<Finished> {
        let file = self.sides.write(group, &self.about, At::Set(set));
        let about = format!("loaded, set {set}, {}", self.about);
        let world = loaded(group, port, &about, &file)?;
        let known = &self.sets[set].set;
        Some(travelled(port, about, self.setting, world, known))
    }

    // Some keys of a loaded set in every way, by the Rust and by the book, its walk, its segments and its
    // statistics. Marks stood in the index that was written.
    pub fn ask_loaded(&mut self, group: &mut Group, rng: &mut Rng, records: &Records, set: usize) {
        let Some(mut loaded) = self.travel(group, set) else {
            return;
        };
        if self.sets[set].own {
            loaded.stats_are(group, &self.sets[set].set.stats());
        }
        let list = &self.book.finished[set].list;
        for _ in 0..list.len().min(4) + 1 {
            let key = match list.is_empty() || rng.one_in(5) {
                true => records.key(rng),
                false => list[rng.index(list.len())].key.clone(),
            };
            let entry = self.book.entry(set, &key);
            let deadline = entry.map_or(0, |entry| entry.deadline);
            let tick = rng.pick(&[0, deadline.saturating_sub(1), deadline, u64::MAX]);
            let hash = records.hash(&key);
            loaded.all_ways(group, &key, hash, tick);
            let (value, by_book) = (
                loaded.value(hash, &key, tick),
                self.book.answer(set, &key, tick),
            );
            let about = || format!("set {set}, {}, {key:x?}", self.about);
            group.rule(
                "loaded answer by the book",
                value.as_deref(),
                by_book,
                about,
            );
        }
        loaded.walk(group, rng.pick(&[0, 1, 7, 65_534]));
        loaded.steps_as_read(group);
        loaded.sheet(group);
        loaded.end(group);
    }

    // The newest set stands alone from now on, in an arena of so many bytes that its file is loaded into: the
    // next rebuild is one of a loaded set. What was open ends.
    pub fn reload(&mut self, group: &mut Group, arena: usize) -> u64 {
        let newest = self.sets.len() - 1;
        let file = self.sides.write(group, &self.about, At::Set(newest));
        let Ok(read) = held(&file) else {
            return u64::MAX;
        };
        let [buckets, words] = [read.set[7], read.set[8]].map(|count| count as usize);
        let lent = Sizes::for_counts(buckets, words, arena);
        let number = self.sides.load(group, &self.about, lent, &file);
        let world = loaded(group, port, &self.about, &file);
        self.book.load(newest);
        self.built &= newest == 0;
        self.rebuilding = None;
        if let Some(world) = world {
            let known = &self.sets[newest].set;
            let set = travelled(port, String::new(), self.setting, world, known).set;
            self.sets = vec![Known { set, own: false }];
        }
        self.same_set(group, 0);
        self.same_page(group, At::Set(0));
        number
    }
}
