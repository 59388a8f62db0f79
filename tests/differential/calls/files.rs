// A finished set as a file, and the set that is loaded from it. This file is a module twice, once for each
// build of the Rust.
use super::lookups::Finished;
use super::oracle::access_index::{Parts, Set, Setting};
use crate::calls::world::{Ask, By, UNSET, World};
use crate::files::load::loaded;
use crate::model::files::{Words, pieces, unmarked};
use crate::report::Group;
use crate::rng::has_pattern;
use std::borrow::Cow;

impl Finished {
    // Writes the set and compares the file with the model's, which has the Rust's index, filter and lengths:
    // marks cleared, and of a rebuilt set only its own segments. An area one byte short is refused.
    pub fn written(&mut self, group: &mut Group) -> Vec<u8> {
        let size = self.pieces().iter().map(|piece| piece.len()).sum::<usize>();
        self.call(group, "file bytes", Ask::FileBytes, 0, &[size as u64]);
        self.world.room_for_file(size);
        self.world.lent.file = size - 1;
        self.refused_write(group);
        self.world.lent.file = size + 3;
        self.call(group, "write", Ask::WriteFile, 0, &[size as u64]);
        let mut file = std::mem::take(&mut self.world.file);
        self.world.lent.file = 0;
        self.same_pieces(group, &file);
        let rest = has_pattern(&file, size);
        group.rule("file area past the file", rest, true, || self.about.clone());
        file.truncate(size);
        file
    }

    fn refused_write(&mut self, group: &mut Group) {
        let refusal = self.ask(&Ask::WriteFile);
        let about = || format!("{}, a byte short", self.about);
        group.rule("write", refusal, 10, about);
        group.rule("answer", self.world.out[0], UNSET, about);
        let rest = has_pattern(&self.world.file, 0);
        group.rule("file area after a refusal", rest, true, about);
    }

    fn pieces(&self) -> Vec<Cow<'_, [u8]>> {
        let words = Words {
            set: &self.world.set,
            index: self.set.shown(),
            filter: self.set.filter().unwrap_or(&[]),
            starts: self.set.starts(),
            lengths: &self.set.lengths(),
        };
        pieces(&words, &self.world.arena)
    }

    fn same_pieces(&self, group: &mut Group, file: &[u8]) {
        let mut at = 0;
        for (i, piece) in self.pieces().iter().enumerate() {
            let there = &file[at..(at + piece.len()).min(file.len())];
            let about = || format!("{}, piece {i}", self.about);
            group.area("file", there, piece.as_ref(), about);
            at += piece.len();
        }
    }

    // After lookups, whose marks stand in the index: the same file.
    pub fn written_again(&mut self, group: &mut Group, file: &[u8]) {
        let again = self.written(group);
        group.area("file after marks", &again, file, || self.about.clone());
    }

    // Goes on with the set that is loaded from its file, in fresh areas. It was built and has no marks yet, so
    // that its segments stand where they stood and the Rust's set is the same.
    pub fn load(&mut self, group: &mut Group, file: &[u8]) {
        // The two arenas are not held beside each other.
        self.world.arena = Vec::new();
        self.world.lent.arena = 0;
        let about = format!("loaded, {}", self.about);
        let by = self.answers();
        if let Some(world) = loaded(group, by, &about, file) {
            self.go_on(about, world);
        }
    }

    // The loaded set beside this one, which may have been rebuilt.
    pub fn beside(&self, group: &mut Group, setting: Setting, file: &[u8]) -> Option<Finished> {
        let about = format!("loaded, {}", self.about);
        let world = loaded(group, self.answers(), &about, file)?;
        Some(travelled(self.answers(), about, setting, world, &self.set))
    }

    // The value that a lookup without a mark finds.
    pub fn value(&mut self, hash: u64, key: &[u8], tick: u64) -> Option<Vec<u8>> {
        self.ask(&Ask::Peek { hash, key, tick });
        let [found, at, length] = [0, 1, 2].map(|i| self.world.out[i] as usize);
        let value = self.world.arena.get(at..at.checked_add(length)?);
        value.filter(|_| found == 1).map(<[u8]>::to_vec)
    }

    pub fn stats_are(&mut self, group: &mut Group, stats: &[u64; 8]) {
        self.call(group, "stats of a loaded set", Ask::Stats, 0, stats);
    }
}

// A set in the areas that its file was loaded into. The Rust's has its own index, filter and segments, which
// stand one behind the other as in the file, and no marks.
pub fn travelled(by: By, about: String, setting: Setting, world: World, set: &Set) -> Finished {
    let (lengths, mut starts, mut arena) = (set.lengths(), Vec::new(), Vec::new());
    for (_, bytes) in set.segments() {
        starts.push(arena.len() as u64);
        arena.extend_from_slice(bytes.as_ref());
    }
    let set = Set::forged(&Parts {
        setting,
        index: &unmarked(setting.packed, set.shown()),
        filter: set.filter().unwrap_or(&[]),
        arena: &arena,
        starts: &starts,
        lengths: &lengths,
    });
    Finished::new(by, about, world, set).put_together()
}
