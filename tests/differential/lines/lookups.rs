// Lookups, mark clearing, probes and walks in the sets of a line: the Rust's answers, and those of
// the book. This file is a module twice, once for each build of the Rust.
use super::calls::lookups::flagged;
use super::line::{AS_IT_IS, Line};
use crate::calls::world::Ask;
use crate::lines::records::Records;
use crate::lines::sides::At;
use crate::report::Group;
use crate::rng::Rng;

impl Line {
    // So many keys in every finished set: of its own records, of another set's, and any.
    pub fn look_around(&mut self, group: &mut Group, rng: &mut Rng, records: &Records, keys: u64) {
        for set in 0..self.sets.len() {
            for _ in 0..keys {
                let of = if rng.one_in(2) {
                    set
                } else {
                    rng.index(self.sets.len())
                };
                let list = &self.book.finished[of].list;
                let key = match list.is_empty() || rng.one_in(5) {
                    true => records.key(rng),
                    false => list[rng.index(list.len())].key.clone(),
                };
                self.look(group, rng, records, set, &key);
            }
        }
    }

    // One key at a tick near its deadline, or at any.
    pub fn look(
        &mut self,
        group: &mut Group,
        rng: &mut Rng,
        records: &Records,
        set: usize,
        key: &[u8],
    ) {
        let entry = self.book.entry(set, key);
        let deadline = entry.map_or(0, |entry| entry.deadline);
        let near = [
            deadline.saturating_sub(1),
            deadline,
            deadline.saturating_add(1),
        ];
        let any = [0, 1, 65_534, 65_535, 65_536, u64::MAX];
        let tick = if rng.one_in(3) {
            rng.pick(&any)
        } else {
            rng.pick(&near)
        };
        let hash = records.hash(key);
        let ask = match rng.below(8) {
            0 | 1 => Ask::Take { hash, key },
            2 => Ask::Peek { hash, key, tick },
            3 => Ask::Probe { hash, key, tick },
            _ => Ask::Get { hash, key, tick },
        };
        if rng.one_in(40) {
            let area = rng.below(3);
            self.refused_lookup(group, set, &ask, area);
        }
        self.lookup(group, set, &ask);
    }

    // With an area that is one short.
    fn refused_lookup(&mut self, group: &mut Group, set: usize, ask: &Ask, area: u64) {
        let number = self.call(group, At::Set(set), ask, &|sizes| match area {
            0 => sizes.starts = 255,
            1 => sizes.lengths = 255,
            _ => sizes.index -= 4,
        });
        group.rule("lookup", number, 11, || format!("{}, {ask:x?}", self.about));
    }

    fn lookup(&mut self, group: &mut Group, set: usize, ask: &Ask) {
        let number = self.call(group, At::Set(set), ask, AS_IT_IS);
        let known = &self.sets[set].set;
        let wanted = match *ask {
            Ask::Get { hash, key, tick } => span(known.get(key, hash, tick, true)),
            Ask::Peek { hash, key, tick } => span(known.get(key, hash, tick, false)),
            Ask::Probe { hash, key, tick } => flagged(known.probe(key, hash, tick)).to_vec(),
            Ask::Take { hash, key } => vec![u64::from(known.take_accessed(key, hash))],
            _ => Vec::new(),
        };
        let about = || format!("set {set}, {}, {ask:x?}", self.about);
        group.rust("lookup", number, 0, about);
        let answer = self.answer(At::Set(set), ask.answer());
        group.area("lookup", &answer, &wanted, about);
        if let Some(world) = self.sides.ours.world(At::Set(set)) {
            let words = known.shown();
            group.area("index", &world.index[..words.len()], words, about);
        }
        if let Ask::Get { key, tick, .. } | Ask::Peek { key, tick, .. } = *ask {
            let value = match answer[0] {
                0 => None,
                _ => {
                    let bytes = self.sides.ours.arena.get(answer[1] as usize..);
                    bytes.and_then(|bytes| bytes.get(..answer[2] as usize))
                }
            };
            let by_book = self.book.answer(set, key, tick);
            group.rule("answer by the book", value, by_book, about);
        }
    }

    // From the first slot to the end of a set.
    pub fn walk(&mut self, group: &mut Group, set: usize, tick: u64) {
        let rust = self.sets[set].set.walk(tick);
        let mut from = 0;
        for record in rust.into_iter().map(Some).chain([None]) {
            let ask = Ask::Walk { from, tick };
            self.call(group, At::Set(set), &ask, AS_IT_IS);
            let answer = self.answer(At::Set(set), ask.answer());
            group.area("walk step", &answer, &flagged(record), || {
                format!("set {set}, {}, from {from}", self.about)
            });
            from = record.map_or(0, |record| record[0] + 1);
        }
    }
}

fn span(found: Option<[u64; 2]>) -> Vec<u64> {
    found.map_or(vec![0; 3], |[at, length]| vec![1, at, length])
}
