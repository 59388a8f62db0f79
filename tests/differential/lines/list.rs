// Whole random lists of calls: one base set, then a line of rebuilds, with refused calls of every
// kind between. After each call keys are looked up in all sets of the line. This file is a module
// twice, once for each build of the Rust.
use super::line::{Lend, Line};
use super::oracle::access_index::Setting;
use crate::calls::records::{lifetime, taken, too_long};
use crate::calls::world::{Pushed, Sizes};
use crate::lines::records::Records;
use crate::lines::sides::At;
use crate::model::rules;
use crate::report::Group;
use crate::rng::Rng;
use std::collections::BTreeMap;
use std::time::Duration;

pub struct Shape {
    pub count: usize,
    pub target: u64,
    // Keys of two bytes at most and no values.
    pub tiny: bool,
    pub depth: usize,
}

// How often each call gave each answer.
pub type Seen = BTreeMap<(&'static str, u64), u64>;

pub struct List<'a> {
    pub line: Line,
    pub records: Records,
    pub rng: &'a mut Rng,
    seen: &'a mut Seen,
    pub arena: usize,
    // How many records the open rebuild has announced.
    pub announced: usize,
}

pub fn list(group: &mut Group, rng: &mut Rng, shape: &Shape, seen: &mut Seen) {
    let setting = any_setting(rng);
    let records = Records::new(rng, setting.tick.is_some(), 2 * shape.count + 2, shape.tiny);
    let about = format!(
        "{} records, target {}, {setting:?}",
        shape.count, shape.target
    );
    let arena = 5_000 + 120 * shape.count + rng.index(3_000);
    let Some(line) = Line::open(group, about, setting, shape.count, arena) else {
        return;
    };
    let mut list = List {
        line,
        records,
        rng,
        seen,
        arena,
        announced: 0,
    };
    if !list.base(group, shape) {
        return;
    }
    let mut deep = 0;
    while deep < shape.depth && list.rebuilt(group, shape.tiny && deep < 2) {
        deep += 1;
        if list.rng.one_in(5) {
            list.reload(group);
        }
    }
    list.seen("line", deep as u64);
    list.end(group);
}

// Half of the lists with expiry.
fn any_setting(rng: &mut Rng) -> Setting {
    let ticks = [
        Duration::from_secs(1),
        Duration::from_nanos(1),
        Duration::new(60, 1),
    ];
    Setting {
        tick: rng.one_in(2).then_some(rng.pick(&ticks)),
        occupied: 1 + rng.below(7) as u8,
        packed: rng.one_in(2),
        bits: rng.pick(&[0, 1, 8, 255]),
    }
}

impl List<'_> {
    pub fn seen(&mut self, call: &'static str, number: u64) {
        *self.seen.entry((call, number)).or_default() += 1;
    }

    fn seen_set(&mut self) {
        let world = self.line.world(At::Set(self.line.sets.len() - 1));
        let Some(set) = world.map(|world| world.set.clone()) else {
            return;
        };
        self.seen("segments", set[9]);
        self.seen("no byte in all segments", (set[11] == 0).into());
    }

    // Counts the answer, takes note of what was appended, and looks around.
    pub fn after(&mut self, group: &mut Group, call: &'static str, number: u64, tape: usize) {
        self.seen(call, number);
        if self.line.book.tape.len() > tape {
            let tape_now = &self.line.book.tape;
            self.records.appended(self.rng, tape as u64, tape_now);
        }
        self.line.look_around(group, self.rng, &self.records, 2);
    }

    fn base(&mut self, group: &mut Group, shape: &Shape) -> bool {
        for i in 0..3 * shape.count + 30 {
            let done = self.line.book.list.len();
            if done == shape.count && !self.rng.one_in(4) {
                break;
            }
            if self.rng.one_in(30) {
                self.finish(group, shape.target);
                if self.line.sets.len() == 1 {
                    return true;
                }
            }
            let key = match self.rng.one_in(12) {
                true => self.records.key(self.rng),
                false => self.records.key_of(i as u64),
            };
            self.append(group, "push", &key);
        }
        let mut target = shape.target;
        for _ in 0..60 {
            if self.finish(group, target) == 7 {
                target += 1;
            }
            if self.line.sets.len() == 1 {
                return true;
            }
        }
        false
    }

    // Mostly as it is; else one area is short.
    fn finish(&mut self, group: &mut Group, target: u64) -> u64 {
        let (short, at) = (self.rng.below(24), self.line.book.tape.len());
        let target = match short {
            4 => self.rng.pick(&[0, 100_663_297, u64::MAX]),
            _ => target,
        };
        let number = self
            .line
            .finish(group, target, &|sizes| shorten(sizes, short));
        self.after(group, "finish", number, at);
        if number == 0 {
            self.step(group, 0);
        }
        number
    }

    // Through a finished set without its index.
    fn step(&mut self, group: &mut Group, set: usize) {
        let met = self.line.steps(group, set);
        self.seen("stepped, not in the set", met.unused.into());
        self.seen("in the set, not stepped", met.inside.into());
    }

    // A push or a copied push, at times with an area that is short.
    fn append(&mut self, group: &mut Group, call: &'static str, key: &[u8]) {
        let (value, lifetime) = (self.records.value(self.rng), self.lifetime());
        let pushed = Pushed {
            hash: self.records.hash(key),
            key,
            value: &value,
            lifetime: &lifetime,
        };
        let tape = self.line.book.tape.len();
        let size = rules::record_bytes(self.line.setting.tick.is_some(), key, &value, 0).len();
        let short = self.rng.below(70);
        let exact = tape + size;
        let lend: Lend = &|sizes| match short {
            4 => sizes.arena = (exact - 1).min(sizes.arena),
            5 => sizes.arena = exact.min(sizes.arena),
            _ => shorten(sizes, short),
        };
        let number = match call {
            "push" => self.line.push(group, pushed, lend),
            _ => self.line.copied(group, pushed, lend),
        };
        self.after(group, call, number, tape);
    }

    // Most are taken; with expiry off none is.
    fn lifetime(&mut self) -> Vec<u64> {
        let rng = &mut *self.rng;
        let nanos = rng.pick(&[1_000_000_000, u64::MAX]);
        let Some(tick) = self.line.setting.tick else {
            return match rng.below(32) {
                0 => vec![rng.below(2), nanos],
                1 | 2 => vec![rng.below(2), 0],
                _ => Vec::new(),
            };
        };
        let ticks = rng.below(12);
        match rng.below(16) {
            0 => too_long(rng, tick).unwrap_or_default(),
            1 => vec![rng.below(2), nanos],
            2 => taken(rng, tick),
            3..9 => lifetime(u128::from(ticks) * tick.as_nanos()).unwrap_or_default(),
            _ => Vec::new(),
        }
    }

    // A rebuild from its open to its finish; others that are left unfinished may come before.
    fn rebuilt(&mut self, group: &mut Group, all: bool) -> bool {
        let depth = self.line.sets.len();
        // Some are refused on the way; all of them only where the model is wrong.
        if !(0..60).any(|_| self.opened(group, all)) {
            return false;
        }
        for _ in 0..140 {
            let missing = self.announced - self.line.book.list.len();
            let finish = missing == 0 && !self.rng.one_in(5) || self.rng.one_in(60);
            if self.rng.one_in(80) {
                self.opened(group, all);
            } else if finish {
                let short = self.rng.below(24);
                let tape = self.line.book.tape.len();
                let lend: Lend = &|sizes| shorten(sizes, short);
                let number = self.line.rebuild_finish(group, lend);
                self.after(group, "rebuild finish", number, tape);
            } else if let Some((record, location)) = self.reusable() {
                self.reuse(group, record, location);
            } else {
                let key = self.records.key(self.rng);
                self.append(group, "copied push", &key);
            }
            if self.line.sets.len() > depth {
                self.seen_set();
                self.step(group, depth);
                return true;
            }
        }
        false
    }

    // Goes on with the newest set alone, loaded from its file.
    fn reload(&mut self, group: &mut Group) {
        let page = self.line.book.finished.last();
        let Some((starts, lengths)) = page.map(|page| (page.starts.clone(), page.lengths.clone()))
        else {
            return;
        };
        let number = self.line.reload(group, self.arena);
        self.seen("load", number);
        let now = &self.line.book.finished[0].starts;
        let segments = starts.into_iter().zip(lengths).zip(now);
        let segments: Vec<_> = segments
            .map(|((from, length), &to)| (from, length, to))
            .collect();
        self.records.moved(&segments);
        self.line.look_around(group, self.rng, &self.records, 2);
        self.step(group, 0);
    }

    // Every key of the line in every set, and every set whole.
    fn end(&mut self, group: &mut Group) {
        for set in 0..self.line.sets.len() {
            for i in (0..self.line.book.finished.len()).rev() {
                let list = &self.line.book.finished[i].list;
                let keys: Vec<_> = list
                    .iter()
                    .take(40)
                    .map(|entry| entry.key.clone())
                    .collect();
                for key in keys {
                    self.line.look(group, self.rng, &self.records, set, &key);
                }
            }
            let tick = self.rng.pick(&[0, 1, 7, 65_534]);
            self.line.walk(group, set, tick);
            self.step(group, set);
            self.line.same_set(group, set);
            self.line.ask_loaded(group, self.rng, &self.records, set);
            let number = self.line.sheet(group, set);
            self.seen("sheet", number);
        }
    }
}

// An area that is in use one word shorter than needed, where the number says so.
pub fn shorten(sizes: &mut Sizes, short: u64) {
    match short {
        0 => sizes.starts = 255,
        1 => sizes.lengths = 255,
        2 => sizes.index -= 4,
        3 => sizes.scratch -= 4,
        _ => (),
    }
}
