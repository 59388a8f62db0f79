// Calls of the Rust, each written into the replay list with its answer. This file is a module twice,
// once for each build of the Rust.
use super::oracle::access::SEGMENT_TARGET;
use super::oracle::access_index::{self as access, Builder, Set, Setting};
use super::oracle::access_rebuilds::Rebuild;
use super::oracle::access_sets;
use super::oracle::set_hash;
use crate::replay_text::{self as text, List};
use std::rc::Rc;
use std::time::Duration;

// The value of a push is a part, so many times.
#[derive(Clone)]
pub struct Record {
    pub hash: u64,
    pub key: Vec<u8>,
    pub part: Vec<u8>,
    pub times: u64,
    pub lifetime: Option<Duration>,
}

impl Record {
    pub fn value(&self) -> Vec<u8> {
        self.part.repeat(self.times as usize)
    }
}

pub struct Build<'a> {
    list: &'a mut List,
    setting: Setting,
    builder: Builder,
}

// The first number of a line is that of the set which it makes or asks. An open makes the first.
const FIRST: u64 = 0;

// The setting stands as in the words that the call takes.
pub fn open_line(list: &mut List, setting: Setting, records: usize, rust: Result<[u64; 2], u64>) {
    let [flag, secs, nanos] = text::optional(1, setting.tick);
    let Setting { packed, bits, .. } = setting;
    let layout = [setting.occupied.into(), packed.into(), bits.into()];
    let numbers = [&[FIRST, records as u64, flag, secs, nanos], &layout[..]].concat();
    list.call("open", &[], &[], &numbers, &text::answer(rust));
}

impl<'a> Build<'a> {
    pub fn open(list: &'a mut List, setting: Setting, records: usize) -> Option<Build<'a>> {
        let builder = Builder::open(setting, records).ok()?;
        let [_, _, buckets, words, ..] = builder.counts();
        open_line(list, setting, records, Ok([buckets, words]));
        Some(Build {
            list,
            setting,
            builder,
        })
    }

    // Slot and location by the Rust's own walk and the bytes that it has.
    pub fn push(&mut self, record: &Record) {
        let (index, records) = (self.builder.index(), self.builder.records());
        let tick = self.setting.tick;
        let slot = access::find_build_slot(index, records, tick, &record.key, record.hash);
        let place = [slot.unwrap_or(0) as u64, records.len() as u64];
        set_hash(record.hash);
        let rust = (self.builder).push(&record.key, &record.value(), record.lifetime);
        let more = text::optional(2, record.lifetime);
        push_line(
            self.list,
            "push",
            FIRST,
            record,
            &more,
            rust.map(|()| place),
        );
    }

    // Ends the build, also where it is refused: the Rust's builder is gone then.
    pub fn finish(self) -> Option<Sets<'a>> {
        let filled = self.builder.records().len() as u64;
        let rust = self.builder.finish();
        let answer = match &rust {
            Ok(set) => Ok([set.starts().len() as u64, set.stats()[4]]),
            Err(refusal) => Err(*refusal),
        };
        let numbers = [FIRST, SEGMENT_TARGET as u64];
        (self.list).call("finish", &[], &[], &numbers, &text::answer(answer));
        Some(Sets {
            list: self.list,
            sets: vec![Rc::new(rust.ok()?)],
            filled,
            rebuild: None,
        })
    }
}

// A line with slot and location, or the refusal.
pub fn push_line(
    list: &mut List,
    name: &str,
    set: u64,
    record: &Record,
    more: &[u64],
    rust: Result<[u64; 2], u64>,
) {
    let numbers = [&[set, record.hash, record.times], more].concat();
    let answer = text::answer(rust);
    list.call(name, &record.key, &record.part, &numbers, &answer);
}

// The program has areas for so many sets; the number of a set is taken modulo it.
const AREAS: usize = 4;

// A line of finished sets, the newest last, and the rebuild of that one.
pub struct Sets<'a> {
    pub list: &'a mut List,
    pub sets: Vec<Rc<Set>>,
    // Bytes of the arena up to the end of the newest set.
    pub filled: u64,
    pub rebuild: Option<Rebuild>,
}

#[derive(Clone, Copy, PartialEq)]
pub enum Lookup {
    Get,
    Peek,
    Take,
    Probe,
}

impl Sets<'_> {
    // The number of a set in the list, while its areas are not those of a newer one.
    pub fn number(&self, set: usize) -> u64 {
        assert!(set < self.sets.len() && set + AREAS >= self.sets.len());
        (set % AREAS) as u64
    }

    // The number of the set that a rebuild makes.
    pub fn next_number(&self) -> u64 {
        (self.sets.len() % AREAS) as u64
    }

    pub fn look_up(&mut self, lookup: Lookup, set: usize, key: &[u8], hash: u64, tick: u64) {
        let (number, rust) = (self.number(set), &self.sets[set]);
        let (name, answer) = match lookup {
            Lookup::Get => ("get", text::found(rust.get(key, hash, tick, true))),
            Lookup::Peek => ("peek", text::found(rust.get(key, hash, tick, false))),
            Lookup::Take => {
                let accessed = rust.take_accessed(key, hash);
                ("take", text::answer(Ok([accessed.into()])))
            }
            Lookup::Probe => ("probe", text::found(rust.probe(key, hash, tick))),
        };
        let numbers = match lookup {
            Lookup::Take => vec![number, hash],
            _ => vec![number, hash, tick],
        };
        (self.list).call(name, key, &[], &numbers, &answer);
    }

    // From the first slot to the end of a set; a record begins with its slot.
    pub fn walk(&mut self, set: usize, tick: u64) {
        let (number, records) = (self.number(set), self.sets[set].walk(tick));
        let mut from = 0;
        for record in records.into_iter().map(Some).chain([None]) {
            let answer = text::found(record);
            (self.list).call("walk", &[], &[], &[number, from, tick], &answer);
            from = record.map_or(0, |record| record[0] + 1);
        }
    }

    pub fn stats(&mut self, set: usize) {
        let (number, stats) = (self.number(set), self.sets[set].stats());
        let answer = [&[0], &stats[..], &access_sets::methods(&stats)].concat();
        (self.list).call("stats", &[], &[], &[number], &answer);
    }

    // Index words, filter words, and of each segment its start, its length and its bytes. The numbers
    // say how many words and segments there are.
    pub fn checksum(&mut self, set: usize) {
        let (number, rust) = (self.number(set), &self.sets[set]);
        let (index, filter) = (rust.shown(), rust.filter().unwrap_or(&[]));
        let mut sum = text::with_words(text::with_words(0, index), filter);
        for (start, bytes) in rust.segments() {
            sum = text::with_words(sum, &[start, bytes.len() as u64]);
            sum = text::with_bytes(sum, &bytes);
        }
        let counts = [index.len(), filter.len(), rust.starts().len()].map(|count| count as u64);
        let numbers = [&[number], &counts[..]].concat();
        (self.list).call("checksum", &[], &[], &numbers, &[sum]);
    }
}
