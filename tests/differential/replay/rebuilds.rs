// The calls of a rebuild by the Rust, each written into the replay list with its answer. This file is
// a module twice, once for each build of the Rust.
use super::oracle::access_index as access;
use super::oracle::access_rebuilds::{Opening, Rebuild};
use super::oracle::set_hash;
use super::replay_calls::{Record, Sets, push_line};
use crate::replay_text as text;
use std::rc::Rc;

// A record of a finished set, as its walk tells it.
#[derive(Clone)]
pub struct Standing {
    pub key: Vec<u8>,
    pub value: Vec<u8>,
    pub location: usize,
    pub header: usize,
}

impl Standing {
    pub fn segment(&self) -> usize {
        self.location >> 32
    }
}

impl Sets<'_> {
    pub fn newest(&self) -> usize {
        self.sets.len() - 1
    }

    pub fn segments(&self) -> usize {
        self.sets[self.newest()].starts().len()
    }

    pub fn standing(&self) -> Vec<Standing> {
        let mut records = Vec::new();
        self.sets[self.newest()].visit(0, |record| {
            records.push(Standing {
                key: record.key.to_vec(),
                value: record.value.to_vec(),
                location: record.location,
                header: record.key_offset,
            })
        });
        records
    }

    // Opens a rebuild of the newest set. A refused one leaves an open one as it was.
    pub fn rebuild_open(&mut self, keep: &[u8], records: usize, capacity: usize, now: u64) -> bool {
        let kept: Vec<bool> = keep.iter().map(|&flag| flag != 0).collect();
        let opening = Opening {
            filled: self.filled,
            records,
            capacity,
            keep: &kept,
            now,
        };
        let source = self.newest();
        let rust = Rebuild::open(&self.sets[source], &opening);
        let answer = match &rust {
            Ok(rebuild) => Ok([rebuild.numbers()[2], rebuild.numbers()[3]]),
            Err(refusal) => Err(*refusal),
        };
        let sets = [self.next_number(), self.number(source)];
        let numbers = [&sets[..], &[records as u64, capacity as u64, now]].concat();
        (self.list).call("rebuild_open", keep, &[], &numbers, &text::answer(answer));
        let opened = rust.is_ok();
        if opened {
            self.rebuild = rust.ok();
        }
        opened
    }

    pub fn push_reused(&mut self, record: &Record, location: usize, header: usize) {
        let more = [location as u64, header as u64];
        self.rebuild_push("push_reused", record, &more, |rebuild| {
            rebuild.push_reused(&record.key, &record.value(), location, header)
        });
    }

    // Whether it was accepted.
    pub fn push_copied(&mut self, record: &Record) -> bool {
        let more = text::optional(2, record.lifetime);
        self.rebuild_push("push_copied", record, &more, |rebuild| {
            rebuild.push_copied(&record.key, &record.value(), record.lifetime)
        })
    }

    // The slot by the Rust's own walk, the location from the word that it wrote there.
    fn rebuild_push(
        &mut self,
        name: &str,
        record: &Record,
        more: &[u64],
        push: impl FnOnce(&mut Rebuild) -> Result<(), u64>,
    ) -> bool {
        let set = self.next_number();
        let Some(rebuild) = self.rebuild.as_mut() else {
            return false;
        };
        let slot = access::find_empty_build_slot(rebuild.index(), record.hash).unwrap_or(0);
        set_hash(record.hash);
        let rust = push(rebuild);
        let location = access::index_location(rebuild.index()[slot]);
        let place = [slot as u64, location as u64];
        push_line(self.list, name, set, record, more, rust.map(|()| place));
        rust.is_ok()
    }

    // Ends the rebuild, also where it is refused: the Rust's is gone then.
    pub fn rebuild_finish(&mut self) -> bool {
        let Some(rebuild) = self.rebuild.take() else {
            return false;
        };
        let copied = rebuild.copied().len() as u64;
        let rust = rebuild.finish();
        let answer = match &rust {
            Ok((set, [records, bytes, copied, new])) => {
                Ok([*records, *bytes, *copied, *new, set.starts().len() as u64])
            }
            Err(refusal) => Err(*refusal),
        };
        let numbers = [self.next_number()];
        (self.list).call("rebuild_finish", &[], &[], &numbers, &text::answer(answer));
        let Ok((set, _)) = rust else {
            return false;
        };
        self.filled += copied;
        self.sets.push(Rc::new(set));
        true
    }
}
