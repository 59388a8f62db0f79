// The sets of a line, segment by segment without the index: each record that was appended there, once and
// in order, as the book has it and as the Rust reads it at the same place. This file is a module twice,
// once for each build of the Rust.
use super::calls::steps::in_segment;
use super::line::{AS_IT_IS, Line};
use crate::calls::world::Ask;
use crate::lines::sides::At;
use crate::model::book::Written;
use crate::report::Group;
use std::rc::Rc;

// What steps through a set met: a record that the set does not have, since it was not reused; and one of
// its records that is met by no step, since it stands inside another's value.
pub struct Met {
    pub unused: bool,
    pub inside: bool,
}

impl Line {
    pub fn steps(&mut self, group: &mut Group, set: usize) -> Met {
        let mut stepped = Vec::new();
        for segment in 0..self.book.finished[set].starts.len() {
            stepped.extend(self.segment_steps(group, set, segment));
        }
        let known = &self.sets[set].set;
        let place = |record: [u64; 8]| {
            let segment = record[0] >> 32;
            let start = known.starts().get(segment as usize).copied();
            (segment, in_segment(record, start.unwrap_or(0)))
        };
        let records: Vec<_> = known.records().into_iter().map(place).collect();
        // A set that was built has all records that were appended, and no others.
        if set == 0 && self.built {
            let about = || format!("set {set}, {}", self.about);
            group.area("records of the set", &stepped, &records, about);
        }
        Met {
            unused: stepped.iter().any(|record| !records.contains(record)),
            inside: records.iter().any(|record| !stepped.contains(record)),
        }
    }

    // The records of a segment as the port tells them, each with the segment's number.
    fn segment_steps(
        &mut self,
        group: &mut Group,
        set: usize,
        segment: usize,
    ) -> Vec<(u64, [u64; 9])> {
        let page = &self.book.finished[set];
        let (start, length) = (page.starts[segment], page.lengths[segment]);
        let mut stepped = Vec::new();
        let mut position = 0;
        for written in self.book.written_in(set, segment) {
            let record = self.step(group, set, segment, position);
            let about = || format!("set {set}, {}, segment {segment}, {position}", self.about);
            group.area("step by the book", &record, &written.told(start), about);
            self.same_parts(group, start, &record, &written);
            position = record[8];
            stepped.push((segment as u64, record));
        }
        let about = || format!("set {set}, {}, segment {segment}", self.about);
        group.rule("end of the last record", position, length, about);
        self.step(group, set, segment, length);
        stepped
    }

    // One step by the port and the model, and as the Rust reads the record there.
    fn step(&mut self, group: &mut Group, set: usize, segment: usize, position: u64) -> [u64; 9] {
        let ask = Ask::Step { segment, position };
        let number = self.call(group, At::Set(set), &ask, AS_IT_IS);
        let known = Rc::clone(&self.sets[set].set);
        let start = known.starts().get(segment).copied().unwrap_or(0);
        let rust = known.record_at_location(((segment as u64) << 32) + position + 1);
        let wanted = rust.map_or([0; 9], |record| in_segment(record, start));
        let about = || format!("set {set}, {}, {ask:?}", self.about);
        let mut record = [0; 9];
        record.copy_from_slice(&self.answer(At::Set(set), 9));
        group.rust("step", (number, record), (0, wanted), about);
        record
    }

    // Key and value where the step says that they are.
    fn same_parts(&self, group: &mut Group, start: u64, record: &[u64; 9], written: &Written) {
        let arena = &self.sides.ours.arena;
        let part = |at: u64, len: u64| {
            let bytes = arena.get((start + at) as usize..);
            bytes.and_then(|bytes| bytes.get(..len as usize))
        };
        let found = (part(record[3], record[4]), part(record[5], record[6]));
        let entry = &written.entry;
        let wanted = (Some(&entry.key[..]), Some(&entry.value[..]));
        let about = || format!("{}, {record:?}", self.about);
        group.rule("key and value of a step", found, wanted, about);
    }
}
