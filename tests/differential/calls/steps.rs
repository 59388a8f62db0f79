// A finished set, segment by segment without the index. This file is a module twice, once for each build
// of the Rust.
use super::lookups::Finished;
use crate::calls::world::Ask;
use crate::report::Group;

// A record of a set as it is told on the bytes of its segment, which starts there.
pub fn in_segment(record: [u64; 8], start: u64) -> [u64; 9] {
    let front = record[0] >> 32 << 32;
    let mut told = [1; 9];
    told[1..].copy_from_slice(&record);
    for (word, less) in [(1, front), (3, start), (5, start), (8, front)] {
        told[word] -= less;
    }
    told
}

impl Finished {
    // A set that was built: its records are just those of the Rust's set, in the order of their locations.
    pub fn steps(&mut self, group: &mut Group) {
        let mut rest = self.set.records().into_iter().peekable();
        for (segment, start, length) in self.segments() {
            let mut position = 0;
            while let Some(record) = rest.next_if(|record| record[0] >> 32 == segment as u64) {
                self.step(group, segment, position, &in_segment(record, start));
                position = self.world.out[8];
            }
            self.last_step(group, segment, position, length);
        }
        let left = rest.next();
        group.rust("records behind the segments", left, None, || {
            self.about.clone()
        });
    }

    // A set that was rebuilt, which may have records inside of values and lack others: each step gives what
    // the Rust reads at that position.
    pub fn steps_as_read(&mut self, group: &mut Group) {
        for (segment, start, length) in self.segments() {
            let mut position = 0;
            while position < length {
                let location = ((segment as u64) << 32) + position;
                let rust = self.set.record_at_location(location + 1);
                let wanted = rust.map_or([0; 9], |record| in_segment(record, start));
                self.step(group, segment, position, &wanted);
                if rust.is_none() {
                    break;
                }
                position = wanted[8];
            }
            self.last_step(group, segment, position, length);
        }
    }

    // Number, start and length.
    fn segments(&self) -> Vec<(usize, u64, u64)> {
        let starts = self.set.starts().iter().copied();
        let segments = starts.zip(self.set.lengths()).enumerate();
        segments
            .map(|(i, (start, length))| (i, start, length))
            .collect()
    }

    fn step(&mut self, group: &mut Group, segment: usize, position: u64, wanted: &[u64]) {
        let ask = Ask::Step { segment, position };
        self.call(group, "step", ask, 0, wanted);
    }

    // The last record ends where the segment does, and nothing is read there.
    fn last_step(&mut self, group: &mut Group, segment: usize, position: u64, length: u64) {
        let input = || format!("{}, segment {segment}", self.about);
        group.rust("end of the last record", position, length, input);
        self.step(group, segment, length, &[0; 9]);
    }
}
