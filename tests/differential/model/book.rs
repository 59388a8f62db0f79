// The book of a whole list of calls: what each set holds by the arguments of the calls alone and by
// which of them were accepted. It sees no state and no area.
use crate::model::rules::{NEVER, Setting, lives, record_at, record_bytes};

#[derive(Clone)]
pub struct Entry {
    pub key: Vec<u8>,
    pub value: Vec<u8>,
    pub deadline: u64,
}

// A record that was appended, and where.
#[derive(Clone)]
pub struct Written {
    pub at: u64,
    pub bytes: u64,
    pub entry: Entry,
}

pub struct Page {
    pub list: Vec<Entry>,
    pub starts: Vec<u64>,
    pub lengths: Vec<u64>,
    pub filled: u64,
}

pub struct Book {
    setting: Setting,
    // The bytes of all records that were appended, in one row.
    pub tape: Vec<u8>,
    pub finished: Vec<Page>,
    // All records on the tape, in its order, whether a set has them or not.
    written: Vec<Written>,
    // The records of the set that is being made.
    pub list: Vec<Entry>,
    // Of a rebuild: starts and lengths of what it keeps, and the tick from which copies count.
    kept: Vec<(u64, u64)>,
    base: u64,
}

impl Written {
    // As it is told on the bytes of a segment with this start.
    pub fn told(&self, start: u64) -> [u64; 9] {
        let Entry {
            key,
            value,
            deadline,
        } = &self.entry;
        let (key_len, value_len) = (key.len() as u64, value.len() as u64);
        let (location, end) = (self.at - start, self.at - start + self.bytes);
        let value_at = end - value_len;
        let key_at = value_at - key_len;
        [
            1,
            location,
            key_at - location,
            key_at,
            key_len,
            value_at,
            value_len,
            *deadline,
            end,
        ]
    }
}

fn entry_of(key: &[u8], value: &[u8], deadline: u64) -> Entry {
    Entry {
        key: key.to_vec(),
        value: value.to_vec(),
        deadline,
    }
}

impl Book {
    pub fn open(setting: Setting) -> Book {
        Book {
            setting,
            tape: Vec::new(),
            finished: Vec::new(),
            written: Vec::new(),
            list: Vec::new(),
            kept: Vec::new(),
            base: 0,
        }
    }

    // A push, or a copied push; the base is 0 in a build.
    pub fn append(&mut self, key: &[u8], value: &[u8], lifetime: &[u64]) {
        let deadline = match *lifetime {
            // What would be too much is never accepted.
            [secs, nanos] => {
                let ticks = self.setting.deadline(secs, nanos) as u64;
                self.base.saturating_add(ticks)
            }
            _ => NEVER,
        };
        let bytes = record_bytes(self.setting.on, key, value, deadline);
        let entry = entry_of(key, value, deadline);
        self.written.push(Written {
            at: self.tape.len() as u64,
            bytes: bytes.len() as u64,
            entry: entry.clone(),
        });
        self.tape.extend(bytes);
        self.list.push(entry);
    }

    // The first segment starts at 0, each next at the lowest record not below the last start plus
    // the target, where there is more than the target.
    pub fn finish(&mut self, target: u64) {
        let mut starts = vec![0];
        if self.tape.len() as u64 > target {
            for written in &self.written {
                if written.at >= starts[starts.len() - 1] + target {
                    starts.push(written.at);
                }
            }
        }
        let ends = starts.iter().skip(1).copied();
        let ends: Vec<u64> = ends.chain([self.tape.len() as u64]).collect();
        let length = |(&start, end): (&u64, u64)| (start, end - start);
        self.close(starts.iter().zip(ends).map(length).collect());
    }

    fn close(&mut self, segments: Vec<(u64, u64)>) {
        let (starts, lengths) = segments.into_iter().unzip();
        self.finished.push(Page {
            list: std::mem::take(&mut self.list),
            starts,
            lengths,
            filled: self.tape.len() as u64,
        });
    }

    // The records in a segment of a finished set, in the order in which they stand there.
    pub fn written_in(&self, set: usize, segment: usize) -> Vec<Written> {
        let page = &self.finished[set];
        let (start, end) = (
            page.starts[segment],
            page.starts[segment] + page.lengths[segment],
        );
        let first = self.written.partition_point(|written| written.at < start);
        let inside = self.written[first..].iter();
        inside
            .take_while(|written| written.at < end)
            .cloned()
            .collect()
    }

    fn newest(&self) -> &Page {
        &self.finished[self.finished.len() - 1]
    }

    pub fn rebuild_open(&mut self, keep: &[u8], now: u64) {
        let newest = self.newest();
        let filled = newest.filled;
        let segments = newest
            .starts
            .iter()
            .copied()
            .zip(newest.lengths.iter().copied());
        let kept = segments.zip(keep).filter(|(_, flag)| **flag != 0);
        self.kept = kept.map(|(segment, _)| segment).collect();
        self.tape.truncate(filled as usize);
        self.written.retain(|written| written.at < filled);
        self.list.clear();
        self.base = now;
    }

    // The location counts by the segments of the newest set.
    pub fn reuse(&mut self, key: &[u8], value: &[u8], location: u64) {
        let (segment, offset) = ((location >> 32) as usize, location % (1 << 32));
        let start = self.newest().starts.get(segment);
        let record = start.and_then(|start| record_at(&self.tape, self.setting.on, start + offset));
        let deadline = record.map_or(NEVER, |record| record.deadline);
        self.list.push(entry_of(key, value, deadline));
    }

    pub fn rebuild_finish(&mut self) {
        let cut = self.newest().filled;
        let mut segments = std::mem::take(&mut self.kept);
        let copied = self.tape.len() as u64 - cut;
        if copied > 0 || segments.is_empty() {
            segments.push((cut, copied));
        }
        self.close(segments);
    }

    // A finished set is loaded from its file, and stands alone from then on: the tape is that of its own
    // segments, one behind the other.
    pub fn load(&mut self, set: usize) {
        let page = self.finished.swap_remove(set);
        let (mut tape, mut written, mut starts) = (Vec::new(), Vec::new(), Vec::new());
        for (&from, &length) in page.starts.iter().zip(&page.lengths) {
            let start = tape.len() as u64;
            let segment = from..from + length;
            let inside = self
                .written
                .iter()
                .filter(|written| segment.contains(&written.at));
            written.extend(inside.map(|written| Written {
                at: written.at - from + start,
                ..written.clone()
            }));
            tape.extend_from_slice(&self.tape[from as usize..(from + length) as usize]);
            starts.push(start);
        }
        let filled = tape.len() as u64;
        self.finished = vec![Page {
            starts,
            filled,
            ..page
        }];
        (self.tape, self.written) = (tape, written);
        self.list.clear();
        self.kept.clear();
    }

    // The first record of a key counts, also where it has lapsed.
    pub fn answer(&self, set: usize, key: &[u8], tick: u64) -> Option<&[u8]> {
        let entry = self.entry(set, key)?;
        lives(entry.deadline, tick).then_some(&entry.value[..])
    }

    pub fn entry(&self, set: usize, key: &[u8]) -> Option<&Entry> {
        let list = &self.finished[set].list;
        list.iter().find(|entry| entry.key == key)
    }
}
