// A set of the port and its areas, by the public calls.
use crate::ffi;
use crate::records::{Entry, NOW, OCCUPIED, Record, Shape, checksum};

// The segment target of the Rust.
pub const TARGET: usize = 96 * 1024 * 1024;

pub struct Areas {
    pub index: Vec<u64>,
    pub filter: Vec<u64>,
    pub starts: Vec<u64>,
    pub lengths: Vec<u64>,
    pub scratch: Vec<u64>,
}

impl Areas {
    // Every word is written, so that no call is the first to touch a page.
    pub fn cleared(shape: Shape, records: usize) -> Areas {
        let buckets = records.div_ceil(OCCUPIED.into()).max(1);
        let words = |count: usize| -> Vec<u64> { (0..count).map(|_| u64::MAX).collect() };
        Areas {
            index: words(8 * buckets),
            filter: words((records * usize::from(shape.bits)).div_ceil(64)),
            starts: words(256),
            lengths: words(256),
            scratch: words(if shape.packed { buckets } else { 0 }),
        }
    }

    pub fn checksum(&self) -> u64 {
        checksum(self.index.iter().chain(&self.filter).copied())
    }
}

pub struct Port {
    pub shape: Shape,
    records: usize,
    builder: [u64; 13],
    pub set: [u64; 15],
    pub areas: Areas,
    pub arena: Vec<u8>,
}

impl Port {
    pub fn new(shape: Shape, records: usize, arena: usize) -> Port {
        Port {
            shape,
            records,
            builder: [0; 13],
            set: [0; 15],
            areas: Areas::cleared(shape, records),
            arena: (0..arena).map(|_| 255).collect(),
        }
    }

    pub fn open(&mut self) {
        let Areas {
            index,
            filter,
            starts,
            lengths,
            ..
        } = &mut self.areas;
        let number = ffi::segment_cache_open(
            &self.shape.words(),
            self.records,
            &mut self.builder,
            index,
            filter,
            starts,
            lengths,
            &self.arena,
        );
        assert_eq!(number, 0, "open");
    }

    // The refusal's number.
    #[inline]
    pub fn push(&mut self, record: &Record) -> u64 {
        let (key, hash) = &record.entry;
        let mut place = [0; 2];
        ffi::segment_cache_push(
            &mut self.builder,
            *hash,
            key,
            &record.value,
            record.lifetime_words(),
            &mut self.areas.index,
            &mut self.areas.filter,
            &mut self.arena,
            &mut place,
        )
    }

    pub fn finish(&mut self, target: usize) -> u64 {
        ffi::segment_cache_finish(
            &self.builder,
            target,
            &mut self.areas.index,
            &mut self.areas.starts,
            &mut self.areas.lengths,
            &mut self.areas.scratch,
            &self.arena,
            &mut self.set,
        )
    }

    // 1, place and length of the value; or zeros.
    #[inline]
    pub fn get(&mut self, (key, hash): &Entry) -> [u64; 3] {
        let mut span = [0; 3];
        ffi::segment_cache_get(
            &self.set,
            *hash,
            key,
            NOW,
            &mut self.areas.index,
            &self.areas.filter,
            &self.areas.starts,
            &self.areas.lengths,
            &self.arena,
            &mut span,
        );
        span
    }

    #[inline]
    pub fn peek(&self, (key, hash): &Entry) -> [u64; 3] {
        let mut span = [0; 3];
        ffi::segment_cache_peek(
            &self.set,
            *hash,
            key,
            NOW,
            &self.areas.index,
            &self.areas.filter,
            &self.areas.starts,
            &self.areas.lengths,
            &self.arena,
            &mut span,
        );
        span
    }

    #[inline]
    pub fn take_accessed(&mut self, (key, hash): &Entry) -> u64 {
        let mut accessed = [0];
        ffi::segment_cache_take_accessed(
            &self.set,
            *hash,
            key,
            &mut self.areas.index,
            &self.areas.filter,
            &self.areas.starts,
            &self.areas.lengths,
            &self.arena,
            &mut accessed,
        );
        accessed[0]
    }

    // 1, slot, location, header bytes, place and length of key and value, kind, seconds and
    // nanoseconds of the time left, end; or zeros.
    #[inline]
    pub fn probe(&self, (key, hash): &Entry) -> [u64; 12] {
        let mut record = [0; 12];
        ffi::segment_cache_probe(
            &self.set,
            *hash,
            key,
            NOW,
            &self.areas.index,
            &self.areas.filter,
            &self.areas.starts,
            &self.areas.lengths,
            &self.arena,
            &mut record,
        );
        record
    }

    // A whole walk.
    #[inline]
    pub fn visit(&self, mut visit: impl FnMut(&[u64; 12])) {
        let (mut from, mut record) = (0, [0; 12]);
        loop {
            ffi::segment_cache_next_entry(
                &self.set,
                from,
                NOW,
                &self.areas.index,
                &self.areas.starts,
                &self.areas.lengths,
                &self.arena,
                &mut record,
            );
            if record[0] == 0 {
                return;
            }
            visit(&record);
            from = record[1] as usize + 1;
        }
    }

    // The first segment without the index, from its front to its end. Of a record: 1, location, header
    // bytes, place and length of key and value, deadline, end.
    #[inline]
    pub fn step(&self, mut visit: impl FnMut(&[u64; 9])) {
        let segment = &self.arena[..self.areas.lengths[0] as usize];
        let (mut position, mut record) = (0, [0; 9]);
        while position < segment.len() {
            ffi::segment_cache_record_at(&self.set[..6], segment, position, &mut record);
            assert_eq!(record[0], 1, "a record");
            visit(&record);
            position = record[8] as usize;
        }
    }
}
