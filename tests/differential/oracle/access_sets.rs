// Put behind the oracle's source after access_index.rs: the numbers of a build, and the calls on a
// finished set with ticks and hashes given.
pub mod access_sets {
    use super::access::{end, number};
    use super::access_index::{Builder, Set, Setting, config};
    use super::*;

    impl Builder {
        // Records announced and in, buckets, filter words, bytes of records, keys and values.
        pub fn counts(&self) -> [u64; 7] {
            let builder = &self.0;
            let words = builder.negative_filter.as_ref().map_or(0, Vec::len);
            [
                builder.expected_entries,
                builder.inserted_entries,
                builder.bucket_count,
                words,
                builder.records.len(),
                builder.logical_key_bytes,
                builder.logical_value_bytes,
            ]
            .map(|count| count as u64)
        }

        // The same build with other index words and records.
        pub fn damaged(mut self, index: &[u64], records: &[u8]) -> Builder {
            self.0.raw_index.copy_from_slice(index);
            self.0.records.copy_from_slice(records);
            self
        }
    }

    impl Set {
        // The index as it stands; nothing else writes to it while this is read.
        pub fn shown(&self) -> &[u64] {
            let words = match self.cache.config.packed_bucket_index {
                true => &self.cache.packed_index,
                false => &self.cache.index,
            };
            // SAFETY: both are plain words of one size, and the test has one thread.
            unsafe { std::slice::from_raw_parts(words.as_ptr().cast::<u64>(), words.len()) }
        }

        // Place and length of a live value; it is marked where that is asked.
        #[inline(never)]
        pub fn get(&self, key: &[u8], hash: u64, tick: u64, mark: bool) -> Option<[u64; 2]> {
            let value = (self.cache).get_at_tick_hashed_inner(key, hash, tick, mark)?;
            let (_, record) = self.cache.find_record(key, hash)?;
            assert!(ptr::eq(value, record.value));
            Some([self.place(record.location, value), value.len() as u64])
        }

        pub fn take_accessed(&self, key: &[u8], hash: u64) -> bool {
            crate::set_hash(hash);
            self.cache.take_accessed(key)
        }

        pub fn probe(&self, key: &[u8], hash: u64, tick: u64) -> Option<[u64; 11]> {
            let record = self.cache.probe_hashed_at_tick(key, hash, tick)?;
            Some(self.describe(&record))
        }

        pub fn walk(&self, tick: u64) -> Vec<[u64; 11]> {
            let mut records = Vec::new();
            let mut visit = |record: SegmentBaseRecord<'_>| records.push(self.describe(&record));
            (self.cache).for_each_physical_entry_at_tick(tick, &mut visit);
            records
        }

        // Slot, location, bytes before the key, place and length of key and value, the time left (its
        // kind: 0 never, 1 a duration, 2 nothing; seconds and nanoseconds), and the end.
        fn describe(&self, record: &SegmentBaseRecord<'_>) -> [u64; 11] {
            let left = match record.remaining_ttl {
                Some(SegmentRemainingTtl::Never) => [0; 3],
                Some(SegmentRemainingTtl::Finite(left)) => {
                    [1, left.as_secs(), left.subsec_nanos().into()]
                }
                None => [2, 0, 0],
            };
            [
                record.slot as u64,
                record.location as u64,
                record.key_offset as u64,
                self.place(record.location, record.key),
                record.key.len() as u64,
                self.place(record.location, record.value),
                record.value.len() as u64,
                left[0],
                left[1],
                left[2],
                end(record.location, record.key_offset, record.key, record.value),
            ]
        }

        // All records in the order of their locations, as `record_at_location` tells them.
        pub fn records(&self) -> Vec<[u64; 8]> {
            let walk = self.walk(0).into_iter();
            let mut records: Vec<_> = walk
                .filter_map(|record| self.record_at_location(record[1] + 1))
                .collect();
            records.sort_unstable();
            records
        }

        // Where a part of a segment would stand in one arena.
        fn place(&self, location: usize, part: &[u8]) -> u64 {
            let segment = location >> RECORD_SEGMENT_OFFSET_BITS;
            let bytes = self.cache.record_segment_at(location);
            let bytes = bytes.map_or(&[][..], |(bytes, _)| bytes);
            let offset = part.as_ptr() as usize - bytes.as_ptr() as usize;
            self.starts[segment] + offset as u64
        }

        pub fn stats(&self) -> [u64; 8] {
            let stats = self.cache.stats();
            [
                stats.entries,
                stats.buckets,
                stats.index_slots,
                stats.index_bytes,
                stats.record_bytes,
                stats.logical_key_bytes,
                stats.logical_value_bytes,
                stats.record_header_bytes,
            ]
            .map(|count| count as u64)
        }
    }

    // A record as the Rust hands it out. Left: none has lapsed, Some(None) never does.
    pub struct Told<'a> {
        pub slot: usize,
        pub location: usize,
        pub key_offset: usize,
        pub key: &'a [u8],
        pub value: &'a [u8],
        pub left: Option<Option<Duration>>,
    }

    fn told(record: SegmentBaseRecord<'_>) -> Told<'_> {
        Told {
            slot: record.slot,
            location: record.location,
            key_offset: record.key_offset,
            key: record.key,
            value: record.value,
            left: record.remaining_ttl.map(|left| match left {
                SegmentRemainingTtl::Never => None,
                SegmentRemainingTtl::Finite(left) => Some(left),
            }),
        }
    }

    // The calls as they are, for measuring: nothing is worked out of what they answer.
    impl Set {
        #[inline(never)]
        pub fn value(&self, key: &[u8], hash: u64, tick: u64, mark: bool) -> Option<&[u8]> {
            (self.cache).get_at_tick_hashed_inner(key, hash, tick, mark)
        }

        #[inline(never)]
        pub fn probed(&self, key: &[u8], hash: u64, tick: u64) -> Option<Told<'_>> {
            (self.cache).probe_hashed_at_tick(key, hash, tick).map(told)
        }

        // The record at a position of the first segment: its deadline and its end.
        #[inline(never)]
        pub fn stored(&self, position: usize) -> Option<(u16, u64)> {
            let (records, expiry) = (&self.cache.records, self.cache.config.expiry);
            let record = record_at(records, expiry, position)?;
            let end = end(record.location, record.key_offset, record.key, record.value);
            Some((record.expires_at, end))
        }

        pub fn visit(&self, tick: u64, mut visit: impl FnMut(Told<'_>)) {
            let mut each = |record: SegmentBaseRecord<'_>| visit(told(record));
            (self.cache).for_each_physical_entry_at_tick(tick, &mut each);
        }
    }

    impl Builder {
        // With so many bytes set aside for the records, as an arena is lent to the port.
        pub fn with_room(setting: Setting, records: usize, bytes: usize) -> Result<Builder, u64> {
            let config = config(setting);
            let builder = SegmentCacheBuilder::try_new_with_record_capacity(config, records, bytes);
            builder.map(Builder).map_err(number)
        }
    }

    // The three methods of statistics with these numbers: bytes retained, overhead, load.
    pub fn methods(stats: &[u64; 8]) -> [u64; 3] {
        let [
            entries,
            buckets,
            index_slots,
            index_bytes,
            record_bytes,
            key,
            value,
            header,
        ] = stats.map(|count| count as usize);
        let stats = SegmentCacheStats {
            entries,
            buckets,
            index_slots,
            index_bytes,
            record_bytes,
            logical_key_bytes: key,
            logical_value_bytes: value,
            record_header_bytes: header,
        };
        [
            stats.modeled_retained_bytes() as u64,
            stats.modeled_overhead_bytes() as u64,
            stats.index_load_bps().into(),
        ]
    }
}
