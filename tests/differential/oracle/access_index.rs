// Put behind the oracle's source after access.rs: its index, and whole builds and finished sets
// with the words that they keep to themselves. The hash of a push is the number set before it.
pub mod access_index {
    use super::access::{end, expiry, number};
    use super::*;

    pub fn encode_index_word(hash: u64, location: usize) -> Option<u64> {
        super::encode_index_word(hash, location).ok()
    }

    pub fn index_tag(word: u64) -> u64 {
        super::index_tag(word)
    }

    pub fn index_location(word: u64) -> usize {
        super::index_location(word)
    }

    pub fn bucket_displacement(primary: usize, current: usize, buckets: usize) -> usize {
        super::bucket_displacement(primary, current, buckets)
    }

    #[inline(never)]
    pub fn find_build_slot(
        index: &[u64],
        records: &[u8],
        tick: Option<Duration>,
        key: &[u8],
        hash: u64,
    ) -> Result<usize, u64> {
        super::find_build_slot(index, records, expiry(tick), key, hash).map_err(number)
    }

    #[inline(never)]
    pub fn find_empty_build_slot(index: &[u64], hash: u64) -> Result<usize, u64> {
        super::find_empty_build_slot(index, hash).map_err(number)
    }

    pub fn negative_filter_words(entries: usize, bits: u8) -> Option<Vec<u64>> {
        super::negative_filter_words(entries, bits).ok().flatten()
    }

    pub fn mark_negative_filter(filter: &mut Option<Vec<u64>>, hash: u64) {
        super::mark_negative_filter(filter, hash);
    }

    pub fn negative_filter_may_contain(filter: Option<&[u64]>, hash: u64) -> bool {
        super::negative_filter_may_contain(filter, hash)
    }

    #[inline(never)]
    pub fn split_record_segments(
        index: &mut [u64],
        records: Vec<u8>,
    ) -> Result<Vec<Arc<[u8]>>, u64> {
        super::split_record_segments(index, records).map_err(number)
    }

    #[inline(never)]
    pub fn finish_packed_words(index: Vec<u64>, buckets: usize) -> Result<Box<[AtomicU64]>, u64> {
        super::finish_packed_index(index, buckets).map_err(number)
    }

    pub fn finish_packed_index(index: Vec<u64>, buckets: usize) -> Result<Vec<u64>, u64> {
        Ok(plain(&finish_packed_words(index, buckets)?))
    }

    // The secondary tag and the location, which is below 0 where none is stored.
    pub fn packed_reference_at(words: &[u64], buckets: usize, slot: usize) -> Option<(u16, usize)> {
        super::packed_reference_at(&atomic(words), buckets, slot)
    }

    fn plain(words: &[AtomicU64]) -> Vec<u64> {
        let read = |word: &AtomicU64| word.load(Ordering::Relaxed);
        words.iter().map(read).collect()
    }

    fn atomic(words: &[u64]) -> Box<[AtomicU64]> {
        words.iter().map(|&word| AtomicU64::new(word)).collect()
    }

    #[derive(Clone, Copy, Debug)]
    pub struct Setting {
        pub tick: Option<Duration>,
        pub occupied: u8,
        pub packed: bool,
        pub bits: u8,
    }

    pub(super) fn config(setting: Setting) -> SegmentCacheConfig {
        SegmentCacheConfig {
            expiry: expiry(setting.tick),
            target_occupied_slots: setting.occupied,
            packed_bucket_index: setting.packed,
            negative_filter_bits_per_entry: setting.bits,
        }
    }

    pub struct Builder(pub(super) SegmentCacheBuilder);

    impl Builder {
        pub fn open(setting: Setting, records: usize) -> Result<Builder, u64> {
            let builder = SegmentCacheBuilder::try_new(config(setting), records);
            builder.map(Builder).map_err(number)
        }

        pub fn push(
            &mut self,
            key: &[u8],
            value: &[u8],
            lifetime: Option<Duration>,
        ) -> Result<(), u64> {
            self.0.push(key, value, lifetime).map_err(number)
        }

        pub fn buckets(&self) -> usize {
            self.0.bucket_count
        }

        pub fn index(&self) -> &[u64] {
            &self.0.raw_index
        }

        pub fn records(&self) -> &[u8] {
            &self.0.records
        }

        pub fn filter(&self) -> Option<&[u64]> {
            self.0.negative_filter.as_deref()
        }

        pub fn finish(self) -> Result<Set, u64> {
            self.0.finish().map(Set::new).map_err(number)
        }
    }

    // A finished set, and where each of its segments would begin in one arena.
    pub struct Set {
        pub(super) cache: FrozenSegmentCache,
        pub(super) starts: Vec<u64>,
    }

    // What a finished set is made of. A filter without words is none.
    pub struct Parts<'a> {
        pub setting: Setting,
        pub index: &'a [u64],
        pub filter: &'a [u64],
        pub arena: &'a [u8],
        pub starts: &'a [u64],
        pub lengths: &'a [u64],
    }

    impl Set {
        fn new(cache: FrozenSegmentCache) -> Set {
            let mut starts = vec![0];
            for length in lengths(&cache) {
                starts.push(starts[starts.len() - 1] + length);
            }
            starts.pop();
            Set { cache, starts }
        }

        pub fn forged(parts: &Parts<'_>) -> Set {
            let segment = |(&start, &length): (&u64, &u64)| -> Arc<[u8]> {
                Arc::from(&parts.arena[start as usize..(start + length) as usize])
            };
            let mut segments = parts.starts.iter().zip(parts.lengths).map(segment);
            let (index, packed_index) = match parts.setting.packed {
                true => (atomic(&[]), atomic(parts.index)),
                false => (atomic(parts.index), atomic(&[])),
            };
            let cache = FrozenSegmentCache {
                index,
                packed_index,
                negative_filter: Some(parts.filter.into()).filter(|_| !parts.filter.is_empty()),
                records: segments.next().unwrap_or_default(),
                second_record_segment: segments.next(),
                additional_record_segments: segments.collect(),
                hash_builder: GenerationHashBuilder::default(),
                config: config(parts.setting),
                started: Instant::now(),
                stats: SegmentCacheStats {
                    buckets: parts.index.len() / BUCKET_SLOTS,
                    index_slots: parts.index.len(),
                    ..Default::default()
                },
            };
            let starts = parts.starts.to_vec();
            Set { cache, starts }
        }

        pub fn words(&self) -> Vec<u64> {
            match self.cache.config.packed_bucket_index {
                true => plain(&self.cache.packed_index),
                false => plain(&self.cache.index),
            }
        }

        pub fn filter(&self) -> Option<&[u64]> {
            self.cache.negative_filter.as_deref()
        }

        pub fn starts(&self) -> &[u64] {
            &self.starts
        }

        pub fn lengths(&self) -> Vec<u64> {
            lengths(&self.cache)
        }

        pub fn mark(&self, slot: usize) {
            self.cache.mark_accessed(slot);
        }

        pub fn clear(&self, slot: usize) -> bool {
            self.cache.clear_accessed(slot)
        }

        // The slot, and what `record_at_location` says.
        #[inline(never)]
        pub fn find(&self, key: &[u8], hash: u64) -> Option<[u64; 9]> {
            let (slot, record) = self.cache.find_record(key, hash)?;
            let [a, b, c, d, e, f, g, h] = self.told(&record);
            Some([slot as u64, a, b, c, d, e, f, g, h])
        }

        // A stored location is the location plus 1; the Rust takes 1 from it without a question.
        pub fn record_at_location(&self, stored: u64) -> Option<[u64; 8]> {
            let location = stored.wrapping_sub(1) as usize;
            let record = self.cache.record_at_location(location)?;
            Some(self.told(&record))
        }

        // Location, bytes before the key, place and length of key and value, deadline, end. The
        // places are taken from the slices themselves, not worked out from the lengths.
        fn told(&self, record: &RecordRef<'_>) -> [u64; 8] {
            let segment = record.location >> RECORD_SEGMENT_OFFSET_BITS;
            let bytes = self.cache.record_segment_at(record.location);
            let bytes = bytes.map_or(&[][..], |(bytes, _)| bytes);
            let place = |part: &[u8]| {
                let offset = part.as_ptr() as usize - bytes.as_ptr() as usize;
                self.starts[segment] + offset as u64
            };
            [
                record.location as u64,
                record.key_offset as u64,
                place(record.key),
                record.key.len() as u64,
                place(record.value),
                record.value.len() as u64,
                u64::from(record.expires_at),
                end(record.location, record.key_offset, record.key, record.value),
            ]
        }
    }

    fn lengths(cache: &FrozenSegmentCache) -> Vec<u64> {
        (0..cache.record_segment_count())
            .filter_map(|segment| cache.record_segment_bytes(segment))
            .map(|bytes| bytes as u64)
            .collect()
    }
}
