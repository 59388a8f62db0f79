// Put behind the oracle's source after access_sets.rs: rebuilds of a finished set, with the numbers
// and words that they keep to themselves. The hash of a push is the number set before it.
pub mod access_rebuilds {
    use super::access::number;
    use super::access_index::Set;
    use super::*;
    use std::rc::Rc;

    // A rebuild, where its kept segments start in one arena, and the bytes filled before it.
    pub struct Rebuild {
        builder: SharedSegmentCacheBuilder<'static>,
        starts: Vec<u64>,
        filled: u64,
        // The builder reads it: it must live as long.
        _source: Rc<Set>,
    }

    pub struct Opening<'a> {
        // The bytes of the arena that the source's line of sets has filled.
        pub filled: u64,
        pub records: usize,
        pub capacity: usize,
        pub keep: &'a [bool],
        pub now: u64,
    }

    impl Rebuild {
        pub fn open(source: &Rc<Set>, opening: &Opening<'_>) -> Result<Rebuild, u64> {
            // SAFETY: the set is never moved out of its Rc, which is kept beside the builder.
            let cache: &'static FrozenSegmentCache = unsafe { &*ptr::from_ref(&source.cache) };
            let builder = SharedSegmentCacheBuilder::try_new(
                cache,
                opening.records,
                opening.capacity,
                opening.keep,
                GenerationHashBuilder::default(),
                opening.now,
            );
            let kept = source.starts.iter().zip(opening.keep);
            Ok(Rebuild {
                builder: builder.map_err(number)?,
                starts: kept
                    .filter_map(|(&start, &keep)| keep.then_some(start))
                    .collect(),
                filled: opening.filled,
                _source: Rc::clone(source),
            })
        }

        pub fn push_reused(
            &mut self,
            key: &[u8],
            value: &[u8],
            location: usize,
            header_bytes: usize,
        ) -> Result<(), u64> {
            let source = SegmentRecordLocation {
                location,
                header_bytes,
            };
            (self.builder.push_reused(key, value, source)).map_err(number)
        }

        pub fn push_copied(
            &mut self,
            key: &[u8],
            value: &[u8],
            lifetime: Option<Duration>,
        ) -> Result<(), u64> {
            self.builder
                .push_copied(key, value, lifetime)
                .map_err(number)
        }

        // Records announced and in, buckets, filter words, four words of kept segments, bytes
        // filled before and copied, key, value and header bytes, reused records and their bytes,
        // the base tick.
        pub fn numbers(&self) -> [u64; 16] {
            let builder = &self.builder;
            let mut kept = [0; 4];
            for (segment, new) in builder.source_segment_remap.iter().enumerate() {
                kept[segment / 64] |= u64::from(new.is_some()) << (segment % 64);
            }
            [
                builder.expected_entries as u64,
                builder.inserted_entries as u64,
                builder.bucket_count as u64,
                builder.negative_filter.as_ref().map_or(0, Vec::len) as u64,
                kept[0],
                kept[1],
                kept[2],
                kept[3],
                self.filled,
                builder.copied_records.len() as u64,
                builder.logical_key_bytes as u64,
                builder.logical_value_bytes as u64,
                builder.record_header_bytes as u64,
                builder.reused_entries as u64,
                builder.reused_record_bytes as u64,
                builder.source_now_tick,
            ]
        }

        pub fn index(&self) -> &[u64] {
            &self.builder.raw_index
        }

        pub fn filter(&self) -> &[u64] {
            self.builder.negative_filter.as_deref().unwrap_or(&[])
        }

        pub fn copied(&self) -> &[u8] {
            &self.builder.copied_records
        }

        // Where each kept segment starts, and its bytes.
        pub fn kept(&self) -> impl Iterator<Item = (u64, &[u8])> {
            let segments = self.builder.retained_segments.iter();
            (self.starts.iter().copied()).zip(segments.map(|segment| &segment[..]))
        }

        // The set, and the records and bytes reused, the bytes copied and newly allocated.
        pub fn finish(mut self) -> Result<(Set, [u64; 4]), u64> {
            let build = self.builder.finish().map_err(number)?;
            if build.cache.record_segment_count() > self.starts.len() {
                self.starts.push(self.filled);
            }
            let totals = [
                build.reused_entries,
                build.reused_record_bytes,
                build.copied_record_bytes,
                build.newly_allocated_bytes,
            ];
            let set = Set {
                cache: build.cache,
                starts: self.starts,
            };
            Ok((set, totals.map(|total| total as u64)))
        }
    }

    impl Set {
        // Where each segment starts, and its bytes.
        pub fn segments(&self) -> impl Iterator<Item = (u64, Arc<[u8]>)> {
            let segments = (0..).map_while(|segment| self.cache.record_segment(segment));
            self.starts.iter().copied().zip(segments)
        }
    }
}
