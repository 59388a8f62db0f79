//! Counts of a set.
use crate::ffi;
use crate::refusal::Refusal;

const STATS_WORDS: usize = 8;

/// Counts of a set.
///
/// ```
/// use segment_cache::{Arena, Builder, Refusal, Setting};
///
/// let mut arena = Arena::new(64);
/// let mut builder = Builder::open(&mut arena, &Setting::without_expiry(), 1)?;
/// builder.push(1, b"x", b"east", None)?;
/// let stats = builder.finish(4096)?.stats()?;
/// assert_eq!((stats.entries, stats.index_slots, stats.record_bytes), (1, 8, 7));
/// assert_eq!(stats.modeled_retained_bytes(), 64 + 7);
/// assert_eq!(stats.modeled_overhead_bytes(), 64 + 2);
/// assert_eq!(stats.index_load_bps(), 1_250);
/// # Ok::<(), Refusal>(())
/// ```
#[derive(Clone, Copy, Debug, PartialEq, Eq)]
pub struct Stats {
    /// Records.
    pub entries: usize,
    /// Buckets of the index.
    pub buckets: usize,
    /// Slots of the index, eight a bucket.
    pub index_slots: usize,
    /// Bytes of index and filter.
    pub index_bytes: usize,
    /// Bytes of the segments.
    pub record_bytes: usize,
    /// Bytes of keys.
    pub logical_key_bytes: usize,
    /// Bytes of values.
    pub logical_value_bytes: usize,
    /// Bytes of records that are neither key nor value.
    pub record_header_bytes: usize,
}

impl Stats {
    pub(crate) fn of_set(set: &[u64]) -> Result<Stats, Refusal> {
        let mut words = [0; STATS_WORDS];
        Refusal::check(ffi::segment_cache_stats(set, &mut words))?;
        let [
            entries,
            buckets,
            index_slots,
            index_bytes,
            record_bytes,
            logical_key_bytes,
            logical_value_bytes,
            record_header_bytes,
        ] = words.map(|word| word as usize);
        Ok(Stats {
            entries,
            buckets,
            index_slots,
            index_bytes,
            record_bytes,
            logical_key_bytes,
            logical_value_bytes,
            record_header_bytes,
        })
    }

    /// Bytes of index, filter and segments.
    pub fn modeled_retained_bytes(&self) -> usize {
        self.number(ffi::segment_cache_modeled_retained_bytes)
    }

    /// Those beyond keys and values.
    pub fn modeled_overhead_bytes(&self) -> usize {
        self.number(ffi::segment_cache_modeled_overhead_bytes)
    }

    /// Slots taken, in hundredths of a percent.
    pub fn index_load_bps(&self) -> usize {
        self.number(ffi::segment_cache_index_load_bps)
    }

    fn number(&self, export: fn(&[u64], &mut [u64]) -> u64) -> usize {
        let words = [
            self.entries,
            self.buckets,
            self.index_slots,
            self.index_bytes,
            self.record_bytes,
            self.logical_key_bytes,
            self.logical_value_bytes,
            self.record_header_bytes,
        ];
        let mut out = [0];
        // These calls only refuse words of another number.
        Refusal::check(export(&words.map(|number| number as u64), &mut out))
            .expect("statistics are eight words");
        out[0] as usize
    }
}
