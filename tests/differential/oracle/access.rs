// Put behind the oracle's source when it is built, so that its private functions can be called.
// Arguments and answers are plain data, since the two builds of the oracle share no types.
pub mod access {
    use super::*;

    pub const SEGMENT_TARGET: usize = TARGET_RECORD_SEGMENT_BYTES;

    // The number that the port gives to the same refusal.
    pub(super) fn number(refusal: SegmentCacheBuildError) -> u64 {
        match refusal {
            SegmentCacheBuildError::InvalidBucketOccupancy => 1,
            SegmentCacheBuildError::ZeroExpiryTick => 2,
            SegmentCacheBuildError::CapacityOverflow => 3,
            SegmentCacheBuildError::DuplicateKey => 4,
            SegmentCacheBuildError::ExpiryDisabled => 5,
            SegmentCacheBuildError::ExpiryOutOfRange => 6,
            SegmentCacheBuildError::ArenaTooLarge => 7,
            SegmentCacheBuildError::AllocationFailed => 10,
        }
    }

    pub(super) fn expiry(tick: Option<Duration>) -> SegmentExpiry {
        tick.map_or(SegmentExpiry::None, |tick| SegmentExpiry::Relative16 {
            tick,
        })
    }

    // The hash that a set would work out for a key.
    pub fn key_hash(key: &[u8]) -> u64 {
        GenerationHashBuilder::default().hash_one(key)
    }

    pub fn hash_tag(hash: u64) -> u64 {
        super::hash_tag(hash)
    }

    pub fn reduce_hash(hash: u64, buckets: usize) -> usize {
        super::reduce_hash(hash, buckets)
    }

    pub fn packed_control_tag(tag: u64) -> u8 {
        super::packed_control_tag(tag)
    }

    pub fn packed_secondary_tag(tag: u64) -> u16 {
        super::packed_secondary_tag(tag)
    }

    pub fn zero_byte_high_bits(value: u64) -> u64 {
        super::zero_byte_high_bits(value)
    }

    pub fn negative_filter_location(words: usize, hash: u64) -> (usize, u64) {
        super::negative_filter_location(words, hash)
    }

    pub fn encode_expiry(
        tick: Option<Duration>,
        lifetime: Option<Duration>,
        now_tick: u64,
    ) -> Result<u64, u64> {
        encode_expiry_at_tick(expiry(tick), lifetime, now_tick)
            .map(u64::from)
            .map_err(number)
    }

    // None: nothing is left. Some(None): it never lapses.
    pub fn remaining_ttl(
        tick: Option<Duration>,
        expires_at: u16,
        now_tick: u64,
    ) -> Option<Option<Duration>> {
        super::remaining_ttl(expiry(tick), expires_at, now_tick).map(|left| match left {
            SegmentRemainingTtl::Never => None,
            SegmentRemainingTtl::Finite(left) => Some(left),
        })
    }

    pub fn varint_bytes(value: usize) -> usize {
        super::varint_bytes(value)
    }

    pub fn write_varint(output: &mut Vec<u8>, value: usize) {
        super::write_varint(output, value);
    }

    // The value and the position after it.
    pub fn read_varint(input: &[u8], cursor: usize) -> Option<(usize, usize)> {
        let mut cursor = cursor;
        super::read_varint(input, &mut cursor).map(|value| (value, cursor))
    }

    pub fn encoded_record_bytes(
        tick: Option<Duration>,
        key_bytes: usize,
        value_bytes: usize,
    ) -> Result<u64, u64> {
        let config = tick.map_or(
            SegmentCacheConfig::without_expiry(),
            SegmentCacheConfig::with_relative_expiry,
        );
        SegmentCacheBuilder::encoded_record_bytes(config, key_bytes, value_bytes)
            .map(|size| size as u64)
            .map_err(number)
    }

    // Appends with base tick 0 and no limit to the location.
    pub fn append_record(
        records: &mut Vec<u8>,
        tick: Option<Duration>,
        key: &[u8],
        value: &[u8],
        lifetime: Option<Duration>,
    ) -> Result<(), u64> {
        append_record_at_tick(records, expiry(tick), key, value, lifetime, 0, usize::MAX)
            .map_err(number)
    }

    // The position just after a value. The Rust does not tell it: it is the sum of what it tells.
    pub(super) fn end(location: usize, key_offset: usize, key: &[u8], value: &[u8]) -> u64 {
        (location + key_offset + key.len() + value.len()) as u64
    }

    // Location, bytes before the key, key's place and length, value's place and length, deadline,
    // end. The places are taken from the slices themselves, not worked out from the lengths.
    pub fn record_at(records: &[u8], tick: Option<Duration>, location: usize) -> Option<[u64; 8]> {
        let record = super::record_at(records, expiry(tick), location)?;
        let place = |part: &[u8]| part.as_ptr() as usize - records.as_ptr() as usize;
        Some([
            record.location as u64,
            record.key_offset as u64,
            place(record.key) as u64,
            record.key.len() as u64,
            place(record.value) as u64,
            record.value.len() as u64,
            u64::from(record.expires_at),
            end(record.location, record.key_offset, record.key, record.value),
        ])
    }
}
