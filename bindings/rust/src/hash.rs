//! A hash for keys.

/// A hash for keys: FNV-1a, then the finisher of MurmurHash3; the header's `segment_cache_hash`.
///
/// FNV-1a alone leaves the upper bits of short keys alike, from which tag and bucket are taken; the
/// finisher carries every bit to all others. It has no secret: who chooses keys on purpose can choose many
/// of one tag and bucket, and lookups get slow.
///
/// ```
/// use segment_cache::{Arena, Builder, Refusal, Setting, hash};
///
/// let key = b"cell 1205";
/// let mut arena = Arena::new(64);
/// let mut builder = Builder::open(&mut arena, &Setting::without_expiry(), 1)?;
/// builder.push(hash(key), key, b"10.9 m", None)?;
/// let set = builder.finish(4096)?;
/// assert_eq!(set.peek(&arena, hash(key), key, 0)?, Some(&b"10.9 m"[..]));
/// # Ok::<(), Refusal>(())
/// ```
pub fn hash(bytes: &[u8]) -> u64 {
    let mut hash: u64 = 0xcbf2_9ce4_8422_2325;
    for byte in bytes {
        hash = (hash ^ u64::from(*byte)).wrapping_mul(0x0100_0000_01b3);
    }
    hash = (hash ^ (hash >> 33)).wrapping_mul(0xff51_afd7_ed55_8ccd);
    hash = (hash ^ (hash >> 33)).wrapping_mul(0xc4ce_b9fe_1a85_ec53);
    hash ^ (hash >> 33)
}
