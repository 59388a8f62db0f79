//! The areas of words that a set works in: how long they must be, and their memory.
use crate::ffi::segment_cache_area_words;
use crate::refusal::Refusal;
use crate::setting::Setting;

/// How many words each area of a set needs. The wrapper lends areas of just these lengths; of the
/// arena the caller decides (see [`Setting::encoded_record_bytes`]).
///
/// ```
/// use segment_cache::{AreaWords, Setting};
///
/// let setting = Setting::without_expiry().with_negative_filter_bits_per_entry(8);
/// let words = AreaWords::of(&setting, 1_000).unwrap();
/// assert_eq!((words.index, words.filter, words.scratch), (8 * 143, 125, 143));
/// ```
#[derive(Clone, Copy, Debug, PartialEq, Eq)]
pub struct AreaWords {
    /// Eight words a bucket.
    pub index: usize,
    /// The negative filter.
    pub filter: usize,
    /// Starts of segments.
    pub starts: usize,
    /// Lengths of segments.
    pub lengths: usize,
    /// One word a bucket at the finish of a packed set.
    pub scratch: usize,
}

impl AreaWords {
    /// The words for this many records; refuses as [`Builder::open`](crate::Builder::open) does.
    pub fn of(setting: &Setting, records: usize) -> Result<AreaWords, Refusal> {
        AreaWords::of_setting_words(&setting.words(), records)
    }

    pub(crate) fn of_setting_words(setting: &[u64], records: usize) -> Result<AreaWords, Refusal> {
        let mut words = [0; 5];
        Refusal::check(segment_cache_area_words(setting, records, &mut words))?;
        let [index, filter, starts, lengths, scratch] = words.map(|count| count as usize);
        Ok(AreaWords {
            index,
            filter,
            starts,
            lengths,
            scratch,
        })
    }
}

// A set's own areas. Nobody else can reach them, so that no two sets share one.
pub(crate) struct Areas {
    pub(crate) index: Vec<u64>,
    pub(crate) filter: Vec<u64>,
    pub(crate) starts: Vec<u64>,
    pub(crate) lengths: Vec<u64>,
}

impl Areas {
    pub(crate) fn new(words: &AreaWords) -> Areas {
        Areas {
            index: vec![0; words.index],
            filter: vec![0; words.filter],
            starts: vec![0; words.starts],
            lengths: vec![0; words.lengths],
        }
    }
}
