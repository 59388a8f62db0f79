// The calls by the port, under the model's names.
pub use crate::ffi::{
    segment_cache_area_words as area_words,
    segment_cache_encoded_record_bytes as encoded_record_bytes,
    segment_cache_file_bytes as file_bytes, segment_cache_file_needs as file_needs,
    segment_cache_finish as finish, segment_cache_get as get,
    segment_cache_index_load_bps as index_load_bps, segment_cache_load_file as load_file,
    segment_cache_modeled_overhead_bytes as modeled_overhead_bytes,
    segment_cache_modeled_retained_bytes as modeled_retained_bytes,
    segment_cache_next_entry as next_entry, segment_cache_open as open, segment_cache_peek as peek,
    segment_cache_print_sheet as print_sheet, segment_cache_probe as probe,
    segment_cache_push as push, segment_cache_record_at as record_at,
    segment_cache_sheet_pages as sheet_pages, segment_cache_stats as stats,
    segment_cache_take_accessed as take_accessed, segment_cache_write_file as write_file,
};
pub use crate::port::rebuilds::{push_copied, push_reused, rebuild_finish, rebuild_open};

// How many words a builder and a set have.
pub fn state_words() -> [usize; 2] {
    [
        crate::ffi::segment_cache_builder_words(),
        crate::ffi::segment_cache_set_words(),
    ]
}
