//! The exports of libcapi.a, each written as the library declares it. In C a slice is a pointer and a
//! length; the macro makes that declaration and a function on slices around it, so that no caller can
//! lend a length that isn't the slice's own. The tests and the bench call the library by this file too,
//! and use the macro for exports with other results.

macro_rules! export {
    (fn $name:ident($($rest:tt)*)) => {
        export!(fn $name($($rest)*) -> u64);
    };
    (fn $name:ident($($rest:tt)*) -> $result:ty) => {
        export!(@ $name $result [] [] [] $($rest)*);
    };
    (@ $name:ident $result:ty
        [$($c:tt)*] [$($params:tt)*] [$($args:tt)*] $arg:ident: &[$t:ty], $($rest:tt)*) => {
        export!(@ $name $result
            [$($c)* _: *const $t, _: usize,] [$($params)* $arg: &[$t],]
            [$($args)* $arg.as_ptr(), $arg.len(),] $($rest)*);
    };
    (@ $name:ident $result:ty
        [$($c:tt)*] [$($params:tt)*] [$($args:tt)*] $arg:ident: &mut [$t:ty], $($rest:tt)*) => {
        export!(@ $name $result
            [$($c)* _: *mut $t, _: usize,] [$($params)* $arg: &mut [$t],]
            [$($args)* $arg.as_mut_ptr(), $arg.len(),] $($rest)*);
    };
    (@ $name:ident $result:ty
        [$($c:tt)*] [$($params:tt)*] [$($args:tt)*] $arg:ident: $t:ty, $($rest:tt)*) => {
        export!(@ $name $result
            [$($c)* _: $t,] [$($params)* $arg: $t,]
            [$($args)* $arg,] $($rest)*);
    };
    (@ $name:ident $result:ty [$($c:tt)*] [$($params:tt)*] [$($args:tt)*]) => {
        #[allow(clippy::too_many_arguments)]
        pub fn $name($($params)*) -> $result {
            unsafe extern "C" {
                fn $name($($c)*) -> $result;
            }
            // SAFETY: every pointer and length is of a live slice, references don't alias, and the
            // library, proved for all inputs, reads and writes only inside the slices.
            unsafe { $name($($args)*) }
        }
    };
}

export!(fn segment_cache_open(
    setting: &[u64],
    records: usize,
    builder: &mut [u64],
    index: &mut [u64],
    filter: &mut [u64],
    starts: &[u64],
    lengths: &[u64],
    arena: &[u8],
));

export!(fn segment_cache_push(
    builder: &mut [u64],
    hash: u64,
    key: &[u8],
    value: &[u8],
    lifetime: &[u64],
    index: &mut [u64],
    filter: &mut [u64],
    arena: &mut [u8],
    place: &mut [u64],
));

export!(fn segment_cache_finish(
    builder: &[u64],
    target: usize,
    index: &mut [u64],
    starts: &mut [u64],
    lengths: &mut [u64],
    scratch: &mut [u64],
    arena: &[u8],
    set: &mut [u64],
));

export!(fn segment_cache_encoded_record_bytes(
    setting: &[u64],
    key_bytes: usize,
    value_bytes: usize,
    size: &mut [u64],
));

export!(fn segment_cache_record_at(
    setting: &[u64],
    records: &[u8],
    position: usize,
    record: &mut [u64],
));

export!(fn segment_cache_get(
    set: &[u64],
    hash: u64,
    key: &[u8],
    tick: u64,
    index: &mut [u64],
    filter: &[u64],
    starts: &[u64],
    lengths: &[u64],
    arena: &[u8],
    span: &mut [u64],
));

export!(fn segment_cache_peek(
    set: &[u64],
    hash: u64,
    key: &[u8],
    tick: u64,
    index: &[u64],
    filter: &[u64],
    starts: &[u64],
    lengths: &[u64],
    arena: &[u8],
    span: &mut [u64],
));

export!(fn segment_cache_take_accessed(
    set: &[u64],
    hash: u64,
    key: &[u8],
    index: &mut [u64],
    filter: &[u64],
    starts: &[u64],
    lengths: &[u64],
    arena: &[u8],
    accessed: &mut [u64],
));

export!(fn segment_cache_probe(
    set: &[u64],
    hash: u64,
    key: &[u8],
    tick: u64,
    index: &[u64],
    filter: &[u64],
    starts: &[u64],
    lengths: &[u64],
    arena: &[u8],
    record: &mut [u64],
));

export!(fn segment_cache_next_entry(
    set: &[u64],
    from: usize,
    tick: u64,
    index: &[u64],
    starts: &[u64],
    lengths: &[u64],
    arena: &[u8],
    record: &mut [u64],
));

export!(fn segment_cache_stats(
    set: &[u64],
    stats: &mut [u64],
));

export!(fn segment_cache_modeled_retained_bytes(
    stats: &[u64],
    out: &mut [u64],
));

export!(fn segment_cache_modeled_overhead_bytes(
    stats: &[u64],
    out: &mut [u64],
));

export!(fn segment_cache_index_load_bps(
    stats: &[u64],
    out: &mut [u64],
));

export!(fn segment_cache_rebuild_open(
    set: &[u64],
    source_starts: &[u64],
    source_lengths: &[u64],
    arena: &[u8],
    records: usize,
    copied_record_capacity: usize,
    used_source_segments: &[u8],
    source_now_tick: u64,
    rebuild: &mut [u64],
    index: &mut [u64],
    filter: &mut [u64],
    starts: &mut [u64],
    lengths: &mut [u64],
));

export!(fn segment_cache_push_reused(
    rebuild: &mut [u64],
    hash: u64,
    key: &[u8],
    value: &[u8],
    location: usize,
    header_bytes: usize,
    index: &mut [u64],
    filter: &mut [u64],
    starts: &[u64],
    lengths: &[u64],
    arena: &[u8],
    place: &mut [u64],
));

export!(fn segment_cache_push_copied(
    rebuild: &mut [u64],
    hash: u64,
    key: &[u8],
    value: &[u8],
    lifetime: &[u64],
    index: &mut [u64],
    filter: &mut [u64],
    starts: &[u64],
    lengths: &[u64],
    arena: &mut [u8],
    place: &mut [u64],
));

export!(fn segment_cache_rebuild_finish(
    rebuild: &[u64],
    index: &mut [u64],
    starts: &mut [u64],
    lengths: &mut [u64],
    scratch: &mut [u64],
    arena: &[u8],
    set: &mut [u64],
    totals: &mut [u64],
));

export!(fn segment_cache_area_words(
    setting: &[u64],
    records: usize,
    words: &mut [u64],
));

export!(fn segment_cache_file_bytes(
    set: &[u64],
    starts: &[u64],
    lengths: &[u64],
    bytes: &mut [u64],
));

export!(fn segment_cache_write_file(
    set: &[u64],
    index: &[u64],
    filter: &[u64],
    starts: &[u64],
    lengths: &[u64],
    arena: &[u8],
    file: &mut [u8],
    bytes: &mut [u64],
));

export!(fn segment_cache_file_needs(
    file: &[u8],
    needs: &mut [u64],
));

export!(fn segment_cache_load_file(
    file: &[u8],
    index: &mut [u64],
    filter: &mut [u64],
    starts: &mut [u64],
    lengths: &mut [u64],
    arena: &mut [u8],
    set: &mut [u64],
));

export!(fn segment_cache_sheet_pages(
    set: &[u64],
    index: &[u64],
    starts: &[u64],
    lengths: &[u64],
    arena: &[u8],
    pages: &mut [u64],
));

export!(fn segment_cache_print_sheet(
    set: &[u64],
    index: &[u64],
    starts: &[u64],
    lengths: &[u64],
    arena: &[u8],
    page: &mut [u8],
    pages: &mut [u64],
));

// The crate has these three as constants; tests of the library ask for them.
#[allow(dead_code)]
unsafe extern "C" {
    pub safe fn segment_cache_builder_words() -> usize;
    pub safe fn segment_cache_set_words() -> usize;
    pub safe fn segment_cache_rebuild_words() -> usize;
}
