// The 28 exports: what each may answer, the areas and numbers that it is lent, and how it is called.
use crate::ffi::*;
use crate::lent::Role::*;
use crate::lent::{Lent, Numbers, Role};

pub struct Export {
    pub name: &'static str,
    pub answers: &'static [u64],
    // The areas in the order of the arguments, and whether the call writes them.
    areas: &'static [Option<(Role, bool)>],
    pub call: fn(&Lent, &Numbers) -> u64,
}

impl Export {
    pub fn roles(&self) -> impl Iterator<Item = Role> {
        self.areas.iter().flatten().map(|&(role, _)| role)
    }

    pub fn writes(&self, role: Role) -> bool {
        self.areas.contains(&Some((role, true)))
    }

    pub fn reads(&self, role: Role) -> bool {
        self.areas.contains(&Some((role, false)))
    }
}

// One argument as an area, if it is one.
macro_rules! area {
    (words $role:ident) => {
        Some(($role, false))
    };
    (bytes $role:ident) => {
        Some(($role, false))
    };
    (words_mut $role:ident) => {
        Some(($role, true))
    };
    (bytes_mut $role:ident) => {
        Some(($role, true))
    };
    (number $field:ident) => {
        None
    };
}

// One argument as the call takes it.
macro_rules! argument {
    ($areas:ident, $numbers:ident, number $field:ident) => {
        $numbers.$field as _
    };
    ($areas:ident, $numbers:ident, $kind:ident $role:ident) => {
        $areas.$kind($role)
    };
}

macro_rules! export {
    ($name:literal, $answers:expr, $call:ident($($kind:ident $what:ident),* $(,)?)) => {
        Export {
            name: $name,
            answers: &$answers,
            areas: &[$(area!($kind $what)),*],
            call: |areas, _numbers| $call($(argument!(areas, _numbers, $kind $what)),*),
        }
    };
}

// A count answers 0 where it is the right one.
macro_rules! count {
    ($name:literal, $call:ident, $right:literal) => {
        Export {
            name: $name,
            answers: &[0],
            areas: &[],
            call: |_, _| if $call() == $right { 0 } else { 99 },
        }
    };
}

// 11 is also the answer to words of a wrong number or form.
#[rustfmt::skip]
pub const EXPORTS: [Export; 28] = [
    export!("open", [0, 1, 2, 3, 9, 10, 11], segment_cache_open(
        words Setting, number count, words_mut Builder, words_mut Index, words_mut Filter, words Starts,
        words Lengths, bytes Arena,
    )),
    export!("push", [0, 3, 4, 5, 6, 9, 10, 11], segment_cache_push(
        words_mut Builder, number hash, bytes Key, bytes Value, words Lifetime, words_mut Index,
        words_mut Filter, bytes_mut Arena, words_mut Out,
    )),
    export!("finish", [0, 3, 7, 8, 10, 11], segment_cache_finish(
        words Builder, number count, words_mut Index, words_mut Starts, words_mut Lengths,
        words_mut Scratch, bytes Arena, words_mut Set,
    )),
    export!("get", [0, 11], segment_cache_get(
        words Set, number hash, bytes Key, number tick, words_mut Index, words Filter, words Starts,
        words Lengths, bytes Arena, words_mut Out,
    )),
    export!("peek", [0, 11], segment_cache_peek(
        words Set, number hash, bytes Key, number tick, words Index, words Filter, words Starts,
        words Lengths, bytes Arena, words_mut Out,
    )),
    export!("take_accessed", [0, 11], segment_cache_take_accessed(
        words Set, number hash, bytes Key, words_mut Index, words Filter, words Starts, words Lengths,
        bytes Arena, words_mut Out,
    )),
    export!("probe", [0, 11], segment_cache_probe(
        words Set, number hash, bytes Key, number tick, words Index, words Filter, words Starts,
        words Lengths, bytes Arena, words_mut Out,
    )),
    export!("next_entry", [0, 11], segment_cache_next_entry(
        words Set, number count, number tick, words Index, words Starts, words Lengths, bytes Arena,
        words_mut Out,
    )),
    export!("stats", [0, 11], segment_cache_stats(words Set, words_mut Out)),
    export!("rebuild_open", [0, 3, 7, 10, 11], segment_cache_rebuild_open(
        words Set, words SourceStarts, words SourceLengths, bytes Arena, number count, number size,
        bytes Keep, number tick, words_mut Rebuild, words_mut Index, words_mut Filter,
        words_mut Starts, words_mut Lengths,
    )),
    export!("push_reused", [0, 3, 11, 12], segment_cache_push_reused(
        words_mut Rebuild, number hash, bytes Key, bytes Value, number location, number size,
        words_mut Index, words_mut Filter, words Starts, words Lengths, bytes Arena, words_mut Out,
    )),
    export!("push_copied", [0, 3, 5, 6, 7, 9, 10, 11], segment_cache_push_copied(
        words_mut Rebuild, number hash, bytes Key, bytes Value, words Lifetime, words_mut Index,
        words_mut Filter, words Starts, words Lengths, bytes_mut Arena, words_mut Out,
    )),
    export!("rebuild_finish", [0, 3, 10, 11], segment_cache_rebuild_finish(
        words Rebuild, words_mut Index, words_mut Starts, words_mut Lengths, words_mut Scratch,
        bytes Arena, words_mut Set, words_mut Out,
    )),
    export!("area_words", [0, 1, 2, 3, 9, 11], segment_cache_area_words(
        words Setting, number count, words_mut Out,
    )),
    export!("encoded_record_bytes", [0, 1, 3, 9, 11], segment_cache_encoded_record_bytes(
        words Setting, number count, number size, words_mut Out,
    )),
    export!("record_at", [0, 1, 9, 11], segment_cache_record_at(
        words Setting, bytes Arena, number location, words_mut Out,
    )),
    export!("modeled_retained_bytes", [0, 11], segment_cache_modeled_retained_bytes(
        words Stats, words_mut Out,
    )),
    export!("modeled_overhead_bytes", [0, 11], segment_cache_modeled_overhead_bytes(
        words Stats, words_mut Out,
    )),
    export!("index_load_bps", [0, 11], segment_cache_index_load_bps(words Stats, words_mut Out)),
    export!("file_bytes", [0, 11], segment_cache_file_bytes(
        words Set, words Starts, words Lengths, words_mut Out,
    )),
    export!("write_file", [0, 10, 11], segment_cache_write_file(
        words Set, words Index, words Filter, words Starts, words Lengths, bytes Arena, bytes_mut File,
        words_mut Out,
    )),
    export!("file_needs", [0, 11, 13, 14, 15], segment_cache_file_needs(bytes File, words_mut Out)),
    export!("load_file", [0, 10, 11, 13, 14, 15], segment_cache_load_file(
        bytes File, words_mut Index, words_mut Filter, words_mut Starts, words_mut Lengths,
        bytes_mut Arena, words_mut Set,
    )),
    export!("sheet_pages", [0, 11, 16], segment_cache_sheet_pages(
        words Set, words Index, words Starts, words Lengths, bytes Arena, words_mut Out,
    )),
    export!("print_sheet", [0, 10, 11, 16], segment_cache_print_sheet(
        words Set, words Index, words Starts, words Lengths, bytes Arena, bytes_mut Page, words_mut Out,
    )),
    count!("builder_words", segment_cache_builder_words, 13),
    count!("set_words", segment_cache_set_words, 15),
    count!("rebuild_words", segment_cache_rebuild_words, 22),
];
