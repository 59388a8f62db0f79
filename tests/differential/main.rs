// Calls the port and the Rust that it was made from with the same inputs and compares the answers.
#[cfg_attr(stand_in, allow(dead_code))]
#[macro_use]
#[path = "../../bindings/rust/src/ffi.rs"]
mod ffi;
mod report;
mod rng;

mod calls {
    pub mod orders;
    pub mod records;
    pub mod world;
}
mod files {
    pub mod bounds;
    pub mod damage;
    pub mod group;
    pub mod load;
    pub mod sets;
}
mod forged {
    pub mod arenas;
    pub mod calls;
    pub mod finds;
    pub mod rebuild_stages;
    pub mod rebuilds;
    pub mod stages;
    pub mod states;
}
mod full {
    pub mod records;
    pub mod suite;
}
mod index {
    pub mod filter;
    pub mod packed;
    pub mod starts;
    pub mod walks;
    pub mod words;
}
mod lines {
    pub mod records;
    pub mod sides;
}
mod model {
    pub mod book;
    pub mod calls;
    pub mod files;
    pub mod index;
    pub mod lookups;
    pub mod rebuilds;
    pub mod rules;
    pub mod sheets;
    pub mod stored;
}
mod parts {
    pub mod areas;
    pub mod durations;
    pub mod hash;
    pub mod record_ends;
    pub mod record_read;
    pub mod record_write;
    pub mod varints;
}
mod port {
    pub mod calls;
    pub mod index;
    pub mod parts;
    #[cfg(not(stand_in))]
    pub mod rebuilds;
    // In place of the library's rebuild calls, those of a file: programs with an error are tried so.
    #[cfg(stand_in)]
    pub mod rebuilds {
        include!(env!("STAND_IN"));
    }
}
mod sets {
    pub mod finds;
    pub mod spreads;
}
mod sheets {
    pub mod bounds;
    pub mod group;
    pub mod sets;
}

// The groups that split arenas, with the Rust as it is and as it is in its own tests.
mod large {
    use oracle_large as oracle;
    include!("both.rs");
}
mod small {
    use oracle_small as oracle;
    include!("both.rs");
}

use report::{Group, Run};
use std::process::ExitCode;

const RANDOM_CASES: u64 = 1_200_000;

// Whether a run with so many random cases is a long one, which has the largest inputs too.
fn long(random: u64) -> bool {
    random > RANDOM_CASES
}

fn main() -> ExitCode {
    let suite = std::env::args().nth(1).unwrap_or_default();
    let only = std::env::args().nth(2).unwrap_or_default();
    let random = match suite.as_str() {
        "short" => RANDOM_CASES,
        "long" => 10 * RANDOM_CASES,
        "full" => 0,
        _ => {
            eprintln!("usage: driver short|long|full [part of a group's name]");
            return ExitCode::from(2);
        }
    };
    let mut run = Run::new(random, only);
    run.group("oracle", oracle);
    if suite == "full" {
        full::suite::run(&mut run);
    } else {
        parts(&mut run);
        sets(&mut run);
    }
    if run.end() {
        ExitCode::SUCCESS
    } else {
        ExitCode::FAILURE
    }
}

// The functions of the lower crates.
fn parts(run: &mut Run) {
    run.group("hash parts", parts::hash::parts);
    run.group("tags", parts::hash::tags);
    run.group("zero bytes and marks", parts::hash::marks);
    run.group("mixed hash", parts::hash::mixed);
    run.group("nanoseconds", parts::durations::nanoseconds);
    run.group("deadlines", parts::durations::deadlines);
    run.group("remaining time", parts::durations::remaining);
    run.group("varint writing", parts::varints::write);
    run.group("varint reading", parts::varints::read);
    run.group("record sizes", parts::record_write::sizes);
    run.group("record writing", parts::record_write::write);
    run.group("record reading", parts::record_read::read);
    run.group("record ends", parts::record_ends::ends);
    run.group("byte slices", parts::areas::slices);
    run.group("lent words", parts::areas::words);
    run.group("index words", index::words::words);
    run.group("buckets", index::words::buckets);
    run.group("build walks", index::walks::walks);
    run.group("negative filter", index::filter::filter);
    run.group("segment starts", index::starts::starts);
    run.both(
        "segments",
        large::index::segments::split,
        small::index::segments::split,
    );
    run.group("packed index", index::packed::packing);
}

// Whole sets, call by call of the lower crates and by the public calls.
fn sets(run: &mut Run) {
    run.group("forged lookups", forged::finds::finds);
    run.both("sets", large::sets::all::sets, small::sets::all::sets);
    run.both("calls", large::calls::all::calls, small::calls::all::calls);
    run.both(
        "model of calls",
        large::calls::all::model_of_calls,
        small::calls::all::model_of_calls,
    );
    run.group("orders of questions, lists of calls", calls::orders::orders);
    run.both(
        "lists with rebuilds",
        large::lines::lists::lists,
        small::lines::lists::lists,
    );
    run.group("forged states and areas", forged::states::states);
    run.group("forged rebuilds and areas", forged::rebuilds::states);
    run.group("forged words, records and segments", forged::calls::calls);
    run.group("files", files::group::files);
    run.group("sheets", sheets::group::sheets);
}

// The two builds are what they should be: the segment target of each, and the stub for the hash.
fn oracle(group: &mut Group, _random: u64) {
    use oracle_large::access as large;
    use oracle_small::access as small;
    let targets = [large::SEGMENT_TARGET, small::SEGMENT_TARGET];
    group.rule("large target", targets[0], 100_663_296, String::new);
    group.rule("small target", targets[1], 4_096, String::new);
    for hash in rng::edges() {
        oracle_large::set_hash(hash);
        oracle_small::set_hash(!hash);
        let input = || format!("{hash:#x}");
        group.rule("large hash", large::key_hash(b"key"), hash, input);
        group.rule("small hash", small::key_hash(b"key"), !hash, input);
    }
}
