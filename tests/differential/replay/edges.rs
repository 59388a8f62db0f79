// What the replay list asks at the boundaries: refusals, long records and the most segments.
use super::oracle::access_index::{Builder, Setting};
use super::replay_calls::{Build, Lookup, Record, Sets, open_line};
use crate::replay_text::List;
use std::time::Duration;

const TICK: Option<Duration> = Some(Duration::from_secs(1));

fn setting(packed: bool, tick: Option<Duration>) -> Setting {
    Setting {
        tick,
        occupied: 7,
        packed,
        bits: 8,
    }
}

fn record(number: u64, bytes: u64) -> Record {
    Record {
        hash: number.wrapping_mul(0x9e37_79b9_7f4a_7c15),
        key: number.to_be_bytes()[6..].to_vec(),
        part: vec![number as u8],
        times: bytes,
        lifetime: None,
    }
}

// An open that the Rust refuses.
fn refused_open(list: &mut List, setting: Setting, records: usize) {
    if let Err(refusal) = Builder::open(setting, records) {
        open_line(list, setting, records, Err(refusal));
    }
}

// Opens that are refused, and finishes before all announced records are in.
pub fn refused(list: &mut List, packed: bool) {
    let plain = setting(packed, None);
    for occupied in [0, 8, 255] {
        refused_open(list, Setting { occupied, ..plain }, 1);
    }
    refused_open(list, setting(packed, Some(Duration::ZERO)), 1);
    refused_open(list, Setting { bits: 0, ..plain }, usize::MAX);
    if let Some(mut build) = Build::open(list, plain, 2) {
        build.push(&record(1, 1));
        build.finish();
    }
    let built = Build::open(list, plain, 1).and_then(|mut build| {
        build.push(&record(1, 1));
        build.finish()
    });
    let Some(mut sets) = built else {
        return;
    };
    sets.rebuild_open(&[], 2, 0, 0);
    sets.rebuild_open(&[1], usize::MAX, 0, 0);
    sets.rebuild_open(&[0], 2, 8, 0);
    sets.push_copied(&record(2, 1));
    sets.rebuild_finish();
}

// Lengths at which a prefix takes one byte more.
pub fn prefixes(list: &mut List, packed: bool) {
    let lengths = [0, 1, 127, 128, 129, 16_383, 16_384, 16_385];
    let Some(mut build) = Build::open(list, setting(packed, TICK), 2 * lengths.len()) else {
        return;
    };
    let long_key = |number: u64, bytes: u64| Record {
        key: vec![number as u8; (bytes % 16_256) as usize],
        ..record(number, 3)
    };
    let values = (0_u64..).zip(lengths).map(|(i, bytes)| record(i, bytes));
    let keys = (100_u64..)
        .zip(lengths)
        .map(|(i, bytes)| long_key(i, bytes));
    let records: Vec<Record> = values.chain(keys).collect();
    for record in &records {
        build.push(record);
    }
    let Some(mut sets) = build.finish() else {
        return;
    };
    sets.checksum(0);
    for record in &records {
        sets.look_up(Lookup::Get, 0, &record.key, record.hash, 9);
        sets.look_up(Lookup::Probe, 0, &record.key, record.hash, 9);
    }
    sets.checksum(0);
}

// Each rebuild keeps all segments and adds one of a single record, up to the most; with one more the
// Rust refuses the open, or the copied push.
pub fn segments(list: &mut List) {
    let built = Build::open(list, setting(true, None), 1).and_then(|mut build| {
        build.push(&record(0, 1));
        build.finish()
    });
    let Some(mut sets) = built else {
        return;
    };
    for number in 1..256_u64 {
        let keep = vec![1; sets.segments()];
        sets.rebuild_open(&keep, 1, 8, 0);
        sets.push_copied(&record(number, 1));
        sets.rebuild_finish();
    }
    let (newest, last) = (sets.newest(), record(255, 1));
    sets.stats(newest);
    sets.checksum(newest);
    sets.look_up(Lookup::Get, newest, &last.key, last.hash, 0);
    most_segments(&mut sets);
}

fn most_segments(sets: &mut Sets<'_>) {
    let keep = [1; 256];
    sets.rebuild_open(&keep, 1, 8, 0);
    let last = record(255, 1);
    let standing = sets.standing();
    sets.rebuild_open(&keep, 1, 0, 0);
    for standing in &standing {
        sets.push_reused(&last, standing.location, standing.header);
    }
    sets.rebuild_finish();
    let newest = sets.newest();
    sets.checksum(newest);
    sets.walk(newest, 0);
    // Last, since the Rust's rebuild holds bytes afterwards that its index lacks.
    sets.rebuild_open(&keep, 1, 0, 0);
    sets.push_copied(&record(300, 1));
}
