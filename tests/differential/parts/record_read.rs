// Records read back: where they were written, from damaged copies, from forged lengths and from
// random bytes. Each is read alone, as a public call, and as the second segment of a set.
use crate::calls::world::UNSET;
use crate::parts::record_write::{LENGTHS, random_record, rust_record, tick};
use crate::port::index::Areas;
use crate::port::{calls, index, parts};
use crate::report::Group;
use crate::rng::{Rng, edges};
use oracle_large::access;

pub fn read(group: &mut Group, random: u64) {
    let mut rng = Rng::new(11);
    for key_len in LENGTHS {
        for value_len in LENGTHS {
            for on in [false, true] {
                let (key, value) = (rng.bytes(key_len), rng.bytes(value_len));
                let bytes = rust_record(on, &key, &value, 0x8142);
                between(group, &mut rng, on, &bytes);
                cut(group, on, &bytes);
                damaged_header(group, on, bytes);
            }
        }
    }
    forged_lengths(group);
    long_prefixes(group);
    for _ in 0..random {
        match rng.below(4) {
            0 => random_bytes(group, &mut rng),
            1 => written(group, &mut rng, false),
            _ => written(group, &mut rng, true),
        }
    }
}

// The Rust tells no end: it is the sum of its location, key offset and lengths.
pub fn read_one(group: &mut Group, bytes: &[u8], on: bool, location: usize) {
    let found = parts::record_at(bytes, on, location);
    let wanted = access::record_at(bytes, tick(on), location);
    let input = || format!("{bytes:02x?}, expiry {on}, {location}");
    group.rust("record_at", found, wanted, input);
    let mut out = [UNSET; 9];
    let refusal = calls::record_at(&setting(on), bytes, location, &mut out);
    let call = "segment_cache_record_at";
    group.rust(call, (refusal, out), (0, stored(wanted)), input);
    if location < 1 << 32 {
        let found = in_second_segment(bytes, on, location as u64);
        let wanted = wanted.map(second);
        group.rust("record_at_location", found, wanted, input);
    }
}

// Words of a setting for a call that asks only whether there is expiry.
pub fn setting(on: bool) -> [u64; 6] {
    [on.into(), on.into(), 0, 7, 1, 0]
}

// The words of the public call: nine zeros for no record.
pub fn stored(record: Option<[u64; 8]>) -> [u64; 9] {
    record.map_or([0; 9], |[a, b, c, d, e, f, g, h]| {
        [1, a, b, c, d, e, f, g, h]
    })
}

const SECOND: u64 = 1 << 32;

// The bytes of the first segment.
const FIRST: [u8; 3] = [0x55; 3];

// What is told of a record where its bytes are the second segment: location and end count in it, places
// from the arena's start.
fn second(record: [u64; 8]) -> [u64; 8] {
    let mut record = record;
    record[0] += SECOND;
    record[2] += FIRST.len() as u64;
    record[4] += FIRST.len() as u64;
    record[7] += SECOND;
    record
}

fn in_second_segment(bytes: &[u8], on: bool, location: u64) -> Option<[u64; 8]> {
    let arena = [&FIRST[..], bytes].concat();
    let first = FIRST.len() as u64;
    let areas = Areas {
        on,
        packed: false,
        filled: arena.len(),
        segments: 2,
        buckets: 0,
        filter_words: 0,
        arena: &arena,
        index: &[],
        filter: &[],
        starts: &[0, first],
        lengths: &[first, bytes.len() as u64],
    };
    index::record_at_location(&areas, SECOND + location + 1)
}

// The record between random bytes: at its place, just beside it and past the end.
fn between(group: &mut Group, rng: &mut Rng, on: bool, record: &[u8]) {
    for (before, after) in [(0, 0), (1, 1), (5, 0), (0, 9), (17, 30)] {
        let mut bytes = rng.bytes(before);
        bytes.extend_from_slice(record);
        bytes.extend(rng.bytes(after));
        for location in 0..before + 12 {
            read_one(group, &bytes, on, location);
            read_one(group, &bytes, !on, location);
        }
        for location in bytes.len().saturating_sub(3)..bytes.len() + 3 {
            read_one(group, &bytes, on, location);
        }
        for location in [1 << 32, usize::MAX - 1, usize::MAX] {
            read_one(group, &bytes, on, location);
        }
    }
}

// Every length that ends in or just behind the header, and those about the whole.
fn cut(group: &mut Group, on: bool, record: &[u8]) {
    let len = record.len();
    for end in (0..len.min(20)).chain(len.saturating_sub(5)..len) {
        read_one(group, &record[..end], on, 0);
    }
}

// Each of the first bytes with each value, one at a time.
fn damaged_header(group: &mut Group, on: bool, mut record: Vec<u8>) {
    for place in 0..record.len().min(9) {
        let right = record[place];
        for wrong in 0..=255 {
            record[place] = wrong;
            read_one(group, &record, on, 0);
        }
        record[place] = right;
    }
}

// Lengths of every magnitude in front of a few bytes, so that sums of them pass 64 bits.
fn forged_lengths(group: &mut Group) {
    let mut lengths: Vec<u64> = (0..20).chain(edges()).collect();
    lengths.extend((0..25).map(|less| u64::MAX - less));
    for &key in &lengths {
        for &value in &lengths {
            let mut bytes = Vec::new();
            access::write_varint(&mut bytes, key as usize);
            access::write_varint(&mut bytes, value as usize);
            bytes.extend([0xd1, 0xd2, 1, 2, 3, 4, 5, 6, 7, 8, 9, 10]);
            read_one(group, &bytes, false, 0);
            read_one(group, &bytes, true, 0);
        }
    }
}

// Lengths with more bytes than they need, up to one byte more than is ever read.
fn long_prefixes(group: &mut Group) {
    for key_bytes in 1..=12 {
        for value_bytes in 1..=12 {
            for key_last in [0x00, 0x01, 0x02, 0x7e, 0x7f] {
                for value_last in [0x00, 0x01, 0x02, 0x7e, 0x7f] {
                    let mut bytes = long_prefix(key_bytes, key_last);
                    bytes.extend(long_prefix(value_bytes, value_last));
                    bytes.extend([0xd1, 0xd2, 1, 2, 3, 4, 5, 6, 7, 8, 9, 10]);
                    read_one(group, &bytes, false, 0);
                    read_one(group, &bytes, true, 0);
                }
            }
        }
    }
}

// One of the length 2, where only the last byte is free and counts for more.
fn long_prefix(bytes: usize, last: u8) -> Vec<u8> {
    let mut prefix = vec![0x80; bytes];
    prefix[0] = 0x82;
    prefix[bytes - 1] = last;
    prefix
}

// Random bytes, half of them with lengths in front that may well fit.
fn random_bytes(group: &mut Group, rng: &mut Rng) {
    let len = rng.index(80);
    let mut bytes = rng.bytes(len);
    let location = rng.index(len + 4);
    if rng.one_in(2) {
        for byte in bytes.iter_mut().skip(location).take(2) {
            *byte %= 40;
        }
    }
    let far = rng.one_in(64);
    let location = if far {
        rng.any_size() as usize
    } else {
        location
    };
    read_one(group, &bytes, rng.one_in(2), location);
}

// A record between random bytes, as written or with one byte changed or the end cut off.
fn written(group: &mut Group, rng: &mut Rng, damaged: bool) {
    let record = random_record(rng);
    let stored = rust_record(record.on, &record.key, &record.value, record.expires_at);
    let location = rng.index(12);
    let mut bytes = rng.bytes(location);
    bytes.extend_from_slice(&stored);
    if damaged && rng.one_in(2) {
        bytes.truncate(location + rng.index(stored.len()));
    } else {
        let after = rng.index(12);
        bytes.extend(rng.bytes(after));
    }
    if damaged && bytes.len() > location {
        // The header is where a change matters most.
        let span = (bytes.len() - location).min(if rng.one_in(2) { 4 } else { usize::MAX });
        bytes[location + rng.index(span)] ^= 1 << rng.below(8);
    }
    read_one(group, &bytes, record.on, location);
}
