// Where records end: worked cases, lengths that end with the bytes or one byte past them, positions
// about their end, prefixes of 1 to 11 bytes, and the words that the public call is lent.
use crate::calls::world::{Ask, By, Pushed, Sizes, UNSET, World};
use crate::calls::world::{model as by_the_model, port as by_the_port};
use crate::model;
use crate::parts::record_read::{read_one, setting, stored};
use crate::port;
use crate::report::Group;
use crate::rng::{Rng, edges};

pub fn ends(group: &mut Group, random: u64) {
    worked(group);
    for by in [by_the_port as By, by_the_model] {
        two_segments(group, by);
    }
    for on in [false, true] {
        at_the_end(group, on);
        positions(group, on);
    }
    words(group);
    let (mut rng, edges) = (Rng::new(12), edges());
    for _ in 0..random / 4 {
        any_bytes(group, &mut rng, &edges);
    }
}

// Bytes, expiry, location, and what is told of the record: location, bytes before the key, place and
// length of key and value, deadline, end.
type Worked = (&'static [u8], bool, usize, [u64; 8]);

const TWO: &[u8] = &[1, 2, 10, 0, b'a', b'A', b'B', 1, 0, 255, 255, b'b'];

const WORKED: [Worked; 4] = [
    (
        &[1, 2, b'a', b'A', b'B'],
        false,
        0,
        [0, 2, 2, 1, 3, 2, 65_535, 5],
    ),
    // Both lengths with a byte more than they need.
    (
        &[0x81, 0, 0x80, 0, b'k'],
        false,
        0,
        [0, 4, 4, 1, 5, 0, 65_535, 5],
    ),
    (TWO, true, 0, [0, 4, 4, 1, 5, 2, 10, 7]),
    (TWO, true, 7, [7, 4, 11, 1, 12, 0, 65_535, 12]),
];

fn worked(group: &mut Group) {
    for (bytes, on, location, told) in WORKED {
        let input = || format!("{bytes:02x?}, expiry {on}, {location}");
        let found = port::parts::record_at(bytes, on, location);
        group.rule("record_at", found, Some(told), input);
        let mut out = [UNSET; 9];
        let refusal = port::calls::record_at(&setting(on), bytes, location, &mut out);
        let wanted = (0, stored(Some(told)));
        group.rule("segment_cache_record_at", (refusal, out), wanted, input);
        read_one(group, bytes, on, location);
    }
}

// The same two records with target 1: each has a segment, and the second's is counted from 2^32.
fn two_segments(group: &mut Group, by: By) {
    let mut world = World::new(&setting(true), Sizes::for_counts(1, 0, 12));
    let (a, b) = ([10, 0], []);
    let records: [(u64, &[u8], &[u8], &[u64]); 2] = [(1, b"a", b"AB", &a), (2, b"b", b"", &b)];
    let mut told = |ask: Ask, wanted: &[u64]| {
        let refusal = by(&mut world, &ask, ask.answer());
        let found = (refusal, &world.out[..ask.answer()]);
        group.rule("two segments", found, (0, wanted), || format!("{ask:x?}"));
    };
    told(Ask::Open { records: 2 }, &[]);
    for (slot, (hash, key, value, lifetime)) in records.into_iter().enumerate() {
        let pushed = Pushed {
            hash,
            key,
            value,
            lifetime,
        };
        told(Ask::Push(pushed), &[slot as u64, 7 * slot as u64]);
    }
    told(Ask::Finish { target: 1 }, &[]);
    let (second, end, tick) = (1 << 32, (1 << 32) + 5, 0);
    let b = [1, 1, second, 4, 11, 1, 12, 0, 0, 0, 0, end];
    let (hash, key) = (2, &b"b"[..]);
    told(Ask::Probe { hash, key, tick }, &b);
    told(Ask::Walk { from: 1, tick }, &b);
    told(
        Ask::Walk { from: 0, tick },
        &[1, 0, 0, 4, 4, 1, 5, 2, 1, 10, 0, 7],
    );
    let (segment, position) = (1, 0);
    let b = [1, 0, 4, 4, 1, 5, 0, 65_535, 5];
    told(Ask::Step { segment, position }, &b);
}

// A length in so many bytes, though it may need fewer. No length is read from eleven.
fn prefix(length: usize, bytes: usize) -> Vec<u8> {
    let mut prefix: Vec<u8> = (0..bytes)
        .map(|i| (length.checked_shr(7 * i as u32).unwrap_or(0) % 128) as u8 | 0x80)
        .collect();
    prefix[bytes - 1] %= 128;
    prefix
}

// Records that end with the bytes, one byte past them and one before, behind 0, 1 and 9 other bytes.
fn at_the_end(group: &mut Group, on: bool) {
    for (key, value) in [(0, 0), (1, 0), (0, 1), (2, 3), (127, 0), (1, 127)] {
        for key_bytes in 1..=11 {
            for value_bytes in 1..=11 {
                for before in [0, 1, 9] {
                    let mut bytes = vec![0x55; before];
                    bytes.extend(prefix(key, key_bytes));
                    bytes.extend(prefix(value, value_bytes));
                    bytes.extend(vec![0x61; if on { 2 } else { 0 } + key + value]);
                    around(group, &bytes, on, before);
                }
            }
        }
    }
}

fn around(group: &mut Group, bytes: &[u8], on: bool, location: usize) {
    read_one(group, bytes, on, location);
    read_one(group, &bytes[..bytes.len() - 1], on, location);
    let longer = [bytes, &[0x61]].concat();
    read_one(group, &longer, on, location);
}

// Positions before, at and behind the end of a few bytes, of none too.
fn positions(group: &mut Group, on: bool) {
    let rows: [&[u8]; 5] = [&[], &[0], &[0, 0], &[0, 0, 0, 0], TWO];
    for bytes in rows {
        let len = bytes.len();
        for position in [0, 1, len.wrapping_sub(1), len, len + 1, 1 << 32, usize::MAX] {
            read_one(group, bytes, on, position);
            by_model(group, &setting(on), bytes, position, 9);
        }
    }
}

// The public call by the model: refusals of words, and what is written to them.
pub fn by_model(group: &mut Group, setting: &[u64], bytes: &[u8], position: usize, words: usize) {
    let (mut ours, mut wanted) = ([UNSET; 14], [UNSET; 14]);
    let found = port::calls::record_at(setting, bytes, position, &mut ours[..words]);
    let number = model::calls::record_at(setting, bytes, position, &mut wanted[..words]);
    let input = || format!("{setting:x?}, {bytes:02x?}, {position}, {words} words");
    let call = "segment_cache_record_at";
    group.rule(call, (found, ours), (number, wanted), input);
}

// Answers of 0 to 12 words, settings of 0 to 16 words and of other forms, several reasons at once. A
// set's first six words are a setting.
fn words(group: &mut Group) {
    let set = [1, 60, 0, 7, 1, 8, 2, 1, 0, 1, 12, 12, 2, 2, 8, 0];
    for words in 0..=12 {
        for lent in 0..=set.len() {
            by_model(group, &set[..lent], TWO, 7, words);
        }
    }
    let nanos = [
        0,
        999_999_999,
        1_000_000_000,
        u32::MAX.into(),
        1 << 32,
        u64::MAX,
    ];
    for nanos in nanos {
        for occupied in [0, 7, 8, 255, 256, u64::MAX] {
            for (on, packed, bits) in [(0, 0, 0), (1, 1, 255), (2, 0, 0), (0, 2, 0), (1, 0, 256)] {
                for words in [8, 9, 10] {
                    let setting = [on, 0, nanos, occupied, packed, bits];
                    by_model(group, &setting, TWO, 0, words);
                }
            }
        }
    }
}

// Any bytes with short lengths in front, at a position in them or anywhere.
fn any_bytes(group: &mut Group, rng: &mut Rng, edges: &[u64]) {
    let (key, value, before) = (rng.index(12), rng.index(12), rng.index(4));
    let mut bytes = rng.bytes(before);
    bytes.extend(prefix(key, 1 + rng.index(11)));
    bytes.extend(prefix(value, 1 + rng.index(11)));
    let rest = rng.index(key + value + 4);
    bytes.extend(rng.bytes(rest));
    let position = match rng.one_in(8) {
        true => rng.number(edges) as usize,
        false => before,
    };
    let on = rng.one_in(2);
    read_one(group, &bytes, on, position);
    by_model(group, &setting(on), &bytes, position, 9);
}
