// Sizes of records, and records written to areas of every length.
use crate::parts::varints::written;
use crate::port::parts as port;
use crate::report::Group;
use crate::rng::{Rng, edges, pattern};
use oracle_large::access;
use std::time::Duration;

// Lengths at which the prefix grows, and small ones.
pub const LENGTHS: [usize; 9] = [0, 1, 11, 12, 13, 127, 128, 16_383, 16_384];

pub const NEVER: u16 = 65_535;

// One second: deadlines are then lifetimes in seconds.
pub fn tick(on: bool) -> Option<Duration> {
    on.then_some(Duration::from_secs(1))
}

pub fn sizes(group: &mut Group, random: u64) {
    let mut lengths: Vec<u64> = LENGTHS.iter().map(|&length| length as u64).collect();
    lengths.extend(edges());
    // Header and lengths together just reach or just pass the largest number.
    lengths.extend((0..30).map(|less| u64::MAX - less));
    lengths.extend((0..30).map(|less| (1 << 63) - less));
    for &key in &lengths {
        for &value in &lengths {
            size(group, key, value);
        }
    }
    let mut rng = Rng::new(9);
    for _ in 0..random {
        let key = rng.number(&lengths);
        let value = match rng.below(2) {
            0 => rng.number(&lengths),
            _ => (u64::MAX - key).wrapping_sub(rng.below(30)),
        };
        size(group, key, value);
    }
}

fn size(group: &mut Group, key: u64, value: u64) {
    let (key, value) = (key as usize, value as usize);
    for on in [false, true] {
        let found = port::encoded_record_bytes(on, key, value);
        let wanted = access::encoded_record_bytes(tick(on), key, value);
        let input = || format!("expiry {on}, {key}, {value}");
        group.rust("encoded_record_bytes", found, wanted, input);
    }
}

// The bytes of a record as the Rust writes them.
pub fn rust_record(on: bool, key: &[u8], value: &[u8], expires_at: u16) -> Vec<u8> {
    let finite = on && expires_at != NEVER;
    let lifetime = finite.then_some(Duration::from_secs(u64::from(expires_at)));
    let mut bytes = Vec::new();
    access::append_record(&mut bytes, tick(on), key, value, lifetime)
        .expect("a deadline of at most 65,534 seconds and short lengths are never refused");
    bytes
}

pub fn write(group: &mut Group, random: u64) {
    let mut rng = Rng::new(10);
    for key_len in LENGTHS {
        for value_len in LENGTHS {
            let (key, value) = (rng.bytes(key_len), rng.bytes(value_len));
            for expires_at in [0, 1, 255, 256, 0x1234, 65_534, NEVER] {
                for on in [false, true] {
                    let size = rust_record(on, &key, &value, expires_at).len();
                    for room in [
                        0,
                        1,
                        size / 2,
                        size - 1,
                        size,
                        size + 1,
                        size + 3,
                        size + 100,
                    ] {
                        write_one(group, on, &key, &value, expires_at, room);
                    }
                }
            }
        }
    }
    for _ in 0..random {
        let record = random_record(&mut rng);
        let size = rust_record(record.on, &record.key, &record.value, record.expires_at).len();
        let room = match rng.below(4) {
            0 => rng.index(size),
            1 => size - 1,
            2 => size,
            _ => size + rng.index(20),
        };
        write_one(
            group,
            record.on,
            &record.key,
            &record.value,
            record.expires_at,
            room,
        );
    }
}

// Writes to a rest of so many bytes, and compares all of it with what was there before.
fn write_one(group: &mut Group, on: bool, key: &[u8], value: &[u8], expires_at: u16, room: usize) {
    let wanted = rust_record(on, key, value, expires_at);
    let mut rest = pattern(room);
    let found = port::append_record(&mut rest, on, key, value, expires_at);
    let input = || {
        format!(
            "rest of {room}, expiry {on}, deadline {expires_at}, key {key:02x?}, value {value:02x?}"
        )
    };
    written(group, "append_record", found, &rest, wanted, input);
}

pub struct Record {
    pub on: bool,
    pub key: Vec<u8>,
    pub value: Vec<u8>,
    pub expires_at: u16,
}

// Short, with lengths about 127 now and then.
pub fn random_record(rng: &mut Rng) -> Record {
    let mut len = || {
        if rng.one_in(16) {
            120 + rng.index(16)
        } else {
            rng.index(24)
        }
    };
    let (key_len, value_len) = (len(), len());
    Record {
        on: !rng.one_in(3),
        key: rng.bytes(key_len),
        value: rng.bytes(value_len),
        expires_at: if rng.one_in(8) {
            NEVER
        } else {
            rng.next() as u16
        },
    }
}
