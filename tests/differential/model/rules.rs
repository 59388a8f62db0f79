// The rules that the calls of sets follow, written down from the papers alone: neither the Rust nor
// the port is asked here, so that this can decide between them. Sums and products are worked out
// in 128 bits, where none of them wraps.
pub const NEVER: u64 = 65_535;

pub const ARENA_MAX: u128 = 1 << 30;

pub const RECORDS_MAX: u64 = 1_048_576;

pub const SEGMENTS_MAX: usize = 256;

const SECOND: u128 = 1_000_000_000;

#[derive(Clone, Copy)]
pub struct Setting {
    pub on: bool,
    pub secs: u64,
    pub nanos: u64,
    pub occupied: u64,
    pub packed: bool,
    pub bits: u64,
}

impl Setting {
    // The setting in six words, if they have the form of one. Nanoseconds and occupancy may be any:
    // the questions refuse them.
    pub fn of(words: &[u64]) -> Option<Setting> {
        let &[on, secs, nanos, occupied, packed, bits] = words else {
            return None;
        };
        let fits = on < 2 && packed < 2 && bits < 256;
        fits.then_some(Setting {
            on: on == 1,
            secs,
            nanos,
            occupied,
            packed: packed == 1,
            bits,
        })
    }

    pub fn nanos_pass(&self) -> bool {
        !self.on || u128::from(self.nanos) < SECOND
    }

    pub fn occupied_passes(&self) -> bool {
        (1..=7).contains(&self.occupied)
    }

    pub fn tick_passes(&self) -> bool {
        !self.on || self.tick() > 0
    }

    pub fn passes(&self) -> bool {
        self.nanos_pass() && self.occupied_passes() && self.tick_passes()
    }

    // Questions 2 and 3 up to the number of records; 0 for a pass.
    pub fn refusal(&self, records: u64) -> u64 {
        if !self.nanos_pass() {
            return 9;
        }
        if !self.occupied_passes() {
            return 1;
        }
        if !self.tick_passes() {
            return 2;
        }
        if records > RECORDS_MAX { 3 } else { 0 }
    }

    fn tick(&self) -> u128 {
        nanoseconds(self.secs, self.nanos)
    }

    // Occupancy is asked before.
    pub fn buckets(&self, records: u64) -> u64 {
        records.div_ceil(self.occupied).max(1)
    }

    pub fn filter_words(&self, records: u64) -> u64 {
        (records * self.bits).div_ceil(64)
    }

    // For a lifetime where expiry is on.
    pub fn deadline(&self, secs: u64, nanos: u64) -> u128 {
        nanoseconds(secs, nanos).div_ceil(self.tick())
    }

    // Kind (0 never, 1 a duration, 2 nothing), seconds, nanoseconds.
    pub fn remaining(&self, deadline: u64, tick: u64) -> [u64; 3] {
        if deadline == NEVER {
            return [0; 3];
        }
        if deadline <= tick {
            return [2, 0, 0];
        }
        if !self.on {
            return [0; 3];
        }
        let left = u128::from(deadline - tick) * self.tick();
        match u64::try_from(left / SECOND) {
            Ok(secs) => [1, secs, (left % SECOND) as u64],
            Err(_) => [2, 0, 0],
        }
    }
}

fn nanoseconds(secs: u64, nanos: u64) -> u128 {
    u128::from(secs) * SECOND + u128::from(nanos)
}

pub fn lives(deadline: u64, tick: u64) -> bool {
    deadline == NEVER || tick < deadline
}

pub fn tag(hash: u64) -> u64 {
    hash >> 41
}

pub fn first(hash: u64, count: u64) -> u64 {
    (u128::from(hash) * u128::from(count) >> 64) as u64
}

pub fn control(tag: u64) -> u64 {
    tag % 128 % 127 + 1
}

pub fn word_tag(word: u64) -> u64 {
    (word >> 40) % (1 << 23)
}

pub fn word_stored(word: u64) -> u64 {
    word % (1 << 40)
}

// The length prefix of a number.
pub fn prefix(mut number: u64) -> Vec<u8> {
    let mut bytes = Vec::new();
    while number >= 128 {
        bytes.push((number % 128 + 128) as u8);
        number /= 128;
    }
    bytes.push(number as u8);
    bytes
}

// A number and how many bytes it took, ten at most.
fn read_prefix(bytes: &[u8]) -> Option<(u64, usize)> {
    let mut number = 0_u128;
    for (i, &byte) in bytes.iter().take(10).enumerate() {
        number += u128::from(byte % 128) << (7 * i);
        if byte < 128 {
            return Some((number as u64, i + 1));
        }
    }
    None
}

pub fn record_bytes(on: bool, key: &[u8], value: &[u8], deadline: u64) -> Vec<u8> {
    let mut bytes = prefix(key.len() as u64);
    bytes.extend(prefix(value.len() as u64));
    if on {
        bytes.extend((deadline as u16).to_le_bytes());
    }
    bytes.extend(key);
    bytes.extend(value);
    bytes
}

#[derive(Clone, Copy)]
pub struct Record {
    pub key_offset: usize,
    pub key_at: usize,
    pub key_len: usize,
    pub value_len: usize,
    pub deadline: u64,
    // From its first byte to just after its value.
    pub bytes: u64,
}

impl Record {
    pub fn value_at(&self) -> usize {
        self.key_at + self.key_len
    }
}

// The record at a place, if all of it lies in the bytes.
pub fn record_at(bytes: &[u8], on: bool, place: u64) -> Option<Record> {
    let place = usize::try_from(place).ok()?;
    let rest = bytes.get(place..)?;
    let (key_len, first) = read_prefix(rest)?;
    let (value_len, second) = read_prefix(&rest[first..])?;
    let header = first + second + if on { 2 } else { 0 };
    let all = header as u128 + u128::from(key_len) + u128::from(value_len);
    if all > rest.len() as u128 {
        return None;
    }
    let deadline = match on {
        true => u64::from(rest[header - 2]) + 256 * u64::from(rest[header - 1]),
        false => NEVER,
    };
    Some(Record {
        key_offset: header,
        key_at: place + header,
        key_len: key_len as usize,
        value_len: value_len as usize,
        deadline,
        bytes: all as u64,
    })
}

// The slots from a first bucket on and around, each with the number of its bucket on this way.
pub fn walk(first: u64, buckets: u64) -> impl Iterator<Item = (u64, usize)> {
    (0..buckets).flat_map(move |i| {
        let bucket = (first + i) % buckets;
        (0..8).map(move |j| (i, (8 * bucket + j) as usize))
    })
}

fn filter_place(words: u64, hash: u64) -> (usize, u64) {
    let turned = hash << 27 | hash >> 37;
    let product = u128::from(turned) * 0x9e37_79b9_7f4a_7c15;
    let mixed = product as u64 ^ hash >> 29;
    let one = hash % 64;
    let mut two = (mixed >> 21) % 64;
    if two == one {
        two = (two + 1) % 64;
    }
    let mut three = (mixed >> 42) % 64;
    while three == one || three == two {
        three = (three + 1) % 64;
    }
    (
        first(mixed, words) as usize,
        1 << one | 1 << two | 1 << three,
    )
}

pub fn filter_has(filter: &[u64], words: u64, hash: u64) -> bool {
    if words == 0 {
        return true;
    }
    let (word, mask) = filter_place(words, hash);
    filter[word] & mask == mask
}

pub fn filter_mark(filter: &mut [u64], words: u64, hash: u64) {
    if words > 0 {
        let (word, mask) = filter_place(words, hash);
        filter[word] |= mask;
    }
}

// Where each segment starts, 257 at most.
pub fn segment_starts(index: &[u64], target: u64) -> Vec<u64> {
    let stored = index.iter().map(|&word| word_stored(word));
    let mut locations: Vec<u64> = stored.filter_map(|stored| stored.checked_sub(1)).collect();
    locations.sort_unstable();
    let mut starts = vec![0];
    while starts.len() <= SEGMENTS_MAX {
        let bound = starts[starts.len() - 1] + target;
        let next = locations.partition_point(|&location| location < bound);
        match locations.get(next) {
            Some(&start) => starts.push(start),
            None => break,
        }
    }
    starts
}

// Where there are too many, the first starts stand there and no lengths. Only forged words have a start
// past the filled bytes, of a segment of no bytes then.
pub fn write_segments(found: &[u64], filled: u64, starts: &mut [u64], lengths: &mut [u64]) -> bool {
    let shown = found.len().min(SEGMENTS_MAX);
    starts[..SEGMENTS_MAX].fill(0);
    starts[..shown].copy_from_slice(&found[..shown]);
    if found.len() > SEGMENTS_MAX {
        return false;
    }
    lengths[..SEGMENTS_MAX].fill(0);
    for (i, &start) in found.iter().enumerate() {
        let end = found.get(i + 1).copied().unwrap_or(filled);
        lengths[i] = end.saturating_sub(start);
    }
    true
}

pub fn split_word(word: u64, starts: &[u64]) -> u64 {
    let Some(location) = word_stored(word).checked_sub(1) else {
        return word;
    };
    let segment = starts.partition_point(|&start| start <= location) - 1;
    let offset = location - starts[segment];
    (word_tag(word) << 40) + ((segment as u64) << 32) + offset + 1
}

// The control words of all buckets and then seven bytes to a slot.
pub fn packed(index: &[u64]) -> Vec<u64> {
    let mut bytes = Vec::with_capacity(8 * index.len());
    for &word in index {
        let byte = if word == 0 {
            0
        } else {
            control(word_tag(word))
        };
        bytes.push(byte as u8);
    }
    for &word in index {
        bytes.extend(((word_tag(word) / 128) as u16).to_le_bytes());
        bytes.extend(&word_stored(word).to_le_bytes()[..5]);
    }
    let word = |bytes: &[u8]| {
        bytes
            .iter()
            .rev()
            .fold(0, |word, &byte| word << 8 | u64::from(byte))
    };
    bytes.chunks(8).map(word).collect()
}

// The control byte of a slot, and its reference: rest of the tag and stored location.
pub fn packed_slot(index: &[u64], buckets: u64, slot: usize) -> (u64, u64, u64) {
    let byte = |at: usize| (index[at / 8] >> (8 * (at % 8))) % 256;
    let at = 8 * buckets as usize + 7 * slot;
    let reference = (0..7).rev().fold(0, |all, i| all << 8 | byte(at + i));
    (byte(slot), reference % 65_536, reference >> 16)
}
