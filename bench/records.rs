// The settings that are measured, and the records, keys of 16 bytes and values of 32.
use crate::rng::Rng;
use oracle_large::access_index::Setting;
use std::time::Duration;

pub const KEY: usize = 16;

pub const VALUE: usize = 32;

// The records announced to a bucket of eight slots: the Rust's default.
pub const OCCUPIED: u8 = 7;

// Deadlines are after this tick, so that every hit is live.
pub const NOW: u64 = 20_000;

const LATEST: u64 = 60_000;

#[derive(Clone, Copy)]
pub struct Shape {
    pub packed: bool,
    pub bits: u8,
    // The tick length, or none where there is no expiry.
    pub tick: Option<Duration>,
}

impl Shape {
    fn expiry(&self) -> bool {
        self.tick.is_some()
    }

    pub fn title(&self, records: usize) -> String {
        let layout = if self.packed { "packed" } else { "words" };
        let expiry = if self.expiry() { "with" } else { "without" };
        let bits = self.bits;
        format!("{records} records, {layout}, {bits} filter bits, {expiry} expiry")
    }

    pub fn setting(&self) -> Setting {
        Setting {
            tick: self.tick,
            occupied: OCCUPIED,
            packed: self.packed,
            bits: self.bits,
        }
    }

    // The setting as the port takes it.
    pub fn words(&self) -> [u64; 6] {
        let [secs, nanos] = in_words(self.tick.unwrap_or_default());
        let (expiry, packed) = (self.expiry().into(), self.packed.into());
        [
            expiry,
            secs,
            nanos,
            OCCUPIED.into(),
            packed,
            self.bits.into(),
        ]
    }

    // A prefix of one byte for each length, and the deadline.
    pub fn record_bytes(&self) -> usize {
        2 + 2 * usize::from(self.expiry()) + KEY + VALUE
    }
}

// A key and its hash.
pub type Entry = ([u8; KEY], u64);

pub struct Record {
    pub entry: Entry,
    pub value: [u8; VALUE],
    pub lifetime: Option<Duration>,
    // Its seconds and nanoseconds, as the port takes them.
    words: [u64; 2],
}

fn in_words(duration: Duration) -> [u64; 2] {
    [duration.as_secs(), duration.subsec_nanos().into()]
}

impl Record {
    pub fn random(rng: &mut Rng, lifetime: Option<Duration>) -> Record {
        Record {
            entry: random_entry(rng),
            value: random_bytes(rng),
            lifetime,
            words: in_words(lifetime.unwrap_or_default()),
        }
    }

    pub fn lifetime_words(&self) -> &[u64] {
        if self.lifetime.is_some() {
            &self.words
        } else {
            &[]
        }
    }
}

// A number of ticks that is a deadline after NOW.
pub fn random_ticks(rng: &mut Rng) -> u32 {
    (NOW + 1 + rng.below(LATEST - NOW)) as u32
}

fn random_bytes<const N: usize>(rng: &mut Rng) -> [u8; N] {
    let mut bytes = [0; N];
    for chunk in bytes.chunks_mut(8) {
        chunk.copy_from_slice(&rng.next().to_le_bytes());
    }
    bytes
}

// Random keys of 16 bytes are not equal by chance.
fn random_entry(rng: &mut Rng) -> Entry {
    (random_bytes(rng), rng.next())
}

pub fn random_entries(rng: &mut Rng, count: usize) -> Vec<Entry> {
    (0..count).map(|_| random_entry(rng)).collect()
}

pub fn random_records(rng: &mut Rng, shape: Shape, count: usize) -> Vec<Record> {
    let record = |_| {
        let lifetime = shape.tick.map(|tick| tick * random_ticks(rng));
        Record::random(rng, lifetime)
    };
    (0..count).map(record).collect()
}

pub fn checksum(words: impl Iterator<Item = u64>) -> u64 {
    words.fold(0, |sum, word| sum.wrapping_mul(31).wrapping_add(word))
}
