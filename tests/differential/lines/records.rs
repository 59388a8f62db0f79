// Keys, values and hashes for lists of calls on one line of sets. Equal keys have equal hashes; some
// values hold the bytes of whole records, so that a location inside them reads as one.
use crate::model::rules::record_bytes;
use crate::rng::Rng;

// A record that can be read at a place of the arena: one that was pushed, or one inside its value.
#[derive(Clone)]
pub struct Readable {
    pub at: u64,
    pub key: Vec<u8>,
    pub value: Vec<u8>,
    pub header: usize,
    pub inner: bool,
}

impl Readable {
    pub fn nothing() -> Readable {
        Readable {
            at: 0,
            key: Vec::new(),
            value: Vec::new(),
            header: 0,
            inner: false,
        }
    }
}

pub struct Records {
    on: bool,
    spread: u64,
    salt: u64,
    // Keys are numbers below this.
    keys: u64,
    // With it, values have no bytes.
    tiny: bool,
    pub readable: Vec<Readable>,
}

impl Records {
    pub fn new(rng: &mut Rng, on: bool, keys: usize, tiny: bool) -> Records {
        Records {
            on,
            spread: rng.below(8),
            salt: rng.next(),
            keys: keys as u64 + 1,
            tiny,
            readable: Vec::new(),
        }
    }

    // Random, all equal, three hashes, in the last bucket, one tag, tags 0 and 127.
    pub fn hash(&self, key: &[u8]) -> u64 {
        let mut number = Rng::new(self.salt);
        for &byte in key {
            number = Rng::new(number.next() ^ u64::from(byte));
        }
        let hash = number.next();
        match self.spread {
            0 => self.salt,
            1 => self.salt.rotate_left(hash as u32 % 3),
            2 => u64::MAX - hash % 1_000,
            3 => self.salt >> 41 << 41 | hash >> 23,
            4 => (hash % 2 * 127) << 41 | hash >> 23,
            _ => hash,
        }
    }

    pub fn key(&self, rng: &mut Rng) -> Vec<u8> {
        self.key_of(rng.below(self.keys))
    }

    // No bytes for 0, and now and then so many that their length takes two bytes.
    pub fn key_of(&self, number: u64) -> Vec<u8> {
        let bytes = usize::from(number > 0) + usize::from(number > 255);
        let mut key = number.to_le_bytes()[..bytes].to_vec();
        if number % 29 == 28 && !self.tiny {
            key.resize(130, 7);
        }
        key
    }

    // Some bytes, or a record with bytes around it.
    pub fn value(&self, rng: &mut Rng) -> Vec<u8> {
        if self.tiny {
            return Vec::new();
        }
        let length = if rng.one_in(12) { 300 } else { 24 };
        let length = rng.index(length);
        let mut value = rng.bytes(length);
        if rng.one_in(3) {
            value.extend(self.inner(rng));
            let more = rng.index(4);
            value.extend(rng.bytes(more));
        }
        value
    }

    // A record, every second time with a length that takes more bytes than it needs.
    fn inner(&self, rng: &mut Rng) -> Vec<u8> {
        let (key, length) = (self.key(rng), rng.index(6));
        let value = rng.bytes(length);
        let deadline = rng.pick(&[0, 1, 2, 700, 65_534, 65_535]);
        let plain = record_bytes(self.on, &key, &value, deadline);
        if key.len() > 127 || rng.one_in(2) {
            return plain;
        }
        let more = 1 + rng.index(10);
        let mut bytes = vec![plain[0] | 0x80];
        bytes.resize(more, 0x80);
        bytes.push(rng.pick(&[0, 0, 0, 0x7e]));
        bytes.extend(&plain[1..]);
        bytes
    }

    // What can be read in a record that was appended there: itself, and records in its value.
    pub fn appended(&mut self, rng: &mut Rng, at: u64, tape: &[u8]) {
        for place in at..tape.len() as u64 {
            if place > at && !rng.one_in(3) {
                continue;
            }
            if let Some(mut readable) = self.read(tape, place) {
                readable.inner = place > at;
                self.readable.push(readable);
            }
        }
    }

    fn read(&self, tape: &[u8], at: u64) -> Option<Readable> {
        let record = crate::model::rules::record_at(tape, self.on, at)?;
        Some(Readable {
            at,
            key: tape[record.key_at..record.value_at()].to_vec(),
            value: tape[record.value_at()..][..record.value_len].to_vec(),
            header: record.key_offset,
            inner: false,
        })
    }

    // After a load: the segments that started here start there now, and the others are gone.
    pub fn moved(&mut self, segments: &[(u64, u64, u64)]) {
        self.readable.retain_mut(|readable| {
            let segment = segments
                .iter()
                .find(|(from, length, _)| (*from..from + length).contains(&readable.at));
            match segment {
                Some((from, _, to)) => readable.at = readable.at - from + to,
                None => return false,
            }
            true
        });
    }

    pub fn cut(&mut self, filled: u64) {
        self.readable.retain(|readable| readable.at < filled);
    }
}
