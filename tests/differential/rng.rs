// Random numbers from a fixed seed (splitmix64), and the numbers at which something may change.
use std::ops::Range;

pub struct Rng(u64);

impl Rng {
    pub fn new(seed: u64) -> Rng {
        Rng(seed)
    }

    pub fn next(&mut self) -> u64 {
        self.0 = self.0.wrapping_add(0x9e37_79b9_7f4a_7c15);
        let mut x = self.0;
        x = (x ^ (x >> 30)).wrapping_mul(0xbf58_476d_1ce4_e5b9);
        x = (x ^ (x >> 27)).wrapping_mul(0x94d0_49bb_1331_11eb);
        x ^ (x >> 31)
    }

    // A number below limit; the small bias of the remainder does no harm here.
    pub fn below(&mut self, limit: u64) -> u64 {
        self.next() % limit
    }

    pub fn index(&mut self, limit: usize) -> usize {
        self.below(limit as u64) as usize
    }

    pub fn one_in(&mut self, many: u64) -> bool {
        self.below(many) == 0
    }

    // A number of any magnitude: each length in bits from 0 to 64 is as likely.
    pub fn any_size(&mut self) -> u64 {
        let bits = self.below(65) as u32;
        self.next().checked_shr(64 - bits).unwrap_or(0)
    }

    // As any_size, and now and then a number close to one of the edges.
    pub fn number(&mut self, edges: &[u64]) -> u64 {
        if self.one_in(4) {
            self.pick(edges).wrapping_add(self.below(5)).wrapping_sub(2)
        } else {
            self.any_size()
        }
    }

    pub fn pick<T: Copy>(&mut self, from: &[T]) -> T {
        from[self.index(from.len())]
    }

    pub fn bytes(&mut self, len: usize) -> Vec<u8> {
        (0..len).map(|_| self.next() as u8).collect()
    }
}

// The powers of two and their neighbours, up to the largest number.
pub fn edges() -> Vec<u64> {
    let mut edges = vec![u64::MAX];
    for k in 0..64 {
        let power = 1_u64 << k;
        edges.extend([power - 1, power, power + 1]);
    }
    edges.sort_unstable();
    edges.dedup();
    edges
}

// What fills an area before a call, so that a byte which the call must leave alone is noticed
// when it is changed or moved.
pub fn pattern(len: usize) -> Vec<u8> {
    (0..len).map(pattern_byte).collect()
}

const fn pattern_byte(at: usize) -> u8 {
    (at as u8).wrapping_mul(37).wrapping_add(0x5b)
}

// The pattern repeats after so many bytes.
const PERIOD: usize = 256;

// Twice, so that a whole period of it begins at any place.
static TWICE: [u8; 2 * PERIOD] = {
    let mut twice = [0; 2 * PERIOD];
    let mut at = 0;
    while at < twice.len() {
        twice[at] = pattern_byte(at);
        at += 1;
    }
    twice
};

// Whether an area has the pattern in a part, as far as the area reaches.
pub fn has_pattern_in(area: &[u8], part: Range<usize>) -> bool {
    let end = part.end.min(area.len());
    let mut from = part.start;
    while from < end {
        let bytes = &area[from..end.min(from + PERIOD)];
        if bytes != &TWICE[from % PERIOD..][..bytes.len()] {
            return false;
        }
        from += bytes.len();
    }
    true
}

// From a place on.
pub fn has_pattern(area: &[u8], from: usize) -> bool {
    has_pattern_in(area, from..area.len())
}

// The next bytes only: what is written there by one call is written over by later ones.
pub fn has_pattern_near(area: &[u8], from: usize) -> bool {
    has_pattern_in(area, from..from + PERIOD)
}

// The same in words.
pub fn word_pattern(len: usize) -> Vec<u64> {
    (0..len as u64)
        .map(|i| (i + 1).wrapping_mul(0xa5c3_9d71_e6b4_2f8d))
        .collect()
}

// An area that is three words longer than what it holds; they are in no pattern.
pub fn lent(words: &[u64]) -> Vec<u64> {
    let mut area = words.to_vec();
    area.extend(word_pattern(3).iter().map(|word| !word));
    area
}
