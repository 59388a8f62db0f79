// Length prefixes: their size, their bytes in areas of every length, and reading them back and
// from bytes of every form.
use crate::port::parts as port;
use crate::report::Group;
use crate::rng::{Rng, edges, pattern};
use oracle_large::access;

// Zero, one and the largest payload, each with and without the mark that another byte follows.
const BYTES: [u8; 6] = [0x00, 0x01, 0x7f, 0x80, 0x81, 0xff];

// The refusal for an area that is too short.
const TOO_SHORT: u64 = 10;

// Every value at which another byte is needed is a power of two, so among the edges.
pub fn write(group: &mut Group, random: u64) {
    let edges = edges();
    for &value in &edges {
        for room in 0..=14 {
            write_one(group, value as usize, room);
        }
    }
    let mut rng = Rng::new(7);
    for _ in 0..random {
        let value = rng.number(&edges) as usize;
        let room = access::varint_bytes(value) + rng.index(5);
        write_one(group, value, room - 1);
    }
}

// Writes to an area of so many bytes and reads back what was written.
fn write_one(group: &mut Group, value: usize, room: usize) {
    let mut wanted = Vec::new();
    access::write_varint(&mut wanted, value);
    let size = wanted.len();
    let input = || format!("{value:#x}, area of {room}");
    group.rust("varint_bytes", port::test_varint_bytes(value), size, input);
    let mut area = pattern(room);
    let found = port::write_varint(&mut area, value);
    if written(group, "write_varint", found, &area, wanted, input) {
        group.rule(
            "read_varint back",
            port::read_varint(&area, 0),
            Some((value, size)),
            input,
        );
    }
}

// What stands in an area that had the pattern: these bytes at its front, or nothing new where it is too
// short for them.
pub fn written(
    group: &mut Group,
    call: &str,
    found: Result<u64, u64>,
    area: &[u8],
    mut wanted: Vec<u8>,
    input: impl Fn() -> String,
) -> bool {
    let (room, size) = (area.len(), wanted.len());
    if room < size {
        group.rule(call, found, Err(TOO_SHORT), &input);
        group.area(call, area, &pattern(room), input);
        return false;
    }
    wanted.extend_from_slice(&pattern(room)[size..]);
    group.rust(call, found, Ok(size as u64), &input);
    group.area(call, area, &wanted, input);
    true
}

pub fn read(group: &mut Group, random: u64) {
    read_at_all(group, &[]);
    for first in 0..=255 {
        read_at_all(group, &[first]);
        for second in 0..=255 {
            read_at_all(group, &[first, second]);
        }
    }
    for len in 3..=6 {
        for_each_string(len, &mut |bytes| read_one(group, bytes, 0));
    }
    long_strings(group);
    let mut rng = Rng::new(8);
    for _ in 0..random {
        let bytes = random_bytes(&mut rng);
        let cursor = random_cursor(&mut rng, bytes.len());
        read_one(group, &bytes, cursor);
    }
}

// Strings of 7 to 12 bytes: what stands before the eighth says only that more follows, and the
// last ones are chosen freely, so that the ninth to the eleventh place take every form.
fn long_strings(group: &mut Group) {
    for len in 7..=12 {
        for lead in [0x80, 0x81, 0xff, 0xaa] {
            let free = 4.min(len - 6);
            for_each_string(free, &mut |last| {
                let mut bytes = vec![lead; len];
                bytes[len - free..].copy_from_slice(last);
                read_one(group, &bytes, 0);
                // The same string further on: the count of bytes starts at the cursor.
                let mut moved = vec![0x80; 3];
                moved.extend_from_slice(&bytes);
                read_one(group, &moved, 3);
                read_one(group, &moved, 1);
            });
        }
    }
}

fn for_each_string(len: usize, visit: &mut dyn FnMut(&[u8])) {
    let mut bytes = vec![0; len];
    for mut number in 0..BYTES.len().pow(len as u32) {
        for byte in &mut bytes {
            *byte = BYTES[number % BYTES.len()];
            number /= BYTES.len();
        }
        visit(&bytes);
    }
}

fn read_at_all(group: &mut Group, bytes: &[u8]) {
    for cursor in (0..bytes.len() + 3).chain([1 << 32, usize::MAX - 1, usize::MAX]) {
        read_one(group, bytes, cursor);
    }
}

fn read_one(group: &mut Group, bytes: &[u8], cursor: usize) {
    let found = port::read_varint(bytes, cursor);
    let wanted = access::read_varint(bytes, cursor);
    group.rust("read_varint", found, wanted, || {
        format!("{bytes:02x?}, {cursor}")
    });
}

// Plain bytes; bytes that say more follows, up to a place about the tenth; and both mixed.
fn random_bytes(rng: &mut Rng) -> Vec<u8> {
    let len = rng.index(24);
    let mut bytes = rng.bytes(len);
    let marked = match rng.below(3) {
        0 => 0,
        1 => 7 + rng.index(8),
        _ => rng.index(24),
    };
    for byte in bytes.iter_mut().take(marked) {
        *byte |= 0x80;
    }
    bytes
}

fn random_cursor(rng: &mut Rng, len: usize) -> usize {
    match rng.below(4) {
        0 => rng.index(len + 3),
        1 if rng.one_in(4) => rng.any_size() as usize,
        _ => rng.index(4),
    }
}
