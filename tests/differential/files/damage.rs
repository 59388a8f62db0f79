// Files with something wrong, by the port and by the model; what each is to be refused with is written down
// where document 02 says it outright.
use crate::calls::world::{Ask, Sizes, World, port};
use crate::files::load::fresh;
use crate::files::sets::example_file;
use crate::forged::stages::both;
use crate::model::files::{WIDTHS, header, held};
use crate::report::Group;

// Areas for a file: three words or bytes longer than it needs, or any where it is refused.
pub fn world_for(file: &[u8]) -> World {
    if let Ok(read) = held(file) {
        return fresh(&read, file.to_vec());
    }
    let mut world = World::new(&[0, 0, 0, 7, 1, 0], Sizes::for_counts(2, 2, 100));
    world.file = file.to_vec();
    world.lent.file = file.len();
    world
}

// Both answers and every area; the port's refusal comes back.
pub fn asked(group: &mut Group, about: &str, file: &[u8]) -> u64 {
    let mut world = world_for(file);
    both(group, about, &world, &Ask::FileNeeds);
    both(group, about, &world, &Ask::LoadFile);
    port(&mut world, &Ask::LoadFile, 0)
}

pub fn refused(group: &mut Group, about: &str, file: &[u8], number: u64) {
    let refusal = asked(group, about, file);
    group.rule("load", refusal, number, || about.to_string());
}

// A file with other bytes from a place on.
pub fn put(file: &[u8], at: usize, bytes: &[u8]) -> Vec<u8> {
    let mut file = file.to_vec();
    file[at..at + bytes.len()].copy_from_slice(bytes);
    file
}

pub fn blocks(file: &[u8]) -> Vec<Vec<u8>> {
    let (mut rest, mut blocks) = (file, Vec::new());
    while let [a, b, c, d, ..] = *rest {
        let end = 6 + u32::from_le_bytes([a, b, c, d]) as usize;
        blocks.push(rest[..end].to_vec());
        rest = &rest[end..];
    }
    blocks
}

// What is written over document 01's example from a place on, and what it is to be refused with.
type Row = (&'static str, &'static [(usize, &'static [u8])], u64);

const NUMBERS: [Row; 24] = [
    ("as it is", &[], 0),
    ("length of kind 3 is 2^32 - 1", &[(64, &[255; 4])], 13),
    ("kind 7 for 2", &[(54, &[7])], 14),
    ("kinds 1, 2, 4, 3, 5", &[(68, &[4]), (138, &[3])], 14),
    (
        "expiry 2, and the last kind 9",
        &[(6, &[2]), (144, &[9])],
        14,
    ),
    ("expiry 2", &[(6, &[2])], 15),
    ("expiry off, the tick left", &[(6, &[0])], 15),
    (
        "expiry off, a nanosecond left",
        &[(6, &[0, 0]), (15, &[1])],
        15,
    ),
    ("expiry off, no tick", &[(6, &[0, 0])], 0),
    ("tick 0", &[(7, &[0; 12])], 15),
    ("10^9 nanoseconds", &[(15, &[0, 0xca, 0x9a, 0x3b])], 15),
    ("10^9 - 1 nanoseconds", &[(15, &[255, 0xc9, 0x9a, 0x3b])], 0),
    ("occupancy 0", &[(19, &[0])], 15),
    ("occupancy 8", &[(19, &[8])], 15),
    ("packed 2", &[(20, &[2])], 15),
    ("filter bits 1", &[(21, &[1])], 15),
    ("8 records", &[(22, &[8])], 15),
    ("1,048,577 records", &[(22, &[1, 0, 16, 0])], 15),
    ("3 records", &[(22, &[3])], 0),
    ("2^31 key bytes", &[(26, &[0, 0, 0, 128])], 0),
    ("2^31 + 1 key bytes", &[(26, &[1, 0, 0, 128])], 15),
    ("a segment of 13 bytes", &[(56, &[13])], 15),
    ("a segment of 11 bytes", &[(56, &[11])], 15),
    ("a mark on slot 0", &[(70, &[0x81])], 0),
];

// Document 01's example with other bytes in it, cut and with more behind.
pub fn table(group: &mut Group) {
    let file = example_file();
    for (about, patches, number) in NUMBERS {
        let patched = patches
            .iter()
            .fold(file.clone(), |file, (at, bytes)| put(&file, *at, bytes));
        refused(group, about, &patched, number);
    }
    for (bytes, number) in [(0, 14), (3, 13), (50, 14), (55, 13), (157, 13)] {
        refused(
            group,
            &format!("{bytes} bytes of it"),
            &file[..bytes],
            number,
        );
    }
    let seven = put(&file, 54, &[7]);
    refused(group, "kind 7 for 2, the last byte gone", &seven[..157], 13);
}

// Lengths of blocks one off, in the header alone and with a byte less or more behind it.
pub fn lengths(group: &mut Group, file: &[u8]) {
    let whole = blocks(file);
    for i in 0..whole.len() {
        let size = whole[i].len() - 6;
        let kind = [whole[i][4], whole[i][5]];
        for change in [-1_i32, 1] {
            let other = (size as i32 + change) as u32;
            let mut said = whole.clone();
            said[i] = put(&whole[i], 0, &other.to_le_bytes());
            asked(group, &format!("block {i} says {other}"), &said.concat());
            if change < 0 && size == 0 {
                continue;
            }
            let mut is = said;
            is[i].resize(other as usize + 6, 0);
            let number = asked(group, &format!("block {i} has {other}"), &is.concat());
            let about = || format!("block {i} of kind {kind:?} has {other} bytes");
            group.rule("length that does not fit", number, 15, about);
        }
    }
}

// Orders of the five blocks: as they are, the first ones alone, without one, with one twice, two exchanged, one in
// another's place.
fn orders() -> Vec<Vec<usize>> {
    let all: Vec<usize> = (0..5).collect();
    let mut orders = vec![all.clone()];
    for i in 0..5 {
        let mut less = all.clone();
        less.remove(i);
        orders.extend([less, all[..i].to_vec()]);
        for j in 0..5 {
            let (mut twice, mut swapped, mut over) = (all.clone(), all.clone(), all.clone());
            twice.insert(i, j);
            swapped.swap(i, j);
            over[i] = j;
            orders.extend([twice, swapped, over]);
        }
    }
    orders
}

// Blocks in other orders, each of another kind, and bytes behind the fifth.
pub fn kinds(group: &mut Group, file: &[u8]) {
    let whole = blocks(file);
    for order in orders() {
        let number = match order {
            _ if order.iter().copied().eq(0..5) => 0,
            _ if order.len() > 5 => 13,
            _ => 14,
        };
        let parts: Vec<&[u8]> = order.iter().map(|&i| &whole[i][..]).collect();
        refused(group, &format!("blocks {order:?}"), &parts.concat(), number);
    }
    let mut at = 0;
    for (i, block) in (1..).zip(&whole) {
        for kind in (0..8).chain([0x100, 0x100 + i, 0xff00, u16::MAX]) {
            let number = if kind == i { 0 } else { 14 };
            let file = put(file, at + 4, &kind.to_le_bytes());
            refused(group, &format!("block {i} of kind {kind}"), &file, number);
        }
        at += block.len();
    }
    for more in [1, 5, 6, 7, 4_096] {
        let file = [file, &vec![0; more]].concat();
        refused(group, &format!("{more} bytes behind"), &file, 13);
    }
    let sixth = [file, &header(0, 6)].concat();
    refused(group, "a sixth block", &sixth, 13);
}

// Each number of kind 1 at its bounds, one past them and at the ends of its width.
pub fn fields(group: &mut Group, file: &[u8]) {
    let mut at = 6;
    for (field, width) in WIDTHS.into_iter().enumerate() {
        let most = u64::MAX >> (64 - 8 * width);
        let records = u64::from(file[22]) + 256 * u64::from(file[23]);
        let mut numbers = vec![
            0,
            1,
            2,
            3,
            6,
            7,
            8,
            9,
            63,
            64,
            65,
            127,
            128,
            255,
            most,
            most - 1,
        ];
        numbers.extend([999_999_999, 1_000_000_000, 1_048_575, 1_048_576, 1_048_577]);
        for bytes in [records << 30, 1 << 30, 1 << 31, 1 << 32, 1 << 50, 1 << 63] {
            numbers.extend([bytes.wrapping_sub(1), bytes, bytes + 1]);
        }
        numbers.extend((0..40).map(|more| records.saturating_sub(20) + more));
        for number in numbers.into_iter().filter(|&number| number <= most) {
            let file = put(file, at, &number.to_le_bytes()[..width]);
            asked(group, &format!("number {field} is {number}"), &file);
        }
        at += width;
    }
}

// Marks in a file, and in a packed index the same bits of its references: one byte, and all of them.
pub fn marks(group: &mut Group, file: &[u8]) {
    let begin = blocks(file)[..2].iter().map(Vec::len).sum::<usize>() + 6;
    let end = begin + blocks(file)[2].len() - 6;
    let mut all = file.to_vec();
    for at in begin..end {
        all[at] |= 0x80;
        if at % 5 == 0 {
            refused(group, "a mark", &put(file, at, &[file[at] | 0x80]), 0);
        }
    }
    refused(group, "marks everywhere", &all, 0);
}
