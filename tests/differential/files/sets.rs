// Sets for files, made by the calls of the port or of the model; and the files of worked examples.
use crate::calls::world::{Ask, By, Opened, Pushed, Reused, Sizes, World};
use crate::rng::Rng;

// Document 01's example, with both records looked up.
pub fn example(by: By) -> World {
    let mut world = World::new(&[1, 1, 0, 7, 1, 0], Sizes::for_counts(1, 0, 12));
    by(&mut world, &Ask::Open { records: 2 }, 0);
    push(by, &mut world, 1, b"a", b"AB", &[9, 500_000_000]);
    push(by, &mut world, 2, b"b", b"", &[]);
    by(&mut world, &Ask::Finish { target: 4_096 }, 0);
    get(by, &mut world, 1, b"a", 9);
    get(by, &mut world, 2, b"b", 70_000);
    world
}

fn push(by: By, world: &mut World, hash: u64, key: &[u8], value: &[u8], lifetime: &[u64]) {
    let pushed = Pushed {
        hash,
        key,
        value,
        lifetime,
    };
    by(world, &Ask::Push(pushed), 2);
}

pub fn get(by: By, world: &mut World, hash: u64, key: &[u8], tick: u64) -> [u64; 3] {
    by(world, &Ask::Get { hash, key, tick }, 3);
    [world.out[0], world.out[1], world.out[2]]
}

// Three segments of a record each; the first is dropped, the others are reused, a record is copied and then
// looked up. An index of words, and a filter.
pub fn rebuilt(by: By) -> World {
    let mut source = World::new(&[1, 1, 0, 7, 0, 8], Sizes::for_counts(1, 1, 24));
    by(&mut source, &Ask::Open { records: 3 }, 0);
    push(by, &mut source, 1, b"a", b"1", &[5, 0]);
    push(by, &mut source, 2, b"b", b"2", &[6, 0]);
    push(by, &mut source, 3, b"c", b"3", &[]);
    by(&mut source, &Ask::Finish { target: 6 }, 0);
    let mut world = World::for_rebuild(&source, Sizes::for_counts(1, 1, 24));
    world.arena = source.arena;
    let opened = Opened {
        records: 3,
        capacity: 6,
        keep: &[0, 1, 1],
        now: 0,
    };
    by(&mut world, &Ask::RebuildOpen(opened), 0);
    for (segment, hash, key, value) in [(1, 2, b"b", b"2"), (2, 3, b"c", b"3")] {
        let reused = Reused {
            hash,
            key,
            value,
            location: segment << 32,
            header: 4,
        };
        by(&mut world, &Ask::Reused(reused), 2);
    }
    let copied = Pushed {
        hash: 4,
        key: b"d",
        value: b"4",
        lifetime: &[40, 0],
    };
    by(&mut world, &Ask::Copied(copied), 2);
    by(&mut world, &Ask::RebuildFinish, 4);
    get(by, &mut world, 4, b"d", 0);
    world
}

// So many records, each a segment of its own where the target is 1; of both layouts.
pub fn many(by: By, rng: &mut Rng, setting: &[u64; 6], records: u64, target: u64) -> World {
    let buckets = records.div_ceil(setting[3]).max(1) as usize;
    let words = (records * setting[5]).div_ceil(64) as usize;
    let bytes = 8 * records as usize;
    let mut world = World::new(setting, Sizes::for_counts(buckets, words, bytes));
    by(&mut world, &Ask::Open { records }, 0);
    for i in 0..records as u16 {
        let lifetime: &[u64] = match setting[0] {
            1 if i % 3 == 0 => &[7, 0],
            _ => &[],
        };
        push(by, &mut world, rng.next(), &i.to_le_bytes(), b"v", lifetime);
    }
    by(&mut world, &Ask::Finish { target }, 0);
    world
}

// The file of a set; empty where it is refused.
pub fn file_of(by: By, world: &mut World) -> Vec<u8> {
    if by(world, &Ask::FileBytes, 1) != 0 {
        return Vec::new();
    }
    let size = world.out[0] as usize;
    world.room_for_file(size);
    let refusal = by(world, &Ask::WriteFile, 1);
    let mut file = std::mem::take(&mut world.file);
    world.lent.file = 0;
    file.truncate(if refusal == 0 { size } else { 0 });
    file
}

// Numbers in hexadecimal, with spaces between.
pub fn bytes(text: &str) -> Vec<u8> {
    let byte = |word: &str| u8::from_str_radix(word, 16).ok();
    text.split_whitespace().filter_map(byte).collect()
}

// The same without spaces; nothing where a digit is none.
pub fn digits(text: &str) -> Option<Vec<u8>> {
    let pairs = (0..text.len()).step_by(2).map(|at| text.get(at..at + 2));
    pairs
        .map(|pair| u8::from_str_radix(pair?, 16).ok())
        .collect()
}

// 158 bytes: the setting and two records, one segment of 12 bytes, one packed bucket, no filter.
pub fn example_file() -> Vec<u8> {
    let front = "2c 00 00 00 01 00 01 01 00 00 00 00 00 00 00 00 00 00 00 07 01 00 02 00 00 00 02 00 00 00 \
        00 00 00 00 02 00 00 00 00 00 00 00 08 00 00 00 00 00 00 00 08 00 00 00 02 00 0c 00 00 00 00 00 00 \
        00 40 00 00 00 03 00 01 01 00 00 00 00 00 00 00 00 01 00 00 00 00 00 00 08 00 00 00 00";
    let rest = "00 00 00 00 04 00 0c 00 00 00 05 00 01 02 0a 00 61 41 42 01 00 ff ff 62";
    [bytes(front), vec![0; 42], bytes(rest)].concat()
}

// 188 bytes: its three segments, which stood at 6, 12 and 18; three index words, one filter word.
pub fn rebuilt_file() -> Vec<u8> {
    let front = "2c 00 00 00 01 00 01 01 00 00 00 00 00 00 00 00 00 00 00 07 00 08 03 00 00 00 03 00 00 00 \
        00 00 00 00 03 00 00 00 00 00 00 00 0c 00 00 00 00 00 00 00 18 00 00 00 02 00 06 00 00 00 00 00 00 \
        00 06 00 00 00 00 00 00 00 06 00 00 00 00 00 00 00 40 00 00 00 03 00 01 00 00 00 00 00 00 00 01 00 \
        00 00 01 00 00 00 01 00 00 00 02 00 00 00";
    let rest = "08 00 00 00 04 00 00 00 00 00 00 00 00 00 12 00 00 00 05 00 01 01 06 00 62 32 01 01 ff ff \
        63 33 01 01 28 00 64 34";
    [bytes(front), vec![0; 40], bytes(rest)].concat()
}
