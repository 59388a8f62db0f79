// The ends of every bound: sums of segments' lengths, areas that a file is loaded into, arenas of 2^30 bytes.
use crate::calls::world::{Ask, By, World, model, port};
use crate::files::damage::{blocks, put, refused, world_for};
use crate::files::sets::{example_file, file_of, many};
use crate::forged::stages::{both, both_of};
use crate::model::files::{header, held};
use crate::report::Group;
use crate::rng::Rng;

// The segments' lengths: one more and one less, two that make up for each other, sums that would wrap around,
// and 0, 1, 256 and 257 of them.
pub fn sums(group: &mut Group, file: &[u8]) {
    let whole = blocks(file);
    let bytes = (whole[4].len() - 6) as u64;
    let of = |lengths: &[u64]| {
        let content: Vec<u8> = lengths
            .iter()
            .flat_map(|length| length.to_le_bytes())
            .collect();
        let mut parts = whole.clone();
        parts[1] = [header(content.len(), 2), content].concat();
        parts.concat()
    };
    let mut padded = vec![0; 256];
    padded[255] = bytes;
    let mut long = vec![0; 257];
    long[0] = bytes;
    let rest = 0_u64.wrapping_sub(1 << 63).wrapping_add(bytes);
    let rows: [(Vec<u64>, u64); 11] = [
        (Vec::new(), 15),
        (vec![bytes], 0),
        (vec![bytes + 1], 15),
        (vec![bytes.wrapping_sub(1)], 15),
        (vec![bytes, 0], 0),
        (vec![0, bytes], 0),
        (vec![bytes + 1, u64::MAX], 15),
        (vec![1 << 63, rest], 15),
        (vec![u64::MAX, bytes.wrapping_add(1)], 15),
        (padded, 0),
        (long, 15),
    ];
    for (lengths, number) in rows {
        let shown = &lengths[..lengths.len().min(3)];
        let about = format!("{} lengths {shown:?} for {bytes} bytes", lengths.len());
        refused(group, &about, &of(&lengths), number);
    }
}

// Each area exact, one short and empty, all exact; a file that is refused for itself as well; and answers and
// states of other lengths.
pub fn areas(group: &mut Group, file: &[u8]) {
    let plain = world_for(file);
    let bad = put(file, 54, &[7]);
    let Ok(read) = held(file) else {
        return;
    };
    let mut exact = plain.clone();
    for (area, need) in read.needs().into_iter().enumerate() {
        let need = need as usize;
        *size(&mut exact, area) = need;
        for lent in [need, need.saturating_sub(1), need / 2, 0] {
            let mut world = plain.clone();
            *size(&mut world, area) = lent;
            let about = format!("area {area} of {lent}, {need} needed");
            both(group, &about, &world, &Ask::LoadFile);
            let refusal = port(&mut world.clone(), &Ask::LoadFile, 0);
            let number = if lent < need { 10 } else { 0 };
            group.rule("load", refusal, number, || about.clone());
            world.file.clone_from(&bad);
            let refusal = port(&mut world, &Ask::LoadFile, 0);
            group.rule("load", refusal, 14, || format!("{about}, kind 7"));
        }
    }
    both(group, "all areas exact", &exact, &Ask::LoadFile);
    for words in [0, 1, 4, 6] {
        both_of(
            group,
            "needs of other lengths",
            &plain,
            &Ask::FileNeeds,
            words,
        );
    }
    for words in [0, 14, 16] {
        let mut world = plain.clone();
        world.set.resize(words, 7);
        both(group, "a set of other lengths", &world, &Ask::LoadFile);
        world.file = Vec::new();
        world.lent.file = 0;
        both(
            group,
            "a set of other lengths, no file",
            &world,
            &Ask::LoadFile,
        );
    }
}

fn size(world: &mut World, area: usize) -> &mut usize {
    let lent = &mut world.lent;
    match area {
        0 => &mut lent.index,
        1 => &mut lent.filter,
        2 => &mut lent.starts,
        3 => &mut lent.lengths,
        _ => &mut lent.arena,
    }
}

// An arena of 2^30 bytes is taken and one of a byte more is not, by the loader with 10 and by the writer with
// 11. It is never compared whole: only its front is written.
pub fn largest(group: &mut Group) {
    use crate::port::calls::{load_file, write_file};
    let (file, mut arena) = (example_file(), vec![0; (1 << 30) + 1]);
    for (size, load, write) in [(1 << 30, 0, 0), ((1 << 30) + 1, 10, 11)] {
        let (mut index, mut filter, mut set) = ([1; 8], [1; 1], [1; 15]);
        let (mut starts, mut lengths) = ([1; 256], [1; 256]);
        let lent = &mut arena[..size];
        let loaded = load_file(
            &file,
            &mut index,
            &mut filter,
            &mut starts,
            &mut lengths,
            lent,
            &mut set,
        );
        group.rule("load", loaded, load, || format!("arena of {size}"));
        let state = if load == 0 { [1, 0, 12] } else { [1; 3] };
        group.area(
            "set, start, length",
            &[set[0], starts[0], lengths[0]],
            &state,
            String::new,
        );
        let (starts, lengths) = ([0; 256], [12; 256]);
        let set = [1, 1, 0, 7, 1, 0, 2, 1, 0, 1, 12, 12, 2, 2, 8];
        let (mut out, mut bytes) = (vec![0; 158], [0]);
        let index = [0x101, 0x10000, 0x800, 0, 0, 0, 0, 0];
        let written = write_file(
            &set,
            &index,
            &filter,
            &starts,
            &lengths,
            &arena[..size],
            &mut out,
            &mut bytes,
        );
        group.rule("write", written, write, || format!("arena of {size}"));
        let wanted = if write == 0 {
            file.clone()
        } else {
            vec![0; 158]
        };
        group.area("file", &out, &wanted, || format!("arena of {size}"));
    }
}

// Segments of a set that is written: at the end of the filled bytes and past it, over each other, sums of 2^30
// bytes and of one more, and sums past 64 bits. No file is lent, so that a set that passes gets 10.
pub fn written_sums(group: &mut Group) {
    use crate::{model, port};
    const MOST: u64 = 1 << 30;
    let arena = vec![0; MOST as usize];
    let rows: [(&[(u64, u64)], u64); 10] = [
        (&[(0, MOST)], 0),
        (&[(0, MOST), (0, 1)], 11),
        (&[(0, MOST), (MOST, 0)], 0),
        (&[(0, MOST / 2), (0, MOST / 2)], 0),
        (&[(0, MOST / 2), (MOST / 2, MOST / 2 + 1)], 11),
        (&[(1, MOST)], 11),
        (&[(MOST + 1, 0)], 11),
        (&[(u64::MAX, 2)], 11),
        (&[(2, u64::MAX)], 11),
        (&[(1 << 63, 1 << 63), (0, 1)], 11),
    ];
    for (segments, number) in rows {
        let (mut starts, mut lengths) = ([0; 256], [0; 256]);
        for (i, &(start, length)) in segments.iter().enumerate() {
            (starts[i], lengths[i]) = (start, length);
        }
        let count = segments.len() as u64;
        let set = [0, 0, 0, 7, 1, 0, 1, 1, 0, count, MOST, MOST, 1, 1, 2];
        let (mut ours, mut wanted) = ([7], [7]);
        let refusal = port::calls::file_bytes(&set, &starts, &lengths, &mut ours);
        let about = || format!("{segments:?}");
        group.rule("file bytes", refusal, number, about);
        let rule = model::files::file_bytes(&set, &starts, &lengths, &mut wanted);
        group.rule("file bytes", (refusal, ours), (rule, wanted), about);
        let (index, mut bytes) = ([0; 8], [7]);
        let refusal = port::calls::write_file(
            &set,
            &index,
            &[],
            &starts,
            &lengths,
            &arena,
            &mut [],
            &mut bytes,
        );
        group.rule("write", (refusal, bytes), (number.max(10), [7]), about);
    }
}

// Expiry off: whatever stands in the words of the tick, the file has zeros there.
pub fn quiet_ticks(group: &mut Group, rng: &mut Rng) {
    for packed in [0, 1] {
        let mut world = many(model, rng, &[0, 0, 0, 7, packed, 8], 9, 20);
        let plain = file_of(model, &mut world);
        for tick in [[0, 0], [1, 0], [0, 1], [5, 1_000_000_000], [u64::MAX; 2]] {
            world.set[1..3].copy_from_slice(&tick);
            for (by, name) in [(port as By, "port"), (model, "model")] {
                let file = file_of(by, &mut world);
                let about = || format!("{name}, tick {tick:?}");
                group.area("file with expiry off", &file, &plain, about);
            }
        }
    }
}
