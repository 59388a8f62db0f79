// Sets as files: worked examples byte by byte, files with each thing wrong, the ends of every bound, areas too
// short or too long, random bytes. The model decides, since the Rust has no files.
use crate::calls::world::{Ask, By, World, model, port};
use crate::files::bounds::{areas, largest, quiet_ticks, sums, written_sums};
use crate::files::damage::{asked, blocks, fields, kinds, lengths, marks, table};
use crate::files::load::loaded;
use crate::files::sets::{example, example_file, file_of, get, many, rebuilt, rebuilt_file};
use crate::forged::stages::stages;
use crate::report::Group;
use crate::rng::{Rng, has_pattern};
use std::collections::BTreeMap;

pub fn files(group: &mut Group, random: u64) {
    let mut rng = Rng::new(91);
    for (by, name) in [(port as By, "port"), (model, "model")] {
        first_example(group, by, name);
        rebuilt_example(group, by, name);
    }
    table(group);
    let files = made(group, &mut rng);
    for file in &files {
        lengths(group, file);
        kinds(group, file);
        fields(group, file);
        marks(group, file);
        sums(group, file);
        areas(group, file);
    }
    largest(group);
    written_sums(group);
    quiet_ticks(group, &mut rng);
    let mut seen = BTreeMap::new();
    for _ in 0..random / 8 {
        let file = any_file(&mut rng, &files);
        let number = asked(group, "random", &file);
        *seen.entry(number).or_insert(0) += 1;
    }
    for number in [0, 13, 14, 15] {
        let often = seen.get(&number).copied().unwrap_or(0_u64);
        group.rule("met", often > random / 2_000, true, || {
            format!("{number}: {seen:?}")
        });
    }
}

// What a file is to be and what its areas hold once loaded, by numbers written down here.
fn first_example(group: &mut Group, by: By, name: &str) {
    let about = || format!("example, {name}");
    let mut world = example(by);
    group.rule("marks", world.index[0], 0x8181, about);
    let file = file_of(by, &mut world);
    group.area(
        "file of document 01's example",
        &file,
        &example_file(),
        about,
    );
    world.room_for_file(158);
    for (lent, number) in [(0, 10), (157, 10), (158, 0), (161, 0)] {
        world.lent.file = lent;
        let refusal = by(&mut world, &Ask::WriteFile, 1);
        group.rule("write", refusal, number, || {
            format!("{name}, {lent} bytes lent")
        });
        let rest = has_pattern(&world.file, if number == 0 { 158 } else { 0 });
        group.rule("file area", rest, true, || {
            format!("{name}, {lent} bytes lent")
        });
    }
    if let Some(mut unit) = loaded(group, by, name, &file) {
        let index = [0x101, 0x10000, 0x800, 0, 0, 0, 0, 0];
        group.area("index", &unit.index[..8], &index, about);
        let counts = [unit.starts[0], unit.lengths[0], unit.set[10], unit.set[11]];
        group.area(
            "start, length, filled, record bytes",
            &counts,
            &[0, 12, 12, 12],
            about,
        );
        let asked = [(1, b"a", 9), (1, b"a", 10), (2, b"b", 70_000)];
        let spans = asked.map(|(hash, key, tick)| get(by, &mut unit, hash, key, tick));
        group.area("lookups", &spans, &[[1, 5, 2], [0; 3], [1, 12, 0]], about);
    }
}

fn rebuilt_example(group: &mut Group, by: By, name: &str) {
    let about = || format!("rebuilt example, {name}");
    let mut world = rebuilt(by);
    let places = [
        world.starts[0],
        world.starts[1],
        world.starts[2],
        world.set[10],
        world.set[11],
    ];
    group.area(
        "starts, filled, record bytes",
        &places,
        &[6, 12, 18, 24, 18],
        about,
    );
    group.rule("marked word", world.index[2], 0x8000_0002_0000_0001, about);
    let file = file_of(by, &mut world);
    group.area("file of a rebuilt set", &file, &rebuilt_file(), about);
    if let Some(mut unit) = loaded(group, by, name, &file) {
        let places = [
            unit.starts[1],
            unit.starts[2],
            unit.starts[3],
            unit.set[10],
            unit.index[2],
        ];
        group.area(
            "starts, filled, third word",
            &places,
            &[6, 12, 0, 18, 0x2_0000_0001],
            about,
        );
        let span = get(by, &mut unit, 4, b"d", 39);
        group.area("lookup", &span, &[1, 17, 1], about);
    }
}

// Files of all kinds of sets: 1 and 256 segments, no records, no filter, both layouts. Each is the same by the
// port and by the model.
fn made(group: &mut Group, rng: &mut Rng) -> Vec<Vec<u8>> {
    let mut files = vec![example_file(), rebuilt_file()];
    let mut worlds: Vec<World> = stages(rng)
        .into_iter()
        .filter(|stage| stage.finished)
        .map(|stage| stage.world)
        .collect();
    for packed in [0, 1] {
        for on in [0, 1] {
            let setting = [on, on, 0, 6, packed, 8 * on];
            for (records, target) in [(0, 1), (1, 1), (256, 1), (255, 1), (20, 4_096)] {
                worlds.push(many(model, rng, &setting, records, target));
            }
        }
    }
    let mut segments = Vec::new();
    for mut world in worlds {
        segments.push(world.set[9]);
        let (ours, wanted) = (file_of(port, &mut world), file_of(model, &mut world));
        group.area("file", &ours, &wanted, || format!("{:?}", world.set));
        loaded(group, port, "one of many", &ours);
        files.push(wanted);
    }
    for count in [1, 255, 256] {
        let met = segments.contains(&count);
        group.rule("met", met, true, || format!("{count} segments"));
    }
    files
}

// A file with some of it turned over, cut, repeated or exchanged, or any bytes.
fn any_file(rng: &mut Rng, files: &[Vec<u8>]) -> Vec<u8> {
    let mut file = files[rng.index(files.len())].clone();
    if rng.one_in(8) {
        let length = rng.index(200);
        return rng.bytes(length);
    }
    for _ in 0..rng.below(4) {
        let starts: Vec<usize> = starts(&file);
        let at = match rng.one_in(2) {
            true => rng.index(file.len()),
            // Headers, and the numbers and lengths behind the first two.
            false => (rng.pick(&starts) + rng.index(56)).min(file.len() - 1),
        };
        match rng.below(12) {
            0 => file.truncate(at.max(1)),
            1 => file.push(rng.next() as u8),
            2 => {
                let mut parts = blocks(&example_file());
                let part = parts.swap_remove(rng.index(5));
                file.splice(at..at, part);
            }
            3 | 4 => file[at] = rng.pick(&[0, 1, 2, 7, 8, 127, 128, 255]),
            5 => file[at] = file[at].wrapping_add(1),
            6 => file[at] = file[at].wrapping_sub(1),
            _ => file[at] ^= 1 << rng.below(8),
        }
    }
    file
}

// Where the blocks begin, as far as they go on.
fn starts(file: &[u8]) -> Vec<usize> {
    let (mut starts, mut at) = (vec![0], 0);
    while let Some(&[a, b, c, d]) = file.get(at..at + 4) {
        at = at.saturating_add(6 + u32::from_le_bytes([a, b, c, d]) as usize);
        if at >= file.len() {
            break;
        }
        starts.push(at);
    }
    starts
}
