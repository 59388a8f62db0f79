// A file is loaded into fresh areas, and what they hold is compared with what the model reads in it.
use crate::calls::world::{Ask, By, Sizes, World};
use crate::model::files::{Held, held};
use crate::report::Group;
use crate::rng::{has_pattern, word_pattern};

// Fresh areas for what a file holds, three words or bytes longer than needed, with three more behind; all
// in a pattern. The file is lent as it is.
pub fn fresh(held: &Held, file: Vec<u8>) -> World {
    let [buckets, words] = [held.set[7], held.set[8]].map(|count| count as usize);
    let sizes = Sizes::for_counts(buckets, words, held.records.len());
    let mut world = World::new(&held.set[..6], sizes);
    world.lent.file = file.len();
    world.file = file;
    world
}

// Loads a file that is to be accepted; the world has no file any more, and nothing comes back where the
// model refuses it.
pub fn loaded(group: &mut Group, by: By, about: &str, file: &[u8]) -> Option<World> {
    let read = held(file);
    let number = read.as_ref().err().copied().unwrap_or(0);
    group.rule("file's own refusal", number, 0, || about.to_string());
    let read = read.ok()?;
    let mut world = fresh(&read, file.to_vec());
    let refusal = by(&mut world, &Ask::FileNeeds, 5);
    group.rule("file needs", refusal, 0, || about.to_string());
    group.area("needs", &world.out[..5], &read.needs(), || {
        about.to_string()
    });
    let refusal = by(&mut world, &Ask::LoadFile, 0);
    group.rule("load", refusal, 0, || about.to_string());
    group.area("file after the load", &world.file, file, || {
        about.to_string()
    });
    holds(group, about, &world, &read);
    world.file = Vec::new();
    world.lent.file = 0;
    Some(world)
}

// What a load leaves: the file's words and bytes in front, and the pattern behind.
fn holds(group: &mut Group, about: &str, world: &World, read: &Held) {
    let (starts, lengths) = (read.starts(), read.all_lengths());
    let areas = [
        ("loaded index", &world.index, &read.index),
        ("loaded filter", &world.filter, &read.filter),
        ("loaded starts", &world.starts, &starts),
        ("loaded lengths", &world.lengths, &lengths),
    ];
    for (name, area, front) in areas {
        let plain = word_pattern(area.len());
        group.area(name, &area[..front.len()], front, || about.to_string());
        let behind = (&area[front.len()..], &plain[front.len()..]);
        group.area(name, behind.0, behind.1, || format!("{about}, behind"));
    }
    group.area("loaded set", &world.set, &read.set, || about.to_string());
    let bytes = read.records.len();
    group.area("loaded arena", &world.arena[..bytes], read.records, || {
        about.to_string()
    });
    let rest = has_pattern(&world.arena, bytes);
    group.rule("arena past the records", rest, true, || about.to_string());
    let plain = World::new(
        &world.setting,
        Sizes {
            arena: 0,
            ..world.lent.clone()
        },
    );
    let same = world.builder == plain.builder && world.scratch == plain.scratch;
    group.rule("areas that are not lent", same, true, || about.to_string());
}
