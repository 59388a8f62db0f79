// Small rebuilds at every stage of their making, made by the model: what forged rebuilds start from.
use crate::calls::world::{Ask, Opened, Pushed, Reused, Sizes, World, model};
use crate::forged::stages::{Stage, entries_of, stages};
use crate::model::rules::Setting;
use crate::rng::{Rng, pattern};

pub struct Rebuilding {
    pub stage: Stage,
    pub keep: Vec<u8>,
    // Before the open.
    pub opening: bool,
    // Of each record of the source its location and the bytes before its key.
    places: Vec<(u64, u64)>,
}

// More bytes than the copied records take.
const COPIES: usize = 400;

pub fn rebuild_stages(rng: &mut Rng) -> Vec<Rebuilding> {
    let finished = stages(rng).into_iter().filter(|stage| stage.finished);
    finished.flat_map(|source| of_source(&source)).collect()
}

// With every segment kept, every second, and none: before the open, half of the records in, all in.
fn of_source(source: &Stage) -> Vec<Rebuilding> {
    let segments = source.world.set[9] as usize;
    let places = places(source);
    let mut all = Vec::new();
    for step in [1, 2, segments + 1] {
        let keep: Vec<u8> = (1..=segments).map(|i| (i % step == 0).into()).collect();
        let stages = of_flags(source, &keep, &places);
        for (i, (name, world)) in stages.into_iter().enumerate() {
            let stage = Stage {
                name: format!("{name} of {}, kept {keep:?}", source.name),
                world,
                list: entries_of(&source.list),
                finished: false,
            };
            all.push(Rebuilding {
                stage,
                keep: keep.clone(),
                opening: i == 0,
                places: places.clone(),
            });
        }
    }
    all
}

fn places(source: &Stage) -> Vec<(u64, u64)> {
    let mut world = source.world.clone();
    let mut place = |hash: u64, key: &[u8]| {
        let ask = Ask::Probe { hash, key, tick: 0 };
        model(&mut world, &ask, ask.answer());
        (world.out[2], world.out[3])
    };
    let list = source.list.iter();
    list.map(|entry| place(entry.hash, &entry.key)).collect()
}

fn of_flags(source: &Stage, keep: &[u8], places: &[(u64, u64)]) -> Vec<(&'static str, World)> {
    let count = source.list.len();
    let mut world = fresh(&source.world, count);
    let mut stages = vec![("rebuild open", world.clone())];
    let opened = Opened {
        records: count as u64,
        capacity: 0,
        keep,
        now: 3,
    };
    model(&mut world, &Ask::RebuildOpen(opened), 0);
    for (i, (entry, &place)) in source.list.iter().zip(places).enumerate() {
        if i == count / 2 {
            stages.push(("half a rebuild", world.clone()));
        }
        let reused = reused(entry.pushed(), place);
        // What is not kept is copied, shortened so that all of it fits.
        if i % 4 == 3 || model(&mut world, &Ask::Reused(reused), 2) != 0 {
            let copied = Pushed {
                value: &entry.value[..entry.value.len().min(3)],
                lifetime: &[],
                ..entry.pushed()
            };
            model(&mut world, &Ask::Copied(copied), 2);
        }
    }
    stages.push(("rebuild", world));
    stages
}

fn reused<'a>(record: Pushed<'a>, (location, header): (u64, u64)) -> Reused<'a> {
    Reused {
        hash: record.hash,
        key: record.key,
        value: record.value,
        location,
        header,
    }
}

// Areas for a rebuild with so many records, and the arena of the source with room behind.
fn fresh(source: &World, count: usize) -> World {
    let filled = source.set[10] as usize;
    let counts = Setting::of(&source.setting).map(|setting| {
        let counts = [
            setting.buckets(count as u64),
            setting.filter_words(count as u64),
        ];
        counts.map(|count| count as usize)
    });
    let [buckets, words] = counts.unwrap_or_default();
    let room = filled + 40 * count + COPIES;
    let mut world = World::for_rebuild(source, Sizes::for_counts(buckets, words, room));
    world.arena = pattern(room + 6);
    world.arena[..filled].copy_from_slice(&source.arena[..filled]);
    world
}

impl Rebuilding {
    pub fn opened(&self) -> Opened<'_> {
        Opened {
            records: self.stage.list.len() as u64,
            capacity: 1,
            keep: &self.keep,
            now: 3,
        }
    }

    // The first record that is kept, or the first of all.
    pub fn reused(&self) -> Option<Reused<'_>> {
        let kept = |place: &&(u64, u64)| self.keep[(place.0 >> 32) as usize] != 0;
        let first = self.places.iter().find(kept).or(self.places.first())?;
        let at = self.places.iter().position(|place| place == first)?;
        Some(reused(self.stage.list[at].pushed(), *first))
    }

    pub fn copied(&self) -> Pushed<'_> {
        let entry = self.stage.list.first();
        Pushed {
            hash: entry.map_or(7, |entry| entry.hash),
            key: entry.map_or(b"key", |entry| &entry.key),
            value: b"value",
            lifetime: &[],
        }
    }

    // The calls that belong to the stage.
    pub fn asks(&self) -> Vec<Ask<'_>> {
        if self.opening {
            return vec![Ask::RebuildOpen(self.opened())];
        }
        let copied = self.copied();
        let mut asks = vec![Ask::Copied(copied), Ask::RebuildFinish];
        for lifetime in [&[9, 1][..], &[0, 1_000_000_000]] {
            asks.push(Ask::Copied(Pushed { lifetime, ..copied }));
        }
        asks.extend(self.reused().map(Ask::Reused));
        asks
    }
}
