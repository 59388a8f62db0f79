// Small sets at every stage of their making, made by the model: what forged states start from. And
// one call by the port and by the model on the same world.
use crate::calls::records::{Entry, cut, entries, total};
use crate::calls::world::{Ask, Pushed, Sizes, World, model, port};
use crate::model::rules::Setting;
use crate::model::sheets::PAGE;
use crate::report::Group;
use crate::rng::Rng;
use crate::sets::spreads::SPREADS;
use std::time::Duration;

pub struct Stage {
    pub name: String,
    pub world: World,
    pub list: Vec<Entry>,
    pub finished: bool,
}

// Occupancy, filter bits, records.
const SHAPES: [(u64, u64, usize); 5] = [(7, 8, 20), (1, 0, 3), (3, 255, 0), (2, 1, 1), (7, 8, 40)];

// Segments are short, so that most sets have several.
const TARGET: u64 = 200;

pub fn stages(rng: &mut Rng) -> Vec<Stage> {
    let mut stages = Vec::new();
    for (occupied, bits, count) in SHAPES {
        for packed in [0, 1] {
            for on in [0, 1] {
                let setting = [on, on * 2, on * 500_000_000, occupied, packed, bits];
                made(rng, &setting, count, &mut stages);
                // Half of the sets once more, so that they fit a sheet.
                if on == packed {
                    made_by(rng, &setting, count, cut, &mut stages);
                }
            }
        }
    }
    stages
}

// Half of the records in, all of them, and finished.
pub fn made(rng: &mut Rng, setting: &[u64; 6], count: usize, stages: &mut Vec<Stage>) {
    made_by(rng, setting, count, |_| (), stages);
}

fn made_by(
    rng: &mut Rng,
    setting: &[u64; 6],
    count: usize,
    change: fn(&mut [Entry]),
    stages: &mut Vec<Stage>,
) {
    let Some(rules) = Setting::of(setting) else {
        return;
    };
    let tick = rules
        .on
        .then(|| Duration::new(rules.secs, rules.nanos as u32));
    let buckets = rules.buckets(count as u64) as usize;
    let words = rules.filter_words(count as u64) as usize;
    // With 20 records of one hash some are two buckets past their first.
    let spread = if count < 30 { &SPREADS[1] } else { &SPREADS[0] };
    let mut list = entries(rng, spread, count, buckets, tick);
    change(&mut list);
    let arena = total(&list, rules.on) + 40;
    let mut world = World::new(setting, Sizes::for_counts(buckets, words, arena));
    model(
        &mut world,
        &Ask::Open {
            records: count as u64,
        },
        0,
    );
    let mut stage = |name: &str, world: &World, finished: bool| {
        stages.push(Stage {
            name: format!("{name}, {count} records, setting {setting:?}"),
            world: world.clone(),
            list: entries_of(&list),
            finished,
        });
    };
    for (i, entry) in list.iter().enumerate() {
        if i == count / 2 {
            stage("half", &world, false);
        }
        model(&mut world, &Ask::Push(entry.pushed()), 2);
    }
    stage("full", &world, false);
    model(&mut world, &Ask::Finish { target: TARGET }, 0);
    model(&mut world, &Ask::FileBytes, 1);
    world.room_for_file(world.out[0] as usize);
    world.room_for_page(PAGE);
    stage("finished", &world, true);
}

pub fn entries_of(list: &[Entry]) -> Vec<Entry> {
    let copy = |entry: &Entry| Entry {
        hash: entry.hash,
        key: entry.key.clone(),
        value: entry.value.clone(),
        lifetime: entry.lifetime.clone(),
    };
    list.iter().map(copy).collect()
}

impl Stage {
    // Calls that belong to the stage: of a key that stands there, and of one that does not.
    pub fn asks(&self) -> Vec<Ask<'_>> {
        let (hash, key) = match self.list.first() {
            Some(entry) => (entry.hash, &entry.key[..]),
            None => (0, &b""[..]),
        };
        let tick = 3;
        if self.finished {
            return vec![
                Ask::Get { hash, key, tick },
                Ask::Get {
                    hash,
                    key: b"absent",
                    tick,
                },
                Ask::Peek { hash, key, tick },
                Ask::Take { hash, key },
                Ask::Probe { hash, key, tick },
                Ask::Walk { from: 0, tick },
                Ask::Walk { from: 4, tick },
                Ask::Step {
                    segment: 0,
                    position: 0,
                },
                Ask::Stats,
                Ask::FileBytes,
                Ask::WriteFile,
                Ask::SheetPages,
                Ask::PrintSheet,
            ];
        }
        self.pushes(hash, key)
    }

    fn pushes<'a>(&self, hash: u64, key: &'a [u8]) -> Vec<Ask<'a>> {
        let new = Pushed {
            hash,
            key: b"new key",
            value: b"value",
            lifetime: &[],
        };
        vec![
            Ask::Open {
                records: self.list.len() as u64,
            },
            Ask::Push(new),
            Ask::Push(Pushed { key, ..new }),
            Ask::Push(Pushed {
                lifetime: &[9, 1],
                ..new
            }),
            Ask::Push(Pushed {
                lifetime: &[0, 1_000_000_000],
                ..new
            }),
            Ask::Finish { target: TARGET },
            Ask::Finish { target: 0 },
            Ask::Finish {
                target: 100_663_296,
            },
        ]
    }
}

// One call on copies of a world.
pub fn both(group: &mut Group, about: &str, world: &World, ask: &Ask) {
    both_of(group, about, world, ask, ask.answer());
}

// The same with another number of words for the answer.
pub fn both_of(group: &mut Group, about: &str, world: &World, ask: &Ask, words: usize) {
    let (mut ours, mut wanted) = (world.clone(), world.clone());
    let number = on_both(group, about, &mut ours, &mut wanted, ask, words);
    // A refusal writes nothing; a finish refused with 7 leaves starts.
    let starts = number == 7 && matches!(ask, Ask::Finish { .. });
    if number != 0 && !starts {
        ours.out.clone_from(&world.out);
        let input = || format!("{about}, {ask:x?}: {}", ours.difference(world));
        group.rule("areas after a refusal", ours == *world, true, input);
    }
}

// One call on the port's world and on the model's.
pub fn on_both(
    group: &mut Group,
    about: &str,
    ours: &mut World,
    wanted: &mut World,
    ask: &Ask,
    words: usize,
) -> u64 {
    let refusal = port(ours, ask, words);
    let number = model(wanted, ask, words);
    let input = || format!("{about}, {ask:x?}");
    group.rule("refusal", refusal, number, input);
    let same = ours == wanted;
    group.rule("areas and answer", same, true, || {
        format!("{}: {}", input(), ours.difference(wanted))
    });
    number
}
