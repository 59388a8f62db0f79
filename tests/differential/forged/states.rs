// Builders and sets of which one number, one area or the form is not as a call left it: the model
// decides, since the Rust has no such states.
use crate::calls::world::{Ask, Pushed, World};
use crate::forged::stages::{Stage, both, both_of, stages};
use crate::model::rules::Setting;
use crate::report::Group;
use crate::rng::Rng;

const BILLION: u64 = 1_000_000_000;

pub fn states(group: &mut Group, random: u64) {
    let mut rng = Rng::new(33);
    for stage in stages(&mut rng) {
        for ask in stage.asks() {
            forged(group, &mut rng, &stage, &ask, random / 6_000);
        }
        consistent(group, &stage);
    }
    largest_arena(group);
}

// The call as it is, then with one thing forged, and so many times with several.
pub fn forged(group: &mut Group, rng: &mut Rng, stage: &Stage, ask: &Ask, times: u64) {
    both(group, &stage.name, &stage.world, ask);
    numbers(group, stage, ask);
    areas(group, stage, ask);
    forms(group, stage, ask);
    for _ in 0..times {
        several(group, rng, stage, ask);
    }
}

// The words in which a stage's calls find the state.
fn state<'a>(world: &'a mut World, ask: &Ask, finished: bool) -> &'a mut Vec<u64> {
    match ask {
        Ask::Open { .. } => &mut world.setting,
        Ask::RebuildOpen(_) => &mut world.source.set,
        Ask::Reused(_) | Ask::Copied(_) | Ask::RebuildFinish => &mut world.rebuild,
        _ if finished => &mut world.set,
        _ => &mut world.builder,
    }
}

// With expiry off the tick's words are 0: no other content is asked for.
fn plain_tick(words: &mut [u64]) {
    if let Some(words) = words.get_mut(..3)
        && words[0] == 0
    {
        words.fill(0);
    }
}

// The numbers at which an answer to question 1 may change.
fn boundaries(words: &[u64], place: usize, arena: usize) -> Vec<u64> {
    let word = words[place];
    let mut numbers = vec![0, 1, 2, 7, 8, 9, 64, 255, 256, 257];
    numbers.extend([word.wrapping_add(1), word.wrapping_sub(1), word ^ 1 << 63]);
    numbers.extend([
        1_048_575,
        1_048_576,
        1_048_577,
        1 << 32,
        (1 << 32) - 1,
        1 << 40,
    ]);
    numbers.extend([BILLION - 1, BILLION, 1 << 30, (1 << 30) + 1]);
    numbers.extend([1 << 63, (1 << 63) - 1, u64::MAX - 1, u64::MAX]);
    let arena = arena as u64;
    numbers.extend([arena - 1, arena, arena + 1]);
    for &count in words.iter().skip(6).take(2) {
        let most = count.wrapping_mul(1 << 30);
        numbers.extend([most.wrapping_sub(1), most, most.wrapping_add(1)]);
    }
    // Sums and differences of the other numbers: filled bytes less keys, and the like.
    for &other in words.iter().skip(6) {
        numbers.extend([other, other.wrapping_add(1), word.wrapping_add(other)]);
        numbers.push(word.wrapping_sub(other));
    }
    numbers.sort_unstable();
    numbers.dedup();
    numbers
}

fn numbers(group: &mut Group, stage: &Stage, ask: &Ask) {
    let mut world = stage.world.clone();
    let given = state(&mut world, ask, stage.finished).clone();
    for place in 0..given.len() {
        for number in boundaries(&given, place, stage.world.lent.arena) {
            let words = state(&mut world, ask, stage.finished);
            words.copy_from_slice(&given);
            words[place] = number;
            plain_tick(words);
            let about = format!("{}, word {place} is {number}", stage.name);
            both(group, &about, &world, ask);
        }
    }
}

// Two to four numbers changed at once, and areas with them.
fn several(group: &mut Group, rng: &mut Rng, stage: &Stage, ask: &Ask) {
    let mut world = stage.world.clone();
    let arena = stage.world.lent.arena;
    let given = state(&mut world, ask, stage.finished);
    for _ in 0..2 + rng.below(3) {
        let place = rng.index(given.len());
        given[place] = rng.pick(&boundaries(given, place, arena));
    }
    plain_tick(given);
    if rng.one_in(3) {
        let mut sizes = sizes(&mut world);
        let size = &mut sizes[rng.index(8)];
        **size = size.saturating_sub(rng.index(8));
    }
    let about = format!("{}, several: {:?}", stage.name, world.lent);
    both(group, &about, &world, ask);
}

fn sizes(world: &mut World) -> [&mut usize; 8] {
    let lent = &mut world.lent;
    [
        &mut lent.index,
        &mut lent.filter,
        &mut lent.starts,
        &mut lent.lengths,
        &mut lent.scratch,
        &mut lent.arena,
        &mut lent.file,
        &mut lent.page,
    ]
}

// How long each area must be.
fn needed(world: &World, ask: &Ask) -> [usize; 8] {
    let [buckets, words, filled] = match ask {
        Ask::RebuildOpen(opened) => {
            let records = opened.records;
            let counts = Setting::of(&world.setting)
                .map(|setting| [setting.buckets(records), setting.filter_words(records)]);
            let [buckets, words] = counts.unwrap_or_default();
            [buckets, words, world.source.set[10]]
        }
        Ask::Reused(_) | Ask::Copied(_) | Ask::RebuildFinish => {
            let rebuild = &world.rebuild;
            [rebuild[8], rebuild[9], rebuild[14] + rebuild[15]]
        }
        _ => [world.builder[8], world.builder[9], world.builder[10]],
    };
    let [file, page] = [world.lent.file, world.lent.page].map(|lent| lent.saturating_sub(3) as u64);
    [8 * buckets, words, 256, 256, buckets, filled, file, page].map(|size| size as usize)
}

// Each area as long as it must be, one more, one less, and empty.
fn areas(group: &mut Group, stage: &Stage, ask: &Ask) {
    let (world, exact) = (&stage.world, needed(&stage.world, ask));
    for (area, exact) in exact.into_iter().enumerate() {
        for size in [exact, exact + 1, exact.saturating_sub(1), exact / 2, 0] {
            let mut world = world.clone();
            *sizes(&mut world)[area] = size;
            let about = format!("{}, area {area} has {size}", stage.name);
            both(group, &about, &world, ask);
        }
    }
    let mut all = world.clone();
    for (size, exact) in sizes(&mut all).into_iter().zip(exact) {
        *size = exact;
    }
    both(group, &format!("{}, all exact", stage.name), &all, ask);
    sizes(&mut all).into_iter().for_each(|size| *size = 0);
    both(group, &format!("{}, all empty", stage.name), &all, ask);
}

// States, settings, lifetimes and answers of other lengths, and words that are no setting.
fn forms(group: &mut Group, stage: &Stage, ask: &Ask) {
    let words = ask.answer();
    for other in [0, 1, words + 1, words.saturating_sub(1), words] {
        let about = format!("{}, answer of {other} words", stage.name);
        if words > 0 {
            both_of(group, &about, &stage.world, ask, other);
        }
    }
    for change in [-100, -1, 1, 3] {
        for which in 0..5 {
            let mut world = stage.world.clone();
            let words = match which {
                0 => &mut world.builder,
                1 => &mut world.set,
                2 => &mut world.setting,
                3 => &mut world.rebuild,
                _ => &mut world.source.set,
            };
            words.resize(words.len().saturating_add_signed(change), 0);
            let about = format!("{}, state {which} longer by {change}", stage.name);
            both(group, &about, &world, ask);
        }
    }
    for lifetime in [&[1][..], &[1, 2, 3], &[0, 0, 0, 0], &[0, BILLION, 0]] {
        let ask = match *ask {
            Ask::Push(record) => Ask::Push(Pushed { lifetime, ..record }),
            Ask::Copied(record) => Ask::Copied(Pushed { lifetime, ..record }),
            _ => return,
        };
        both(group, &stage.name, &stage.world, &ask);
    }
}

// Other counts of records with the buckets and filter words that belong to them: question 1 passes
// as long as the areas are long enough.
fn consistent(group: &mut Group, stage: &Stage) {
    let Some(setting) = Setting::of(&stage.world.setting) else {
        return;
    };
    for records in 0..stage.list.len() as u64 + 9 {
        let mut world = stage.world.clone();
        let counts = [setting.buckets(records), setting.filter_words(records)];
        world.set[6] = records;
        world.set[7..9].copy_from_slice(&counts);
        world.builder[6] = records;
        world.builder[8..10].copy_from_slice(&counts);
        for inserted in [records, records / 2, world.builder[7]] {
            world.builder[7] = inserted;
            for ask in stage.asks() {
                let about = format!("{}, {inserted} in of {records}", stage.name);
                both(group, &about, &world, &ask);
            }
        }
    }
}

type Open = fn(&[u64], usize, &mut [u64], &mut [u64], &mut [u64], &[u64], &[u64], &[u8]) -> u64;

// An arena of 2^30 bytes is taken and one of a byte more is not. It is never compared whole.
fn largest_arena(group: &mut Group) {
    use crate::{model, port};
    let arena = vec![0; (1 << 30) + 1];
    let setting = [0, 0, 0, 7, 1, 0];
    for size in [1 << 30, (1 << 30) + 1] {
        let (areas, lent) = ([0; 256], &arena[..size]);
        let calls = [port::calls::open, model::calls::open as Open];
        let [ours, wanted] = calls.map(|open| {
            let (mut builder, index) = ([0; 13], &mut [1; 8]);
            let number = open(
                &setting,
                1,
                &mut builder,
                index,
                &mut [],
                &areas,
                &areas,
                lent,
            );
            (number, builder)
        });
        group.rule("open", ours.0, wanted.0, || format!("arena of {size}"));
        group.area("builder", &ours.1, &wanted.1, || format!("arena of {size}"));
        largest_of_set(group, lent);
        crate::forged::rebuilds::largest(group, lent);
    }
}

fn largest_of_set(group: &mut Group, lent: &[u8]) {
    let areas = [0; 256];
    // One bucket, one segment of no bytes, nothing in it.
    let set = [0, 0, 0, 7, 1, 0, 0, 1, 0, 1, 0, 0, 0, 0, 0];
    let mut span = [0; 3];
    let found = crate::port::calls::get(
        &set,
        1,
        b"key",
        0,
        &mut [0; 8],
        &[],
        &areas,
        &areas,
        lent,
        &mut span,
    );
    let number = if lent.len() == 1 << 30 { 0 } else { 11 };
    group.rule("get", found, number, || format!("arena of {}", lent.len()));
}
