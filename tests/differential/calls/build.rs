// One set from open to finish by the public calls, beside the Rust's own builder. This file is a
// module twice, once for each build of the Rust.
use super::lines::line::forged;
use super::lookups::Finished;
use super::oracle;
use super::oracle::access::SEGMENT_TARGET;
use super::oracle::access_index::{self as access, Builder, Set, Setting};
use crate::calls::records::{Entry, duration, too_long, total};
use crate::calls::world::{Ask, By, Pushed, Sizes, UNSET, World, model, placed, refusal_of};
use crate::model::rules;
use crate::report::Group;
use crate::rng::Rng;

pub const LARGEST_TARGET: u64 = 100_663_296;

// A set in a larger arena goes on after refusal 7.
const GOES_ON: usize = 2_000_000;

pub struct Build {
    by: By,
    pub(super) about: String,
    pub(super) setting: Setting,
    pub(super) builder: Builder,
    pub world: World,
    // The areas before open: what is never written has this content.
    pub(super) plain: World,
    // So many comparisons were asked for.
    pub(super) asked: usize,
}

pub fn setting_words(setting: Setting) -> [u64; 6] {
    let tick = setting.tick.unwrap_or_default();
    [
        setting.tick.is_some().into(),
        tick.as_secs(),
        tick.subsec_nanos().into(),
        setting.occupied.into(),
        setting.packed.into(),
        setting.bits.into(),
    ]
}

// The whole of it, in an arena of so many bytes: nothing is handed on where the finish was refused.
pub fn built(
    group: &mut Group,
    rng: &mut Rng,
    by: By,
    about: &str,
    setting: Setting,
    list: &[Entry],
    arena: usize,
) -> Option<Finished> {
    let mut build = Build::open(group, by, about, setting, list, arena)?;
    let early = rng.index(list.len() + 1);
    for (i, entry) in list.iter().enumerate() {
        if i == early {
            build.refused_finish(group, LARGEST_TARGET, 3);
        }
        build.refused_pushes(group, rng, &list[..i], entry);
        build.push(group, entry.pushed());
    }
    build.too_many(group, rng, list);
    for target in [0, LARGEST_TARGET + 1, u64::MAX] {
        build.refused_finish(group, target, 8);
    }
    build.finish(group)
}

// A build whose index and records are damaged half way: a walk passes over what it can't read.
pub fn damaged(
    group: &mut Group,
    rng: &mut Rng,
    by: By,
    about: &str,
    setting: Setting,
    list: &[Entry],
) {
    // Records may go in twice, since the first may not be found again.
    let arena = 2 * total(list, true);
    let Some(mut build) = Build::open(group, by, about, setting, list, arena) else {
        return;
    };
    for (i, entry) in list.iter().enumerate() {
        if i == list.len() / 2 {
            build = build.damage(rng);
        }
        build.push(group, entry.pushed());
        if i > 0 && rng.one_in(2) {
            build.push(group, list[rng.index(i)].pushed());
        }
    }
}

impl Build {
    // Some bits turned over on both sides, and a word with no location.
    fn damage(mut self, rng: &mut Rng) -> Build {
        let mut index = self.builder.index().to_vec();
        let mut records = self.builder.records().to_vec();
        for _ in 0..rng.below(4) {
            let place = rng.index(index.len());
            index[place] ^= 1 << rng.below(64);
            if !records.is_empty() {
                let place = rng.index(records.len());
                records[place] ^= 1 << rng.below(8);
            }
        }
        let place = rng.index(index.len());
        index[place] = rng.pick(&[index[place], 1 << 63, index[place] >> 40 << 40, 1]);
        self.world.index[..index.len()].copy_from_slice(&index);
        self.world.arena[..records.len()].copy_from_slice(&records);
        self.builder = self.builder.damaged(&index, &records);
        self
    }

    fn open(
        group: &mut Group,
        by: By,
        about: &str,
        setting: Setting,
        list: &[Entry],
        arena: usize,
    ) -> Option<Build> {
        let rust = Builder::open(setting, list.len());
        let filter = |builder: &Builder| builder.filter().map_or(0, <[u64]>::len);
        let counts = rust.as_ref().map(|rust| (rust.buckets(), filter(rust)));
        let (buckets, words) = counts.unwrap_or((1, 0));
        let sizes = Sizes::for_counts(buckets, words, arena);
        let mut world = World::new(&setting_words(setting), sizes);
        let plain = world.kept();
        let records = list.len() as u64;
        let refusal = by(&mut world, &Ask::Open { records }, 0);
        let wanted = refusal_of(&rust);
        group.rust("open", refusal, wanted, || about.to_string());
        let build = Build {
            by,
            about: about.to_string(),
            setting,
            builder: rust.ok()?,
            world,
            plain,
            asked: 0,
        };
        build.areas(group, || about.to_string());
        (refusal == 0).then_some(build)
    }

    // One push on both sides, accepted or not.
    fn push(&mut self, group: &mut Group, record: Pushed) {
        let Pushed {
            hash,
            key,
            value,
            lifetime,
        } = record;
        let (index, records) = (self.builder.index(), self.builder.records());
        let slot = access::find_build_slot(index, records, self.setting.tick, key, hash);
        let slot = slot.unwrap_or(0);
        let place = [slot as u64, records.len() as u64];
        let mut places = self.places(slot, hash);
        oracle::set_hash(hash);
        let rust = self.builder.push(key, value, duration(lifetime));
        let (wanted, place) = placed(rust, place);
        let input = || format!("{key:x?}, {hash:#x}, lifetime {lifetime:?}");
        places.record.end = self.builder.records().len();
        if self.world.interval() > 1 {
            places.untouched(group, &self.world, || {
                format!("{}, {}", self.about, input())
            });
        }
        let refusal = (self.by)(&mut self.world, &Ask::Push(record), 2);
        group.rust("push", refusal, wanted, input);
        group.area("slot and location", &self.world.out[..2], &place, input);
        group.area("answer", &self.world.out[2..], &[UNSET; 12], input);
        self.compare(group, "push", &places, input);
    }

    // A push that the Rust would take, or can't be asked: the rules refuse it.
    fn refused_push(&mut self, group: &mut Group, record: Pushed, number: u64) {
        let places = self.places(0, record.hash);
        let refusal = (self.by)(&mut self.world, &Ask::Push(record), 2);
        let input = || format!("{record:?}");
        group.rule("push", refusal, number, input);
        group.area("answer", &self.world.out, &[UNSET; 14], input);
        self.compare(group, "refused push", &places, input);
    }

    // Now and then, before a record: one that stands there, one whose lifetime is not taken, one
    // with too many nanoseconds, one for which the arena is a byte short, and then exactly full.
    fn refused_pushes(&mut self, group: &mut Group, rng: &mut Rng, done: &[Entry], entry: &Entry) {
        let record = entry.pushed();
        let few = if done.len() < 70 { 2 } else { 16 };
        if !done.is_empty() && rng.one_in(few) {
            let again = &done[rng.index(done.len())];
            self.push(group, again.pushed());
            let lifetime = &[rng.next(), 0];
            self.push(
                group,
                Pushed {
                    lifetime,
                    ..again.pushed()
                },
            );
        }
        let long = match self.setting.tick {
            Some(tick) => too_long(rng, tick),
            None => Some(vec![rng.below(3), 0]),
        };
        if let Some(lifetime) = &long
            && rng.one_in(few)
        {
            self.push(group, Pushed { lifetime, ..record });
        }
        if rng.one_in(few) {
            let nanos = rng.pick(&[1_000_000_000, u64::from(u32::MAX), 1 << 32, u64::MAX]);
            let lifetime = &[rng.below(2), nanos];
            self.refused_push(group, Pushed { lifetime, ..record }, 9);
        }
        let size = total(std::slice::from_ref(entry), self.setting.tick.is_some());
        let exact = self.builder.records().len() + size;
        if rng.one_in(few) {
            self.world.lent.arena = exact - 1;
            self.refused_push(group, record, 10);
        }
        let whole = self.plain.lent.arena;
        self.world.lent.arena = if rng.one_in(4) { exact } else { whole };
    }

    // All announced records are in: another, and one that stands there, are refused.
    fn too_many(&mut self, group: &mut Group, rng: &mut Rng, list: &[Entry]) {
        self.world.lent.arena = self.plain.lent.arena;
        let more = Pushed {
            hash: rng.next(),
            key: b"more",
            value: b"",
            lifetime: &[],
        };
        self.push(group, more);
        if let Some(entry) = list.first() {
            self.push(group, entry.pushed());
        }
    }

    fn refused_finish(&mut self, group: &mut Group, target: u64, number: u64) {
        let refusal = (self.by)(&mut self.world, &Ask::Finish { target }, 0);
        let input = || format!("{}, target {target}", self.about);
        group.rule("finish", refusal, number, input);
        let places = self.places(0, 0);
        let input = || format!("target {target}");
        self.compare(group, "refused finish", &places, input);
    }

    fn finish(mut self, group: &mut Group) -> Option<Finished> {
        if self.setting.packed {
            self.world.lent.scratch = self.builder.buckets() - 1;
            self.refused_finish(group, SEGMENT_TARGET as u64, 10);
            self.world.lent.scratch = self.plain.lent.scratch;
        } else {
            self.world.lent.scratch = 0;
        }
        if self.world.interval() > 1 {
            self.areas(group, || format!("before the finish, {}", self.about));
        }
        let before = self.world.kept();
        let index = self.builder.index().to_vec();
        let target = SEGMENT_TARGET as u64;
        let refusal = (self.by)(&mut self.world, &Ask::Finish { target }, 0);
        let rust = self.builder.finish();
        let wanted = refusal_of(&rust);
        group.rust("finish", refusal, wanted, || self.about.clone());
        let Ok(set) = rust else {
            refused_segments(group, &self.about, &mut self.world, before, &index);
            let large = self.world.arena.len() > GOES_ON;
            return large.then(|| goes_on(group, self.by, self.about, self.setting, self.world));
        };
        let wanted = finished(before, &set, self.setting.packed);
        let same = self.world.same(&wanted);
        let about = || format!("finish, {}: {}", self.about, self.world.difference(&wanted));
        group.rust("finished areas", same, true, about);
        (refusal == 0).then(|| Finished::new(self.by, self.about, self.world, set))
    }
}

// The builder stays open after refusal 7. The Rust has no other target: the model finishes with one
// for about 200 segments, and the Rust goes on with a set put together from these areas.
fn goes_on(
    group: &mut Group,
    by: By,
    about: String,
    setting: Setting,
    mut world: World,
) -> Finished {
    let target = world.builder[10] / 200;
    let mut wanted = world.clone();
    let refusal = by(&mut world, &Ask::Finish { target }, 0);
    let number = model(&mut wanted, &Ask::Finish { target }, 0);
    group.rule("finish", refusal, number, || about.clone());
    let input = || format!("{about}: {}", world.difference(&wanted));
    group.rule("finished areas", world == wanted, true, input);
    let set = forged(setting, &world, &world.arena);
    Finished::new(by, about, world, set).put_together()
}

// What a finish leaves: the Rust's segments, index and statistics.
fn finished(mut world: World, set: &Set, packed: bool) -> World {
    let words = set.shown();
    world.index[..words.len()].copy_from_slice(words);
    let (starts, lengths) = (set.starts(), set.lengths());
    world.starts[..256].fill(0);
    world.lengths[..256].fill(0);
    world.starts[..starts.len()].copy_from_slice(starts);
    world.lengths[..lengths.len()].copy_from_slice(&lengths);
    if packed {
        let buckets = words.len() / 8;
        world.scratch[..buckets].copy_from_slice(&words[..buckets]);
    }
    world.set[..6].copy_from_slice(&world.builder[..6]);
    let filled = set.stats()[4];
    world.set[6..].copy_from_slice(&set_numbers(set, filled));
    world
}

// The words of a set behind its setting.
pub fn set_numbers(set: &Set, filled: u64) -> [u64; 9] {
    let [entries, buckets, _, _, bytes, key, value, header] = set.stats();
    let filter = set.filter().map_or(0, <[u64]>::len) as u64;
    let segments = set.starts().len() as u64;
    [
        entries, buckets, filter, segments, filled, bytes, key, value, header,
    ]
}

// After refusal 7 the first 256 starts stand there, and nothing else is changed.
fn refused_segments(
    group: &mut Group,
    about: &str,
    world: &mut World,
    mut wanted: World,
    index: &[u64],
) {
    let starts = rules::segment_starts(index, SEGMENT_TARGET as u64);
    wanted.starts[..256].copy_from_slice(&starts[..256]);
    let same = world.same(&wanted);
    let input = || format!("{about}: {}", world.difference(&wanted));
    group.rule("areas after refusal 7", same, true, input);
}
