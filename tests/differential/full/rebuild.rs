// One rebuild of a large set beside the Rust's, with the one arena of its line. This file is a module
// twice, once for each build of the Rust.
use super::calls::areas::Places;
use super::calls::build::{set_numbers, setting_words};
use super::calls::lookups::Finished;
use super::lines::line::{front, same_segments};
use super::oracle;
use super::oracle::access_index::{self as access, Setting};
use super::oracle::access_rebuilds::{Opening, Rebuild};
use crate::calls::records::{Entry, duration};
use crate::calls::world::{
    Ask, Opened, Pushed, Reused, Sizes, UNSET, World, placed, port, refusal_of,
};
use crate::report::Group;
use crate::rng::has_pattern;
use std::mem::take;

// A record for the rebuild: where it stands in the source and its bytes before the key, if it is to
// be reused.
pub struct Chosen {
    pub entry: Entry,
    pub from: Option<(u64, u64)>,
}

pub struct Plan<'a> {
    pub about: &'a str,
    pub setting: Setting,
    pub keep: &'a [u8],
    pub now: u64,
    pub records: &'a [Chosen],
    pub copied_bytes: usize,
}

struct Making {
    about: String,
    setting: Setting,
    world: World,
    // The areas before open: what is never written has this content.
    plain: World,
    rust: Rebuild,
}

// The rebuilt set has the arena afterwards.
pub fn rebuilt(group: &mut Group, source: &mut Finished, plan: &Plan) -> Option<Finished> {
    let mut making = Making::open(group, source, plan)?;
    let whole = plan.records.len() / 16 + 1;
    for (i, chosen) in plan.records.iter().enumerate() {
        making.push(group, chosen);
        if i % whole == 0 {
            making.areas(group);
        }
    }
    making.areas(group);
    making.finish(group)
}

fn sizes(plan: &Plan) -> Sizes {
    let (records, setting) = (plan.records.len(), plan.setting);
    let buckets = records.div_ceil(setting.occupied.into()).max(1);
    let words = (records * usize::from(setting.bits)).div_ceil(64);
    Sizes::for_counts(buckets, words, 0)
}

impl Making {
    fn open(group: &mut Group, source: &mut Finished, plan: &Plan) -> Option<Making> {
        let mut world = World::for_rebuild(&source.world, sizes(plan));
        world.arena = take(&mut source.world.arena);
        world.lent.arena = source.world.lent.arena;
        let plain = world.kept();
        let keep: Vec<bool> = plan.keep.iter().map(|&flag| flag != 0).collect();
        let rust = Rebuild::open(
            &source.set,
            &Opening {
                filled: source.filled as u64,
                records: plan.records.len(),
                capacity: plan.copied_bytes,
                keep: &keep,
                now: plan.now,
            },
        );
        let opened = Opened {
            records: plan.records.len() as u64,
            capacity: plan.copied_bytes as u64,
            keep: plan.keep,
            now: plan.now,
        };
        let refusal = port(&mut world, &Ask::RebuildOpen(opened), 0);
        let wanted = refusal_of(&rust);
        group.rust("rebuild open", refusal, wanted, || plan.about.to_string());
        let making = Making {
            about: plan.about.to_string(),
            setting: plan.setting,
            world,
            plain,
            rust: rust.ok()?,
        };
        making.areas(group);
        (refusal == 0).then_some(making)
    }

    // A lifetime that both refuse: the record goes in without one.
    fn push(&mut self, group: &mut Group, chosen: &Chosen) {
        let refused = self.push_once(group, chosen.from, &chosen.entry, &chosen.entry.lifetime);
        if refused {
            self.push_once(group, chosen.from, &chosen.entry, &[]);
        }
    }

    // The call, and the Rust's answer to it.
    fn rust_push<'a>(
        &mut self,
        from: Option<(u64, u64)>,
        entry: &'a Entry,
        lifetime: &'a [u64],
    ) -> (Ask<'a>, Result<(), u64>) {
        let (hash, key, value) = (entry.hash, &entry.key[..], &entry.value[..]);
        oracle::set_hash(hash);
        let Some((location, header)) = from else {
            let rust = self.rust.push_copied(key, value, duration(lifetime));
            let pushed = entry.pushed();
            return (Ask::Copied(Pushed { lifetime, ..pushed }), rust);
        };
        let reused = Reused {
            hash,
            key,
            value,
            location,
            header,
        };
        let (location, header) = (location as usize, header as usize);
        let rust = self.rust.push_reused(key, value, location, header);
        (Ask::Reused(reused), rust)
    }

    // Whether it was refused.
    fn push_once(
        &mut self,
        group: &mut Group,
        from: Option<(u64, u64)>,
        entry: &Entry,
        lifetime: &[u64],
    ) -> bool {
        let slot = access::find_empty_build_slot(self.rust.index(), entry.hash).unwrap_or(0);
        let mut places = self.places(slot, entry.hash);
        let (ask, rust) = self.rust_push(from, entry, lifetime);
        let location = access::index_location(self.rust.index()[slot]) as u64;
        let (wanted, place) = placed(rust, [slot as u64, location]);
        let about = || format!("{}, {:x?}", self.about, entry.key);
        let copied = places.record.start - self.filled()..self.rust.copied().len();
        places.record.end += copied.len();
        places.untouched(group, &self.world, about);
        let refusal = port(&mut self.world, &ask, 2);
        group.rust("rebuild push", refusal, wanted, about);
        group.area("slot and location", &self.world.out[..2], &place, about);
        group.area("answer", &self.world.out[2..], &[UNSET; 12], about);
        let (index, filter) = (self.rust.index(), self.rust.filter());
        let record = &self.rust.copied()[copied];
        places.written(group, &self.world, (index, filter, record), about);
        self.state(group);
        wanted != 0
    }

    // Bytes of the arena that were filled before the rebuild.
    fn filled(&self) -> usize {
        self.rust.numbers()[8] as usize
    }

    fn places(&self, slot: usize, hash: u64) -> Places {
        let (index, filter) = (self.rust.index(), self.rust.filter());
        let end = self.filled() + self.rust.copied().len();
        Places::new(index, filter, slot, hash, end)
    }

    fn state(&self, group: &mut Group) {
        let state = [&setting_words(self.setting)[..], &self.rust.numbers()].concat();
        let about = || self.about.clone();
        group.area("rebuild", &self.world.rebuild, &state, about);
    }

    fn areas(&self, group: &mut Group) {
        let (world, plain, rust) = (&self.world, &self.plain, &self.rust);
        let about = || self.about.clone();
        self.state(group);
        front(group, "index", &world.index, rust.index(), about);
        front(group, "filter", &world.filter, rust.filter(), about);
        let (slots, words) = (rust.index().len(), rust.filter().len());
        group.area("index", &world.index[slots..], &plain.index[slots..], about);
        group.area(
            "filter",
            &world.filter[words..],
            &plain.filter[words..],
            about,
        );
        let filled = self.filled();
        front(
            group,
            "copied",
            &world.arena[filled..],
            rust.copied(),
            about,
        );
        let rest = has_pattern(&world.arena, filled + rust.copied().len());
        group.rule("arena past the records", rest, true, about);
        same_segments(group, about, world, &world.arena, rust.kept());
        let same = world.scratch == plain.scratch && world.set == plain.set;
        group.rule("words that no push writes", same, true, about);
        self.never_written(group);
    }

    // What no call of a rebuild writes.
    fn never_written(&self, group: &mut Group) {
        let (world, plain) = (&self.world, &self.plain);
        let same = world.setting == plain.setting
            && world.builder == plain.builder
            && world.source == plain.source
            && world.starts[256..] == plain.starts[256..]
            && world.lengths[256..] == plain.lengths[256..];
        group.rule("words never written", same, true, || self.about.clone());
    }

    fn finish(mut self, group: &mut Group) -> Option<Finished> {
        let filled = self.rust.numbers()[8] + self.rust.numbers()[9];
        let (filter, rebuild) = (self.world.filter.clone(), self.world.rebuild.clone());
        let refusal = port(&mut self.world, &Ask::RebuildFinish, 4);
        self.never_written(group);
        let rust = self.rust.finish();
        let wanted = refusal_of(&rust);
        let about = || format!("rebuild finish, {}", self.about);
        group.rust("refusal", refusal, wanted, about);
        let (set, totals) = rust.ok()?;
        let world = &self.world;
        group.area("totals", &world.out[..4], &totals, about);
        group.area("answer", &world.out[4..], &[UNSET; 10], about);
        group.area("rebuild", &world.rebuild, &rebuild, about);
        group.area("set", &world.set[6..], &set_numbers(&set, filled), about);
        group.area(
            "setting",
            &world.set[..6],
            &setting_words(self.setting),
            about,
        );
        front(group, "index", &world.index, set.shown(), about);
        let slots = set.shown().len();
        group.area(
            "index",
            &world.index[slots..],
            &self.plain.index[slots..],
            about,
        );
        group.area("filter", &world.filter, &filter, about);
        same_segments(group, about, world, &world.arena, set.segments());
        let mut scratch = self.plain.scratch.clone();
        if self.setting.packed {
            scratch[..slots / 8].copy_from_slice(&set.shown()[..slots / 8]);
        }
        group.area("scratch", &world.scratch, &scratch, about);
        (refusal == 0).then(|| Finished::new(port, self.about.clone(), self.world, set))
    }
}
