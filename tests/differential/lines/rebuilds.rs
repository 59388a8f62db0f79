// The rebuild opens and reused pushes of a list of calls. This file is a module twice, once for each
// build of the Rust.
use super::list::{List, shorten};
use crate::calls::world::{Opened, Reused, Sizes, World};
use crate::lines::records::Readable;
use crate::lines::sides::At;
use crate::model::rules;
use crate::report::Group;
use crate::rng::Rng;

// The ticks from which copies count: with the last ones no lifetime is taken, or almost none.
const NOW: [u64; 16] = [
    0,
    0,
    0,
    0,
    1,
    1,
    5,
    5,
    5,
    900,
    900,
    40_000,
    65_533,
    65_534,
    65_535,
    u64::MAX,
];

impl List<'_> {
    // Whether it was accepted.
    pub fn opened(&mut self, group: &mut Group, all: bool) -> bool {
        let Some(page) = self.line.book.finished.last() else {
            return false;
        };
        let (segments, filled) = (page.starts.len(), page.filled);
        let keep = self.keep(segments, all);
        let rng = &mut *self.rng;
        let most = rng.pick(&[1, 8, 14, 14, 14, 60]);
        let announced = rng.index(most);
        let records = if rng.one_in(30) {
            1_048_577
        } else {
            announced as u64
        };
        let opened = Opened {
            records,
            capacity: rng.pick(&[0, 0, 1, 100]),
            keep: &keep,
            now: rng.pick(&NOW),
        };
        let setting = self.line.setting;
        let buckets = announced.div_ceil(setting.occupied.into()).max(1);
        let words = (announced * usize::from(setting.bits)).div_ceil(64);
        let mut lent = Sizes::for_counts(buckets, words, self.arena);
        let (short, forged) = (rng.below(60), rng.below(60));
        shorten_new(&mut lent, short, buckets, words);
        let forge = |world: &mut World| forge_source(world, forged, filled);
        let tape = self.line.book.tape.len();
        let number = self.line.rebuild_open(group, &lent, opened, &forge);
        if number == 0 {
            self.announced = announced;
            self.records.cut(filled);
        }
        self.after(group, "rebuild open", number, tape);
        number == 0
    }

    // A flag for each segment, and now and then one too few or too many.
    fn keep(&mut self, segments: usize, all: bool) -> Vec<u8> {
        let rng = &mut *self.rng;
        let way = if all { 0 } else { rng.below(12) };
        let flag = |rng: &mut Rng, i: usize| match way {
            0..4 => true,
            4 => false,
            5 | 6 => i % 2 == 0,
            _ => !rng.one_in(4),
        };
        let flags = (0..segments).map(|i| {
            if flag(rng, i) {
                1 + rng.below(255) as u8
            } else {
                0
            }
        });
        let mut flags: Vec<u8> = flags.collect();
        match rng.below(24) {
            0 => drop(flags.pop()),
            1 => flags.push(1),
            _ => (),
        }
        flags
    }

    // Nothing where a record is to be copied.
    pub fn reusable(&mut self) -> Option<(Readable, u64)> {
        match self.rng.one_in(3) {
            true => None,
            false => self.kept_record(),
        }
    }

    // A record of the source that is kept, if one is met; now and then any location.
    fn kept_record(&mut self) -> Option<(Readable, u64)> {
        for _ in 0..12 {
            if let Some((readable, location, kept)) = self.readable()
                && (kept || self.rng.one_in(60))
            {
                return Some((readable, location));
            }
        }
        let anywhere = (Readable::nothing(), self.rng.below(1 << 34));
        self.rng.one_in(12).then_some(anywhere)
    }

    // At times a part of the record is another than what stands there.
    pub fn reuse(&mut self, group: &mut Group, record: Readable, location: u64) {
        let (mut record, mut location) = (record, location);
        let mut header = record.header as u64;
        match self.rng.below(90) {
            0 => header += 1,
            1 => header = header.wrapping_sub(1),
            2 => location += 1,
            3 => location += 1 << 32,
            4 => location |= self.rng.pick(&[255 << 32, 256 << 32, 1 << 63, u64::MAX]),
            5 => record.key.push(1),
            6 => record.value.push(1),
            7 if !record.value.is_empty() => record.value[0] ^= 1,
            8 if !record.key.is_empty() => record.key[0] ^= 1,
            _ => (),
        }
        let reused = Reused {
            hash: self.records.hash(&record.key),
            key: &record.key,
            value: &record.value,
            location,
            header,
        };
        let (tape, short) = (self.line.book.tape.len(), self.rng.below(120));
        let list = &self.line.book.list;
        let again = list.iter().find(|entry| entry.key == record.key);
        let again = again.map(|entry| entry.deadline == 0);
        let number = (self.line).reused(group, reused, &|sizes| shorten(sizes, short));
        if number == 0 {
            self.seen_reused(&record, again);
        }
        self.after(group, "reused push", number, tape);
    }

    // What was taken: a record inside a value, one with more bytes before its key than it needs, a
    // key that is in already, and that one lapsed from the first tick on.
    fn seen_reused(&mut self, record: &Readable, again: Option<bool>) {
        let lengths = [record.key.len(), record.value.len()];
        let prefixes = lengths.map(|length| rules::prefix(length as u64).len());
        let deadline = if self.line.setting.tick.is_some() {
            2
        } else {
            0
        };
        let long = record.header > prefixes.iter().sum::<usize>() + deadline;
        self.seen("inside a value", record.inner.into());
        self.seen("over-long prefix", long.into());
        self.seen("key again", again.is_some().into());
        self.seen(
            "key again, the first has lapsed",
            (again == Some(true)).into(),
        );
    }

    // Any record that can be read, its location in the newest set, and whether it is kept.
    fn readable(&mut self) -> Option<(Readable, u64, bool)> {
        let all = &self.records.readable;
        let record = all.get(self.rng.index(all.len().max(1)))?.clone();
        let newest = self.line.world(At::Set(self.line.sets.len() - 1))?;
        let segments = newest.set[9] as usize;
        let inside = |&i: &usize| {
            let (start, length) = (newest.starts[i], newest.lengths[i]);
            start <= record.at && record.at < start + length
        };
        let segment = (0..segments).find(inside)?;
        let rebuild = &self.line.world(At::Open)?.rebuild;
        let kept = rebuild[10 + segment / 64] >> (segment % 64) & 1 == 1;
        let location = ((segment as u64) << 32) + record.at - newest.starts[segment];
        Some((record, location, kept))
    }
}

fn shorten_new(sizes: &mut Sizes, short: u64, buckets: usize, words: usize) {
    match short {
        0 => sizes.index = 8 * buckets - 1,
        1 => sizes.filter = words.saturating_sub(1),
        2 => sizes.starts = 255,
        3 => sizes.lengths = 255,
        _ => (),
    }
}

// A source with one number that is not so, where the number says so.
fn forge_source(world: &mut World, forged: u64, filled: u64) {
    match forged {
        0 => world.source.starts.truncate(255),
        1 => world.source.lengths[0] = filled + 1,
        2 => world.source.set[7] += 1,
        3 => world.source.starts[0] = u64::MAX,
        _ => (),
    }
}
