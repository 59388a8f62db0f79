// What the replay list asks. This file is a module twice, once for each build of the Rust.
use super::oracle::access_index::Setting;
use super::replay_calls::{Build, Lookup, Record, Sets};
use super::replay_rebuilds::Standing;
use crate::line_records::Records;
use crate::replay_text::List;
use crate::rng::Rng;
use std::time::Duration;

const TICKS: [Option<Duration>; 4] = [
    None,
    Some(Duration::from_secs(1)),
    Some(Duration::from_nanos(1)),
    Some(Duration::new(60, 1)),
];

const COUNTS: [usize; 12] = [57, 1, 80, 8, 17, 100, 30, 7, 64, 2, 90, 0];

// The ticks around the deadlines of `lifetime`, and the last ones.
const NOW: [u64; 12] = [0, 1, 2, 4, 5, 9, 10, 699, 700, 65_533, 65_534, u64::MAX];

const LAST_DEADLINE: u128 = 65_534;

fn nanoseconds(count: u128) -> Duration {
    let second = 1_000_000_000;
    Duration::new((count / second) as u64, (count % second) as u32)
}

// Whole ticks, or some nanoseconds less.
fn lifetime(rng: &mut Rng, tick: Duration) -> Duration {
    let ticks = rng.pick(&[0, 1, 2, 5, 10, 700, LAST_DEADLINE]);
    let whole = ticks * tick.as_nanos();
    let less = u128::from(rng.next()) % tick.as_nanos();
    nanoseconds(whole.saturating_sub(if rng.one_in(2) { less } else { 0 }))
}

// The records of one line of sets.
struct Source {
    tick: Option<Duration>,
    records: Records,
    keys: usize,
}

impl Source {
    // Every fifth value is larger, so that sets have several segments.
    fn record(&self, rng: &mut Rng, key: Vec<u8>) -> Record {
        let part = self.records.value(rng);
        let repeated = part.len() < 40 && rng.one_in(5);
        Record {
            hash: self.records.hash(&key),
            key,
            times: if repeated { 1 + rng.below(60) } else { 1 },
            part,
            lifetime: self
                .tick
                .filter(|_| rng.one_in(2))
                .map(|tick| lifetime(rng, tick)),
        }
    }

    // A key that may stand in a set, or not.
    fn key(&self, rng: &mut Rng) -> Vec<u8> {
        self.records
            .key_of(rng.index(self.keys + self.keys / 4 + 2) as u64)
    }

    // With a lifetime that is refused: expiry is off, or it is a nanosecond too long.
    fn out_of_range(&self, record: &Record) -> Record {
        let longest = self.tick.map_or(0, |tick| LAST_DEADLINE * tick.as_nanos());
        Record {
            lifetime: Some(nanoseconds(longest + 1)),
            ..record.clone()
        }
    }
}

// A build, lookups in it, and three rebuilds one after the other with lookups in all sets.
pub fn line_of_sets(list: &mut List, rng: &mut Rng, number: usize) {
    let setting = Setting {
        tick: TICKS[number / 2 % 4],
        occupied: 1 + (number % 7) as u8,
        packed: number % 2 == 0,
        bits: [0, 1, 8, 255][number / 3 % 4],
    };
    let keys = COUNTS[number % COUNTS.len()];
    let source = Source {
        tick: setting.tick,
        records: Records::new(rng, setting.tick.is_some(), 2 * keys, false),
        keys,
    };
    let Some(mut sets) = built(list, rng, setting, &source) else {
        return;
    };
    ask(&mut sets, rng, &source, 40);
    for _ in 0..3 {
        if !rebuilt(&mut sets, rng, &source) {
            return;
        }
        ask(&mut sets, rng, &source, 14);
    }
}

fn built<'a>(
    list: &'a mut List,
    rng: &mut Rng,
    setting: Setting,
    source: &Source,
) -> Option<Sets<'a>> {
    let mut build = Build::open(list, setting, source.keys)?;
    for number in 0..source.keys as u64 {
        let record = source.record(rng, source.records.key_of(number));
        if rng.one_in(10) {
            build.push(&source.out_of_range(&record));
        }
        if number > 0 && rng.one_in(10) {
            let known = source.records.key_of(rng.below(number));
            let again = source.record(rng, known);
            build.push(&again);
        }
        build.push(&record);
    }
    let surplus = source.record(rng, b"one too many".to_vec());
    build.push(&surplus);
    build.finish()
}

// Each set once by words, bytes and statistics, the newest by a walk, and so many keys of each.
fn ask(sets: &mut Sets<'_>, rng: &mut Rng, source: &Source, keys: usize) {
    let newest = sets.newest();
    sets.checksum(newest);
    for set in 0..=newest {
        sets.stats(set);
        for _ in 0..keys {
            ask_key(sets, rng, source, set);
        }
        sets.checksum(set);
    }
    let tick = rng.pick(&NOW);
    sets.walk(newest, tick);
}

fn ask_key(sets: &mut Sets<'_>, rng: &mut Rng, source: &Source, set: usize) {
    let key = source.key(rng);
    let strange = rng.one_in(12);
    let hash = source.records.hash(&key) ^ if strange { 1 << rng.below(64) } else { 0 };
    let tick = rng.pick(&NOW);
    let lookup = rng.pick(&[
        Lookup::Get,
        Lookup::Get,
        Lookup::Peek,
        Lookup::Take,
        Lookup::Probe,
    ]);
    sets.look_up(lookup, set, &key, hash, tick);
    if lookup == Lookup::Get && rng.one_in(3) {
        sets.look_up(Lookup::Take, set, &key, hash, tick);
    }
}

// A value as the shortest part that gives it when repeated.
fn folded(value: &[u8]) -> (Vec<u8>, u64) {
    let length = value.len();
    let repeats = |part: &usize| length % part == 0 && value[*part..] == value[..length - part];
    let part = (1..length).find(repeats).unwrap_or(length);
    let times = if part == 0 { 1 } else { length / part };
    (value[..part].to_vec(), times as u64)
}

// Keeps some segments, reuses most of their records, and copies others, known keys among them.
fn rebuilt(sets: &mut Sets<'_>, rng: &mut Rng, source: &Source) -> bool {
    let segments = sets.segments();
    let pattern = rng.below(4);
    let keep: Vec<u8> = (0..segments)
        .map(|segment| match pattern {
            0 | 1 => 1,
            2 => [255, 0][segment % 2],
            _ => u8::from(rng.one_in(2)),
        })
        .collect();
    let (kept, dropped): (Vec<_>, Vec<_>) =
        (sets.standing().into_iter()).partition(|record| keep[record.segment()] != 0);
    let reused: Vec<_> = kept.into_iter().filter(|_| !rng.one_in(4)).collect();
    let copies = rng.index(12);
    let (count, capacity) = (reused.len() + copies, 64 * copies);
    let now = rng.pick(&[0, 1, 5, 700, 65_534, 65_535, u64::MAX]);
    if rng.one_in(2) {
        sets.rebuild_open(&[&keep[..], &[1]].concat(), count, capacity, now);
    }
    if !sets.rebuild_open(&keep, count, capacity, now) {
        return false;
    }
    for standing in dropped.iter().take(2).filter(|_| count > 0) {
        reuse(sets, source, standing);
    }
    for standing in &reused {
        reuse(sets, source, standing);
    }
    for _ in 0..copies {
        let key = source.key(rng);
        let record = source.record(rng, key);
        copy(sets, rng, source, &record);
    }
    let surplus = source.record(rng, b"one too many".to_vec());
    sets.push_copied(&surplus);
    if let Some(standing) = reused.first() {
        reuse(sets, source, standing);
    }
    sets.rebuild_finish()
}

fn reuse(sets: &mut Sets<'_>, source: &Source, standing: &Standing) {
    let (part, times) = folded(&standing.value);
    let record = Record {
        hash: source.records.hash(&standing.key),
        key: standing.key.clone(),
        part,
        times,
        lifetime: None,
    };
    sets.push_reused(&record, standing.location, standing.header);
}

// Where the lifetime is refused, the record comes without one.
fn copy(sets: &mut Sets<'_>, rng: &mut Rng, source: &Source, record: &Record) {
    if rng.one_in(10) {
        sets.push_copied(&source.out_of_range(record));
    }
    if !sets.push_copied(record) {
        sets.push_copied(&Record {
            lifetime: None,
            ..record.clone()
        });
    }
}
