// The public calls beside the Rust's methods, on sets of the same records.
use crate::measure::{Pass, Table, timed};
use crate::port::{Port, TARGET};
use crate::records::{Entry, NOW, Record, Shape, VALUE, checksum, random_entries, random_records};
use crate::rng::Rng;
use oracle_large::access_index::{Builder, Set};
use oracle_large::access_sets::Told;
use std::time::Duration;

// Passes over fewer operations are repeated, and lookups ask for no more.
const FEWEST: usize = 1 << 15;
const MOST: usize = 1 << 18;

// The same records in a set of each side.
pub struct Sides {
    pub shape: Shape,
    pub records: Vec<Record>,
    pub rust: Set,
    pub port: Port,
}

pub fn repeats(operations: usize) -> usize {
    (FEWEST / operations).max(1)
}

// The shorter the passes, the more of them until one had the machine to itself.
pub fn rounds_for(records: usize) -> usize {
    match records {
        ..=16_384 => 25,
        ..=131_072 => 9,
        _ => 5,
    }
}

// Times of passes one after the other, and the answers of the last one.
pub fn total<const N: usize>(repeats: usize, mut pass: impl FnMut() -> [Pass; N]) -> [Pass; N] {
    let mut all = [(Duration::ZERO, 0); N];
    for _ in 0..repeats {
        for (all, (time, answers)) in all.iter_mut().zip(pass()) {
            *all = (all.0 + time, answers);
        }
    }
    all
}

fn rust_pushes(shape: Shape, records: &[Record]) -> (Builder, Duration) {
    let bytes = records.len() * shape.record_bytes();
    let mut builder =
        Builder::with_room(shape.setting(), records.len(), bytes).expect("a valid setting");
    let (time, refused) = timed(|| {
        let push = |record: &Record| {
            oracle_large::set_hash(record.entry.1);
            builder.push(&record.entry.0, &record.value, record.lifetime)
        };
        records.iter().map(push).filter(Result::is_err).count() as u64
    });
    assert_eq!(refused, 0, "room for each");
    (builder, time)
}

fn port_pushes(port: &mut Port, records: &[Record]) -> Duration {
    port.open();
    let (time, refused) = timed(|| records.iter().map(|record| port.push(record)).sum());
    assert_eq!(refused, 0, "room for each");
    time
}

// Pushes and finish. The set is freed after the clock has stopped.
pub fn rust_build(shape: Shape, records: &[Record]) -> [Pass; 2] {
    let (builder, pushes) = rust_pushes(shape, records);
    let mut set = None;
    let (finish, _) = timed(|| {
        set = builder.finish().ok();
        0
    });
    let set = set.expect("one segment");
    let words = set.shown().iter().chain(set.filter().unwrap_or(&[]));
    [(pushes, 0), (finish, checksum(words.copied()))]
}

pub fn port_build(port: &mut Port, records: &[Record], target: usize) -> [Pass; 2] {
    let pushes = port_pushes(port, records);
    let (finish, refusal) = timed(|| port.finish(target));
    assert_eq!(refusal, 0, "finish");
    [(pushes, 0), (finish, port.areas.checksum())]
}

impl Sides {
    // The arena has room for so many times the records.
    pub fn new(rng: &mut Rng, shape: Shape, count: usize, room: usize) -> Sides {
        Sides::of(shape, random_records(rng, shape, count), room)
    }

    pub fn of(shape: Shape, records: Vec<Record>, room: usize) -> Sides {
        let count = records.len();
        let (builder, _) = rust_pushes(shape, &records);
        let rust = builder.finish().expect("one segment");
        let mut port = Port::new(shape, count, room * count * shape.record_bytes());
        port_build(&mut port, &records, TARGET);
        Sides {
            shape,
            records,
            rust,
            port,
        }
    }

    // Stored keys in random order, and in the order of their pushes.
    pub fn hits(&self, rng: &mut Rng) -> [Vec<Entry>; 2] {
        let count = self.queries();
        let jumping = (0..count).map(|_| self.records[rng.index(self.records.len())].entry);
        let ordered = self.records.iter().map(|record| record.entry);
        [jumping.collect(), ordered.take(count).collect()]
    }

    fn queries(&self) -> usize {
        self.records.len().min(MOST)
    }

    // All answers in full, outside of the clock: the whole walk, the whole segment, and each lookup.
    pub fn compare(&mut self, queries: &[Entry]) {
        let mut walk = self.rust.walk(NOW).into_iter();
        (self.port).visit(|record| assert_eq!(walk.next().as_ref(), record[1..].as_array()));
        assert!(walk.next().is_none(), "the walk is shorter");
        let mut stored = self.rust.records().into_iter();
        (self.port).step(|record| assert_eq!(stored.next().as_ref(), record[1..].as_array()));
        assert!(stored.next().is_none(), "the segment is shorter");
        for query @ (key, hash) in queries {
            let value = self.rust.get(key, *hash, NOW, true);
            let probed = self.rust.probe(key, *hash, NOW);
            let taken = self.rust.take_accessed(key, *hash);
            let [found, span @ ..] = self.port.get(query);
            assert_eq!(value.unwrap_or_default(), span);
            assert_eq!(value.is_some(), found == 1);
            assert_eq!(&self.port.peek(query)[1..], span);
            assert_eq!(probed.unwrap_or_default(), self.port.probe(query)[1..]);
            assert_eq!(u64::from(taken), self.port.take_accessed(query));
        }
    }
}

pub fn calls(rng: &mut Rng, shape: Shape, count: usize) {
    let table = &mut Table::new(&shape.title(count), rounds_for(count));
    let mut sides = Sides::new(rng, shape, count, 2);
    let [jumping, ordered] = sides.hits(rng);
    let misses = random_entries(rng, sides.queries());
    sides.compare(&jumping);
    sides.compare(&misses);
    builds(table, &mut sides);
    gets(table, &mut sides, "get hit, jumping order", &jumping);
    gets(table, &mut sides, "get hit, push order", &ordered);
    chained_gets(table, &mut sides, &jumping);
    gets(table, &mut sides, "get miss", &misses);
    peeks(table, &sides, &jumping);
    probes(table, &sides, &jumping);
    takes(table, &mut sides, &jumping);
    walks(table, &sides);
    steps(table, &sides);
    crate::rebuilds::rebuilds(table, sides);
}

fn builds(table: &mut Table, sides: &mut Sides) {
    let (shape, records, port) = (sides.shape, &sides.records, &mut sides.port);
    let (times, count) = (repeats(records.len()), records.len());
    let slots = port.areas.index.len();
    let rows = [("push", times * count), ("finish, a slot", times * slots)];
    let rust = || total(times, || rust_build(shape, records));
    let port = || total(times, || port_build(port, records, TARGET));
    table.rows(rows, rust, port);
}

// Asks the same queries so often that a pass takes its time.
pub fn asked(queries: &[Entry], mut ask: impl FnMut(&Entry) -> u64) -> Pass {
    timed(|| {
        let all = (0..repeats(queries.len())).flat_map(|_| queries);
        all.fold(0, |sum: u64, query| sum.wrapping_add(ask(query)))
    })
}

// The same, but each query waits for the answer before it, whose length says which comes next; all
// must hit.
fn asked_in_turn(queries: &[Entry], mut ask: impl FnMut(&Entry) -> u64) -> Pass {
    const HIT: u64 = 1 + VALUE as u64;
    timed(|| {
        let (mut sum, mut next) = (0_u64, 0);
        for _ in 0..operations(queries) {
            let answer = ask(&queries[next]);
            sum = sum.wrapping_add(answer);
            next += (answer - HIT + 1) as usize;
            if next == queries.len() {
                next = 0;
            }
        }
        sum
    })
}

fn rust_get(rust: &Set, (key, hash): &Entry, mark: bool) -> u64 {
    let value = rust.value(key, *hash, NOW, mark);
    value.map_or(0, |value| 1 + value.len() as u64)
}

fn port_get(port: &mut Port, query: &Entry) -> u64 {
    let [found, _, len] = port.get(query);
    found + len
}

pub fn rust_gets(rust: &Set, queries: &[Entry], mark: bool) -> Pass {
    asked(queries, |query| rust_get(rust, query, mark))
}

pub fn port_gets(port: &mut Port, queries: &[Entry]) -> Pass {
    asked(queries, |query| port_get(port, query))
}

fn operations(queries: &[Entry]) -> usize {
    queries.len() * repeats(queries.len())
}

fn gets(table: &mut Table, sides: &mut Sides, name: &str, queries: &[Entry]) {
    let (rust, port) = (&sides.rust, &mut sides.port);
    table.row(
        name,
        operations(queries),
        || rust_gets(rust, queries, true),
        || port_gets(port, queries),
    );
}

fn chained_gets(table: &mut Table, sides: &mut Sides, queries: &[Entry]) {
    let (rust, port) = (&sides.rust, &mut sides.port);
    table.row(
        "get hit, each after the answer before",
        operations(queries),
        || asked_in_turn(queries, |query| rust_get(rust, query, true)),
        || asked_in_turn(queries, |query| port_get(port, query)),
    );
}

// Without the mark, which the Rust sets by an atomic instruction.
fn peeks(table: &mut Table, sides: &Sides, queries: &[Entry]) {
    let peek = |query: &Entry| {
        let [found, _, len] = sides.port.peek(query);
        found + len
    };
    table.row(
        "peek hit, jumping order",
        operations(queries),
        || rust_gets(&sides.rust, queries, false),
        || asked(queries, peek),
    );
}

fn seconds(told: &Told<'_>) -> u64 {
    told.left.flatten().map_or(0, |left| left.as_secs())
}

fn summed(told: &Told<'_>) -> u64 {
    told.slot as u64 + told.location as u64 + told.value.len() as u64 + seconds(told)
}

fn probes(table: &mut Table, sides: &Sides, queries: &[Entry]) {
    let rust = |(key, hash): &Entry| {
        let told = sides.rust.probed(key, *hash, NOW);
        told.map_or(0, |told| summed(&told))
    };
    let port = |query: &Entry| {
        let record = sides.port.probe(query);
        record[1] + record[2] + record[7] + record[9]
    };
    table.row(
        "probe, jumping order",
        operations(queries),
        || asked(queries, rust),
        || asked(queries, port),
    );
}

// Before each pass the records asked are marked.
fn takes(table: &mut Table, sides: &mut Sides, queries: &[Entry]) {
    let (rust, port) = (&sides.rust, &mut sides.port);
    table.row(
        "take_accessed, jumping order",
        operations(queries),
        || {
            rust_gets(rust, queries, true);
            asked(queries, |(key, hash)| rust.take_accessed(key, *hash).into())
        },
        || {
            port_gets(port, queries);
            asked(queries, |query| port.take_accessed(query))
        },
    );
}

pub fn rust_walk(rust: &Set) -> Pass {
    timed(|| {
        let mut sum = 0_u64;
        rust.visit(NOW, |told| sum = sum.wrapping_add(summed(&told)));
        sum
    })
}

pub fn port_walk(port: &Port) -> Pass {
    timed(|| {
        let mut sum = 0_u64;
        port.visit(|record| {
            let added = record[1] + record[2] + record[7] + record[9];
            sum = sum.wrapping_add(added);
        });
        sum
    })
}

fn walks(table: &mut Table, sides: &Sides) {
    let times = repeats(sides.records.len());
    table.rows(
        [("walk, an entry", times * sides.records.len())],
        || total(times, || [rust_walk(&sides.rust)]),
        || total(times, || [port_walk(&sides.port)]),
    );
}

// Both sides go on where the last record ended, which the Rust's caller works out from its lengths.
fn steps(table: &mut Table, sides: &Sides) {
    let times = repeats(sides.records.len());
    table.rows(
        [(
            "step through a segment, a record",
            times * sides.records.len(),
        )],
        || total(times, || [rust_steps(&sides.rust)]),
        || total(times, || [port_steps(&sides.port)]),
    );
}

fn rust_steps(rust: &Set) -> Pass {
    timed(|| {
        let (mut sum, mut position) = (0, 0);
        while let Some((deadline, end)) = rust.stored(position) {
            sum += u64::from(deadline) + end;
            position = end as usize;
        }
        sum
    })
}

fn port_steps(port: &Port) -> Pass {
    timed(|| {
        let mut sum = 0;
        port.step(|record| sum += record[7] + record[8]);
        sum
    })
}
