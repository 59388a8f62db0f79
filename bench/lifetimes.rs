// Pushes of records with lifetimes, and their deadlines by themselves: for a usual tick and for one
// whose nanoseconds take two words, with lifetimes of whole ticks and of parts of them.
use crate::calls::{Sides, port_build, repeats, rounds_for, rust_build, total};
use crate::measure::{Pass, Table, timed};
use crate::port::TARGET;
use crate::port_parts as port;
use crate::records::{Record, Shape, random_ticks};
use crate::rng::Rng;
use oracle_large::access;
use std::time::Duration;

const RECORDS: usize = 1 << 10;

// A minute, and 2^64 nanoseconds and one.
const TICKS: [(&str, Duration); 2] = [
    ("tick of 60 s", Duration::from_secs(60)),
    (
        "tick of 2^64 + 1 ns",
        Duration::new(18_446_744_073, 709_551_617),
    ),
];

pub fn lifetimes(rng: &mut Rng) {
    let table = &mut Table::new("Records with lifetimes, 1024, packed", rounds_for(RECORDS));
    for (name, tick) in TICKS {
        for (kind, whole) in [("whole ticks", true), ("parts of ticks", false)] {
            let records: Vec<Record> = (0..RECORDS)
                .map(|_| {
                    let lifetime = random_lifetime(rng, tick, whole);
                    Record::random(rng, Some(lifetime))
                })
                .collect();
            deadlines(table, &format!("deadline, {name}, {kind}"), tick, &records);
            pushes(table, &format!("push, {name}, {kind}"), tick, records);
        }
    }
}

// A whole number of ticks, or up to a tick less.
fn random_lifetime(rng: &mut Rng, tick: Duration, whole: bool) -> Duration {
    let lifetime = tick * random_ticks(rng);
    if whole {
        return lifetime;
    }
    let part = Duration::new(rng.below(tick.as_secs()), rng.below(1_000_000_000) as u32);
    lifetime - part
}

fn pushes(table: &mut Table, name: &str, tick: Duration, records: Vec<Record>) {
    let shape = Shape {
        packed: true,
        bits: 0,
        tick: Some(tick),
    };
    let mut sides = Sides::of(shape, records, 1);
    sides.compare(&[]);
    let (records, port) = (&sides.records, &mut sides.port);
    let times = repeats(RECORDS);
    // The time of the pushes, and the words that the finish left.
    let pushed = |[pushes, finish]: [Pass; 2]| [(pushes.0, finish.1)];
    table.rows(
        [(name, times * RECORDS)],
        || total(times, || pushed(rust_build(shape, records))),
        || total(times, || pushed(port_build(port, records, TARGET))),
    );
}

fn deadlines(table: &mut Table, name: &str, tick: Duration, records: &[Record]) {
    let span = |length: Duration| (length.as_secs(), length.subsec_nanos());
    let tick_words = Some(span(tick));
    let rust = |record: &Record| access::encode_expiry(Some(tick), record.lifetime, 0);
    let port = |record: &Record| port::encode_expiry(tick_words, record.lifetime.map(span), 0);
    table.row(
        name,
        repeats(RECORDS) * RECORDS,
        || summed(records, rust),
        || summed(records, port),
    );
}

fn summed(records: &[Record], deadline: impl Fn(&Record) -> Result<u64, u64>) -> Pass {
    timed(|| {
        let all = (0..repeats(RECORDS)).flat_map(|_| records);
        all.fold(0, |sum: u64, record| {
            let number = deadline(record).expect("a deadline");
            sum.wrapping_mul(3).wrapping_add(number)
        })
    })
}
