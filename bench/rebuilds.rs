// Whole rebuilds: opening, a push for each record, finish. All records are taken over, or all are
// copied.
use crate::calls::{Sides, repeats, total};
use crate::ffi;
use crate::measure::{Pass, Table, timed};
use crate::port::{Areas, Port};
use crate::records::{NOW, Record, Shape, checksum};
use oracle_large::access_index::Set;
use oracle_large::access_rebuilds::{Opening, Rebuild};
use std::rc::Rc;

// A record of the source, its location and its bytes before the key.
struct Taken<'a> {
    record: &'a Record,
    location: usize,
    header: usize,
}

pub fn rebuilds(table: &mut Table, sides: Sides) {
    let Sides {
        shape,
        records,
        rust,
        mut port,
    } = sides;
    let (rust, mut areas) = (Rc::new(rust), Areas::cleared(shape, records.len()));
    let taken = taken(&port, &records);
    let times = repeats(records.len());
    table.rows(
        [("rebuild, reused, a record", times * records.len())],
        || total(times, || [rust_reused(&rust, shape, &taken)]),
        || total(times, || [port_reused(&port, &mut areas, &taken)]),
    );
    table.rows(
        [("rebuild, copied, a record", times * records.len())],
        || total(times, || [rust_copied(&rust, shape, &records)]),
        || total(times, || [port_copied(&mut port, &mut areas, &records)]),
    );
}

// In the order of the walk, as records are met there. All have the same length.
fn taken<'a>(port: &Port, records: &'a [Record]) -> Vec<Taken<'a>> {
    let mut taken = Vec::new();
    port.visit(|entry| {
        let (location, header) = (entry[2] as usize, entry[3] as usize);
        taken.push(Taken {
            record: &records[location / port.shape.record_bytes()],
            location,
            header,
        });
    });
    taken
}

fn rust_checksum(set: &Set, totals: [u64; 4]) -> u64 {
    let filter = set.filter().unwrap_or(&[]);
    checksum(set.shown().iter().chain(filter).copied().chain(totals))
}

fn rust_rebuild(
    source: &Rc<Set>,
    opening: &Opening<'_>,
    push: impl FnOnce(&mut Rebuild) -> usize,
) -> Pass {
    let mut finished = None;
    let (time, refused) = timed(|| {
        let mut rebuild = Rebuild::open(source, opening).expect("one segment");
        let refused = push(&mut rebuild);
        finished = rebuild.finish().ok();
        refused as u64
    });
    assert_eq!(refused, 0, "room for each");
    let (set, totals) = finished.expect("as many as announced");
    (time, rust_checksum(&set, totals))
}

fn rust_reused(source: &Rc<Set>, shape: Shape, taken: &[Taken<'_>]) -> Pass {
    let opening = Opening {
        filled: (taken.len() * shape.record_bytes()) as u64,
        records: taken.len(),
        capacity: 0,
        keep: &[true],
        now: NOW,
    };
    rust_rebuild(source, &opening, |rebuild| {
        let push = |taken: &Taken<'_>| {
            let (key, hash) = &taken.record.entry;
            oracle_large::set_hash(*hash);
            rebuild.push_reused(key, &taken.record.value, taken.location, taken.header)
        };
        taken.iter().map(push).filter(Result::is_err).count()
    })
}

fn rust_copied(source: &Rc<Set>, shape: Shape, records: &[Record]) -> Pass {
    let bytes = records.len() * shape.record_bytes();
    let opening = Opening {
        filled: bytes as u64,
        records: records.len(),
        capacity: bytes,
        keep: &[false],
        now: 0,
    };
    rust_rebuild(source, &opening, |rebuild| {
        let push = |record: &Record| {
            oracle_large::set_hash(record.entry.1);
            rebuild.push_copied(&record.entry.0, &record.value, record.lifetime)
        };
        records.iter().map(push).filter(Result::is_err).count()
    })
}

fn port_open(port: &Port, areas: &mut Areas, records: usize, capacity: usize) -> [u64; 22] {
    let mut rebuild = [0; 22];
    let keep = [u8::from(capacity == 0)];
    let number = ffi::segment_cache_rebuild_open(
        &port.set,
        &port.areas.starts,
        &port.areas.lengths,
        &port.arena,
        records,
        capacity,
        &keep,
        if capacity == 0 { NOW } else { 0 },
        &mut rebuild,
        &mut areas.index,
        &mut areas.filter,
        &mut areas.starts,
        &mut areas.lengths,
    );
    assert_eq!(number, 0, "rebuild open");
    rebuild
}

// What the finish tells.
fn port_finish(port: &Port, areas: &mut Areas, rebuild: &[u64]) -> [u64; 4] {
    let (mut set, mut totals) = ([0; 15], [0; 4]);
    let number = ffi::segment_cache_rebuild_finish(
        rebuild,
        &mut areas.index,
        &mut areas.starts,
        &mut areas.lengths,
        &mut areas.scratch,
        &port.arena,
        &mut set,
        &mut totals,
    );
    assert_eq!(number, 0, "rebuild finish");
    totals
}

fn port_checksum(areas: &Areas, totals: [u64; 4]) -> u64 {
    checksum((areas.index.iter().chain(&areas.filter).copied()).chain(totals))
}

fn port_reused(port: &Port, areas: &mut Areas, taken: &[Taken<'_>]) -> Pass {
    let mut totals = [0; 4];
    let (time, refused) = timed(|| {
        let mut rebuild = port_open(port, areas, taken.len(), 0);
        let push = |taken: &Taken<'_>| {
            let (key, hash) = &taken.record.entry;
            ffi::segment_cache_push_reused(
                &mut rebuild,
                *hash,
                key,
                &taken.record.value,
                taken.location,
                taken.header,
                &mut areas.index,
                &mut areas.filter,
                &areas.starts,
                &areas.lengths,
                &port.arena,
                &mut [0; 2],
            )
        };
        let refused = taken.iter().map(push).sum();
        totals = port_finish(port, areas, &rebuild);
        refused
    });
    assert_eq!(refused, 0, "room for each");
    (time, port_checksum(areas, totals))
}

fn port_copied(port: &mut Port, areas: &mut Areas, records: &[Record]) -> Pass {
    let mut totals = [0; 4];
    let (time, refused) = timed(|| {
        let bytes = records.len() * port.shape.record_bytes();
        let mut rebuild = port_open(port, areas, records.len(), bytes);
        let push = |record: &Record| {
            let (key, hash) = &record.entry;
            ffi::segment_cache_push_copied(
                &mut rebuild,
                *hash,
                key,
                &record.value,
                record.lifetime_words(),
                &mut areas.index,
                &mut areas.filter,
                &areas.starts,
                &areas.lengths,
                &mut port.arena,
                &mut [0; 2],
            )
        };
        let refused = records.iter().map(push).sum();
        totals = port_finish(port, areas, &rebuild);
        refused
    });
    assert_eq!(refused, 0, "room for each");
    (time, port_checksum(areas, totals))
}
