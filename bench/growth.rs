// Times over the number of records, in both layouts without filter and expiry.
use crate::calls::{
    Sides, port_build, port_gets, port_walk, repeats, rounds_for, rust_build, rust_gets, rust_walk,
    total,
};
use crate::measure::{Measured, each, rounds};
use crate::port::{Port, TARGET};
use crate::records::{Record, Shape};
use crate::rng::Rng;
use std::ops::RangeInclusive;

// The powers of two that are numbers of records.
pub const POWERS: RangeInclusive<u32> = 10..=20;

// Of the sets that the port finishes once more: the Rust's segment target is fixed.
const SEGMENTS: usize = 16;

// Nanoseconds of the Rust and of the port.
pub type Pair = [f64; 2];

// The times for one number of records: a push, a hit, an entry of a walk, a slot of a finish.
pub struct Point {
    pub records: usize,
    pub get: Pair,
    push: Pair,
    walk: Pair,
    finish: Pair,
    finish_segments: f64,
}

fn pair(measured: &Measured, operations: usize) -> Pair {
    [measured.rust, measured.port].map(|time| each(time, operations))
}

pub fn points(rng: &mut Rng, packed: bool, powers: RangeInclusive<u32>) -> Vec<Point> {
    let shape = Shape {
        packed,
        bits: 0,
        tick: None,
    };
    powers.map(|power| point(rng, shape, 1 << power)).collect()
}

fn point(rng: &mut Rng, shape: Shape, count: usize) -> Point {
    let mut sides = Sides::new(rng, shape, count, 1);
    let [hits, _] = sides.hits(rng);
    let (times, slots) = (repeats(count), sides.port.areas.index.len());
    let (asks, turns) = (hits.len() * repeats(hits.len()), rounds_for(count));
    let Sides {
        records,
        rust,
        port,
        ..
    } = &mut sides;
    let [get] = rounds(
        "get",
        turns,
        || [rust_gets(rust, &hits, true)],
        || [port_gets(port, &hits)],
    );
    let [walk] = rounds(
        "walk",
        turns,
        || total(times, || [rust_walk(rust)]),
        || total(times, || [port_walk(port)]),
    );
    let [push, finish] = rounds(
        "build",
        turns,
        || total(times, || rust_build(shape, records)),
        || total(times, || port_build(port, records, TARGET)),
    );
    let finish_segments = finish_in_segments(port, records);
    Point {
        records: count,
        get: pair(&get, asks),
        push: pair(&push, times * count),
        walk: pair(&walk, times * count),
        finish: pair(&finish, times * slots),
        finish_segments,
    }
}

// A slot of the port's finish, the best of as many rounds.
fn finish_in_segments(port: &mut Port, records: &[Record]) -> f64 {
    let (times, slots) = (repeats(records.len()), port.areas.index.len());
    let target = (records.len() * port.shape.record_bytes()).div_ceil(SEGMENTS);
    let finish = |_| total(times, || port_build(port, records, target))[1].0;
    let shortest = (0..rounds_for(records.len())).map(finish).min();
    each(shortest.expect("a round"), times * slots)
}

pub fn print(layout: &str, points: &[Point]) {
    println!("\n### Over the number of records, {layout}: ns of the Rust, of the port\n");
    println!(
        "| records | push | get hit | walk, an entry | finish, a slot | in {SEGMENTS} segments, port |"
    );
    println!("|---:|---:|---:|---:|---:|---:|");
    for point in points {
        let shown = |[rust, port]: Pair| format!("{rust:.1}, {port:.1}");
        let [push, get, walk] = [point.push, point.get, point.walk].map(shown);
        let [rust, port] = point.finish;
        println!(
            "| {} | {push} | {get} | {walk} | {rust:.2}, {port:.2} | {:.2} |",
            point.records, point.finish_segments
        );
    }
}
