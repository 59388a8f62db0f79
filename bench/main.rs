// Measures the port beside the Rust, in one process and on the same inputs, and prints tables of
// times and ratios: bench all | quick | lifetimes | plot FILE
mod calls;
#[allow(dead_code)]
#[macro_use]
#[path = "../bindings/rust/src/ffi.rs"]
mod ffi;
mod growth;
mod lifetimes;
mod lookups;
mod measure;
mod passes;
mod plot;
mod port;
#[allow(dead_code)]
#[path = "../tests/differential/port/index.rs"]
mod port_index;
#[allow(dead_code)]
#[path = "../tests/differential/port/parts.rs"]
mod port_parts;
mod rebuilds;
mod records;
#[allow(dead_code)]
#[path = "../tests/differential/rng.rs"]
mod rng;

use measure::{ROUNDS, Table};
use records::Shape;
use rng::Rng;
use std::io::{Error, Result};
use std::time::Duration;

const SHAPES: [Shape; 8] = {
    const fn shape(packed: bool, bits: u8, expiry: bool) -> Shape {
        let second = Some(Duration::from_secs(1));
        let tick = if expiry { second } else { None };
        Shape { packed, bits, tick }
    }
    [
        shape(true, 0, false),
        shape(true, 0, true),
        shape(true, 8, false),
        shape(true, 8, true),
        shape(false, 0, false),
        shape(false, 0, true),
        shape(false, 8, false),
        shape(false, 8, true),
    ]
};

fn calls(rng: &mut Rng, sizes: &[usize]) {
    for size in sizes {
        for shape in SHAPES {
            calls::calls(rng, shape, *size);
        }
    }
}

fn functions(rng: &mut Rng) {
    let table = &mut Table::new("Functions below the calls, 1048576 records", ROUNDS);
    for packed in [false, true] {
        for bits in [0, 8] {
            lookups::finds(table, rng, packed, bits);
        }
    }
    lookups::build_slots(table, rng);
    passes::packing(table, rng);
    passes::splitting(table, rng);
}

fn growth(rng: &mut Rng) -> [Vec<growth::Point>; 2] {
    [(true, "packed"), (false, "words")].map(|(packed, layout)| {
        let points = growth::points(rng, packed, growth::POWERS);
        growth::print(layout, &points);
        points
    })
}

fn main() -> Result<()> {
    measure::keep_freed_memory();
    let rng = &mut Rng::new(31);
    let arguments: Vec<String> = std::env::args().skip(1).collect();
    match arguments.iter().map(String::as_str).collect::<Vec<_>>()[..] {
        ["all"] => {
            calls(rng, &[1 << 10, 1 << 16, 1 << 20]);
            growth(rng);
            functions(rng);
            lifetimes::lifetimes(rng);
        }
        ["quick"] => calls(rng, &[1 << 10]),
        ["lifetimes"] => lifetimes::lifetimes(rng),
        ["plot", file] => {
            let [packed, words] = growth(rng);
            std::fs::write(file, plot::svg(&packed, &words).map_err(Error::other)?)?;
        }
        _ => {
            return Err(Error::other(
                "usage: bench all | quick | lifetimes | plot FILE",
            ));
        }
    }
    Ok(())
}
