// A set on paper through the C interface, beside a plain loop that formats the same lines from the Rust's walk. Prints
// a table in Markdown.
#[allow(dead_code)]
#[macro_use]
#[path = "../bindings/rust/src/ffi.rs"]
mod ffi;
#[allow(dead_code)]
mod measure;
#[allow(dead_code)]
#[path = "../tests/differential/rng.rs"]
mod rng;

use measure::{Pass, Table, timed};
use oracle_large::access_index::{Builder, Parts, Set, Setting};
use oracle_large::access_sets::Told;
use rng::Rng;
use std::io::Write;
use std::time::Duration;

const LINE: usize = 65;

const PAGE: usize = 50 * LINE;

const TARGET: usize = 96 * 1024 * 1024;

const ROUNDS: usize = 9;

// The same records in a set of each side.
struct Sides {
    rust: Set,
    builder: [u64; 13],
    words: [u64; 15],
    index: Vec<u64>,
    starts: Vec<u64>,
    lengths: Vec<u64>,
    arena: Vec<u8>,
}

// A key of 8 bytes and a value of 12; half of the records have no deadline.
struct Record {
    hash: u64,
    key: [u8; 8],
    value: Vec<u8>,
    ticks: Option<u64>,
}

fn records(rng: &mut Rng, count: usize) -> Vec<Record> {
    let record = |i: u64| Record {
        hash: rng.next(),
        key: i.to_be_bytes(),
        value: rng.bytes(12),
        ticks: rng.one_in(2).then(|| 1 + rng.below(65_534)),
    };
    (0..count as u64).map(record).collect()
}

fn setting(packed: bool, occupied: u8) -> Setting {
    Setting {
        tick: Some(Duration::from_secs(1)),
        occupied,
        packed,
        bits: 0,
    }
}

fn rust_set(packed: bool, records: &[Record]) -> Set {
    let mut builder = Builder::open(setting(packed, 7), records.len()).expect("a valid setting");
    for record in records {
        oracle_large::set_hash(record.hash);
        let lifetime = record.ticks.map(Duration::from_secs);
        let pushed = builder.push(&record.key, &record.value, lifetime);
        pushed.expect("room for each");
    }
    builder.finish().expect("one segment")
}

impl Sides {
    fn built(packed: bool, records: &[Record]) -> Sides {
        let (count, buckets) = (records.len(), records.len().div_ceil(7));
        let mut sides = Sides {
            rust: rust_set(packed, records),
            builder: [0; 13],
            words: [0; 15],
            index: vec![0; 8 * buckets],
            starts: vec![0; 256],
            lengths: vec![0; 256],
            arena: vec![0; 24 * count],
        };
        let refusal = ffi::segment_cache_open(
            &[1, 1, 0, 7, packed.into(), 0],
            count,
            &mut sides.builder,
            &mut sides.index,
            &mut [],
            &sides.starts,
            &sides.lengths,
            &sides.arena,
        );
        assert_eq!(refusal, 0, "open");
        records.iter().for_each(|record| sides.push(record));
        sides.finish(buckets);
        sides
    }

    fn push(&mut self, record: &Record) {
        let lifetime = record.ticks.map_or(vec![], |ticks| vec![ticks, 0]);
        let refusal = ffi::segment_cache_push(
            &mut self.builder,
            record.hash,
            &record.key,
            &record.value,
            &lifetime,
            &mut self.index,
            &mut [],
            &mut self.arena,
            &mut [0; 2],
        );
        assert_eq!(refusal, 0, "push");
    }

    fn finish(&mut self, buckets: usize) {
        let refusal = ffi::segment_cache_finish(
            &self.builder,
            TARGET,
            &mut self.index,
            &mut self.starts,
            &mut self.lengths,
            &mut vec![0; buckets],
            &self.arena,
            &mut self.words,
        );
        assert_eq!(refusal, 0, "finish");
    }

    // So many slots and no record in them: such a set is made by no call, and shows what passing a slot takes.
    fn empty(packed: bool, buckets: usize) -> Sides {
        let (index, starts, lengths) = (vec![0; 8 * buckets], vec![0; 256], vec![0; 256]);
        let rust = Set::forged(&Parts {
            setting: setting(packed, 1),
            index: &index,
            filter: &[],
            arena: &[],
            starts: &[0],
            lengths: &[0],
        });
        let count = buckets as u64;
        let layout = u64::from(packed);
        Sides {
            rust,
            builder: [0; 13],
            words: [1, 1, 0, 1, layout, 0, count, count, 0, 1, 0, 0, 0, 0, 0],
            index,
            starts,
            lengths,
            arena: Vec::new(),
        }
    }

    fn pages(&self) -> u64 {
        let mut pages = [0];
        let refusal = ffi::segment_cache_sheet_pages(
            &self.words,
            &self.index,
            &self.starts,
            &self.lengths,
            &self.arena,
            &mut pages,
        );
        assert_eq!(refusal, 0, "sheet_pages");
        pages[0]
    }

    fn print(&self, page: &mut [u8]) -> u64 {
        let mut pages = [0];
        let refusal = ffi::segment_cache_print_sheet(
            &self.words,
            &self.index,
            &self.starts,
            &self.lengths,
            &self.arena,
            page,
            &mut pages,
        );
        assert_eq!(refusal, 0, "print_sheet");
        pages[0]
    }

    // The plain loop: as `write!` formats a line, into a buffer that has room for all of them.
    fn write(&self, page: &mut Vec<u8>) -> u64 {
        page.clear();
        self.rust.visit(0, |told| {
            let (mut key, mut value) = ([0; 24], [0; 24]);
            let slot = told.slot;
            let (key, value) = (
                hexadecimal(&mut key, told.key),
                hexadecimal(&mut value, told.value),
            );
            match deadline(&told) {
                Some(tick) => writeln!(page, "{slot:>8} {key:<24} {value:<24} {tick:>5}"),
                None => writeln!(page, "{slot:>8} {key:<24} {value:<24} never"),
            }
            .expect("a buffer takes all");
        });
        while page.len() % PAGE > 0 {
            writeln!(page, "{:64}", "").expect("a buffer takes all");
        }
        (page.len() / PAGE) as u64
    }

    // What the walk alone takes, with the question for the lengths.
    fn count(&self) -> u64 {
        let mut count = 0;
        self.rust.visit(0, |told| {
            count += u64::from(told.key.len() <= 12 && told.value.len() <= 12);
        });
        count.div_ceil(50)
    }
}

// At tick 0, with a tick of a second, the seconds left are the deadline.
fn deadline(told: &Told<'_>) -> Option<u64> {
    let left = told.left.expect("no record has lapsed at tick 0");
    left.map(|left| left.as_secs())
}

fn hexadecimal<'a>(text: &'a mut [u8; 24], bytes: &[u8]) -> &'a str {
    const DIGITS: &[u8; 16] = b"0123456789abcdef";
    for (pair, byte) in text.chunks_exact_mut(2).zip(bytes) {
        pair[0] = DIGITS[usize::from(byte >> 4)];
        pair[1] = DIGITS[usize::from(byte & 15)];
    }
    std::str::from_utf8(&text[..2 * bytes.len()]).expect("digits")
}

fn repeated(repeats: usize, mut pass: impl FnMut() -> u64) -> Pass {
    timed(|| (0..repeats).map(|_| pass()).sum())
}

fn rows(table: &mut Table, name: &str, sides: &Sides, lines: usize, what: &str) {
    let size = sides.pages() as usize * PAGE;
    let (mut ours, mut plain) = (vec![0x5a; size], Vec::with_capacity(size));
    sides.print(&mut ours);
    sides.write(&mut plain);
    assert!(ours == plain, "{name}: the sheets differ");
    let repeats = ((1 << 16) / lines).max(1);
    table.row(
        &format!("print_sheet, {what}, {name}"),
        repeats * lines,
        || repeated(repeats, || sides.write(&mut plain)),
        || repeated(repeats, || sides.print(&mut ours)),
    );
    table.row(
        &format!("sheet_pages, {what}, {name}"),
        repeats * lines,
        || repeated(repeats, || sides.count()),
        || repeated(repeats, || sides.pages()),
    );
}

fn main() {
    measure::keep_freed_memory();
    let rng = &mut Rng::new(41);
    let table = &mut Table::new("Sheets", ROUNDS);
    for (packed, layout) in [(true, "packed"), (false, "words")] {
        for count in [1 << 10, 1 << 16, 1 << 20] {
            let sides = Sides::built(packed, &records(rng, count));
            let name = format!("{count} records, {layout}");
            rows(table, &name, &sides, count, "a line");
        }
        let sides = Sides::empty(packed, 1 << 16);
        rows(table, layout, &sides, 8 << 16, "an empty slot");
    }
}
