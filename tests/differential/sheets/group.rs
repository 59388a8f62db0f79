// Sets on paper: worked sheets byte by byte, each number of lines and each length at its boundaries, what no call
// leaves, and random sets. The lines are those of the records that the Rust's walk visits.
use crate::calls::world::{By, World, model, port};
use crate::files::load::loaded;
use crate::files::sets::{example, file_of, rebuilt};
use crate::forged::calls::beside;
use crate::model::sheets::{LINE, PAGE};
use crate::report::Group;
use crate::rng::{Rng, pattern};
use crate::sheets::bounds::{areas, every_slot, largest_arena, last_slot, orders};
use crate::sheets::sets::{entry, frozen, numbered, on_paper, printed, setting, settings};
use std::collections::BTreeMap;

pub fn sheets(group: &mut Group, random: u64) {
    let mut rng = Rng::new(95);
    worked(group);
    for setting in settings() {
        counts(group, &mut rng, &setting);
        lengths(group, &setting);
        unreadable(group, &mut rng, &setting);
    }
    fewer_by_its_own_number(group);
    areas(group, &mut rng);
    orders(group, &mut rng);
    largest_arena(group);
    last_slot(group);
    every_slot(group, crate::long(random));
    let mut seen = BTreeMap::new();
    for _ in 0..random / 400 {
        let number = any(group, &mut rng);
        *seen.entry(number).or_insert(0) += 1;
    }
    for number in [0, 16] {
        let often = seen.get(&number).copied().unwrap_or(0_u64);
        let about = || format!("{number}: {seen:?}");
        group.rule("met", often > random / 4_000, true, about);
    }
}

// A page with these lines, and blank ones behind them.
fn page(lines: &[&str]) -> Vec<u8> {
    let blank = [" ".repeat(64), "\n".to_string()].concat();
    let rest = blank.repeat(50 - lines.len());
    [lines.concat(), rest].concat().into_bytes()
}

// Document 01's example, the rebuilt set of the worked files, each also loaded, and deadlines of every width: by bytes
// that are written down here.
fn worked(group: &mut Group) {
    let first = page(&[
        "       0 61                       4142                        10\n",
        "       1 62                                                never\n",
    ]);
    let second = page(&[
        "       0 62                       32                           6\n",
        "       1 63                       33                       never\n",
        "       2 64                       34                          40\n",
    ]);
    for (by, name) in [(port as By, "port"), (model, "model")] {
        same_page(group, &format!("example, {name}"), example(by), &first);
        same_page(group, &format!("rebuilt, {name}"), rebuilt(by), &second);
    }
    let list = [
        entry(0, b"", b"", 0),
        entry(0, b"0", &[0; 12], 9),
        entry(0, b"\xab\xcd\xef", b"\x09\xa0\xff", 99),
        entry(0, &[255; 12], &[0x9a; 12], 65_534),
        entry(0, b"~", b"\n ", 65_535),
    ];
    let third = page(&[
        "       0                                                       0\n",
        "       1 30                       000000000000000000000000     9\n",
        "       2 abcdef                   09a0ff                      99\n",
        "       3 ffffffffffffffffffffffff 9a9a9a9a9a9a9a9a9a9a9a9a 65534\n",
        "       4 7e                       0a20                     never\n",
    ]);
    for packed in [false, true] {
        let world = frozen(&setting(true, 7, packed), &list, 4_096);
        same_page(group, &format!("packed {packed}"), world, &third);
    }
}

fn same_page(group: &mut Group, about: &str, mut world: World, wanted: &[u8]) {
    let file = file_of(port, &mut world);
    let unit = loaded(group, port, about, &file);
    for (kind, world) in [("as it is", Some(world)), ("loaded", unit)] {
        let Some(world) = world else {
            continue;
        };
        let input = || format!("{about}, {kind}");
        let (refusal, pages, area) = printed(&world, PAGE);
        group.rule("print sheet", (refusal, pages), (0, 1), input);
        group.area("sheet", &area[..PAGE], wanted, input);
        on_paper(group, &input(), &world);
    }
}

// Each number of lines about a page's and two pages', with marks and without, in one segment and in several.
fn counts(group: &mut Group, rng: &mut Rng, setting: &[u64; 6]) {
    for count in [0, 1, 2, 49, 50, 51, 99, 100, 101, 150, 257] {
        let list = numbered(rng, count, setting[0] == 1);
        for target in [4_096, 200] {
            let mut world = frozen(setting, &list, target);
            let about = format!("{count} records, {setting:?}, target {target}");
            let number = on_paper(group, &about, &world);
            group.rule("refusal", number, 0, || about.clone());
            let (refusal, pages, area) = printed(&world, 6 * PAGE);
            let wanted = (0, count.div_ceil(50) as u64);
            group.rule("pages", (refusal, pages), wanted, || about.clone());
            let rest = &area[wanted.1 as usize * PAGE..];
            let plain = &pattern(area.len())[area.len() - rest.len()..];
            group.area("behind the sheet", rest, plain, || about.clone());
            mark_all(&mut world);
            let (_, _, marked) = printed(&world, 6 * PAGE);
            group.area("sheet with marks", &marked, &area, || about.clone());
            on_paper(group, &format!("{about}, marks"), &world);
        }
    }
}

// The mark of every slot that is taken.
fn mark_all(world: &mut World) {
    let (packed, buckets) = (world.set[4] == 1, world.set[7] as usize);
    let words = if packed { buckets } else { 8 * buckets };
    for word in &mut world.index[..words] {
        let marks = match packed {
            true => (0..8)
                .filter(|i| *word >> (8 * i) & 0x7f != 0)
                .fold(0, |marks, i| marks | 0x80 << (8 * i)),
            false => u64::from(*word != 0) << 63,
        };
        *word |= marks;
    }
}

// Keys and values of 0, 12 and 13 bytes, in the first record, one between and the last: 16 wherever one has 13.
fn lengths(group: &mut Group, setting: &[u64; 6]) {
    for key in [0, 1, 11, 12, 13, 200_usize] {
        for value in [0, 1, 11, 12, 13, 200] {
            for (count, at) in [(1, 0), (3, 0), (3, 1), (3, 2), (51, 50)] {
                let record = |i: u8| match i == at {
                    true => entry(0, &vec![7; key], &vec![8; value], 65_535),
                    false => entry(0, &[1, i], b"v", 65_535),
                };
                let list: Vec<_> = (0..count).map(record).collect();
                let world = frozen(setting, &list, 4_096);
                let about = format!("key {key}, value {value} at {at} of {count}, {setting:?}");
                let number = on_paper(group, &about, &world);
                let wanted = if key.max(value) > 12 { 16 } else { 0 };
                group.rule("refusal", number, wanted, || about.clone());
            }
        }
    }
}

// Words between the others that name no record, or one that is too long: these are no lines, or refuse.
fn unreadable(group: &mut Group, rng: &mut Rng, setting: &[u64; 6]) {
    for count in [1, 8, 60, 120] {
        let list = numbered(rng, count, setting[0] == 1);
        let plain = frozen(setting, &list, 4_096);
        let slots = 8 * plain.set[7] as usize;
        for one_in in [1, 2, 3, 20] {
            let mut world = plain.clone();
            let filled = world.set[10];
            for slot in 0..slots {
                if !rng.one_in(one_in) {
                    continue;
                }
                let stored = rng.pick(&[0, filled, filled + 1, 1 << 32, (1 << 40) - 1]);
                match setting[4] {
                    // The references lie across the words: any bits of these.
                    1 => world.index[slot / 8 + slots / 8] ^= 1 << rng.below(64),
                    _ => world.index[slot] = world.index[slot] >> 40 << 40 | stored,
                }
            }
            let about = format!("unreadable, {count} records, {setting:?}, one in {one_in}");
            on_paper(group, &about, &world);
        }
    }
}

// A file with 7 records by its own number, and 56 that its walk visits: two pages, where the number says one.
fn fewer_by_its_own_number(group: &mut Group) {
    for on in [false, true] {
        let list: Vec<_> = (0..7)
            .map(|i| entry(i << 61, &[i as u8], b"", 65_535))
            .collect();
        let mut world = frozen(&setting(on, 1, false), &list, 4_096);
        world.index[..56].fill(1);
        let file = file_of(port, &mut world);
        let about = format!("56 of 7 records, expiry {on}");
        if let Some(unit) = loaded(group, port, &about, &file) {
            group.rule("records", unit.set[6], 7, || about.clone());
            let (refusal, pages, _) = printed(&unit, 2 * PAGE);
            group.rule("pages", (refusal, pages), (0, 2), || about.clone());
            group.rule("one page", printed(&unit, PAGE).0, 10, || about.clone());
            on_paper(group, &about, &unit);
        }
    }
}

// Any set with any damage. What is printed is read back: no two walks have one sheet.
fn any(group: &mut Group, rng: &mut Rng) -> u64 {
    let (on, packed) = (rng.one_in(2), rng.one_in(2));
    let setting = setting(on, 1 + rng.below(7), packed);
    let count = rng.index(120);
    let mut list = numbered(rng, count, on);
    if rng.one_in(4) && !list.is_empty() {
        let at = rng.index(list.len());
        list[at].value = rng.bytes(13);
    }
    let target = rng.pick(&[20, 300, 4_096]);
    let mut world = frozen(&setting, &list, target);
    let (slots, filled) = (8 * world.set[7] as usize, world.set[10] as usize);
    for _ in 0..rng.below(5) {
        world.index[rng.index(slots)] ^= 1 << rng.below(64);
    }
    if filled > 0 && rng.one_in(3) {
        world.arena[rng.index(filled)] ^= 1 << rng.below(8);
    }
    let about = format!("{count} records, {setting:?}, target {target}");
    let number = on_paper(group, &about, &world);
    let (refusal, pages, area) = printed(&world, 20 * PAGE);
    group.rule("refusal", refusal, number, || about.clone());
    if refusal == 0 {
        let rows = read_back(&area[..pages as usize * PAGE]);
        let wanted = walked(world);
        group.rule("read back", rows == wanted, true, || about.clone());
    }
    number
}

// Slot, key, value and deadline.
type Row = (u64, Vec<u8>, Vec<u8>, u64);

// The rows of a sheet by its columns alone.
fn read_back(sheet: &[u8]) -> Vec<Option<Row>> {
    let row = |line: &[u8]| {
        let text = std::str::from_utf8(line).ok()?;
        let number = |columns: &str| columns.trim_start().parse().ok();
        let bytes = |columns: &str| crate::files::sets::digits(columns.trim_end());
        let due = match &text[59..64] {
            "never" => 65_535,
            due => number(due)?,
        };
        let (key, value) = (bytes(&text[9..33])?, bytes(&text[34..58])?);
        Some((number(&text[..8])?, key, value, due))
    };
    let lines = sheet.chunks(LINE).filter(|line| line.trim_ascii() != b"");
    lines.map(row).collect()
}

// The rows that the Rust's walk visits.
fn walked(world: World) -> Vec<Option<Row>> {
    let set = beside(port, String::new(), world).set;
    let mut rows = Vec::new();
    set.visit(0, |told| {
        let record = set.record_at_location(told.location as u64 + 1);
        let parts = (told.slot as u64, told.key.to_vec(), told.value.to_vec());
        rows.push(record.map(|record| (parts.0, parts.1, parts.2, record[6])));
    });
    rows
}
