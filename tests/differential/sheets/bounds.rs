// The ends of every bound: page areas of each length, several reasons for a refusal at once, arenas of 2^30 bytes, and
// the highest slots that there are.
use crate::calls::world::{Ask, Sizes, World};
use crate::forged::stages::{both, both_of};
use crate::model::rules::packed;
use crate::model::sheets::{LINE, PAGE, line};
use crate::port;
use crate::report::Group;
use crate::rng::{Rng, has_pattern};
use crate::sheets::sets::{entry, frozen, numbered, print, printed, setting, settings};

// A page area empty, one line long, a byte short, exact, longer.
pub fn areas(group: &mut Group, rng: &mut Rng) {
    for setting in settings() {
        for count in [0, 1, 50, 51, 101] {
            let list = numbered(rng, count, setting[0] == 1);
            let world = frozen(&setting, &list, 4_096);
            let size = count.div_ceil(50) * PAGE;
            let lent = [0, 1, LINE, PAGE - 1, PAGE, size.saturating_sub(LINE)];
            for bytes in lent
                .into_iter()
                .chain([size.saturating_sub(1), size, size + 1])
            {
                let (refusal, _, area) = printed(&world, bytes);
                let about = || format!("{count} records, {setting:?}, {bytes} bytes");
                let wanted = if bytes < size { 10 } else { 0 };
                group.rule("print sheet", refusal, wanted, about);
                let front = if bytes < size { 0 } else { size };
                let rest = has_pattern(&area, front);
                group.rule("page area past the sheet", rest, true, about);
                let mut world = world.clone();
                world.room_for_page(bytes);
                world.lent.page = bytes;
                both(group, &about(), &world, &Ask::PrintSheet);
                both(group, &about(), &world, &Ask::SheetPages);
            }
        }
    }
}

// Each bit of a number is one reason for a refusal: 11 comes first, then 16, then 10.
pub fn orders(group: &mut Group, rng: &mut Rng) {
    for setting in settings() {
        let mut list = numbered(rng, 51, setting[0] == 1);
        let plain = frozen(&setting, &list, 4_096);
        list[50].key = vec![3; 13];
        let long = frozen(&setting, &list, 4_096);
        for reasons in 0_u64..128 {
            let has = |bit: u64| reasons >> bit & 1 == 1;
            let mut world = if has(0) { long.clone() } else { plain.clone() };
            world.room_for_page(2 * PAGE);
            world.lent.page = if has(1) { 2 * PAGE - 1 } else { 2 * PAGE };
            let filled = world.set[10] as usize;
            let lent = &mut world.lent;
            lent.index = if has(2) { 63 } else { 64 };
            lent.starts = if has(3) { 255 } else { 256 };
            lent.lengths = if has(4) { 255 } else { 256 };
            lent.arena = if has(5) { filled - 1 } else { filled };
            world.set[9] = if has(6) { 257 } else { world.set[9] };
            let wanted = match () {
                () if reasons >= 4 => 11,
                () if has(0) => 16,
                () if has(1) => 10,
                () => 0,
            };
            let about = format!("reasons {reasons:#b}, {setting:?}");
            let refusal = port_number(&world, 1);
            group.rule("print sheet", refusal, wanted, || about.clone());
            for words in 0..4 {
                both_of(group, &about, &world, &Ask::PrintSheet, words);
                both_of(group, &about, &world, &Ask::SheetPages, words);
                let refusal = port_number(&world, words);
                let wanted = if words == 1 { wanted } else { 11 };
                let input = || format!("{about}, answer of {words} words");
                group.rule("print sheet", refusal, wanted, input);
            }
        }
    }
}

fn port_number(world: &World, words: usize) -> u64 {
    crate::calls::world::port(&mut world.clone(), &Ask::PrintSheet, words)
}

// An arena of 2^30 bytes is taken and one of a byte more is not; what is refused is written nowhere.
pub fn largest_arena(group: &mut Group) {
    let arena = vec![0; (1 << 30) + 1];
    // One bucket; the record at 0 has no key and no value.
    let (set, index) = (
        [0, 0, 0, 7, 0, 0, 1, 1, 0, 1, 2, 2, 0, 0, 2],
        [1, 0, 0, 0, 0, 0, 0, 0],
    );
    let (starts, mut lengths) = ([0; 256], [0; 256]);
    lengths[0] = 2;
    for (size, number) in [(1 << 30, 0), ((1 << 30) + 1, 11)] {
        let (lent, mut page, mut pages) = (&arena[..size], vec![7; PAGE], [7]);
        let counted = port::calls::sheet_pages(&set, &index, &starts, &lengths, lent, &mut pages);
        let about = || format!("arena of {size}");
        group.rule("sheet pages", counted, number, about);
        let answer = if number == 0 { 1 } else { 7 };
        group.rule("pages", pages[0], answer, about);
        let refusal =
            port::calls::print_sheet(&set, &index, &starts, &lengths, lent, &mut page, &mut pages);
        group.rule("print sheet", (refusal, pages[0]), (number, answer), about);
        let first = format!("{:>8}{:>56}\n", 0, "never");
        let front = if number == 0 {
            first.as_bytes()
        } else {
            &[7; LINE]
        };
        group.area("first line", &page[..LINE], front, about);
    }
}

const BUCKETS: usize = 1_048_576;

// As many buckets as there may be, by as many records; one record stands in the arena.
fn vast(on: bool, is_packed: bool) -> World {
    let list = [entry(
        0,
        &[0; 12],
        &[255; 12],
        if on { 65_534 } else { 65_535 },
    )];
    let mut world = frozen(&setting(on, 1, is_packed), &list, 4_096);
    world.set[6] = BUCKETS as u64;
    world.set[7] = BUCKETS as u64;
    let lent = Sizes::for_counts(BUCKETS, 0, 0);
    world.index = vec![0; lent.index + 3];
    world.lent.index = lent.index;
    world
}

fn line_of(slot: usize, on: bool) -> String {
    line(slot, &[0; 12], &[255; 12], if on { 65_534 } else { 65_535 })
}

// The highest slot, 8,388,607, and a few others at both ends of their numbers of digits.
const SLOTS: [usize; 8] = [
    0,
    9,
    10,
    99_999,
    100_000,
    999_999,
    1_000_000,
    8 * BUCKETS - 1,
];

pub fn last_slot(group: &mut Group) {
    let worked = " 8388607 000000000000000000000000 ffffffffffffffffffffffff 65534\n";
    let last = line_of(SLOTS[7], true);
    group.rule("worked line", last.as_str(), worked, String::new);
    for (on, is_packed) in [(true, false), (true, true), (false, false)] {
        let mut world = vast(on, is_packed);
        for slot in SLOTS {
            match is_packed {
                true => take_packed(&mut world.index, slot),
                false => world.index[slot] = 1,
            }
        }
        let about = || format!("expiry {on}, packed {is_packed}");
        let (refusal, pages, area) = print(&mut world, PAGE);
        group.rule("print sheet", (refusal, pages), (0, 1), about);
        let lines: String = SLOTS.iter().map(|&slot| line_of(slot, on)).collect();
        group.area("lines", &area[..lines.len()], lines.as_bytes(), about);
        let blank = blank_lines(&area[lines.len()..PAGE]);
        group.rule("blank lines", blank, 42, about);
    }
}

fn blank_lines(area: &[u8]) -> usize {
    let mut blank = [b' '; LINE];
    blank[LINE - 1] = b'\n';
    area.chunks(LINE).filter(|line| *line == blank).count()
}

// The control byte 1, and behind all of these the reference, of 56 bits: location 0 and a tag of which nothing is left.
fn take_packed(index: &mut [u64], slot: usize) {
    let (bucket, place) = (slot / 8, slot % 8);
    let mut words = [0; 8];
    words[place] = 1 << 40 | 1;
    let of_one = packed(&words);
    index[bucket] |= of_one[0];
    for (i, &word) in of_one[1..].iter().enumerate() {
        index[BUCKETS + 7 * bucket + i] |= word;
    }
}

// Every slot names the one record: the longest sheet that there is, 167,773 pages; in long runs in both layouts.
pub fn every_slot(group: &mut Group, long: bool) {
    for is_packed in if long { &[false, true][..] } else { &[true] } {
        let mut world = vast(true, *is_packed);
        let words = packed(&[1 << 40 | 1; 8]);
        match is_packed {
            true => {
                let (control, references) = world.index.split_at_mut(BUCKETS);
                control.fill(words[0]);
                let references = references.chunks_exact_mut(7).take(BUCKETS);
                references.for_each(|bucket| bucket.copy_from_slice(&words[1..]));
            }
            false => world.index[..8 * BUCKETS].fill(1),
        }
        let size = (8 * BUCKETS).div_ceil(50) * PAGE;
        let (refusal, pages, area) = print(&mut world, size);
        let about = || format!("every slot, packed {is_packed}");
        group.rule("print sheet", (refusal, pages), (0, 167_773), about);
        let rest = line_of(0, true)[8..].to_string();
        let lines = area[..size].chunks(LINE).take(8 * BUCKETS);
        let wrong = lines.enumerate().find(|(slot, line)| {
            line[8..] != *rest.as_bytes() || line[..8] != *format!("{slot:>8}").as_bytes()
        });
        let wrong = wrong.map(|(slot, _)| slot);
        group.rule("first wrong line", wrong, None, about);
        let blank = blank_lines(&area[8 * BUCKETS * LINE..size]);
        group.rule("blank lines", blank, 42, about);
        group.rule("past the sheet", has_pattern(&area, size), true, about);
    }
}
