// Rebuilds and their sources of which one number, one area, one segment or the form is not as a
// call left it, and calls with several reasons for a refusal at once: the model decides.
use crate::calls::world::{Ask, Opened, Pushed, Reused, Source, World};
use crate::forged::rebuild_stages::{Rebuilding, rebuild_stages};
use crate::forged::stages::both;
use crate::forged::states::forged;
use crate::model::rebuilds as model;
use crate::model::rules::RECORDS_MAX;
use crate::port;
use crate::report::Group;
use crate::rng::Rng;

pub fn states(group: &mut Group, random: u64) {
    let mut rng = Rng::new(36);
    let (words, wanted) = (port::rebuilds::rebuild_words(), model::rebuild_words());
    group.rule("words of a rebuild", words, wanted, String::new);
    for stage in rebuild_stages(&mut rng) {
        for ask in stage.asks() {
            forged(group, &mut rng, &stage.stage, &ask, random / 6_000);
            segments(group, &stage, &ask);
            contents(group, &mut rng, &stage, &ask);
        }
        if stage.opening {
            flags(group, &stage);
            open_orders(group, &stage);
        } else {
            kept(group, &stage);
            reused_orders(group, &stage);
            copied_orders(group, &stage);
            finish_orders(group, &stage);
        }
    }
}

fn areas<'a>(world: &'a mut World, ask: &Ask) -> [&'a mut Vec<u64>; 2] {
    match ask {
        Ask::RebuildOpen(_) => [&mut world.source.starts, &mut world.source.lengths],
        _ => [&mut world.starts, &mut world.lengths],
    }
}

// Starts and lengths in the filled bytes and outside, with sums that pass 64 bits too; and the
// source's areas shorter.
fn segments(group: &mut Group, stage: &Rebuilding, ask: &Ask) {
    let world = &stage.stage.world;
    let filled = match ask {
        Ask::RebuildOpen(_) => world.source.set[10],
        _ => world.rebuild[14] + world.rebuild[15],
    };
    for area in 0..2 {
        for segment in [0, 1, 2, 3, 7, 255] {
            let mut forged = world.clone();
            let [starts, lengths] = areas(&mut forged, ask);
            let [own, other] = match area {
                0 => [starts[segment], lengths[segment]],
                _ => [lengths[segment], starts[segment]],
            };
            let rest = filled.wrapping_sub(other);
            let near = [rest.wrapping_sub(1), rest, rest.wrapping_add(1)];
            let far = [0, filled, filled + 1, 1 << 63, u64::MAX - other, u64::MAX];
            for number in near.into_iter().chain(far).chain([own.wrapping_add(1)]) {
                areas(&mut forged, ask)[area][segment] = number;
                let about = format!("{}, segment {segment}: {number}", stage.stage.name);
                both(group, &about, &forged, ask);
            }
        }
        for size in [0, 1, 255, 256] {
            let mut forged = world.clone();
            let source = &mut forged.source;
            [&mut source.starts, &mut source.lengths][area].truncate(size);
            let about = format!("{}, source's area {area}: {size}", stage.stage.name);
            both(group, &about, &forged, ask);
        }
    }
}

// Index words, filter words and bytes of records such as no call leaves.
fn contents(group: &mut Group, rng: &mut Rng, stage: &Rebuilding, ask: &Ask) {
    let world = &stage.stage.world;
    for turn in 0..40 {
        let mut forged = world.clone();
        for _ in 0..1 + rng.below(3) {
            let place = rng.index(world.lent.index);
            let word = forged.index[place];
            forged.index[place] =
                rng.pick(&[0, 1 << 63, word ^ 1 << 63, u64::MAX, word >> 40 << 40]);
            let place = rng.index(world.lent.arena);
            forged.arena[place] ^= 1 << rng.below(8);
        }
        if turn % 8 == 0 {
            forged.index.iter_mut().for_each(|word| *word |= 1 << 63);
        }
        let place = rng.index(world.lent.filter);
        forged.filter[place] = rng.next();
        both(
            group,
            &format!("{}, other content", stage.stage.name),
            &forged,
            ask,
        );
    }
}

// Flags of every number, and bytes that keep a segment.
fn flags(group: &mut Group, stage: &Rebuilding) {
    let count = stage.keep.len();
    for length in (0..count + 3).chain([255, 256, 257]) {
        for flag in [0, 1, 2, 128, 255] {
            let keep = vec![flag; length];
            let opened = Opened {
                keep: &keep,
                ..stage.opened()
            };
            let ask = Ask::RebuildOpen(opened);
            both(group, &stage.stage.name, &stage.stage.world, &ask);
        }
    }
    for records in [0, 1, 7, 8, RECORDS_MAX, RECORDS_MAX + 1, 1 << 32, u64::MAX] {
        for (capacity, now) in [(0, 0), (1, 65_535), (1 << 63, u64::MAX)] {
            let ask = Ask::RebuildOpen(Opened {
                records,
                capacity,
                now,
                ..stage.opened()
            });
            both(group, &stage.stage.name, &stage.stage.world, &ask);
        }
    }
}

// Each bit of a number is one reason why an open is refused. The source has 256 segments of no
// bytes, so that all can be kept.
fn open_orders(group: &mut Group, stage: &Rebuilding) {
    for reasons in 0_u64..128 {
        let has = |bit: u64| reasons >> bit & 1 == 1;
        let mut world = stage.stage.world.clone();
        world.source.set[9] = 256;
        world.source.starts.fill(0);
        world.source.lengths.fill(0);
        if has(0) {
            world.source.lengths[255] = world.source.set[10] + 1;
        }
        let keep = vec![1; if has(1) { 255 } else { 256 }];
        if has(4) {
            world.lent.index = 8 * world.source.set[7] as usize - 1;
        }
        if has(5) {
            world.lent.starts = 255;
        }
        if has(6) {
            world.lent.lengths = 255;
        }
        let ask = Ask::RebuildOpen(Opened {
            records: if has(2) {
                RECORDS_MAX + 1
            } else {
                stage.opened().records
            },
            capacity: has(3).into(),
            keep: &keep,
            now: 0,
        });
        both(group, &format!("reasons {reasons:b}"), &world, &ask);
    }
}

// Kept segments in each of the four words, up to all, with copied bytes and without.
fn kept(group: &mut Group, stage: &Rebuilding) {
    let patterns = [0, 1, 1 << 63, 0xff00, u64::MAX - 1, u64::MAX];
    for (turn, pattern) in (0..5).flat_map(|turn| patterns.map(|pattern| (turn, pattern))) {
        for copied in [0, 1, stage.stage.world.rebuild[15]] {
            let mut world = stage.stage.world.clone();
            world.rebuild[10..14].fill(if turn < 4 { 0 } else { u64::MAX });
            world.rebuild[10 + turn % 4] = pattern;
            world.rebuild[15] = copied;
            for ask in stage.asks() {
                let about = format!("{}, kept {turn} {pattern:x}", stage.stage.name);
                both(group, &about, &world, &ask);
            }
        }
    }
}

// All announced records are in, or one is not; with no slot empty, or as it is.
fn room(world: &World, full: bool, all_in: bool) -> World {
    let mut world = world.clone();
    let rebuild = &mut world.rebuild;
    rebuild[7] = rebuild[6].saturating_sub((!all_in).into());
    // Few bytes pass with every count of records but 0.
    if rebuild[7] == 0 {
        rebuild[16..19].fill(0);
    } else {
        rebuild[16..19].fill(1 << 20);
    }
    if full {
        world.index.iter_mut().for_each(|word| *word |= 1 << 63);
    }
    world
}

// Records, kept segment, content and walk in every combination, each part of the content alone.
fn reused_orders(group: &mut Group, stage: &Rebuilding) {
    let Some(right) = stage.reused() else {
        return;
    };
    let (location, header) = (right.location, right.header);
    let locations = [
        location,
        location + 1,
        location ^ 1 << 31,
        location + (1 << 32),
        location | 255 << 32,
        location | 256 << 32,
        location | 1 << 63,
        location | 0xffff_ffff,
        u64::MAX,
    ];
    let headers = [
        header,
        header + 1,
        header.wrapping_sub(1),
        header + 2,
        0,
        u64::MAX,
    ];
    let longer = [right.value, b"x"].concat();
    let shorter = &right.value[..right.value.len().saturating_sub(1)];
    let mut forged = vec![right];
    forged.extend(locations.map(|location| Reused { location, ..right }));
    forged.extend(headers.map(|header| Reused { header, ..right }));
    forged.extend([shorter, &longer, b""].map(|value| Reused { value, ..right }));
    forged.extend([right.value, b"", b"other"].map(|key| Reused { key, ..right }));
    for reasons in 0..4 {
        let world = room(&stage.stage.world, reasons & 1 == 1, reasons & 2 == 2);
        let about = format!("{}, reasons {reasons:b}", stage.stage.name);
        for &reused in &forged {
            both(group, &about, &world, &Ask::Reused(reused));
        }
    }
}

// Nanoseconds, records, lifetime, arena, segments and walk in every combination.
fn copied_orders(group: &mut Group, stage: &Rebuilding) {
    let copied = stage.copied();
    let lifetimes: [&[u64]; 5] = [
        &[],
        &[4, 0],
        &[u64::MAX, 999_999_999],
        &[0, 1_000_000_000],
        &[u64::MAX, u64::MAX],
    ];
    for reasons in 0..16 {
        let has = |bit: u64| reasons >> bit & 1 == 1;
        let mut world = room(&stage.stage.world, has(0), has(1));
        if has(2) {
            world.rebuild[10..14].fill(u64::MAX);
            world.rebuild[15] = 0;
            world.lengths[..256].fill(0);
            world.starts[..256].fill(0);
        }
        if has(3) {
            world.rebuild[21] = u64::MAX;
        }
        let end = (world.rebuild[14] + world.rebuild[15]) as usize;
        for lifetime in lifetimes {
            let ask = Ask::Copied(Pushed { lifetime, ..copied });
            for rest in 0..copied.key.len() + copied.value.len() + 6 {
                world.lent.arena = (end + rest).min(stage.stage.world.lent.arena);
                let about = format!("{}, {reasons:b}, rest {rest}", stage.stage.name);
                both(group, &about, &world, &ask);
            }
        }
    }
}

fn finish_orders(group: &mut Group, stage: &Rebuilding) {
    for reasons in 0..8 {
        let mut world = room(&stage.stage.world, reasons & 1 == 1, reasons & 2 == 2);
        if reasons & 4 == 4 {
            world.lent.scratch = world.rebuild[8] as usize - 1;
        }
        let about = format!("{}, reasons {reasons:b}", stage.stage.name);
        both(group, &about, &world, &Ask::RebuildFinish);
    }
}

// An arena of 2^30 bytes is taken and one of a byte more is not.
pub fn largest(group: &mut Group, lent: &[u8]) {
    let source = Source {
        set: vec![0, 0, 0, 7, 1, 0, 0, 1, 0, 1, 0, 0, 0, 0, 0],
        starts: vec![0; 256],
        lengths: vec![0; 256],
    };
    let opened = Opened {
        records: 0,
        capacity: 0,
        keep: &[1],
        now: 0,
    };
    let about = || format!("arena of {}", lent.len());
    let (mut ours, mut wanted) = ([0; 22], [0; 22]);
    let (mut index, mut starts, mut lengths) = ([1; 8], [0; 256], [0; 256]);
    let found = port::rebuilds::rebuild_open(
        &source,
        lent,
        &opened,
        &mut ours,
        &mut index,
        &mut [],
        &mut starts,
        &mut lengths,
    );
    let number = model::rebuild_open(
        &source,
        lent,
        &opened,
        &mut wanted,
        &mut index,
        &mut [],
        &mut starts,
        &mut lengths,
    );
    group.rule("rebuild open", found, number, about);
    group.area("rebuild", &ours, &wanted, about);
}
