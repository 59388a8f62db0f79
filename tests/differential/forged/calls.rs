// Calls on indexes, records and segments such as no build makes: with the Rust where it can hold
// them, and with the model where it can't.
use crate::calls::world::{By, World, model, port};
use crate::forged::stages::{Stage, both, stages};
use crate::large::calls::lookups::Finished;
use crate::large::lines::line::forged;
use crate::report::Group;
use crate::rng::Rng;
use oracle_large::access_index::Setting;
use std::time::Duration;

pub fn calls(group: &mut Group, random: u64) {
    let mut rng = Rng::new(35);
    for _ in 0..random / 120_000 {
        for stage in stages(&mut rng) {
            words(group, &mut rng, &stage);
            for _ in 0..12 {
                let mut world = stage.world.clone();
                damage(&mut rng, &mut world);
                if stage.finished {
                    asked(group, &mut rng, port, "damaged", &stage, &world);
                    asked(group, &mut rng, model, "model of calls", &stage, &world);
                    segments(&mut rng, &mut world);
                }
                for ask in stage.asks() {
                    both(group, &format!("damaged, {}", stage.name), &world, &ask);
                }
            }
        }
    }
}

// The words that a slot may be forged to hold.
fn forged_words(world: &World, word: u64) -> Vec<u64> {
    let (filled, tag) = (world.builder[10], word >> 40 << 40);
    let mut words = vec![0, 1 << 63, u64::MAX, word ^ 1 << 63, word ^ 1 << 40];
    for stored in [
        0,
        1,
        filled,
        filled + 1,
        (1 << 32) + 1,
        256 << 32,
        (1 << 40) - 1,
    ] {
        words.push(tag | stored % (1 << 40));
    }
    words
}

// Each of the first slots with each forged word, or each control byte with each content.
fn words(group: &mut Group, rng: &mut Rng, stage: &Stage) {
    let (packed, slots) = (
        stage.world.setting[4] == 1,
        8 * stage.world.builder[8] as usize,
    );
    let first = stage.list.first().map_or(0, |entry| {
        let buckets = stage.world.builder[8];
        8 * crate::model::rules::first(entry.hash, buckets) as usize
    });
    for slot in first..(first + 3).min(slots) {
        let mut forged = Vec::new();
        if stage.finished && packed {
            let shift = 8 * (slot % 8);
            let control = stage.world.index[slot / 8];
            for byte in [0, 0x80, 0xff, 0x7f, 1, control >> shift & 0x7f | 0x80] {
                forged.push((slot / 8, control & !(0xff << shift) | byte << shift));
            }
        } else {
            let word = stage.world.index[slot];
            let words = forged_words(&stage.world, word);
            forged.extend(words.into_iter().map(|word| (slot, word)));
        }
        for (place, word) in forged {
            let mut world = stage.world.clone();
            world.index[place] = word;
            let about = format!("{}, word {place} is {word:#x}", stage.name);
            for ask in stage.asks() {
                both(group, &about, &world, &ask);
            }
            if stage.finished {
                asked(group, rng, port, "forged", stage, &world);
                asked(group, rng, model, "model of calls", stage, &world);
            }
        }
    }
}

// Some bits of the index, the filter and the records turned over.
fn damage(rng: &mut Rng, world: &mut World) {
    let (slots, words) = (8 * world.builder[8] as usize, world.builder[9] as usize);
    let filled = world.builder[10] as usize;
    for _ in 0..rng.below(4) {
        world.index[rng.index(slots)] ^= 1 << rng.below(64);
    }
    if filled > 0 && rng.one_in(2) {
        world.arena[rng.index(filled)] ^= 1 << rng.below(8);
    }
    if words > 0 && rng.one_in(2) {
        world.filter[rng.index(words)] = rng.pick(&[0, u64::MAX, 0x0f0f_0f0f_0f0f_0f0f]);
    }
    if rng.one_in(4) {
        world.index[rng.index(slots)] = rng.pick(&[0, 1 << 63, 0x80, 0xff00, u64::MAX]);
    }
}

// Starts and lengths anywhere, inside the filled bytes or not.
fn segments(rng: &mut Rng, world: &mut World) {
    let filled = world.set[10];
    let far = [
        0,
        1,
        filled,
        filled + 1,
        1 << 32,
        1 << 63,
        u64::MAX,
        u64::MAX - filled,
    ];
    for _ in 0..1 + rng.below(3) {
        let (segment, number) = (rng.index(4), rng.pick(&far));
        let near = rng.below(filled + 2);
        let area = match rng.one_in(2) {
            true => &mut world.starts,
            false => &mut world.lengths,
        };
        area[segment] = if rng.one_in(2) { number } else { near };
    }
    if rng.one_in(3) {
        world.set[9] = rng.pick(&[1, 2, 3, 255, 256]);
    }
}

// The set of a world beside a set of the Rust with the same parts.
pub fn beside(by: By, about: String, world: World) -> Finished {
    let words = &world.set;
    let setting = Setting {
        tick: (words[0] == 1).then(|| Duration::new(words[1], words[2] as u32)),
        occupied: words[3] as u8,
        packed: words[4] == 1,
        bits: words[5] as u8,
    };
    let set = forged(setting, &world, &world.arena);
    Finished::new(by, about, world, set)
}

// All lookups and the walk.
fn asked(group: &mut Group, rng: &mut Rng, by: By, about: &str, stage: &Stage, world: &World) {
    let mut set = beside(by, format!("{about}, {}", stage.name), world.clone());
    for entry in stage.list.iter().take(24) {
        set.all_ways(group, &entry.key, entry.hash, rng.below(5));
        set.get(group, b"absent", entry.hash, 0);
    }
    set.walk(group, rng.below(5));
    set.sheet(group);
    set.end(group);
}
