// The walks of a build over words such as no build makes.
use crate::forged::arenas::World;
use crate::parts::record_write::tick;
use crate::port::index as port;
use crate::report::Group;
use crate::rng::{Rng, lent};
use oracle_large::access_index as access;

const FULL: u64 = 3;

pub fn walks(group: &mut Group, random: u64) {
    let mut rng = Rng::new(28);
    for _ in 0..random / 12 {
        let world = World::new(&mut rng);
        let buckets = rng.index(7);
        let words = words(&mut rng, &world, buckets);
        for _ in 0..6 {
            let hash = world.hash(&mut rng);
            let key = asked(&mut rng, &world, &words);
            walk(group, &world, &words, &key, hash);
        }
        short(group, &mut rng, &world, &words);
    }
}

fn words(rng: &mut Rng, world: &World, buckets: usize) -> Vec<u64> {
    let empty = rng.pick(&[3, 12, 40, 1_000]);
    let stored: Vec<u64> = world.locations.iter().map(|at| at + 1).collect();
    let word = |_| world.word(rng, &stored, empty);
    (0..8 * buckets).map(word).collect()
}

// Half of the keys are one that some word names, wherever its location came from.
fn asked(rng: &mut Rng, world: &World, words: &[u64]) -> Vec<u8> {
    if words.is_empty() || rng.one_in(2) {
        return world.key(rng);
    }
    let location = (rng.pick(words) % (1 << 40)).wrapping_sub(1);
    let named = world.key_at(location);
    named.unwrap_or_else(|| b"none of them".to_vec())
}

fn walk(group: &mut Group, world: &World, words: &[u64], key: &[u8], hash: u64) {
    let area = lent(words);
    let buckets = words.len() / 8;
    let (bytes, on) = (&world.arena, world.on);
    let input = || format!("{words:x?}, {bytes:x?}, expiry {on}, {key:x?}, {hash:#x}");
    let found = port::find_build_slot(&area, buckets, bytes, on, key, hash);
    let rust = access::find_build_slot(words, bytes, tick(on), key, hash);
    group.rust("find_build_slot", found, rust, input);
    let found = port::find_empty_build_slot(&area, buckets, hash);
    let rust = access::find_empty_build_slot(words, hash);
    group.rust("find_empty_build_slot", found, rust, input);
}

// More buckets than the area has: no slot.
fn short(group: &mut Group, rng: &mut Rng, world: &World, words: &[u64]) {
    let buckets = words.len() / 8 + 1 + rng.index(3);
    let hash = world.hash(rng);
    let input = || format!("{} words, {buckets} buckets", words.len());
    let found = port::find_build_slot(words, buckets, &world.arena, world.on, b"", hash);
    group.rule("find_build_slot short", found, Err(FULL), input);
    let found = port::find_empty_build_slot(words, buckets, hash);
    group.rule("find_empty_build_slot short", found, Err(FULL), input);
}
