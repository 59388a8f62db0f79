// Damage to a call: words, lengths, contents and numbers that no call has left so.
use crate::exports::Export;
use crate::files;
use crate::lent::Role::{self, *};
use crate::rng::Rng;
use crate::world::{World, size};

const NUMBERS: [u64; 24] = [
    0,
    1,
    2,
    7,
    8,
    9,
    255,
    256,
    257,
    65_534,
    65_535,
    999_999_999,
    1_000_000_000,
    1 << 20,
    (1 << 20) + 1,
    1 << 30,
    (1 << 30) + 1,
    100_663_296,
    1 << 32,
    1 << 40,
    1 << 63,
    i64::MAX as u64,
    u64::MAX - 1,
    u64::MAX,
];

// The longest of a random area, in words or bytes.
const LONGEST: usize = 600;

// Another number: at a boundary, close to the old one, one bit turned over, or any.
fn other(rng: &mut Rng, number: u64) -> u64 {
    match rng.below(6) {
        0 | 1 => rng.pick(&NUMBERS),
        2 => number.wrapping_add(1),
        3 => number.wrapping_sub(1),
        4 => number ^ 1 << rng.below(64),
        _ => rng.any_size(),
    }
}

// One to three things in a valid call.
pub fn some(rng: &mut Rng, export: &Export, world: &mut World) {
    let roles: Vec<Role> = export.roles().collect();
    if roles.is_empty() {
        return;
    }
    for _ in 0..=rng.below(3) {
        let role = rng.pick(&roles);
        let state = match export.reads(File) {
            true => Some(&File),
            false => roles.iter().find(|role| is_state(**role)),
        };
        match rng.below(8) {
            0 | 1 => number(rng, world),
            2 => length(rng, world, role),
            3 | 4 => content(rng, world, state.copied().unwrap_or(role)),
            _ => content(rng, world, role),
        }
    }
}

fn is_state(role: Role) -> bool {
    matches!(role, Setting | Builder | Set | Rebuild)
}

fn number(rng: &mut Rng, world: &mut World) {
    let numbers = &mut world.numbers;
    let number = match rng.below(5) {
        0 => &mut numbers.hash,
        1 => &mut numbers.tick,
        2 => &mut numbers.count,
        3 => &mut numbers.size,
        _ => &mut numbers.location,
    };
    *number = other(rng, *number);
}

fn length(rng: &mut Rng, world: &mut World, role: Role) {
    let len = world.len(role);
    let len = match rng.below(6) {
        0 | 1 => len.saturating_sub(1),
        2 => len + 1,
        3 => len / 2,
        4 => 0,
        _ => len + rng.index(9),
    };
    world.resize(role, len);
}

fn content(rng: &mut Rng, world: &mut World, role: Role) {
    let len = world.len(role);
    if len == 0 {
        return;
    }
    // A state begins with its setting, in which most things can be wrong; a file with its numbers.
    let at = match role {
        _ if is_state(role) && rng.one_in(2) => rng.index(len.min(6)),
        File if rng.one_in(2) => rng.index(len.min(64)),
        File if rng.one_in(2) => files::header(rng, world.area(File)),
        _ => rng.index(len),
    };
    if role.is_bytes() {
        let byte = other(rng, world.area(role)[at].into()) as u8;
        world.areas[role as usize][at] = byte;
    } else {
        let word = other(rng, world.word(role, at));
        world.set_word(role, at, word);
    }
}

// Random bytes in all areas and states, half of them of the right length.
pub fn all(rng: &mut Rng, export: &Export, world: &mut World) {
    for role in export.roles() {
        let len = match rng.one_in(2) {
            true => world.len(role),
            false => rng.index(LONGEST),
        };
        world.resize(role, len);
        let area = &mut world.areas[role as usize];
        for part in area.chunks_mut(8) {
            let number = rng.next().to_ne_bytes();
            part.copy_from_slice(&number[..part.len()]);
        }
        // Small numbers have the form of a state, which random ones never have.
        if size(role) == 8 && rng.one_in(2) {
            for at in 0..len {
                let word = if rng.one_in(3) {
                    other(rng, 7)
                } else {
                    rng.below(4)
                };
                world.set_word(role, at, word);
            }
        }
    }
    for _ in 0..5 {
        number(rng, world);
    }
}
