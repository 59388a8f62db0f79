// What the areas of a call hold, as bytes of their own: each call gets a copy between guards.
use crate::lent::{Lent, Numbers, ROLES, Role};

#[derive(Clone)]
pub struct World {
    pub areas: [Vec<u8>; ROLES.len()],
    pub numbers: Numbers,
}

impl World {
    pub fn empty() -> World {
        World {
            areas: [const { Vec::new() }; ROLES.len()],
            numbers: Numbers::default(),
        }
    }

    pub fn area(&self, role: Role) -> &[u8] {
        &self.areas[role as usize]
    }

    // 0 where there is no such word.
    pub fn word(&self, role: Role, at: usize) -> u64 {
        word_of(self.area(role), at)
    }

    pub fn set_word(&mut self, role: Role, at: usize, word: u64) {
        if let Some(place) = self.areas[role as usize].chunks_exact_mut(8).nth(at) {
            place.copy_from_slice(&word.to_ne_bytes());
        }
    }

    pub fn set_words(&mut self, role: Role, words: &[u64]) {
        let area = &mut self.areas[role as usize];
        area.clear();
        area.extend(words.iter().flat_map(|word| word.to_ne_bytes()));
    }

    pub fn set_bytes(&mut self, role: Role, bytes: &[u8]) {
        let area = &mut self.areas[role as usize];
        area.clear();
        area.extend(bytes);
    }

    // Words or bytes.
    pub fn len(&self, role: Role) -> usize {
        self.area(role).len() / size(role)
    }

    // What is new has some content.
    pub fn resize(&mut self, role: Role, len: usize) {
        self.areas[role as usize].resize(len * size(role), 0x5b);
    }

    // What an accepted call has left.
    pub fn take_over(&mut self, roles: impl Iterator<Item = Role>, lent: &Lent) {
        for role in roles {
            if let Some(placed) = lent.places[role as usize] {
                self.areas[role as usize].copy_from_slice(placed.content());
            }
        }
    }
}

pub fn size(role: Role) -> usize {
    if role.is_bytes() { 1 } else { 8 }
}

pub fn word_of(area: &[u8], at: usize) -> u64 {
    let bytes = area.chunks_exact(8).nth(at);
    let bytes = bytes.and_then(|bytes| bytes.try_into().ok());
    bytes.map_or(0, u64::from_ne_bytes)
}
