// What must hold after a call: an answer of documents 01 and 02, and nothing changed but what it may change.
use crate::exports::Export;
use crate::files;
use crate::lent::Role::*;
use crate::lent::{Lent, Role};
use crate::sheets;
use crate::world::{World, size, word_of};
use std::ops::Range;

// The first thing that is not so.
pub fn wrong(export: &Export, before: &World, lent: &Lent, answer: u64) -> Option<String> {
    if !export.answers.contains(&answer) {
        return Some(format!("the answer {answer} is not one of this call"));
    }
    for role in export.roles() {
        let (old, Some(new)) = (before.area(role), lent.places[role as usize]) else {
            continue;
        };
        // An area that can't be written is not looked at: it is lent from elsewhere.
        if new.bytes != old.len() || old == new.content() {
            continue;
        }
        let limit = match export.writes(role) {
            true if answer == 0 => may_write(export.name, role, before, lent),
            true if answer == 7 && export.name == "finish" && role == Starts => 0..256,
            _ => 0..0,
        };
        let changed = changed(old, new.content(), size(role));
        if changed.start < limit.start || changed.end > limit.end {
            return Some(format!(
                "answer {answer}, {role:?} changed in {changed:?}, allowed is {limit:?}"
            ));
        }
        if matches!((export.name, role), ("get" | "take_accessed", Index))
            && !one_mark(old, new.content())
        {
            return Some("more than one mark changed".to_string());
        }
    }
    (answer == 0)
        .then(|| told(export.name, before, lent))
        .flatten()
}

// From the first to the last element that differs.
fn changed(old: &[u8], new: &[u8], size: usize) -> Range<usize> {
    let differs = |i: &usize| old[*i] != new[*i];
    let first = (0..old.len()).find(differs).unwrap_or(0);
    let last = (0..old.len()).rev().find(differs).unwrap_or(0);
    first / size..last / size + 1
}

// One bit, the highest of a byte.
fn one_mark(old: &[u8], new: &[u8]) -> bool {
    let mut differing = old.iter().zip(new).filter(|(old, new)| old != new);
    let first = differing.next().is_none_or(|(old, new)| old ^ new == 0x80);
    first && differing.next().is_none()
}

// The elements of an area that an accepted call may write.
fn may_write(name: &str, role: Role, before: &World, lent: &Lent) -> Range<usize> {
    let old = |role, at| before.word(role, at) as usize;
    let new = |role: Role, at| {
        let placed = lent.places[role as usize];
        placed.map_or(0, |placed| word_of(placed.content(), at)) as usize
    };
    let packed = |state, words: usize| {
        let count = if old(state, 4) == 1 { words } else { 0 };
        0..count
    };
    match (name, role) {
        ("open", Index) => 0..8 * new(Builder, 8),
        ("open", Filter) => 0..new(Builder, 9),
        ("rebuild_open", Index) => 0..8 * new(Rebuild, 8),
        ("rebuild_open", Filter) => 0..new(Rebuild, 9),
        ("push" | "push_reused" | "push_copied", Index) => new(Out, 0)..new(Out, 0) + 1,
        ("push", Filter) => 0..old(Builder, 9),
        ("push_reused" | "push_copied", Filter) => 0..old(Rebuild, 9),
        ("push", Arena) => old(Builder, 10)..new(Builder, 10),
        ("push_copied", Arena) => {
            old(Rebuild, 14) + old(Rebuild, 15)..new(Rebuild, 14) + new(Rebuild, 15)
        }
        ("finish", Index) => 0..8 * old(Builder, 8),
        ("finish", Scratch) => packed(Builder, old(Builder, 8)),
        ("rebuild_finish", Index) => packed(Rebuild, 8 * old(Rebuild, 8)),
        ("rebuild_finish", Scratch) => packed(Rebuild, old(Rebuild, 8)),
        ("get" | "take_accessed", Index) => 0..8 * old(Set, 7),
        ("write_file", File) => 0..new(Out, 0),
        ("print_sheet", Page) => 0..sheets::PAGE * new(Out, 0),
        ("load_file", Index) => 0..8 * new(Set, 7),
        ("load_file", Filter) => 0..new(Set, 8),
        ("load_file", Arena) => 0..new(Set, 10),
        (_, Starts | Lengths) => 0..256,
        _ => 0..usize::MAX,
    }
}

// What is handed out lies in the filled arena, and its flag is 0 or 1.
fn told(name: &str, before: &World, lent: &Lent) -> Option<String> {
    if let Some(right) = files::right(name, before, lent) {
        return (!right).then(|| "the file or the set that it holds is not so".to_string());
    }
    if let Some(right) = sheets::right(name, before, lent) {
        return (!right).then(|| "the sheet is not so".to_string());
    }
    let out = lent.places[Out as usize]?;
    let word = |at| word_of(out.content(), at);
    let filled = before.word(Set, 10);
    let inside = |at, len| {
        word(at)
            .checked_add(word(len))
            .is_some_and(|end| end <= filled)
    };
    let right = match (name, word(0)) {
        ("get" | "peek", 1) => inside(1, 2),
        ("probe" | "next_entry", 1) => {
            let end = sum(&[word(2), word(3), word(5), word(7)]);
            inside(4, 5) && inside(6, 7) && word(8) < 3 && end == Some(word(11))
        }
        ("record_at", 1) => stored(before, lent, &std::array::from_fn(word)),
        ("get" | "peek" | "probe" | "next_entry" | "record_at", _) => {
            out.content().iter().all(|&b| b == 0)
        }
        ("take_accessed", flag) => flag < 2,
        _ => true,
    };
    (!right).then(|| "what was told is not in the arena, no flag, or another end".to_string())
}

fn sum(words: &[u64]) -> Option<u64> {
    words
        .iter()
        .try_fold(0, |sum: u64, &word| sum.checked_add(word))
}

// A record at the position that was asked for: its parts follow one another, and the end is in the bytes.
fn stored(before: &World, lent: &Lent, words: &[u64; 9]) -> bool {
    let &[
        _,
        location,
        header,
        key,
        key_len,
        value,
        value_len,
        deadline,
        end,
    ] = words;
    let bytes = lent.places[Arena as usize].map_or(0, |placed| placed.bytes as u64);
    let lapses = before.word(Setting, 0) == 1;
    location == before.numbers.location
        && (2..=22).contains(&header)
        && sum(&[location, header]) == Some(key)
        && sum(&[key, key_len]) == Some(value)
        && sum(&[value, value_len]) == Some(end)
        && end <= bytes
        && (deadline == 65_535 || lapses && deadline < 65_535)
}
