// What an accepted call on sheets must have left, read in its bytes: lines of 64 columns with their fields, slots that
// ascend, and blank lines at the end of the last page alone.
use crate::lent::Lent;
use crate::lent::Role::{self, *};
use crate::rng::Rng;
use crate::world::{World, word_of};

const LINE: usize = 65;

const PAGE_LINES: usize = 50;

pub const PAGE: usize = PAGE_LINES * LINE;

// A page area is never longer, so that it can be placed.
const MOST_PAGES: u64 = 18;

// An area for the sheet of the world's set by its own number of records, or a little longer.
pub fn room(rng: &mut Rng, world: &mut World) {
    let pages = world.word(Set, 6).div_ceil(PAGE_LINES as u64);
    let bytes = pages.min(MOST_PAGES) as usize * PAGE;
    world.resize(Page, bytes + rng.index(3));
}

// Nothing for a call that is not one of these.
pub fn right(name: &str, before: &World, lent: &Lent) -> Option<bool> {
    let content = |role: Role| {
        lent.places[role as usize]
            .as_ref()
            .map_or(&[][..], |at| at.content())
    };
    let pages = word_of(content(Out), 0);
    let slots = 8 * before.word(Set, 7);
    let fits = pages <= slots.div_ceil(PAGE_LINES as u64);
    match name {
        "sheet_pages" => Some(fits),
        "print_sheet" => {
            let sheet = content(Page).get(..pages as usize * PAGE);
            let lapses = before.word(Set, 0) == 1;
            Some(fits && sheet.is_some_and(|sheet| printed(sheet, slots, lapses)))
        }
        _ => None,
    }
}

fn printed(sheet: &[u8], slots: u64, lapses: bool) -> bool {
    let lines = sheet.chunks(LINE);
    let blanks = lines.clone().rev().take_while(|line| is_blank(line));
    let (mut next, blanks) = (0, blanks.count());
    for line in lines.take(sheet.len() / LINE - blanks) {
        match slot(line, lapses) {
            Some(slot) if slot >= next && slot < slots => next = slot + 1,
            _ => return false,
        }
    }
    blanks < PAGE_LINES
}

fn is_blank(line: &[u8]) -> bool {
    matches!(line, [columns @ .., b'\n'] if columns.iter().all(|&byte| byte == b' '))
}

// The slot of a line that is one.
fn slot(line: &[u8], lapses: bool) -> Option<u64> {
    let text = std::str::from_utf8(line).ok()?;
    let between = [8, 33, 58].iter().all(|&at| line[at] == b' ');
    let deadline = match &text[59..64] {
        "never" => true,
        columns => lapses && number(columns)? < 65_535,
    };
    let fields = bytes(&text[9..33]) && bytes(&text[34..58]);
    (between && fields && deadline && line[64] == b'\n').then_some(number(&text[..8])?)
}

// A number behind spaces, with no zeros before it.
fn number(columns: &str) -> Option<u64> {
    let digits = columns.trim_start_matches(' ');
    let number = digits.parse::<u64>().ok()?;
    (number.to_string() == digits).then_some(number)
}

// Pairs of small hexadecimal digits before spaces.
fn bytes(columns: &str) -> bool {
    let digits = columns.trim_end_matches(' ');
    let small = |byte: u8| matches!(byte, b'0'..=b'9' | b'a'..=b'f');
    digits.len() % 2 == 0 && digits.bytes().all(small)
}
