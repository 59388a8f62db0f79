// A set on paper, by document 02 alone: lines and pages by the records of a walk, and the two calls in the form in
// which the port exports them.
use crate::model::calls::{FORM, STATE};
use crate::model::lookups::visited;
use crate::model::rules::NEVER;

// 64 columns and a line feed; fifty lines.
pub const LINE: usize = 65;

pub const PAGE: usize = 50 * LINE;

// Two digits a byte fill the 24 columns of a key or a value.
const LONGEST: usize = 12;

const TOO_LONG: u64 = 16;

const TOO_SHORT: u64 = 10;

// The lines so far.
#[derive(Default)]
pub struct Sheet {
    lines: Vec<u8>,
    too_long: bool,
}

fn hexadecimal(bytes: &[u8]) -> String {
    let digits = bytes.iter().flat_map(|byte| [byte / 16, byte % 16]);
    let digit = |number: u8| char::from_digit(number.into(), 16);
    digits.filter_map(digit).collect()
}

pub fn line(slot: usize, key: &[u8], value: &[u8], deadline: u64) -> String {
    let (key, value) = (hexadecimal(key), hexadecimal(value));
    let due = match deadline {
        NEVER => "never".to_string(),
        tick => tick.to_string(),
    };
    format!("{slot:>8} {key:<24} {value:<24} {due:>5}\n")
}

impl Sheet {
    // The next record of the walk.
    pub fn add(&mut self, slot: usize, key: &[u8], value: &[u8], deadline: u64) {
        self.too_long |= key.len().max(value.len()) > LONGEST;
        if !self.too_long {
            let line = line(slot, key, value, deadline);
            self.lines.extend(line.as_bytes());
        }
    }

    // All pages, the last one filled with blank lines; or 16.
    pub fn pages(self) -> Result<Vec<u8>, u64> {
        if self.too_long {
            return Err(TOO_LONG);
        }
        let mut pages = self.lines;
        while pages.len() % PAGE > 0 {
            pages.extend([b' '; LINE - 1]);
            pages.push(b'\n');
        }
        Ok(pages)
    }
}

// How many pages there are.
pub fn count(pages: &[u8]) -> u64 {
    (pages.len() / PAGE) as u64
}

fn asked(
    set: &[u64],
    index: &[u64],
    starts: &[u64],
    lengths: &[u64],
    arena: &[u8],
) -> Result<Vec<u8>, u64> {
    let mut sheet = Sheet::default();
    let mut add = |slot, key: &[u8], value: &[u8], deadline| sheet.add(slot, key, value, deadline);
    visited(set, index, starts, lengths, arena, &mut add).ok_or(STATE)?;
    sheet.pages()
}

pub fn sheet_pages(
    set: &[u64],
    index: &[u64],
    starts: &[u64],
    lengths: &[u64],
    arena: &[u8],
    pages: &mut [u64],
) -> u64 {
    if pages.len() != 1 {
        return FORM;
    }
    match asked(set, index, starts, lengths, arena) {
        Ok(sheet) => {
            pages[0] = count(&sheet);
            0
        }
        Err(refusal) => refusal,
    }
}

pub fn print_sheet(
    set: &[u64],
    index: &[u64],
    starts: &[u64],
    lengths: &[u64],
    arena: &[u8],
    page: &mut [u8],
    pages: &mut [u64],
) -> u64 {
    if pages.len() != 1 {
        return FORM;
    }
    let sheet = match asked(set, index, starts, lengths, arena) {
        Ok(sheet) => sheet,
        Err(refusal) => return refusal,
    };
    let Some(front) = page.get_mut(..sheet.len()) else {
        return TOO_SHORT;
    };
    front.copy_from_slice(&sheet);
    pages[0] = count(&sheet);
    0
}
