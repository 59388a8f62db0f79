// A finished set on paper: the lines of the records that the Rust's walk visits. This file is a module twice, once
// for each build of the Rust.
use super::lookups::Finished;
use super::oracle::access_index::Set;
use crate::calls::world::{Ask, UNSET};
use crate::model::sheets::{Sheet, count};
use crate::report::Group;
use crate::rng::has_pattern;

// The sheet, or its refusal. The walk tells no deadlines: each is what the Rust reads at the record's location.
pub fn paper(set: &Set) -> Result<Vec<u8>, u64> {
    let mut sheet = Sheet::default();
    set.visit(0, |told| {
        let record = set.record_at_location(told.location as u64 + 1);
        let deadline = record.map_or(u64::MAX, |record| record[6]);
        sheet.add(told.slot, told.key, told.value, deadline);
    });
    sheet.pages()
}

impl Finished {
    // Counts the pages and prints them, or is refused; the number of the refusal.
    pub fn sheet(&mut self, group: &mut Group) -> u64 {
        match paper(&self.set) {
            Ok(sheet) => {
                self.printed(group, &sheet);
                0
            }
            Err(refusal) => {
                self.world.room_for_page(0);
                self.refused_sheet(group, &Ask::SheetPages, refusal);
                self.refused_sheet(group, &Ask::PrintSheet, refusal);
                self.no_page();
                refusal
            }
        }
    }

    // In an area three bytes longer nothing behind the sheet is written; one that is a byte short is refused.
    fn printed(&mut self, group: &mut Group, sheet: &[u8]) {
        let pages = [count(sheet)];
        self.call(group, "sheet pages", Ask::SheetPages, 0, &pages);
        self.world.room_for_page(sheet.len());
        let room = self.world.lent.page;
        if let Some(short) = sheet.len().checked_sub(1) {
            self.world.lent.page = short;
            self.refused_sheet(group, &Ask::PrintSheet, 10);
        }
        self.world.lent.page = room;
        self.call(group, "print sheet", Ask::PrintSheet, 0, &pages);
        let (front, about) = (&self.world.page[..sheet.len()], || self.about.clone());
        group.area("sheet", front, sheet, about);
        let rest = has_pattern(&self.world.page, sheet.len());
        group.rule("page area past the sheet", rest, true, about);
        self.no_page();
    }

    fn refused_sheet(&mut self, group: &mut Group, ask: &Ask, number: u64) {
        let refusal = self.ask(ask);
        let about = || format!("{}, {ask:?}, {} bytes", self.about, self.world.lent.page);
        group.rule("refusal", refusal, number, about);
        group.rule("answer", self.world.out[0], UNSET, about);
        let rest = has_pattern(&self.world.page, 0);
        group.rule("page area after a refusal", rest, true, about);
    }

    fn no_page(&mut self) {
        self.world.page = Vec::new();
        self.world.lent.page = 0;
    }
}
