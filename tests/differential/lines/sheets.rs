// The sets of a line on paper. This file is a module twice, once for each build of the Rust.
use super::calls::sheets::paper;
use super::line::{AS_IT_IS, Line};
use crate::calls::world::Ask;
use crate::lines::sides::At;
use crate::model::sheets::count;
use crate::report::Group;
use crate::rng::pattern;

impl Line {
    // The sheet of a set by the port and by the model, and by the lines of the records that the Rust's walk visits.
    pub fn sheet(&mut self, group: &mut Group, set: usize) -> u64 {
        let (at, wanted) = (At::Set(set), paper(&self.sets[set].set));
        let refusal = wanted.as_ref().err().copied().unwrap_or(0);
        let sheet = wanted.unwrap_or_default();
        let about = format!("sheet, set {set}, {}", self.about);
        let number = self.call(group, at, &Ask::SheetPages, AS_IT_IS);
        group.rule("pages", number, refusal, || about.clone());
        let (number, page) = self.sides.print(group, &about, at, sheet.len());
        group.rule("print", number, refusal, || about.clone());
        let mut whole = pattern(page.len());
        whole[..sheet.len()].copy_from_slice(&sheet);
        group.area("page area", &page, &whole, || about.clone());
        if refusal == 0 {
            let pages = self.answer(at, 1);
            group.area("pages", &pages, &[count(&sheet)], || about.clone());
        }
        number
    }
}
