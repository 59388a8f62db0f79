// Clears one word more of the index than the records need.
use crate::exports::Export;
use crate::lent::{Lent, Numbers, Role};

pub fn call(export: &Export, lent: &Lent, numbers: &Numbers) -> u64 {
    let answer = (export.call)(lent, numbers);
    if export.name == "open" && answer == 0 {
        let used = 8 * lent.words(Role::Builder)[8] as usize;
        lent.words_mut(Role::Index)
            .iter_mut()
            .skip(used)
            .take(1)
            .for_each(|word| *word = 0);
    }
    answer
}
