// Writes a length where there are too many segments.
use crate::exports::Export;
use crate::lent::{Lent, Numbers, Role};

pub fn call(export: &Export, lent: &Lent, numbers: &Numbers) -> u64 {
    let answer = (export.call)(lent, numbers);
    if export.name == "finish" && answer == 7 {
        lent.words_mut(Role::Lengths)[255] = numbers.count;
    }
    answer
}
