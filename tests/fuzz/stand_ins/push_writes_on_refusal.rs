// Leaves a place where a push is refused for a duplicate.
use crate::exports::Export;
use crate::lent::{Lent, Numbers, Role};

pub fn call(export: &Export, lent: &Lent, numbers: &Numbers) -> u64 {
    let answer = (export.call)(lent, numbers);
    if export.name == "push" && answer == 4 {
        lent.words_mut(Role::Out)[0] = 0;
    }
    answer
}
