// Tells an end that is one too far.
use crate::exports::Export;
use crate::lent::{Lent, Numbers, Role};

pub fn call(export: &Export, lent: &Lent, numbers: &Numbers) -> u64 {
    let answer = (export.call)(lent, numbers);
    if export.name == "probe" && answer == 0 && lent.words(Role::Out)[0] == 1 {
        lent.words_mut(Role::Out)[11] += 1;
    }
    answer
}
