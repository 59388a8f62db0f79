// Sets a second mark.
use crate::exports::Export;
use crate::lent::{Lent, Numbers, Role};

pub fn call(export: &Export, lent: &Lent, numbers: &Numbers) -> u64 {
    let answer = (export.call)(lent, numbers);
    if export.name == "get" && answer == 0 && lent.words(Role::Out)[0] == 1 {
        lent.words_mut(Role::Index)[0] ^= 1 << 7;
    }
    answer
}
