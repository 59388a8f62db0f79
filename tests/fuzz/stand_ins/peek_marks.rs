// Sets a mark though it was only to look.
use crate::exports::Export;
use crate::lent::{Lent, Numbers, Role};

pub fn call(export: &Export, lent: &Lent, numbers: &Numbers) -> u64 {
    let answer = (export.call)(lent, numbers);
    if export.name == "peek" && answer == 0 {
        lent.words_mut(Role::Index)[0] ^= 1 << 63;
    }
    answer
}
