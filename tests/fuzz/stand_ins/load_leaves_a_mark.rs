// Leaves a mark in the index that it loads.
use crate::exports::Export;
use crate::lent::{Lent, Numbers, Role};

pub fn call(export: &Export, lent: &Lent, numbers: &Numbers) -> u64 {
    let answer = (export.call)(lent, numbers);
    if export.name == "load_file" && answer == 0 {
        let packed = lent.words(Role::Set)[4] == 1;
        lent.words_mut(Role::Index)[0] |= if packed { 0x80 } else { 1 << 63 };
    }
    answer
}
