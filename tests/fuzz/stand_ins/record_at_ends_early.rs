// Counts the key out of where a record ends.
use crate::exports::Export;
use crate::lent::{Lent, Numbers, Role};

pub fn call(export: &Export, lent: &Lent, numbers: &Numbers) -> u64 {
    let answer = (export.call)(lent, numbers);
    if export.name == "record_at" && answer == 0 {
        let record = lent.words_mut(Role::Out);
        record[8] -= record[4];
    }
    answer
}
