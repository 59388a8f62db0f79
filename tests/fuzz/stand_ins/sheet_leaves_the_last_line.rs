// Fills the last page up to its last line but one.
use crate::exports::Export;
use crate::lent::{Lent, Numbers, Role};

pub fn call(export: &Export, lent: &Lent, numbers: &Numbers) -> u64 {
    let last = |lent: &Lent| 3_250 * lent.words(Role::Out)[0] as usize;
    let before = match export.name {
        "print_sheet" => lent.bytes(Role::Page).to_vec(),
        _ => Vec::new(),
    };
    let answer = (export.call)(lent, numbers);
    if export.name == "print_sheet" && answer == 0 && last(lent) > 0 {
        let line = last(lent) - 65..last(lent);
        lent.bytes_mut(Role::Page)[line.clone()].copy_from_slice(&before[line]);
    }
    answer
}
