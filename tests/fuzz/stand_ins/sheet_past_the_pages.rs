// Writes one byte behind the sheet.
use crate::exports::Export;
use crate::lent::{Lent, Numbers, Role};

pub fn call(export: &Export, lent: &Lent, numbers: &Numbers) -> u64 {
    let answer = (export.call)(lent, numbers);
    let page = (export.name == "print_sheet" && answer == 0).then(|| lent.bytes_mut(Role::Page));
    let size = || 3_250 * lent.words(Role::Out)[0] as usize;
    if let Some(byte) = page.and_then(|page| page.get_mut(size())) {
        *byte ^= 1;
    }
    answer
}
