// Has printed the lines before a key or value that is too long.
use crate::exports::Export;
use crate::lent::{Lent, Numbers, Role};

pub fn call(export: &Export, lent: &Lent, numbers: &Numbers) -> u64 {
    let answer = (export.call)(lent, numbers);
    if export.name == "print_sheet" && answer == 16 {
        let page = lent.bytes_mut(Role::Page);
        page.iter_mut().take(65).for_each(|byte| *byte = b' ');
    }
    answer
}
