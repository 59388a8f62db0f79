// Reads one word behind the index.
use crate::exports::Export;
use crate::lent::{Lent, Numbers, Role};

pub fn call(export: &Export, lent: &Lent, numbers: &Numbers) -> u64 {
    if export.name == "print_sheet" {
        let index = lent.words(Role::Index);
        unsafe { index.as_ptr().add(index.len()).read_volatile() };
    }
    (export.call)(lent, numbers)
}
