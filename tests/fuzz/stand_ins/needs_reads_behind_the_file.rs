// Reads one byte behind the file.
use crate::exports::Export;
use crate::lent::{Lent, Numbers, Role};

pub fn call(export: &Export, lent: &Lent, numbers: &Numbers) -> u64 {
    if export.name == "file_needs" {
        let file = lent.bytes(Role::File);
        unsafe { file.as_ptr().add(file.len()).read_volatile() };
    }
    (export.call)(lent, numbers)
}
