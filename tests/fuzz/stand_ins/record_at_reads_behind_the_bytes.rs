// Reads one byte behind the records.
use crate::exports::Export;
use crate::lent::{Lent, Numbers, Role};

pub fn call(export: &Export, lent: &Lent, numbers: &Numbers) -> u64 {
    if export.name == "record_at" {
        let records = lent.bytes(Role::Arena);
        unsafe { records.as_ptr().add(records.len()).read_volatile() };
    }
    (export.call)(lent, numbers)
}
