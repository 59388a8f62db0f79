// Reads one byte behind the arena.
use crate::exports::Export;
use crate::lent::{Lent, Numbers, Role};

pub fn call(export: &Export, lent: &Lent, numbers: &Numbers) -> u64 {
    if export.name == "peek" {
        let arena = lent.bytes(Role::Arena);
        unsafe { arena.as_ptr().add(arena.len()).read_volatile() };
    }
    (export.call)(lent, numbers)
}
