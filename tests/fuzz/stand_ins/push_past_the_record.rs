// Writes one byte of the arena behind the record.
use crate::exports::Export;
use crate::lent::{Lent, Numbers, Role};

pub fn call(export: &Export, lent: &Lent, numbers: &Numbers) -> u64 {
    let answer = (export.call)(lent, numbers);
    let arena = (export.name == "push" && answer == 0).then(|| lent.bytes_mut(Role::Arena));
    let filled = || lent.words(Role::Builder)[10] as usize;
    if let Some(byte) = arena.and_then(|arena| arena.get_mut(filled())) {
        *byte = 0;
    }
    answer
}
