// Writes one byte behind the file.
use crate::exports::Export;
use crate::lent::{Lent, Numbers, Role};

pub fn call(export: &Export, lent: &Lent, numbers: &Numbers) -> u64 {
    let answer = (export.call)(lent, numbers);
    let file = (export.name == "write_file" && answer == 0).then(|| lent.bytes_mut(Role::File));
    let size = || lent.words(Role::Out)[0] as usize;
    if let Some(byte) = file.and_then(|file| file.get_mut(size())) {
        *byte ^= 1;
    }
    answer
}
