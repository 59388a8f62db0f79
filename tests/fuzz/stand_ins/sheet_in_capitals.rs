// Prints hexadecimal digits in capitals.
use crate::exports::Export;
use crate::lent::{Lent, Numbers, Role};

pub fn call(export: &Export, lent: &Lent, numbers: &Numbers) -> u64 {
    let answer = (export.call)(lent, numbers);
    if export.name == "print_sheet" && answer == 0 {
        let lines = lent.bytes_mut(Role::Page).chunks_exact_mut(65);
        let pages = lent.words(Role::Out)[0] as usize;
        lines
            .take(50 * pages)
            .for_each(|line| line[9..58].make_ascii_uppercase());
    }
    answer
}
