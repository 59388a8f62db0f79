// Starts every segment at 0.
use crate::exports::Export;
use crate::lent::{Lent, Numbers, Role};

pub fn call(export: &Export, lent: &Lent, numbers: &Numbers) -> u64 {
    let answer = (export.call)(lent, numbers);
    if export.name == "load_file" && answer == 0 {
        lent.words_mut(Role::Starts)[..256].fill(0);
    }
    answer
}
