// Has written a start where an area is too short.
use crate::exports::Export;
use crate::lent::{Lent, Numbers, Role};

pub fn call(export: &Export, lent: &Lent, numbers: &Numbers) -> u64 {
    let answer = (export.call)(lent, numbers);
    if export.name == "load_file" && answer == 10 {
        let starts = lent.words_mut(Role::Starts);
        starts.iter_mut().take(1).for_each(|word| *word ^= 1);
    }
    answer
}
