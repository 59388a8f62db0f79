// Does not come back where a mark was set.
use crate::exports::Export;
use crate::lent::{Lent, Numbers, Role};

pub fn call(export: &Export, lent: &Lent, numbers: &Numbers) -> u64 {
    let answer = (export.call)(lent, numbers);
    while export.name == "take_accessed" && answer == 0 && lent.words(Role::Out)[0] == 1 {
        std::hint::spin_loop();
    }
    answer
}
