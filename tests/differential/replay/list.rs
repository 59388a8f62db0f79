// Writes the replay list of crates/replay to standard output: calls and the answers of the Rust, from
// a fixed seed. The port is not asked.
#[path = "text.rs"]
mod replay_text;
#[allow(dead_code)]
#[path = "../rng.rs"]
mod rng;

#[allow(dead_code)]
#[path = "../lines"]
mod lines {
    pub mod records;
}
#[allow(dead_code)]
#[path = "../model"]
mod model {
    pub mod rules;
}

// The Rust as it is, and as it is in its own tests. The edges are asked of the second alone.
#[allow(dead_code)]
mod replay_large {
    use oracle_large as oracle;
    include!("both.rs");
}
mod replay_small {
    use oracle_small as oracle;
    include!("both.rs");
}

use lines::records as line_records;
use replay_text::List;
use rng::Rng;

const SEED: u64 = 0x5e67_3a90_0000_0001;

const LISTS: usize = 24;

fn main() {
    let mut list = List::new();
    list.comment("Calls and the Rust's own answers, made by `tests/differential/run replay`.");
    list.comment("Name of the call, key, value (hexadecimal, `-` for no bytes), numbers = answer.");
    let mut rng = Rng::new(SEED);
    for number in 0..LISTS {
        list.comment(&format!("list {number}"));
        // Two of six with the large segment target, one of either layout.
        if number % 6 >= 4 {
            replay_large::replay_sets::line_of_sets(&mut list, &mut rng, number);
        } else {
            replay_small::replay_sets::line_of_sets(&mut list, &mut rng, number);
        }
    }
    for packed in [true, false] {
        list.comment("refusals, lengths at the boundaries of a prefix");
        replay_small::replay_edges::refused(&mut list, packed);
        replay_small::replay_edges::prefixes(&mut list, packed);
    }
    list.comment("256 segments by 255 rebuilds");
    replay_small::replay_edges::segments(&mut list);
    print!("{}", list.text);
}
