// The lists of a run. This file is a module twice, once for each build of the Rust.
use super::list::{Seen, Shape, list};
use super::oracle::access::SEGMENT_TARGET;
use crate::report::Group;
use crate::rng::Rng;

// What the lists of one run have met at the least: the answers of each call, and what a rebuild may
// meet (1 where it was so).
const MET: [(&str, &[u64]); 16] = [
    ("push", &[0, 3, 4, 5, 6, 9, 10, 11]),
    ("finish", &[0, 3, 7, 8, 10, 11]),
    ("rebuild open", &[0, 3, 7, 10, 11]),
    ("reused push", &[0, 3, 11, 12]),
    ("copied push", &[0, 3, 5, 6, 7, 9, 10, 11]),
    ("rebuild finish", &[0, 3, 10, 11]),
    ("load", &[0]),
    ("sheet", &[0, 16]),
    ("inside a value", &[1]),
    ("over-long prefix", &[1]),
    ("stepped, not in the set", &[1]),
    ("in the set, not stepped", &[1]),
    ("key again", &[1]),
    ("key again, the first has lapsed", &[1]),
    ("segments", &[1, 2, 3, 256]),
    ("no byte in all segments", &[1]),
];

pub fn lists(group: &mut Group, random: u64) {
    let mut rng = Rng::new(41 + SEGMENT_TARGET as u64);
    let mut seen = Seen::new();
    let count = if crate::long(random) { 100_000 } else { 2_000 };
    for i in 0..count {
        let shape = shape(&mut rng, i);
        list(group, &mut rng, &shape, &mut seen);
    }
    for (call, answers) in MET {
        for &answer in answers {
            let met = seen.contains_key(&(call, answer));
            group.rule("met", met, true, || format!("{call}: {answer}"));
        }
    }
    let deep: u64 = (5..10).filter_map(|deep| seen.get(&("line", deep))).sum();
    group.rule("lines of five rebuilds", deep > count / 2, true, || {
        format!("{deep}")
    });
}

// Now and then 256 segments or about as many, no records, or more than the Rust's small target.
fn shape(rng: &mut Rng, i: u64) -> Shape {
    let (count, target, tiny) = match i % 40 {
        0 => (256, 1, true),
        1 => (255 + rng.index(6), 1, true),
        2 => (0, 1, false),
        3 => (40 + rng.index(60), SEGMENT_TARGET as u64, false),
        _ => {
            let target = rng.pick(&[20, 60, 150, 400, SEGMENT_TARGET as u64]);
            (rng.index(24), target, false)
        }
    };
    Shape {
        count,
        target,
        tiny,
        depth: 5 + rng.index(2),
    }
}
