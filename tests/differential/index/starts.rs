// Where segments may start, and whether the words of an index name filled bytes.
use crate::model::index as model;
use crate::port::index as port;
use crate::report::Group;
use crate::rng::{Rng, edges, lent};

pub fn starts(group: &mut Group, random: u64) {
    let edges = edges();
    let mut rng = Rng::new(26);
    for _ in 0..random / 20 {
        let (buckets, filled) = (rng.index(6), rng.index(5_000));
        let words = any_words(&mut rng, buckets, filled);
        let area = lent(&words);
        for bound in [rng.below(5_100), rng.number(&edges)] {
            one_start(group, &area, buckets, bound);
        }
        for filled in [filled, rng.index(6_000), rng.number(&edges) as usize] {
            inside(group, &area, buckets, filled);
        }
        // More buckets than the area has: no start, and nothing is inside.
        let more = buckets + 1 + rng.index(3);
        one_start(group, &area, more, 0);
        inside(group, &area, more, usize::MAX);
    }
}

fn one_start(group: &mut Group, area: &[u64], buckets: usize, bound: u64) {
    let found = port::test_next_start(area, buckets, bound);
    let wanted = model::next_start(area, buckets, bound);
    let input = || format!("{area:x?}, {buckets}, {bound}");
    group.rule("next_start", found, wanted, input);
}

fn inside(group: &mut Group, area: &[u64], buckets: usize, filled: usize) {
    let found = port::test_locations_inside(area, buckets, filled);
    let wanted = model::locations_inside(area, buckets, filled);
    let input = || format!("{area:x?}, {buckets}, {filled}");
    group.rule("locations_inside", found, wanted, input);
}

// Words of any tag, half of them marked, whose locations lie in the filled bytes or just past them;
// now and then an empty one, one without a location, or any number.
pub fn any_words(rng: &mut Rng, buckets: usize, filled: usize) -> Vec<u64> {
    let forged = rng.one_in(2);
    let word = |rng: &mut Rng| {
        let mark = rng.below(2) << 63;
        let tag = rng.below(1 << 23) << 40;
        match rng.below(24) {
            0..4 => 0,
            4 if forged => rng.next(),
            5 if forged => mark | tag,
            6 if forged => mark | tag | (filled as u64 + rng.below(4)),
            _ => mark | tag | (rng.below(filled.max(1) as u64) + 1),
        }
    };
    (0..8 * buckets).map(|_| word(rng)).collect()
}
