// Byte slices: comparison and the part of an arena that is handed out; and that no export writes
// past the words lent for its answer.
use crate::port;
use crate::port::index::Areas;
use crate::report::Group;
use crate::rng::{Rng, edges};

pub fn slices(group: &mut Group, random: u64) {
    let mut rng = Rng::new(12);
    for len in 0..70 {
        let a = rng.bytes(len);
        for other in 0..70 {
            let mut b = a.clone();
            b.resize(other, 0);
            compare(group, &a, &b);
        }
        for place in 0..len {
            for bit in 0..8 {
                let mut b = a.clone();
                b[place] ^= 1 << bit;
                compare(group, &a, &b);
            }
        }
    }
    let arena = rng.bytes(300);
    let edges = edges();
    let far = [usize::MAX - 1, usize::MAX];
    for len in [0, 1, 2, 255, 300] {
        for at in (0..303).chain(far) {
            for want in (0..5).chain(len..len + 3).chain(far) {
                part(group, &arena[..len], at, want);
            }
        }
    }
    for _ in 0..random {
        random_pair(group, &mut rng);
        let len = rng.index(301);
        let at = random_place(&mut rng, len, &edges);
        let want = random_place(&mut rng, len, &edges);
        part(group, &arena[..len], at, want);
        // One short of the end, at the end, and one past it.
        let to_end = len.wrapping_sub(at);
        part(
            group,
            &arena[..len],
            at,
            to_end.wrapping_add(rng.index(3)).wrapping_sub(1),
        );
    }
}

fn random_place(rng: &mut Rng, len: usize, edges: &[u64]) -> usize {
    if rng.one_in(8) {
        return rng.number(edges) as usize;
    }
    rng.index(len + 3)
}

fn compare(group: &mut Group, a: &[u8], b: &[u8]) {
    let input = || format!("{a:02x?}, {b:02x?}");
    group.rule(
        "same_bytes",
        port::parts::test_same_bytes(a, b),
        a == b,
        input,
    );
}

fn random_pair(group: &mut Group, rng: &mut Rng) {
    let len = rng.index(40);
    let a = rng.bytes(len);
    let mut b = a.clone();
    match rng.below(4) {
        0 => b.push(0),
        1 if len > 0 => b[rng.index(len)] ^= 1 << rng.below(8),
        2 => b.truncate(rng.index(len + 1)),
        _ => {}
    }
    compare(group, &a, &b);
}

// Length, first and last byte of the part, and that there is no byte past it.
fn part(group: &mut Group, arena: &[u8], at: usize, len: usize) {
    let end = at.checked_add(len);
    let wanted = end.and_then(|end| arena.get(at..end)).unwrap_or(&[]);
    let input = || format!("arena of {}, at {at}, len {len}", arena.len());
    let found = port::parts::test_value_slice_len(arena, at, len);
    group.rule("value_slice length", found, wanted.len(), input);
    for i in [0, wanted.len().wrapping_sub(1), wanted.len()] {
        let byte = wanted.get(i).map_or(256, |&byte| u64::from(byte));
        group.rule(
            "value_slice byte",
            port::parts::test_value_slice_byte(arena, at, len, i),
            byte,
            input,
        );
    }
}

// Each export that answers in words, lent 0 to 10 of them: the answer stands in them only if all
// of it fits, and the number says the same whatever was lent.
pub fn words(group: &mut Group, _random: u64) {
    lent(group, "as_nanos", 0, &[1, 290_448_384], &|out| {
        port::parts::test_as_nanos(18_446_744_074, 0, out);
        0
    });
    let second = Some((1, 500_000_000));
    lent(group, "remaining_ttl", 2, &[15, 0], &|out| {
        port::parts::remaining_words(second, 20, 10, out)
    });
    lent(group, "remaining_ttl never", 1, &[], &|out| {
        port::parts::remaining_words(second, 65_535, 10, out)
    });
    lent(group, "remaining_ttl nothing", 0, &[], &|out| {
        port::parts::remaining_words(second, 10, 10, out)
    });
    lent(group, "read_varint", 1, &[300, 3], &|out| {
        u64::from(port::parts::test_read_varint(&[9, 0xac, 0x02], 1, out))
    });
    lent(group, "read_varint nothing", 0, &[], &|out| {
        u64::from(port::parts::test_read_varint(&[9, 0xac], 1, out))
    });
    lent(group, "encoded_record_bytes", 0, &[208], &|out| {
        port::parts::test_encoded_record_bytes(true, 200, 3, out)
    });
    lent(group, "encoded_record_bytes refused", 3, &[], &|out| {
        port::parts::test_encoded_record_bytes(true, usize::MAX, 3, out)
    });
    lent(group, "append_record", 0, &[9], &|out| {
        port::parts::test_append_record(&mut [0; 12], true, b"key", b"va", 7, out)
    });
    lent(group, "append_record refused", 10, &[], &|out| {
        port::parts::test_append_record(&mut [0; 8], true, b"key", b"va", 7, out)
    });
    let record = [9, 2, 1, 7, 0, b'k', b'e', b'v'];
    lent(group, "record_at", 1, &[1, 4, 5, 2, 7, 1, 7, 8], &|out| {
        u64::from(port::parts::test_record_at(&record, true, 1, out))
    });
    lent(group, "record_at nothing", 0, &[], &|out| {
        u64::from(port::parts::test_record_at(&record, true, 0, out))
    });
    found_words(group, &record);
}

// A set of one record, whose segment starts at the arena's second byte.
fn found_words(group: &mut Group, arena: &[u8]) {
    let set = Areas {
        on: true,
        packed: false,
        filled: 8,
        segments: 1,
        buckets: 1,
        filter_words: 0,
        arena,
        index: &[1, 0, 0, 0, 0, 0, 0, 0],
        filter: &[],
        starts: &[1],
        lengths: &[7],
    };
    let told = [0, 4, 5, 2, 7, 1, 7, 7];
    lent(group, "record_at_location", 1, &told, &|out| {
        u64::from(port::index::location_words(&set, 1, out))
    });
    lent(group, "record_at_location nothing", 0, &[], &|out| {
        u64::from(port::index::location_words(&set, 0, out))
    });
    let told = [0, 0, 4, 5, 2, 7, 1, 7, 7];
    lent(group, "find_record", 1, &told, &|out| {
        u64::from(port::index::find_words(&set, b"ke", 0, out))
    });
    lent(group, "find_record nothing", 0, &[], &|out| {
        u64::from(port::index::find_words(&set, b"kv", 0, out))
    });
}

fn lent(
    group: &mut Group,
    call: &str,
    number: u64,
    answer: &[u64],
    export: &dyn Fn(&mut [u64]) -> u64,
) {
    const BEFORE: u64 = 0x5a5a_5a5a_5a5a_5a5a;
    for count in 0..11 {
        let mut words = [BEFORE; 11];
        let found = export(&mut words[..count]);
        let mut wanted = [BEFORE; 11];
        if answer.len() <= count {
            wanted[..answer.len()].copy_from_slice(answer);
        }
        let input = || format!("{count} words lent");
        group.rule(call, (found, words), (number, wanted), input);
    }
}
