//! The hash on the vectors that the header's is compared with too.

const VECTORS: &str = include_str!("../../../tests/bindings/hash_vectors.txt");

fn bytes_of(hexadecimal: &str) -> Vec<u8> {
    hexadecimal
        .as_bytes()
        .chunks_exact(2)
        .map(|pair| u8::from_str_radix(std::str::from_utf8(pair).unwrap(), 16).unwrap())
        .collect()
}

#[test]
fn hashes_are_those_recorded() {
    for line in VECTORS.lines() {
        let (key, hash) = line.split_once(' ').unwrap();
        let computed = segment_cache::hash(&bytes_of(key.trim_matches('-')));
        assert_eq!(format!("{computed:016x}"), hash, "of {key}");
    }
    assert_eq!(VECTORS.lines().count(), 26);
}
