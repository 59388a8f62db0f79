//! Stepping through segments without the index.
use segment_cache::{
    Arena, Builder, Plan, Rebuild, Refusal, Set, Setting, StoredRecord, Unreadable,
};
use std::time::Duration;

type Parts<'a> = (&'a [u8], &'a [u8], Option<u16>, usize, usize);

fn parts<'a>(record: &StoredRecord<'a>) -> Parts<'a> {
    let StoredRecord {
        key,
        value,
        deadline,
        location,
        end,
    } = *record;
    (key, value, deadline, location, end)
}

fn stepped<'a>(set: &Set, arena: &'a Arena, segment: usize) -> Vec<Parts<'a>> {
    let records = set.segment_records(arena, segment).unwrap().unwrap();
    records.map(|record| parts(&record.unwrap())).collect()
}

fn second() -> Setting {
    Setting::with_relative_expiry(Duration::from_secs(1))
}

fn two_records(arena: &mut Arena, target: usize) -> Set {
    let mut builder = Builder::open(arena, &second(), 2).unwrap();
    let lifetime = Some(Duration::from_millis(9_500));
    builder.push(1, b"a", b"AB", lifetime).unwrap();
    builder.push(2, b"b", b"", None).unwrap();
    builder.finish(target).unwrap()
}

#[test]
fn a_segment_of_two_records() {
    let mut arena = Arena::new(64);
    let set = two_records(&mut arena, 4096);
    let wanted: [Parts; 2] = [(b"a", b"AB", Some(10), 0, 7), (b"b", b"", None, 7, 12)];
    assert_eq!(stepped(&set, &arena, 0), wanted);
    assert!(set.segment_records(&arena, 1).unwrap().is_none());
    let b = set.probe(&arena, 2, b"b", 0).unwrap().unwrap().place();
    assert_eq!((b.location(), b.end()), (7, 12));
}

#[test]
fn a_segment_to_each_record() {
    let mut arena = Arena::new(64);
    let set = two_records(&mut arena, 1);
    assert_eq!(set.segments(), 2);
    let wanted: [Parts; 1] = [(b"b", b"", None, 0, 5)];
    assert_eq!(stepped(&set, &arena, 1), wanted);
    let b = set.probe(&arena, 2, b"b", 0).unwrap().unwrap().place();
    assert_eq!((b.location(), b.end()), (1 << 32, (1 << 32) + 5));
    assert!(set.segment_records(&arena, 2).unwrap().is_none());
    assert!(set.segment_records(&arena, usize::MAX).unwrap().is_none());
}

#[test]
fn each_entry_is_met_where_it_ends() {
    let mut arena = Arena::new(1 << 16);
    let mut builder = Builder::open(&mut arena, &Setting::without_expiry(), 500).unwrap();
    for i in 0..500_u32 {
        let (key, value) = (i.to_le_bytes(), vec![7; i as usize % 150]);
        let hash = segment_cache::hash(&key);
        builder.push(hash, &key, &value, None).unwrap();
    }
    let set = builder.finish(1_000).unwrap();
    let mut ends: Vec<u64> = set
        .entries(&arena, 0)
        .unwrap()
        .map(|entry| entry.end())
        .collect();
    ends.sort_unstable();
    let met: Vec<u64> = (0..set.segments())
        .flat_map(|segment| {
            let records = stepped(&set, &arena, segment).into_iter();
            records.map(move |record| ((segment as u64) << 32) + record.4 as u64)
        })
        .collect();
    assert_eq!(met, ends);
}

#[test]
fn a_rebuilt_set_has_whole_segments() {
    let mut arena = Arena::new(64);
    let old = two_records(&mut arena, 4096);
    let a = old.probe(&arena, 1, b"a", 0).unwrap().unwrap().place();
    let plan = Plan {
        records: 2,
        copied_record_capacity: 5,
        keep: &[true],
        now_tick: 3,
    };
    let mut rebuild = Rebuild::open(&mut arena, &old, &plan).unwrap();
    rebuild.push_reused(1, a).unwrap();
    let lifetime = Some(Duration::from_secs(1));
    rebuild.push_copied(3, b"c", b"", lifetime).unwrap();
    let new = rebuild.finish().unwrap().set;
    let kept: [Parts; 2] = [(b"a", b"AB", Some(10), 0, 7), (b"b", b"", None, 7, 12)];
    let copied: [Parts; 1] = [(b"c", b"", Some(4), 0, 5)];
    assert_eq!(stepped(&new, &arena, 0), kept);
    assert_eq!(stepped(&new, &arena, 1), copied);
}

#[test]
fn a_set_without_records() {
    let mut arena = Arena::new(0);
    let builder = Builder::open(&mut arena, &second(), 0).unwrap();
    let set = builder.finish(1).unwrap();
    assert_eq!(stepped(&set, &arena, 0), []);
}

#[test]
fn another_arena_is_refused() {
    let mut arena = Arena::new(64);
    let set = two_records(&mut arena, 4096);
    let other = Arena::new(64);
    assert_eq!(
        set.segment_records(&other, 0).err(),
        Some(Refusal::InvalidState)
    );
}

#[test]
fn prefixes_count_with_their_real_bytes() {
    let bytes = [0x81, 0, 0x80, 0, 0x6b];
    let record = Setting::without_expiry().record_at(&bytes, 0).unwrap();
    let wanted: Parts = (b"k", b"", None, 0, 5);
    assert_eq!(record.map(|record| parts(&record)), Some(wanted));
    // With expiry a deadline of two bytes would stand before the key.
    assert_eq!(second().record_at(&bytes, 0), Ok(None));
}

#[test]
fn positions_without_a_record() {
    let bytes = [1, 2, b'a', b'A', b'B'];
    for position in [4, 5, 6, usize::MAX] {
        assert_eq!(
            Setting::without_expiry().record_at(&bytes, position),
            Ok(None)
        );
    }
    assert_eq!(Setting::without_expiry().record_at(&[], 0), Ok(None));
}

#[test]
fn bytes_that_are_no_record_are_told() {
    let bytes = [1, 0, b'a', 9, 9, 9];
    let mut records = Setting::without_expiry().segment_records(&bytes);
    assert_eq!(records.next().unwrap().unwrap().end, 3);
    assert_eq!(records.next(), Some(Err(Unreadable { position: 3 })));
    assert_eq!(records.next(), None);
    let all: Result<Vec<_>, _> = Setting::without_expiry().segment_records(&bytes).collect();
    assert_eq!(all.unwrap_err().to_string(), "no record is read at byte 3");
}
