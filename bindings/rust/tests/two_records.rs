//! Document 01's example of the program passage, with the same slots, locations and arena bytes.
use segment_cache::{Arena, Builder, Placed, Refusal, Setting};
use std::time::Duration;

#[test]
fn answers_as_the_program_passage() -> Result<(), Refusal> {
    let mut arena = Arena::new(32_768);
    let setting = Setting::with_relative_expiry(Duration::from_secs(1));
    let mut builder = Builder::open(&mut arena, &setting, 2)?;
    let lifetime = Some(Duration::from_millis(9_500));
    let first = builder.push(1, b"a", b"AB", lifetime)?;
    let second = builder.push(2, b"b", b"", None)?;
    let mut set = builder.finish(4096)?;

    let placed = |slot, location| Placed { slot, location };
    assert_eq!((first, second), (placed(0, 0), placed(1, 7)));
    assert_eq!((set.segments(), set.filled_bytes()), (1, 12));
    assert_eq!(set.get(&arena, 1, b"a", 9)?, Some(&b"AB"[..]));
    assert_eq!(set.get(&arena, 1, b"a", 10)?, None);
    assert_eq!(set.get(&arena, 2, b"b", 70_000)?, Some(&b""[..]));
    let records = [1, 2, 10, 0, 0x61, 0x41, 0x42, 1, 0, 0xff, 0xff, 0x62];
    assert_eq!(arena.bytes()[..12], records);
    assert!(arena.bytes()[12..].iter().all(|byte| *byte == 0));
    Ok(())
}

#[test]
fn marks_are_set_by_get_alone() -> Result<(), Refusal> {
    let mut arena = Arena::new(64);
    let mut builder = Builder::open(&mut arena, &Setting::without_expiry(), 1)?;
    builder.push(1, b"a", b"AB", None)?;
    let mut set = builder.finish(4096)?;

    assert_eq!(set.peek(&arena, 1, b"a", 0)?, Some(&b"AB"[..]));
    assert!(set.probe(&arena, 1, b"a", 0)?.is_some());
    assert!(!set.take_accessed(&arena, 1, b"a")?);
    set.get(&arena, 1, b"a", 0)?;
    assert!(set.take_accessed(&arena, 1, b"a")?);
    assert!(!set.take_accessed(&arena, 1, b"a")?);
    assert!(!set.take_accessed(&arena, 1, b"b")?);
    Ok(())
}

#[test]
fn an_empty_set_is_a_set() -> Result<(), Refusal> {
    let mut arena = Arena::new(0);
    let mut set = Builder::open(&mut arena, &Setting::without_expiry(), 0)?.finish(1)?;
    assert!(set.is_empty());
    assert_eq!(set.get(&arena, 0, b"", 0)?, None);
    assert_eq!(set.entries(&arena, 0)?.count(), 0);
    Ok(())
}
