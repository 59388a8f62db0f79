//! Sets as files: written, loaded, refused; what ends and what stays askable.
use segment_cache::{Arena, Builder, FileNeeds, Plan, Rebuild, Refusal, Set, Setting};
use std::time::Duration;

// Document 01's example as a file, 158 bytes: the blocks of kind 1 to 5, kind 3 up to its last byte that is
// not 0.
const COUNTS: [u8; 50] = [
    44, 0, 0, 0, 1, 0, 1, 1, 0, 0, 0, 0, 0, 0, 0, 0, 0, 0, 0, 7, 1, 0, 2, 0, 0, 0, 2, 0, 0, 0, 0,
    0, 0, 0, 2, 0, 0, 0, 0, 0, 0, 0, 8, 0, 0, 0, 0, 0, 0, 0,
];
const LENGTHS: [u8; 14] = [8, 0, 0, 0, 2, 0, 12, 0, 0, 0, 0, 0, 0, 0];
const INDEX: [u8; 24] = [
    64, 0, 0, 0, 3, 0, 1, 1, 0, 0, 0, 0, 0, 0, 0, 0, 1, 0, 0, 0, 0, 0, 0, 8,
];
const REST: [u8; 24] = [
    0, 0, 0, 0, 4, 0, 12, 0, 0, 0, 5, 0, 1, 2, 10, 0, 0x61, 0x41, 0x42, 1, 0, 0xff, 0xff, 0x62,
];

fn example_file() -> Vec<u8> {
    [&COUNTS[..], &LENGTHS, &INDEX, &[0; 46], &REST].concat()
}

fn example(arena: &mut Arena) -> Result<Set, Refusal> {
    let setting = Setting::with_relative_expiry(Duration::from_secs(1));
    let mut builder = Builder::open(arena, &setting, 2)?;
    builder.push(1, b"a", b"AB", Some(Duration::from_millis(9_500)))?;
    builder.push(2, b"b", b"", None)?;
    Ok(builder.finish(4096)?)
}

fn refusal_of(file: &[u8]) -> Option<Refusal> {
    let needs = FileNeeds::of(file).err();
    let load = Set::from_file(&mut Arena::new(64), file).err();
    assert_eq!(needs, load);
    load
}

#[test]
fn the_example_has_document_01s_bytes_and_answers() -> Result<(), Refusal> {
    let mut arena = Arena::new(32_768);
    let mut set = example(&mut arena)?;
    set.get(&arena, 1, b"a", 9)?;
    set.get(&arena, 2, b"b", 70_000)?;
    let file = set.to_file(&arena)?;
    assert_eq!(file, example_file());
    assert!(set.take_accessed(&arena, 1, b"a")?);

    let needs = FileNeeds::of(&file)?;
    assert_eq!((needs.index, needs.filter, needs.arena), (8, 0, 12));
    assert_eq!((needs.starts, needs.lengths), (256, 256));
    let mut unit = Arena::new(needs.arena);
    let mut loaded = Set::from_file(&mut unit, &file)?;
    assert_eq!(loaded.stats()?, set.stats()?);
    assert_eq!((loaded.segments(), loaded.filled_bytes()), (1, 12));
    assert!(!loaded.take_accessed(&unit, 2, b"b")?);
    assert_eq!(loaded.get(&unit, 1, b"a", 9)?, Some(&b"AB"[..]));
    assert_eq!(loaded.get(&unit, 1, b"a", 10)?, None);
    assert_eq!(loaded.get(&unit, 2, b"b", 70_000)?, Some(&b""[..]));
    assert_eq!(loaded.entries(&unit, 0)?.count(), 2);
    assert_eq!(loaded.to_file(&unit)?, file);
    Ok(())
}

#[test]
fn a_loaded_set_is_rebuilt_and_written_again() -> Result<(), Refusal> {
    let file = example_file();
    let mut arena = Arena::new(64);
    let loaded = Set::from_file(&mut arena, &file)?;
    let place = loaded.probe(&arena, 2, b"b", 0)?.unwrap().place();
    let plan = Plan {
        records: 2,
        copied_record_capacity: 16,
        keep: &[true],
        now_tick: 5,
    };
    let mut rebuild = Rebuild::open(&mut arena, &loaded, &plan)?;
    rebuild.push_reused(2, place)?;
    rebuild.push_copied(3, b"c", b"CD", Some(Duration::from_secs(5)))?;
    let second = rebuild.finish()?.set;
    assert_eq!(second.peek(&arena, 3, b"c", 9)?, Some(&b"CD"[..]));
    assert_eq!(loaded.peek(&arena, 1, b"a", 9)?, Some(&b"AB"[..]));

    let file = second.to_file(&arena)?;
    let mut unit = Arena::new(FileNeeds::of(&file)?.arena);
    let third = Set::from_file(&mut unit, &file)?;
    assert_eq!((third.segments(), third.filled_bytes()), (2, 19));
    assert_eq!(third.peek(&unit, 3, b"c", 9)?, Some(&b"CD"[..]));
    assert_eq!(third.peek(&unit, 3, b"c", 10)?, None);
    assert_eq!(third.peek(&unit, 2, b"b", 10)?, Some(&b""[..]));
    assert_eq!(third.peek(&unit, 1, b"a", 0)?, None);
    Ok(())
}

#[test]
fn a_load_ends_the_sets_of_its_arena_and_a_refused_one_does_not() -> Result<(), Refusal> {
    let mut arena = Arena::new(32);
    let set = example(&mut arena)?;
    let file = set.to_file(&arena)?;
    let short = Set::from_file(&mut arena, &file[..157]).err();
    assert_eq!(short, Some(Refusal::FileFraming));
    assert_eq!(set.peek(&arena, 1, b"a", 0)?, Some(&b"AB"[..]));
    let loaded = Set::from_file(&mut arena, &file)?;
    assert_eq!(set.peek(&arena, 1, b"a", 0), Err(Refusal::InvalidState));
    assert_eq!(set.to_file(&arena), Err(Refusal::InvalidState));
    assert_eq!(loaded.peek(&arena, 1, b"a", 0)?, Some(&b"AB"[..]));
    let mut small = Arena::new(11);
    let short = Set::from_file(&mut small, &file).err();
    assert_eq!(short, Some(Refusal::AreaTooShort));
    assert!(small.bytes().iter().all(|byte| *byte == 0));
    Ok(())
}

#[test]
fn wrong_files_are_refused_by_framing_kinds_and_content() {
    let file = example_file();
    assert_eq!(refusal_of(&file), None);
    assert_eq!(refusal_of(&file[..157]), Some(Refusal::FileFraming));
    assert_eq!(
        refusal_of(&[&file[..], &[0]].concat()),
        Some(Refusal::FileFraming)
    );
    assert_eq!(refusal_of(&[]), Some(Refusal::FileKinds));
    assert_eq!(refusal_of(&file[..50]), Some(Refusal::FileKinds));
    let damaged = |at: usize, byte: u8| {
        let mut file = file.clone();
        file[at] = byte;
        refusal_of(&file)
    };
    assert_eq!(damaged(54, 7), Some(Refusal::FileKinds));
    assert_eq!(damaged(6, 2), Some(Refusal::FileContent));
    assert_eq!(damaged(56, 13), Some(Refusal::FileContent));
    assert_eq!(damaged(70, 0x81), None);
}
