//! The chart room sheet: its lines and pages, of built, rebuilt and loaded sets, and what it is refused for.
use segment_cache::{Arena, Builder, Plan, Rebuild, Refusal, Set, Setting};
use std::time::Duration;

const SECOND: Duration = Duration::from_secs(1);

const FIRST: &str = "       0 61                       4142                        10\n";
const SECOND_LINE: &str = "       1 62                                                never\n";

fn blanks(lines: usize) -> String {
    format!("{:64}\n", "").repeat(lines)
}

fn example(arena: &mut Arena) -> Result<Set, Refusal> {
    let mut builder = Builder::open(arena, &Setting::with_relative_expiry(SECOND), 2)?;
    builder.push(1, b"a", b"AB", Some(Duration::from_millis(9_500)))?;
    builder.push(2, b"b", b"", None)?;
    Ok(builder.finish(4096)?)
}

// So many records that never lapse, all of one hash: their slots are 0, 1 and on.
fn many(arena: &mut Arena, records: u16) -> Result<Set, Refusal> {
    let mut builder = Builder::open(arena, &Setting::without_expiry(), records.into())?;
    for i in 0..records {
        builder.push(0, &i.to_be_bytes(), b"", None)?;
    }
    Ok(builder.finish(4096)?)
}

#[test]
fn the_example_has_one_page_also_with_marks_and_loaded() -> Result<(), Refusal> {
    let page = [FIRST, SECOND_LINE, &blanks(48)].concat();
    let mut arena = Arena::new(64);
    let mut set = example(&mut arena)?;
    assert_eq!(set.sheet(&arena)?, page);
    set.get(&arena, 1, b"a", 9)?;
    set.get(&arena, 2, b"b", 70_000)?;
    assert_eq!((set.sheet_pages(&arena)?, page.len()), (1, 3_250));
    assert_eq!(set.sheet(&arena)?, page);

    let file = set.to_file(&arena)?;
    let mut unit = Arena::new(12);
    let loaded = Set::from_file(&mut unit, &file)?;
    assert_eq!(loaded.sheet(&unit)?, page);
    assert_eq!(set.sheet(&unit), Err(Refusal::InvalidState));
    assert_eq!(set.sheet_pages(&unit), Err(Refusal::InvalidState));
    Ok(())
}

#[test]
fn fifty_records_make_a_page() -> Result<(), Refusal> {
    for (records, pages) in [
        (0, 0),
        (1, 1),
        (49, 1),
        (50, 1),
        (51, 2),
        (100, 2),
        (101, 3),
    ] {
        let mut arena = Arena::new(1_024);
        let set = many(&mut arena, records)?;
        let sheet = set.sheet(&arena)?;
        let line = |i| format!("{i:8} {i:04x}{:20} {:24} never\n", "", "");
        let lines: String = (0..records).map(line).collect();
        let blank = 50 * pages - usize::from(records);
        assert_eq!(sheet, lines + &blanks(blank), "{records} records");
        assert_eq!(set.sheet_pages(&arena)?, pages);
    }
    Ok(())
}

#[test]
fn a_rebuilt_set_shows_its_own_records_with_their_deadlines() -> Result<(), Refusal> {
    let mut arena = Arena::new(64);
    let first = example(&mut arena)?;
    let place = first.probe(&arena, 1, b"a", 0)?.unwrap().place();
    let plan = Plan {
        records: 2,
        copied_record_capacity: 32,
        keep: &[true],
        now_tick: 60_000,
    };
    let mut rebuild = Rebuild::open(&mut arena, &first, &plan)?;
    // It has lapsed by now.
    rebuild.push_reused(1, place)?;
    rebuild.push_copied(3, &[0xff; 12], &[0x0a; 12], Some(SECOND * 5_534))?;
    let second = rebuild.finish()?.set;
    let copied = "       1 ffffffffffffffffffffffff 0a0a0a0a0a0a0a0a0a0a0a0a 65534\n";
    let sheet = [FIRST, copied, &blanks(48)].concat();
    assert_eq!(second.sheet(&arena)?, sheet);
    assert_eq!(first.sheet(&arena)?[65..130], *SECOND_LINE);
    Ok(())
}

#[test]
fn a_key_or_value_of_thirteen_bytes_is_refused() -> Result<(), Refusal> {
    for (key, value) in [(13, 0), (0, 13), (13, 13), (12, 13), (13, 12), (12, 12)] {
        let mut arena = Arena::new(256);
        let mut builder = Builder::open(&mut arena, &Setting::without_expiry(), 3)?;
        builder.push(0, b"a", b"", None)?;
        builder.push(0, b"b", b"", None)?;
        builder.push(0, &[7; 13][..key], &[8; 13][..value], None)?;
        let set = builder.finish(4096)?;
        let refused = (key.max(value) > 12).then_some(Refusal::FieldTooLong);
        assert_eq!(set.sheet_pages(&arena).err(), refused, "{key}, {value}");
        assert_eq!(set.sheet(&arena).err(), refused, "{key}, {value}");
    }
    Ok(())
}
