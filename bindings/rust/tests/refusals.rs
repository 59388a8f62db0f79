//! Every refusal that the safe layer lets through, and what stands after it.
use segment_cache::{AreaWords, Arena, Builder, Refusal, Setting};
use std::time::Duration;

const SECOND: Duration = Duration::from_secs(1);

fn open_refusal(setting: Setting, records: usize) -> Option<Refusal> {
    let areas = AreaWords::of(&setting, records).err();
    let open = Builder::open(&mut Arena::new(64), &setting, records).err();
    assert_eq!(areas, open);
    open
}

#[test]
fn names_have_their_numbers() {
    let names = "InvalidBucketOccupancy ZeroExpiryTick CapacityOverflow DuplicateKey ExpiryDisabled \
        ExpiryOutOfRange ArenaTooLarge InvalidSegmentTarget InvalidNanoseconds AreaTooShort \
        InvalidState RecordMismatch FileFraming FileKinds FileContent";
    for (name, number) in names.split(' ').zip(1..) {
        let refusal = Refusal::from_number(number).unwrap();
        assert_eq!(refusal.number(), number);
        assert_eq!(refusal.to_string(), format!("{name} (refusal {number})"));
    }
    assert_eq!(Refusal::from_number(16), None);
}

#[test]
fn a_sheet_has_one_more() {
    assert_eq!(Refusal::FieldTooLong.number(), 16);
    assert_eq!(Refusal::FieldTooLong.to_string(), "FieldTooLong (refusal 16)");
}

#[test]
fn open_asks_setting_and_records() {
    let plain = Setting::without_expiry();
    for occupancy in [0, 8, 255] {
        let setting = plain.with_target_bucket_occupancy(occupancy);
        assert_eq!(
            open_refusal(setting, 1),
            Some(Refusal::InvalidBucketOccupancy)
        );
    }
    let still = Setting::with_relative_expiry(Duration::ZERO);
    assert_eq!(open_refusal(still, 1), Some(Refusal::ZeroExpiryTick));
    assert_eq!(
        open_refusal(plain, 1_048_577),
        Some(Refusal::CapacityOverflow)
    );
    assert_eq!(open_refusal(plain, 1_048_576), None);
}

#[test]
fn a_refused_push_leaves_the_builder_open() -> Result<(), Refusal> {
    let mut arena = Arena::new(16);
    let mut builder = Builder::open(&mut arena, &Setting::with_relative_expiry(SECOND), 2)?;
    builder.push(1, b"a", b"AB", None)?;
    assert_eq!(builder.push(1, b"a", b"", None), Err(Refusal::DuplicateKey));
    let late = Some(Duration::new(65_534, 1));
    assert_eq!(
        builder.push(2, b"b", b"", late),
        Err(Refusal::ExpiryOutOfRange)
    );
    assert_eq!(
        builder.push(2, b"b", b"12345", None),
        Err(Refusal::AreaTooShort)
    );
    builder.push(2, b"b", b"1234", Some(Duration::from_secs(65_534)))?;
    assert_eq!(
        builder.push(3, b"c", b"", None),
        Err(Refusal::CapacityOverflow)
    );
    let mut set = builder.finish(4096)?;
    assert_eq!(set.get(&arena, 2, b"b", 65_533)?, Some(&b"1234"[..]));
    assert_eq!(set.get(&arena, 2, b"b", 65_534)?, None);
    Ok(())
}

#[test]
fn a_lifetime_wants_an_expiry() -> Result<(), Refusal> {
    let mut arena = Arena::new(64);
    let mut builder = Builder::open(&mut arena, &Setting::without_expiry(), 1)?;
    assert_eq!(
        builder.push(1, b"a", b"", Some(SECOND)),
        Err(Refusal::ExpiryDisabled)
    );
    Ok(())
}

#[test]
fn a_refused_finish_hands_the_builder_back() -> Result<(), Refusal> {
    let mut arena = Arena::new(2_048);
    let mut builder = Builder::open(&mut arena, &Setting::without_expiry(), 257)?;
    for i in 0..256_u64 {
        builder.push(i << 56, &i.to_le_bytes()[..2], b"", None)?;
    }
    let short = builder.finish(4096).unwrap_err();
    assert_eq!(short.refusal, Refusal::CapacityOverflow);
    let mut builder = short.builder;
    builder.push(1, b"256", b"", None)?;
    let none = builder.finish(0).unwrap_err();
    assert_eq!(none.refusal, Refusal::InvalidSegmentTarget);
    let many = none.builder.finish(1).unwrap_err();
    assert_eq!(many.refusal, Refusal::ArenaTooLarge);
    let set = many.builder.finish(8)?;
    assert_eq!((set.len(), set.segments()), (257, 129));
    Ok(())
}

#[test]
fn another_arena_is_refused() -> Result<(), Refusal> {
    let build = |arena: &mut Arena| -> Result<_, Refusal> {
        let mut builder = Builder::open(arena, &Setting::without_expiry(), 1)?;
        builder.push(1, b"a", b"AB", None)?;
        Ok(builder.finish(4096)?)
    };
    let (mut mine, mut other) = (Arena::new(64), Arena::new(64));
    let mut set = build(&mut mine)?;
    build(&mut other)?;
    assert_eq!(set.get(&other, 1, b"a", 0), Err(Refusal::InvalidState));
    assert_eq!(set.peek(&other, 1, b"a", 0), Err(Refusal::InvalidState));
    assert_eq!(set.probe(&other, 1, b"a", 0), Err(Refusal::InvalidState));
    assert_eq!(
        set.take_accessed(&other, 1, b"a"),
        Err(Refusal::InvalidState)
    );
    assert_eq!(set.entries(&other, 0).err(), Some(Refusal::InvalidState));

    std::mem::swap(&mut mine, &mut other);
    assert_eq!(set.get(&other, 1, b"a", 0)?, Some(&b"AB"[..]));
    Ok(())
}

#[test]
fn another_builder_ends_the_sets_of_its_arena() -> Result<(), Refusal> {
    let mut arena = Arena::new(64);
    let plain = Setting::without_expiry();
    let mut old = Builder::open(&mut arena, &plain, 0)?.finish(4096)?;
    let refused = Builder::open(&mut arena, &plain.with_target_bucket_occupancy(0), 1);
    assert!(refused.is_err());
    assert_eq!(old.get(&arena, 1, b"a", 0)?, None);
    drop(Builder::open(&mut arena, &plain, 1)?);
    assert_eq!(old.get(&arena, 1, b"a", 0), Err(Refusal::InvalidState));
    Ok(())
}
