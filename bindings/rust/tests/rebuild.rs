//! Rebuilds: what is taken over and copied, which sets stay askable, and what is refused.
use segment_cache::{Arena, Builder, Plan, Rebuild, Refusal, Remaining, Set, Setting};
use std::time::Duration;

const TICK: Duration = Duration::from_secs(1);

fn seconds(seconds: u64) -> Option<Duration> {
    Some(Duration::from_secs(seconds))
}

// Three segments of one record each.
fn source(arena: &mut Arena) -> Result<Set, Refusal> {
    let mut builder = Builder::open(arena, &Setting::with_relative_expiry(TICK), 3)?;
    builder.push(1, b"a", b"first", seconds(50))?;
    builder.push(2, b"b", b"second", seconds(60))?;
    builder.push(3, b"c", b"", None)?;
    let set = builder.finish(10)?;
    assert_eq!(set.segments(), 3);
    Ok(set)
}

fn plan(records: usize, keep: &[bool]) -> Plan<'_> {
    Plan {
        records,
        copied_record_capacity: 64,
        keep,
        now_tick: 40,
    }
}

#[test]
fn keeps_copies_and_leaves_older_sets_alone() -> Result<(), Refusal> {
    let mut arena = Arena::new(256);
    let mut old = source(&mut arena)?;
    let place = |set: &Set, arena: &Arena, hash, key: &[u8]| {
        set.probe(arena, hash, key, 0)
            .map(|entry| entry.unwrap().place())
    };
    let second = place(&old, &arena, 2, b"b")?;
    let third = place(&old, &arena, 3, b"c")?;

    let mut rebuild = Rebuild::open(&mut arena, &old, &plan(3, &[false, true, true]))?;
    rebuild.push_reused(2, second)?;
    rebuild.push_copied(1, b"a", b"again", seconds(5))?;
    assert_eq!(old.get(rebuild.arena(), 1, b"a", 49)?, Some(&b"first"[..]));
    rebuild.push_reused(3, third)?;
    let rebuilt = rebuild.finish()?;
    let mut new = rebuilt.set;

    assert_eq!(
        (rebuilt.reused_entries, rebuilt.reused_record_bytes),
        (2, 16)
    );
    assert_eq!(rebuilt.copied_record_bytes, 10);
    assert_eq!(rebuilt.newly_allocated_bytes, 64 + 10);
    assert_eq!((new.len(), new.segments(), new.filled_bytes()), (3, 3, 36));
    assert_eq!(new.get(&arena, 1, b"a", 44)?, Some(&b"again"[..]));
    assert_eq!(new.get(&arena, 1, b"a", 45)?, None);
    assert_eq!(new.get(&arena, 2, b"b", 59)?, Some(&b"second"[..]));
    assert_eq!(new.get(&arena, 2, b"b", 60)?, None);
    assert_eq!(old.get(&arena, 1, b"a", 49)?, Some(&b"first"[..]));
    assert_eq!(new.entries(&arena, 40)?.count(), 3);
    Ok(())
}

// A copy has the record's own deadline, whether it was asked for before the plan's tick, at it or after it;
// one that has lapsed by then stays lapsed.
#[test]
fn copies_keep_their_deadlines() -> Result<(), Refusal> {
    for asked_at in [0, 39, 40, 41, 49] {
        let mut arena = Arena::new(256);
        let old = source(&mut arena)?;
        let records: Vec<_> = old
            .entries(&arena, asked_at)?
            .map(|entry| entry.copy_out())
            .collect();
        let drop_all = [false; 3];
        let mut rebuild = Rebuild::open(&mut arena, &old, &plan(3, &drop_all))?;
        for (hash, record) in (1..).zip(&records) {
            rebuild.copy(hash, record)?;
        }
        let new = rebuild.finish()?.set;
        for tick in [40, 49, 50, 59, 60, 70_000] {
            for (hash, key) in [(1, b"a"), (2, b"b"), (3, b"c")] {
                assert_eq!(
                    new.peek(&arena, hash, key, tick)?,
                    old.peek(&arena, hash, key, tick)?,
                    "asked at {asked_at}, tick {tick}"
                );
            }
        }
    }
    Ok(())
}

// The library has no clock: a lifetime counts from the plan's tick, whenever it was told.
#[test]
fn what_was_left_at_an_earlier_tick_is_too_long() -> Result<(), Refusal> {
    let mut arena = Arena::new(256);
    let old = source(&mut arena)?;
    let Remaining::Finite(left) = old.probe(&arena, 1, b"a", 35)?.unwrap().remaining else {
        panic!("it lapses at 50");
    };
    let mut rebuild = Rebuild::open(&mut arena, &old, &plan(1, &[false; 3]))?;
    rebuild.push_copied(1, b"a", b"first", Some(left))?;
    let new = rebuild.finish()?.set;
    assert_eq!(old.peek(&arena, 1, b"a", 50)?, None);
    assert_eq!(new.peek(&arena, 1, b"a", 54)?, Some(&b"first"[..]));
    assert_eq!(new.peek(&arena, 1, b"a", 55)?, None);
    Ok(())
}

#[test]
fn copies_of_lapsed_records_are_lapsed() -> Result<(), Refusal> {
    for (asked_at, now_tick) in [(50, 50), (49, 50), (10, 55), (50, 40)] {
        let mut arena = Arena::new(256);
        let old = source(&mut arena)?;
        let first = old.probe(&arena, 1, b"a", asked_at)?.unwrap().copy_out();
        let plan = Plan {
            now_tick,
            ..plan(1, &[false; 3])
        };
        let mut rebuild = Rebuild::open(&mut arena, &old, &plan)?;
        rebuild.copy(1, &first)?;
        let new = rebuild.finish()?.set;
        assert_eq!(new.peek(&arena, 1, b"a", now_tick.max(asked_at))?, None);
    }
    Ok(())
}

#[test]
fn only_the_newest_set_can_be_rebuilt() -> Result<(), Refusal> {
    let mut arena = Arena::new(256);
    let old = source(&mut arena)?;
    let foreign = source(&mut Arena::new(256))?;
    let none = plan(0, &[false; 3]);
    assert_eq!(
        Rebuild::open(&mut arena, &foreign, &none).err(),
        Some(Refusal::InvalidState)
    );
    // Dropped unfinished, a rebuild leaves its source the newest.
    drop(Rebuild::open(&mut arena, &old, &none)?);
    let new = Rebuild::open(&mut arena, &old, &none)?.finish()?.set;
    assert_eq!((new.len(), new.segments()), (0, 1));
    assert_eq!(
        Rebuild::open(&mut arena, &old, &none).err(),
        Some(Refusal::InvalidState)
    );
    Rebuild::open(&mut arena, &new, &plan(0, &[true]))?.finish()?;
    Ok(())
}

#[test]
fn places_count_for_their_own_set() -> Result<(), Refusal> {
    let mut arena = Arena::new(256);
    let old = source(&mut arena)?;
    let place = old.probe(&arena, 3, b"c", 0)?.unwrap().place();
    let keep_last = [false, false, true];
    let mut rebuild = Rebuild::open(&mut arena, &old, &plan(1, &keep_last))?;
    rebuild.push_reused(3, place)?;
    let new = rebuild.finish()?.set;
    let mut next = Rebuild::open(&mut arena, &new, &plan(1, &[true]))?;
    assert_eq!(next.push_reused(3, place), Err(Refusal::InvalidState));
    Ok(())
}

#[test]
fn refusals_leave_the_rebuild_open() -> Result<(), Refusal> {
    let mut arena = Arena::new(30);
    let old = source(&mut arena)?;
    let first = old.probe(&arena, 1, b"a", 0)?.unwrap().place();
    assert_eq!(
        Rebuild::open(&mut arena, &old, &plan(1, &[true])).err(),
        Some(Refusal::CapacityOverflow)
    );
    let keep = [false, true, true];
    let mut rebuild = Rebuild::open(&mut arena, &old, &plan(1, &keep))?;
    assert_eq!(
        rebuild.push_reused(1, first),
        Err(Refusal::CapacityOverflow)
    );
    assert_eq!(
        rebuild.push_copied(4, b"d", b"", seconds(65_495)),
        Err(Refusal::ExpiryOutOfRange)
    );
    assert_eq!(
        rebuild.push_copied(4, b"d", b"", None),
        Err(Refusal::AreaTooShort)
    );
    let unfinished = rebuild.finish().unwrap_err();
    assert_eq!(unfinished.refusal, Refusal::CapacityOverflow);
    Ok(())
}
