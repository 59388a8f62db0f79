//! Depths by cell and notes of a harbour, some with a lapse time: built, asked before and after they
//! lapse, stepped through segment by segment, rebuilt after a new survey, written as a file and loaded. Prints
//! the lines of harbour.c.
use segment_cache::{
    AreaWords, Arena, Builder, FileNeeds, Refusal, Remaining, Set, Setting, StoredRecord, hash,
};
use std::time::Duration;

struct Note {
    key: &'static str,
    value: &'static str,
    lifetime: Option<Duration>,
}

const fn note(key: &'static str, value: &'static str, lifetime: Option<Duration>) -> Note {
    Note {
        key,
        value,
        lifetime,
    }
}

const fn minutes(minutes: u64) -> Option<Duration> {
    Some(Duration::from_secs(60 * minutes))
}

const NOTES: [Note; 4] = [
    note("cell 1204", "11.4 m", minutes(90)),
    note("cell 1205", "10.9 m", minutes(30)),
    note("berth 7", "mud, 9.1 m alongside", None),
    note("Aurora", "air draft 28.2 m", minutes(360)),
];

const SEGMENT_TARGET: usize = 32;

fn put(builder: &mut Builder<'_>, note: &Note) -> Result<(), Refusal> {
    let key = note.key.as_bytes();
    builder.push(hash(key), key, note.value.as_bytes(), note.lifetime)?;
    Ok(())
}

fn build(arena: &mut Arena) -> Result<Set, Refusal> {
    let setting = Setting::with_relative_expiry(Duration::from_secs(60))
        .with_negative_filter_bits_per_entry(8);
    let need = AreaWords::of(&setting, NOTES.len())?;
    println!(
        "{} records: index {}, filter {}, scratch {} words",
        NOTES.len(),
        need.index,
        need.filter,
        need.scratch
    );
    let mut builder = Builder::open(arena, &setting, NOTES.len())?;
    for note in &NOTES[..3] {
        put(&mut builder, note)?;
    }
    if let Err(refusal) = put(&mut builder, &NOTES[0]) {
        println!("{} again: {refusal:?}", NOTES[0].key);
    }
    put(&mut builder, &NOTES[3])?;
    let set = builder.finish(SEGMENT_TARGET)?;
    println!(
        "built: {} records, {} segments, {} bytes",
        set.len(),
        set.segments(),
        set.filled_bytes()
    );
    Ok(set)
}

fn ask(set: &mut Set, arena: &Arena, name: &str, key: &str, tick: u64) -> Result<(), Refusal> {
    let answer = set.get(arena, hash(key.as_bytes()), key.as_bytes(), tick)?;
    let known = match answer {
        Some(value) => String::from_utf8_lossy(value),
        None => "not known".into(),
    };
    println!("{name}, minute {tick}: {key} is {known}");
    Ok(())
}

fn take_mark(set: &mut Set, arena: &Arena, key: &str) -> Result<(), Refusal> {
    let asked = set.take_accessed(arena, hash(key.as_bytes()), key.as_bytes())?;
    println!("{key} was {}", if asked { "asked" } else { "not asked" });
    Ok(())
}

fn walk(set: &Set, arena: &Arena, tick: u64) -> Result<(), Refusal> {
    for entry in set.entries(arena, tick)? {
        let left = match entry.remaining {
            Remaining::Never => "never lapses".to_string(),
            Remaining::Finite(time) => format!("has {} s left", time.as_secs()),
            Remaining::Nothing => "has lapsed".to_string(),
        };
        let key = String::from_utf8_lossy(entry.key);
        println!("slot {}: {key} {left}", entry.slot);
    }
    Ok(())
}

fn print_stored(segment: usize, record: &StoredRecord<'_>) {
    let lapses = match record.deadline {
        None => "never lapses".to_string(),
        Some(minute) => format!("lapses at minute {minute}"),
    };
    let (location, end) = (record.location, record.end);
    let key = String::from_utf8_lossy(record.key);
    println!("segment {segment}, bytes {location} to {end}: {key} {lapses}");
}

// Each segment from its front on, without the index: a record begins where the one before it ends.
fn step_segments(set: &Set, arena: &Arena) -> Result<(), Refusal> {
    for segment in 0..set.segments() {
        for record in set.segment_records(arena, segment)?.into_iter().flatten() {
            print_stored(
                segment,
                &record.expect("a set's segment holds records only"),
            );
        }
    }
    Ok(())
}

fn count(set: &Set) -> Result<(), Refusal> {
    let stats = set.stats()?;
    let load = stats.index_load_bps();
    println!(
        "{} bytes held, {}.{:02} % of the slots taken",
        stats.modeled_retained_bytes(),
        load / 100,
        load % 100
    );
    Ok(())
}

// After a new survey of one cell the segment of the depths is dropped: the new depth is copied behind the
// filled part of the arena, and the other depth with what is left of its time. The other records stay where
// they are, with their deadlines.
//
// The tick goes on from the first set's, which the deadlines count in. The new depth's half an hour counts
// from the plan's tick. What is left of the other depth was told at the walk's tick, and copy works out what
// is left at the plan's: given to push_copied as it is, with a walk five minutes before the plan, it would
// show that depth for five minutes too long.
fn rebuild(arena: &mut Arena, source: &Set, tick: u64) -> Result<Set, Refusal> {
    use segment_cache::{Entry, OwnedEntry, Place, Plan, Rebuild};
    let survey = note("cell 1205", "10.7 m", minutes(30));
    let key = survey.key.as_bytes();
    let stays = |entry: &Entry<'_>| entry.place().segment() == 1;
    let kept: Vec<(u64, Place)> = source
        .entries(arena, tick)?
        .filter(stays)
        .map(|entry| (hash(entry.key), entry.place()))
        .collect();
    let copied: Vec<OwnedEntry> = source
        .entries(arena, tick)?
        .filter(|entry| !stays(entry) && entry.key != key && entry.remaining != Remaining::Nothing)
        .map(|entry| entry.copy_out())
        .collect();
    let plan = Plan {
        records: kept.len() + copied.len() + 1,
        copied_record_capacity: 38,
        keep: &[false, true],
        now_tick: tick,
    };
    let mut rebuild = Rebuild::open(arena, source, &plan)?;
    for (hash, place) in kept {
        rebuild.push_reused(hash, place)?;
    }
    for record in &copied {
        rebuild.copy(hash(&record.key), record)?;
    }
    rebuild.push_copied(hash(key), key, survey.value.as_bytes(), survey.lifetime)?;
    let rebuilt = rebuild.finish()?;
    println!(
        "rebuilt: {} records, {} segments; {} records reused, {} bytes copied",
        rebuilt.set.len(),
        rebuilt.set.segments(),
        rebuilt.reused_entries,
        rebuilt.copied_record_bytes
    );
    Ok(rebuilt.set)
}

fn rebuild_and_ask(arena: &mut Arena, first: &mut Set) -> Result<(), Refusal> {
    let mut second = rebuild(arena, first, 30)?;
    ask(&mut second, arena, "second", "cell 1205", 59)?;
    ask(&mut second, arena, "second", "cell 1205", 60)?;
    ask(&mut second, arena, "second", "cell 1204", 89)?;
    ask(&mut second, arena, "second", "cell 1204", 90)?;
    ask(&mut second, arena, "second", "Aurora", 359)?;
    ask(&mut second, arena, "second", "Aurora", 360)?;
    ask(first, arena, "first", "cell 1204", 31)?;
    walk(&second, arena, 31)?;
    step_segments(&second, arena)?;
    travel(arena, &second)
}

// Loads a file into the arena, where that ends every other set.
fn load_file(arena: &mut Arena, file: &[u8]) -> Result<Set, Refusal> {
    if let Err(refusal) = FileNeeds::of(&file[..file.len() - 1]) {
        println!("without its last byte: {refusal:?}");
    }
    let needs = FileNeeds::of(file)?;
    println!(
        "its needs: index {}, filter {} words, arena {} bytes",
        needs.index, needs.filter, needs.arena
    );
    let set = Set::from_file(arena, file)?;
    println!(
        "loaded: {} records, {} segments, {} bytes",
        set.len(),
        set.segments(),
        set.filled_bytes()
    );
    Ok(set)
}

// Marks don't travel: what was asked before the file was written is not asked in the loaded set.
fn travel(arena: &mut Arena, set: &Set) -> Result<(), Refusal> {
    let file = set.to_file(arena)?;
    println!("written: a file of {} bytes", file.len());
    let mut loaded = load_file(arena, &file)?;
    take_mark(&mut loaded, arena, "Aurora")?;
    ask(&mut loaded, arena, "loaded", "cell 1205", 59)?;
    ask(&mut loaded, arena, "loaded", "cell 1205", 60)?;
    ask(&mut loaded, arena, "loaded", "Aurora", 359)?;
    take_mark(&mut loaded, arena, "Aurora")?;
    walk(&loaded, arena, 31)?;
    step_segments(&loaded, arena)
}

fn main() -> Result<(), Refusal> {
    let mut arena = Arena::new(1024);
    let mut first = build(&mut arena)?;
    ask(&mut first, &arena, "first", "cell 1205", 0)?;
    ask(&mut first, &arena, "first", "cell 1205", 29)?;
    ask(&mut first, &arena, "first", "cell 1205", 30)?;
    ask(&mut first, &arena, "first", "berth 7", 70_000)?;
    ask(&mut first, &arena, "first", "cell 1206", 0)?;
    take_mark(&mut first, &arena, "cell 1205")?;
    take_mark(&mut first, &arena, "Aurora")?;
    walk(&first, &arena, 30)?;
    step_segments(&first, &arena)?;
    count(&first)?;
    rebuild_and_ask(&mut arena, &mut first)?;
    Ok(())
}
