//! A thousand records in each layout, in many segments: every one is found, no other, and the walk
//! tells each once.
use segment_cache::{Arena, Builder, Refusal, Remaining, Setting};
use std::collections::BTreeSet;
use std::time::Duration;

const RECORDS: u64 = 1_000;

fn hash_of(number: u64) -> u64 {
    number.wrapping_mul(0x9e37_79b9_7f4a_7c15)
}

fn lifetime_of(number: u64) -> Option<Duration> {
    (number % 3 != 0).then(|| Duration::from_secs(60 * number))
}

fn check(setting: Setting) -> Result<(), Refusal> {
    let mut arena = Arena::new(32_768);
    let mut builder = Builder::open(&mut arena, &setting, RECORDS as usize)?;
    for number in 0..RECORDS {
        let (key, value) = (number.to_be_bytes(), number.to_string());
        builder.push(hash_of(number), &key, value.as_bytes(), lifetime_of(number))?;
    }
    let mut set = builder.finish(128)?;
    assert!(set.segments() > 100);

    let tick = 500;
    for number in 0..2 * RECORDS {
        let key = number.to_be_bytes();
        let lives = number < RECORDS && (number % 3 == 0 || number > tick);
        let value = number.to_string();
        let found = set.get(&arena, hash_of(number), &key, tick)?;
        assert_eq!(found, lives.then_some(value.as_bytes()), "{number}");
        assert_eq!(set.take_accessed(&arena, hash_of(number), &key)?, lives);
    }

    let mut seen = BTreeSet::new();
    for entry in set.entries(&arena, tick)? {
        let number = u64::from_be_bytes(entry.key.try_into().unwrap());
        assert_eq!(entry.value, number.to_string().as_bytes());
        let left = match lifetime_of(number) {
            None => Remaining::Never,
            Some(_) if number <= tick => Remaining::Nothing,
            Some(_) => Remaining::Finite(Duration::from_secs(60 * (number - tick))),
        };
        assert_eq!(entry.remaining, left);
        let probed = set.probe(&arena, hash_of(number), entry.key, tick)?;
        assert_eq!(probed, Some(entry));
        assert!(entry.place().segment() < set.segments());
        assert!(seen.insert(number));
    }
    assert_eq!(seen.len(), RECORDS as usize);
    Ok(())
}

#[test]
fn packed() -> Result<(), Refusal> {
    let setting = Setting::with_relative_expiry(Duration::from_secs(60));
    check(setting)?;
    check(setting.with_negative_filter_bits_per_entry(8))
}

#[test]
fn words() -> Result<(), Refusal> {
    let setting = Setting::with_relative_expiry(Duration::from_secs(60)).with_atomic_word_index();
    check(setting)?;
    check(
        setting
            .with_target_bucket_occupancy(3)
            .with_negative_filter_bits_per_entry(1),
    )
}
