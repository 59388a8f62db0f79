// Nanoseconds in two words, deadlines and the time that is left. A duration whose nanoseconds hold a
// whole second or more is none of the Rust's: there, and everywhere beside the Rust, the rule in 128
// bits decides.
use crate::port::parts::{self as port, Left, Span};
use crate::report::Group;
use crate::rng::{Rng, edges};
use oracle_large::access;
use std::time::Duration;

const SECOND: u128 = 1_000_000_000;
const NEVER: u16 = 65_535;

// The largest number of ticks that a deadline can be.
const LAST: u128 = 65_534;

const SECS: [u64; 7] = [0, 1, 60, (1 << 32) - 1, 1 << 32, 1 << 63, u64::MAX];

const NANOS: [u32; 5] = [0, 1, 999_999_999, 1_000_000_000, u32::MAX];

// The first number of nanoseconds that takes two words, and its neighbours.
const TWO_WORDS: [Span; 3] = [
    (18_446_744_073, 709_551_615),
    (18_446_744_073, 709_551_616),
    (18_446_744_073, 709_551_617),
];

fn products() -> Vec<Span> {
    SECS.iter()
        .flat_map(|&secs| NANOS.iter().map(move |&nanos| (secs, nanos)))
        .chain(TWO_WORDS)
        .collect()
}

// With a few whose multiples come close to the longest duration.
fn ticks() -> Vec<Span> {
    let mut all = products();
    all.extend([(0, 2), (3, 700_000_000), (u64::MAX / 65_534, 500_000_000)]);
    all.extend([(u64::MAX / 3, 400_000_000), (u64::MAX / 2, 500_000_000)]);
    all
}

fn nanos((secs, nanos): Span) -> u128 {
    u128::from(secs) * SECOND + u128::from(nanos)
}

// The duration of so many nanoseconds, as far as its seconds fit.
fn span(nanos: u128) -> Option<Span> {
    let secs = u64::try_from(nanos / SECOND).ok()?;
    Some((secs, (nanos % SECOND) as u32))
}

// The same length with as much as possible in the nanoseconds.
fn top_heavy((secs, nanos): Span) -> Span {
    let moved = secs.min(u64::from((u32::MAX - nanos) / 1_000_000_000));
    (secs - moved, nanos + moved as u32 * 1_000_000_000)
}

// The Rust's duration, where it has one.
fn duration((secs, nanos): Span) -> Option<Duration> {
    (nanos < 1_000_000_000).then(|| Duration::new(secs, nanos))
}

fn deadline_rule(tick: Option<Span>, lifetime: Option<Span>, now: u64) -> Result<u64, u64> {
    let Some(lifetime) = lifetime else {
        return Ok(u64::from(NEVER));
    };
    let tick = nanos(tick.ok_or(5_u64)?);
    if tick == 0 {
        return Err(2);
    }
    let deadline = u128::from(now) + nanos(lifetime).div_ceil(tick);
    if deadline <= LAST {
        Ok(deadline as u64)
    } else {
        Err(6)
    }
}

fn left_rule(tick: Option<Span>, expires_at: u16, now: u64) -> Left {
    if expires_at == NEVER {
        return Left::Never;
    }
    if u64::from(expires_at) <= now {
        return Left::Nothing;
    }
    let Some(tick) = tick else {
        return Left::Never;
    };
    let product = u128::from(u64::from(expires_at) - now) * nanos(tick);
    match span(product) {
        Some((secs, nanos)) => Left::Finite(secs, u64::from(nanos)),
        None => Left::Nothing,
    }
}

// Lifetimes at which the deadline for this tick may change.
fn lifetimes(tick: Span) -> Vec<Span> {
    let mut all = products();
    for times in [1, 2, 3, 65_532, 65_533, 65_534, 65_535, 65_536] {
        let exact = nanos(tick) * times;
        for length in [exact.saturating_sub(1), exact, exact + 1] {
            let Some(lifetime) = span(length) else {
                continue;
            };
            all.extend([lifetime, top_heavy(lifetime)]);
        }
    }
    all
}

pub fn nanoseconds(group: &mut Group, random: u64) {
    // Worked out by hand.
    for (length, wanted) in [
        ((0, 0), [0, 0]),
        ((1, 0), [0, 1_000_000_000]),
        (TWO_WORDS[0], [0, u64::MAX]),
        (TWO_WORDS[1], [1, 0]),
        (TWO_WORDS[2], [1, 1]),
        ((18_446_744_074, 0), [1, 290_448_384]),
        ((u64::MAX, 999_999_999), [999_999_999, u64::MAX]),
        ((u64::MAX, u32::MAX), [1_000_000_000, 3_294_967_295]),
    ] {
        let input = || format!("{length:?}");
        group.rule("as_nanos", port::as_nanos(length), wanted, input);
    }
    for length in ticks() {
        in_words(group, length);
    }
    let edges = edges();
    let mut rng = Rng::new(60);
    for _ in 0..random {
        in_words(group, random_span(&mut rng, &edges));
        in_words(group, near_words(&mut rng));
    }
}

fn in_words(group: &mut Group, length: Span) {
    let found = port::as_nanos(length);
    let words = |nanos: u128| [(nanos >> 64) as u64, nanos as u64];
    let input = || format!("{length:?}");
    group.rule("as_nanos", found, words(nanos(length)), input);
    if let Some(duration) = duration(length) {
        group.rust("as_nanos", found, words(duration.as_nanos()), input);
    }
}

// Close to where the lower word begins anew; upper words of each length in bits are as likely.
fn near_words(rng: &mut Rng) -> Span {
    let bits = rng.below(31);
    let whole = u128::from((1 + rng.below(1 << bits)).min(1_000_000_000)) << 64;
    let spread = rng.any_size();
    let near = match rng.below(2) {
        0 => whole + u128::from(rng.below(spread.max(1))),
        _ => whole - u128::from(rng.below(spread.max(1))),
    };
    match span(near) {
        Some(length) if rng.one_in(4) => top_heavy(length),
        Some(length) => length,
        None => (u64::MAX, u32::MAX - rng.below(1 << 32) as u32),
    }
}

// Deadlines for a tick of 2^64 nanoseconds, worked out by hand.
fn long_ticks(group: &mut Group) {
    let tick = Some(TWO_WORDS[1]);
    for (lifetime, base, wanted) in [
        ((0, 0), 0, Ok(0)),
        ((0, 1), 0, Ok(1)),
        (TWO_WORDS[0], 0, Ok(1)),
        (TWO_WORDS[1], 0, Ok(1)),
        (TWO_WORDS[2], 0, Ok(2)),
        ((1_208_888_926_126_481, 755_602_944), 0, Ok(65_534)),
        ((1_208_888_926_126_481, 755_602_945), 0, Err(6)),
        ((1_208_888_926_126_481, 755_602_944), 1, Err(6)),
    ] {
        let found = port::encode_expiry(tick, Some(lifetime), base);
        let input = || format!("tick {tick:?}, lifetime {lifetime:?}, now {base}");
        group.rule("encode_expiry", found, wanted, input);
        deadline(group, tick, Some(lifetime), base);
    }
}

pub fn deadlines(group: &mut Group, random: u64) {
    long_ticks(group);
    let bases = [
        0,
        1,
        2,
        65_531,
        65_532,
        65_533,
        65_534,
        65_535,
        65_536,
        1 << 32,
        u64::MAX,
    ];
    for tick in ticks() {
        for base in bases {
            for on in [Some(tick), None] {
                deadline(group, on, None, base);
                for lifetime in lifetimes(tick) {
                    deadline(group, on, Some(lifetime), base);
                }
            }
        }
    }
    let edges = edges();
    let mut rng = Rng::new(5);
    for _ in 0..random {
        let tick = match rng.below(8) {
            0 => near_words(&mut rng),
            _ => random_span(&mut rng, &edges),
        };
        let lifetime = random_lifetime(&mut rng, tick, &edges);
        let on = (!rng.one_in(50)).then_some(tick);
        let finite = (!rng.one_in(50)).then_some(lifetime);
        let base = random_base(&mut rng, &edges);
        deadline(group, on, finite, base);
    }
}

fn deadline(group: &mut Group, tick: Option<Span>, lifetime: Option<Span>, now: u64) {
    let found = port::encode_expiry(tick, lifetime, now);
    let input = || format!("tick {tick:?}, lifetime {lifetime:?}, now {now}");
    group.rule(
        "encode_expiry",
        found,
        deadline_rule(tick, lifetime, now),
        input,
    );
    let (own_tick, own_lifetime) = (tick.and_then(duration), lifetime.and_then(duration));
    if own_tick.is_some() == tick.is_some() && own_lifetime.is_some() == lifetime.is_some() {
        let wanted = access::encode_expiry(own_tick, own_lifetime, now);
        group.rust("encode_expiry", found, wanted, input);
    }
}

fn random_span(rng: &mut Rng, edges: &[u64]) -> Span {
    let secs = rng.number(edges);
    let nanos = match rng.below(8) {
        0 => rng.next() as u32,
        1 => 0,
        2 => 999_999_999 - rng.below(2) as u32,
        _ => rng.below(1_000_000_000) as u32,
    };
    (secs, nanos)
}

// Half of them close to a whole number of ticks, so that the rounding matters.
fn random_lifetime(rng: &mut Rng, tick: Span, edges: &[u64]) -> Span {
    let bits = 1 + rng.below(17);
    let times = u128::from(rng.below(1 << bits));
    let near = (nanos(tick) * times + u128::from(rng.below(3))).saturating_sub(1);
    match span(near) {
        Some(lifetime) if !rng.one_in(2) => {
            if rng.one_in(4) {
                top_heavy(lifetime)
            } else {
                lifetime
            }
        }
        _ => random_span(rng, edges),
    }
}

fn random_base(rng: &mut Rng, edges: &[u64]) -> u64 {
    match rng.below(4) {
        0 => rng.below(65_600),
        1 => rng.number(edges),
        _ => 0,
    }
}

pub fn remaining(group: &mut Group, random: u64) {
    for tick in ticks() {
        for expires_at in [0, 1, 2, 3, 255, 256, 32_768, 65_533, 65_534, NEVER] {
            let near = u64::from(expires_at);
            let nows = [
                0,
                1,
                near.saturating_sub(2),
                near.saturating_sub(1),
                near,
                near + 1,
            ];
            for now in nows
                .into_iter()
                .chain([65_533, 65_534, 65_535, 65_536, 1 << 32, u64::MAX])
            {
                left(group, Some(tick), expires_at, now);
                left(group, None, expires_at, now);
            }
        }
    }
    let edges = edges();
    let mut rng = Rng::new(6);
    for _ in 0..random {
        let expires_at = rng.number(&edges) as u16;
        let now = match rng.below(4) {
            0 => rng.number(&edges),
            1 => u64::from(expires_at).saturating_sub(rng.below(4)),
            _ => rng.below(u64::from(expires_at) + 2),
        };
        let tick = random_tick(&mut rng, u64::from(expires_at).saturating_sub(now), &edges);
        let on = (!rng.one_in(50)).then_some(tick);
        left(group, on, expires_at, now);
    }
}

// Half of them close to the longest whose product still fits.
fn random_tick(rng: &mut Rng, times: u64, edges: &[u64]) -> Span {
    if times == 0 || rng.one_in(2) {
        return random_span(rng, edges);
    }
    let longest = ((u128::from(u64::MAX) + 1) * SECOND - 1) / u128::from(times);
    let spread = rng.any_size().min(1 << 40);
    let near = longest + 2 - u128::from(rng.below(spread + 5)).min(longest);
    match span(near) {
        Some(tick) if rng.one_in(4) => top_heavy(tick),
        Some(tick) => tick,
        None => (u64::MAX, 999_999_999),
    }
}

fn left(group: &mut Group, tick: Option<Span>, expires_at: u16, now: u64) {
    let found = port::remaining(tick, expires_at, now);
    let input = || format!("tick {tick:?}, deadline {expires_at}, now {now}");
    let own_tick = tick.and_then(duration);
    if own_tick.is_some() == tick.is_some() {
        group.rust(
            "remaining_ttl",
            &found,
            &own_left(own_tick, expires_at, now),
            input,
        );
    }
    group.rule(
        "remaining_ttl",
        found,
        left_rule(tick, expires_at, now),
        input,
    );
    // With expiry off the Rust tells nothing of a record just when it has lapsed.
    let lives = port::test_lives_at_tick(expires_at, now);
    let wanted = access::remaining_ttl(None, expires_at, now).is_some();
    group.rust("lives_at_tick", lives, wanted, input);
}

fn own_left(tick: Option<Duration>, expires_at: u16, now: u64) -> Left {
    match access::remaining_ttl(tick, expires_at, now) {
        None => Left::Nothing,
        Some(None) => Left::Never,
        Some(Some(left)) => Left::Finite(left.as_secs(), u64::from(left.subsec_nanos())),
    }
}
