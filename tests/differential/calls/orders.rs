// Calls with several reasons for a refusal at once, targets of every size, and long lists of calls
// on one world that go on after refusals: the model decides.
use crate::calls::records::{Entry, LAST};
use crate::calls::world::{Ask, Pushed, Sizes, UNSET, World};
use crate::forged::stages::{Stage, both, made, on_both, stages};
use crate::model;
use crate::model::sheets::PAGE;
use crate::port;
use crate::report::Group;
use crate::rng::{Rng, edges};

pub fn orders(group: &mut Group, random: u64) {
    let mut rng = Rng::new(34);
    opens(group);
    for stage in stages(&mut rng) {
        if stage.finished {
            continue;
        }
        pushes(group, &stage);
        finishes(group, &stage);
    }
    targets(group, &mut rng);
    settings(group);
    sizes(group, &mut rng, random / 12);
    let mut loads = 0;
    for _ in 0..random / 6_000 {
        loads += list_of_calls(group, &mut rng);
    }
    group.rule("files loaded", loads > random / 60_000, true, || {
        loads.to_string()
    });
}

// Room for the files of lists.
const FILE: usize = 1 << 15;

// Each bit of a number is one reason why an open is refused.
fn opens(group: &mut Group) {
    for reasons in 0_u64..512 {
        let has = |bit: u64| reasons >> bit & 1 == 1;
        let occupied = match (has(0), has(1)) {
            (true, true) => 255,
            (true, false) => 0,
            (false, true) => 8,
            (false, false) => 3,
        };
        let nanos = if has(2) { 1_000_000_000 } else { 0 };
        let secs = if has(3) { 0 } else { 1 };
        let setting = [1, secs, nanos, occupied, 1, 8];
        let records = if has(4) { 1_048_577 } else { 10 };
        let mut world = World::new(&setting, Sizes::for_counts(4, 2, 9));
        let lent = &mut world.lent;
        lent.index = if has(5) { 31 } else { 32 };
        lent.filter = if has(6) { 1 } else { 2 };
        lent.starts = if has(7) { 255 } else { 256 };
        lent.lengths = if has(8) { 255 } else { 256 };
        both(group, "open", &world, &Ask::Open { records });
    }
}

// A key that stands there or not, lifetimes of every kind, an arena that is full or not, an index
// that is full or not.
fn pushes(group: &mut Group, stage: &Stage) {
    let entry = stage.list.first();
    let hash = entry.map_or(0, |entry| entry.hash);
    let there = entry.map_or(&b""[..], |entry| &entry.key);
    let longest = 5 * (LAST as u64 / 2);
    let lifetimes: [&[u64]; 9] = [
        &[],
        &[0, 0],
        &[0, 1],
        &[longest, 0],
        &[longest, 1],
        &[u64::MAX, 999_999_999],
        &[0, 1_000_000_000],
        &[u64::MAX, u64::MAX],
        &[0, 1 << 32],
    ];
    for key in [there, b"new"] {
        for lifetime in lifetimes {
            let ask = Ask::Push(Pushed {
                hash,
                key,
                value: b"12345",
                lifetime,
            });
            let filled = stage.world.builder[10] as usize;
            for rest in 0..20 {
                let mut world = stage.world.clone();
                world.lent.arena = (filled + rest).min(world.lent.arena);
                let about = format!("{}, {rest} bytes of rest", stage.name);
                both(group, &about, &world, &ask);
                world.index.iter_mut().for_each(|word| *word |= 1 << 63);
                both(group, &format!("{about}, no slot empty"), &world, &ask);
            }
        }
    }
}

// Targets, a short scratch and words with a wrong location, in every combination.
fn finishes(group: &mut Group, stage: &Stage) {
    let (buckets, filled) = (stage.world.builder[8] as usize, stage.world.builder[10]);
    let mut words = vec![
        None,
        Some(1 << 63),
        Some(1 << 40),
        Some(1),
        Some(5 << 40 | filled),
    ];
    words.extend([filled + 1, 1 << 63 | filled, (1 << 40) - 1, u64::MAX].map(Some));
    for word in words {
        for target in [
            0,
            1,
            2,
            filled,
            filled + 1,
            100_663_296,
            100_663_297,
            u64::MAX,
        ] {
            for scratch in [buckets, buckets - 1] {
                let mut world = stage.world.clone();
                world.lent.scratch = scratch;
                if let Some(word) = word {
                    world.index[8 * buckets - 1] = word;
                }
                let about = format!("{}, last word {word:x?}", stage.name);
                both(group, &about, &world, &Ask::Finish { target });
            }
        }
    }
}

// More than 256 records with small targets: refused with 7 at first, and the builder goes on.
fn targets(group: &mut Group, rng: &mut Rng) {
    for packed in [0, 1] {
        for count in [255, 256, 257, 258, 300, 600] {
            let mut stages = Vec::new();
            made(rng, &[0, 0, 0, 7, packed, 8], count, &mut stages);
            let Some(stage) = stages.into_iter().nth(1) else {
                return;
            };
            for targets in [[1, 1, 100_663_296], [1, 2, 50], [2, 1, 200], [1, 300, 300]] {
                let (mut ours, mut wanted) = (stage.world.clone(), stage.world.clone());
                for target in targets {
                    let ask = Ask::Finish { target };
                    if on_both(group, &stage.name, &mut ours, &mut wanted, &ask, 0) == 0 {
                        break;
                    }
                }
                for entry in stage.list.iter().step_by(7) {
                    let (hash, key, tick) = (entry.hash, &entry.key[..], 0);
                    let ask = Ask::Probe { hash, key, tick };
                    on_both(
                        group,
                        &stage.name,
                        &mut ours,
                        &mut wanted,
                        &ask,
                        ask.answer(),
                    );
                }
            }
        }
    }
}

// Words of a setting at the boundaries of its questions and of their width, wherever a setting is
// lent by itself.
fn settings(group: &mut Group) {
    let nanos = [0, 999_999_999, 1_000_000_000, u32::MAX.into(), 1 << 32];
    let occupied = [0, 1, 7, 8, 255, 256, 257, 1 << 32, u64::MAX];
    for nanos in nanos.into_iter().chain([(1 << 32) + 1, u64::MAX]) {
        for occupied in occupied {
            for (on, packed, bits) in [(1, 1, 255), (1, 0, 256), (0, 2, 0), (2, 0, 8), (0, 0, 8)] {
                setting_words(group, &[on, 0, nanos, occupied, packed, bits]);
                setting_words(group, &[on, 1, nanos, occupied, packed, bits]);
            }
        }
    }
}

fn setting_words(group: &mut Group, setting: &[u64]) {
    for records in [0, 1, 8, 1_048_576, 1_048_577] {
        let (mut ours, mut wanted) = ([UNSET; 5], [UNSET; 5]);
        let found = port::calls::area_words(setting, records, &mut ours);
        let number = model::calls::area_words(setting, records, &mut wanted);
        let input = || format!("{setting:?}, {records}");
        group.rule("area_words", (found, ours), (number, wanted), input);
    }
    record_size(group, setting, 1, 2);
    crate::parts::record_ends::by_model(group, setting, &[1, 2, 0x61, 0x41, 0x42, 0, 0], 0, 9);
    // A state has no words for the tick of a setting without expiry.
    if setting[0] == 1 {
        let world = World::new(setting, Sizes::for_counts(10, 40, 9));
        both(group, "open", &world, &Ask::Open { records: 10 });
    }
}

fn record_size(group: &mut Group, setting: &[u64], key: usize, value: usize) {
    let (mut ours, mut wanted) = ([UNSET], [UNSET]);
    let found = port::calls::encoded_record_bytes(setting, key, value, &mut ours);
    let number = model::calls::encoded_record_bytes(setting, key, value, &mut wanted);
    let input = || format!("{setting:?}, {key}, {value}");
    group.rule(
        "encoded_record_bytes",
        (found, ours),
        (number, wanted),
        input,
    );
}

// The size of a record, the methods of statistics for any numbers, and words of a state.
fn sizes(group: &mut Group, rng: &mut Rng, count: u64) {
    group.rule(
        "state words",
        port::calls::state_words(),
        [13, 15],
        String::new,
    );
    let edges = edges();
    for _ in 0..count {
        let setting = [
            rng.below(3),
            0,
            0,
            rng.below(9),
            rng.below(2),
            rng.below(258),
        ];
        let (key, near) = (rng.number(&edges), rng.below(40));
        let value = match rng.one_in(3) {
            true => (u64::MAX - key).wrapping_sub(near),
            false => rng.number(&edges),
        };
        record_size(group, &setting, key as usize, value as usize);
        let stats = [(); 8].map(|()| rng.number(&edges));
        crate::large::calls::lookups::methods(group, &stats);
        methods_by_model(group, &stats[..rng.pick(&[8, 8, 7, 0])]);
    }
}

type Method = fn(&[u64], &mut [u64]) -> u64;

const METHODS: [(Method, Method); 3] = [
    (
        port::calls::modeled_retained_bytes,
        model::calls::modeled_retained_bytes,
    ),
    (
        port::calls::modeled_overhead_bytes,
        model::calls::modeled_overhead_bytes,
    ),
    (port::calls::index_load_bps, model::calls::index_load_bps),
];

fn methods_by_model(group: &mut Group, stats: &[u64]) {
    for (ours, rule) in METHODS {
        for words in 0..3 {
            let (mut found, mut wanted) = ([UNSET; 3], [UNSET; 3]);
            let refusal = ours(stats, &mut found[..words]);
            let number = rule(stats, &mut wanted[..words]);
            let input = || format!("{stats:?}, {words} words");
            group.rule("method", (refusal, found), (number, wanted), input);
        }
    }
}

// Any calls in any order on one world, many of them refused: on the builder after a finish too, and on all
// that stands there after a load. How many files were loaded comes back.
fn list_of_calls(group: &mut Group, rng: &mut Rng) -> u64 {
    let on = rng.below(2);
    let setting = [
        on,
        on,
        0,
        1 + rng.below(7),
        rng.below(2),
        rng.pick(&[0, 1, 8, 255]),
    ];
    let mut stages = Vec::new();
    let count = rng.index(30);
    made(rng, &setting, count, &mut stages);
    let start = rng.index(stages.len());
    let Some(stage) = stages.get(start) else {
        return 0;
    };
    let mut ours = stage.world.clone();
    ours.room_for_file(FILE);
    ours.room_for_page(PAGE);
    let mut wanted = ours.clone();
    let about = format!("list of calls, {}", stage.name);
    let mut loads = 0;
    for _ in 0..60 {
        let ask = any_call(rng, &stage.list);
        let number = on_both(group, &about, &mut ours, &mut wanted, &ask, ask.answer());
        // A file that was written is lent as it is, until the next one is.
        let size = match (ask, number) {
            (Ask::WriteFile, 0) => wanted.out[0] as usize,
            (Ask::LoadFile, _) => FILE + 3,
            _ => continue,
        };
        ours.lent.file = size;
        wanted.lent.file = size;
        loads += u64::from(matches!(ask, Ask::LoadFile) && number == 0);
    }
    loads
}

fn any_call<'a>(rng: &mut Rng, list: &'a [Entry]) -> Ask<'a> {
    let absent: (u64, &[u8]) = (rng.next(), b"absent");
    let (hash, key) = match list.is_empty() || rng.one_in(6) {
        true => absent,
        false => {
            let entry = &list[rng.index(list.len())];
            (entry.hash, &entry.key[..])
        }
    };
    let tick = rng.pick(&[0, 1, 2, 1_000, 65_534, u64::MAX]);
    match rng.below(49) {
        46 => Ask::SheetPages,
        47 | 48 => Ask::PrintSheet,
        40 => Ask::FileBytes,
        41 | 42 => Ask::WriteFile,
        43 => Ask::FileNeeds,
        44 | 45 => Ask::LoadFile,
        0 => Ask::Open {
            records: list.len() as u64,
        },
        1 => Ask::Finish {
            target: rng.pick(&[0, 1, 60, 4_096, u64::MAX]),
        },
        2 => Ask::Stats,
        3 => Ask::Step {
            segment: rng.index(3),
            position: rng.below(60),
        },
        4..9 => Ask::Walk {
            from: rng.below(60),
            tick,
        },
        9..14 => Ask::Probe { hash, key, tick },
        14..19 => Ask::Take { hash, key },
        19..24 => Ask::Peek { hash, key, tick },
        24..32 => Ask::Get { hash, key, tick },
        _ => {
            let lifetime: &[u64] = rng.pick(&[&[], &[], &[7, 5], &[65_535, 0], &[0, u64::MAX]]);
            let value = &b"a value"[..rng.index(8)];
            Ask::Push(Pushed {
                hash,
                key,
                value,
                lifetime,
            })
        }
    }
}
