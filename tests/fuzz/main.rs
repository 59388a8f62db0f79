// Calls the exports of libcapi.a with anything, in memory between guards, and looks at what each call
// has left: fuzz MILLIONS [SEED]
mod alarm;
mod check;
mod damage;
mod episode;
mod exports;
mod files;
mod guarded;
mod lent;
mod sheets;
mod tally;
mod world;

#[allow(dead_code)]
#[path = "../../bindings/rust/src/ffi.rs"]
mod ffi;
#[allow(dead_code)]
#[path = "../differential/rng.rs"]
mod rng;

// How an export is called; with an error in it, to see that it is noticed.
#[cfg(not(stand_in))]
mod calling {
    use crate::exports::Export;
    use crate::lent::{Lent, Numbers};

    pub fn call(export: &Export, lent: &Lent, numbers: &Numbers) -> u64 {
        (export.call)(lent, numbers)
    }
}
#[cfg(stand_in)]
mod calling {
    include!(env!("STAND_IN"));
}

use episode::Episode;
use exports::EXPORTS;
use guarded::Guarded;
use lent::{Lent, ROLES, Role, VAST};
use rng::Rng;
use std::process::ExitCode;
use std::time::Instant;
use tally::Tally;
use world::World;

const SEED: u64 = 2026;

// Room for the longest area.
const ROOM: usize = 1 << 16;

// After so many calls all memory around the areas is looked at.
const LOOK_AROUND: u64 = 10_000;

const DIFFERENCES: u64 = 10;

struct Fuzz {
    rng: Rng,
    seed: u64,
    memory: [Guarded; ROLES.len()],
    vast: Guarded,
    calls: u64,
    differences: u64,
    tally: Tally,
}

impl Fuzz {
    fn new(seed: u64) -> Fuzz {
        Fuzz {
            rng: Rng::new(seed),
            seed,
            memory: std::array::from_fn(|_| Guarded::new(ROOM)),
            vast: Guarded::zeros(VAST + 1),
            calls: 0,
            differences: 0,
            tally: Tally::new(),
        }
    }

    fn episode(&mut self) {
        let mut episode = Episode::new(&mut self.rng);
        let steps = if episode.many() {
            600
        } else {
            30 + self.rng.below(120)
        };
        for _ in 0..steps {
            let (number, mut world) = episode.next(&mut self.rng);
            let way = self.rng.below(if episode.many() { 60 } else { 10 });
            match way {
                0 => damage::all(&mut self.rng, &EXPORTS[number], &mut world),
                1..5 => damage::some(&mut self.rng, &EXPORTS[number], &mut world),
                _ => (),
            }
            let accepted = self.call(number, &mut world);
            // At times a damaged world goes on as well.
            if accepted && (way >= 5 || way > 0 && self.rng.one_in(4)) {
                episode.accepted(number, world);
            }
        }
    }

    // One call and what must hold afterwards; whether it was accepted and the world goes on with it.
    fn call(&mut self, number: usize, world: &mut World) -> bool {
        let export = &EXPORTS[number];
        let lent = self.lend(number, world);
        alarm::calling(self.calls, number);
        let answer = calling::call(export, &lent, &world.numbers);
        let mut wrong = check::wrong(export, world, &lent, answer);
        let goes_on = answer == 0 && !lent.is_vast(Role::Arena);
        if goes_on {
            world.take_over(export.roles().filter(|&role| export.writes(role)), &lent);
        }
        if let Some(role) = self.take_back(number, &lent) {
            wrong = Some(format!("something beside {role:?} changed"));
        }
        if self.calls % LOOK_AROUND == 0 && !self.memory.iter_mut().all(Guarded::is_clear) {
            wrong = Some("something around the areas changed".to_string());
        }
        if let Some(wrong) = wrong {
            self.differences += 1;
            let (call, seed, name) = (self.calls, self.seed, export.name);
            println!("{name}, call {call}, seed {seed}: {wrong}");
        }
        self.calls += 1;
        self.tally.count(number, answer);
        goes_on
    }

    // The area beside which something was written, if there is one.
    fn take_back(&mut self, number: usize, lent: &Lent) -> Option<Role> {
        let mut touched = None;
        for role in EXPORTS[number].roles().filter(|&role| !lent.is_vast(role)) {
            if let Some(placed) = lent.places[role as usize]
                && !self.memory[role as usize].clear(placed)
            {
                touched = Some(role);
            }
        }
        touched
    }

    // Each area flush against the guard at its end, or at its start.
    fn lend(&mut self, number: usize, world: &World) -> Lent {
        let export = &EXPORTS[number];
        let mut places = [None; ROLES.len()];
        let ends = self.rng.next();
        for role in export.roles() {
            let at_end = ends >> (role as u32) & 1 == 1;
            let memory = &mut self.memory[role as usize];
            places[role as usize] = Some(memory.place(world.area(role), at_end));
        }
        if export.reads(Role::Arena) && self.rng.one_in(100) {
            let content = places[Role::Arena as usize].take();
            content.map(|placed| self.memory[Role::Arena as usize].clear(placed));
            let bytes = VAST + self.rng.index(2);
            places[Role::Arena as usize] = Some(self.vast.area(bytes, ends >> 40 & 1 == 1));
        }
        Lent { places }
    }
}

fn main() -> ExitCode {
    let mut arguments = std::env::args().skip(1).map(|text| text.parse::<u64>());
    let (Some(Ok(millions)), Ok(seed)) = (arguments.next(), arguments.next().unwrap_or(Ok(SEED)))
    else {
        eprintln!("usage: fuzz MILLIONS [SEED]");
        return ExitCode::from(2);
    };
    alarm::install(seed);
    let mut fuzz = Fuzz::new(seed);
    let start = Instant::now();
    let mut shown = 0;
    while fuzz.calls < millions * 1_000_000 && fuzz.differences < DIFFERENCES {
        fuzz.episode();
        if fuzz.calls / 10_000_000 > shown {
            shown = fuzz.calls / 10_000_000;
            println!(
                "{} calls ({:.1} s)",
                fuzz.calls,
                start.elapsed().as_secs_f64()
            );
        }
    }
    fuzz.tally.print();
    let missing = fuzz.tally.missing();
    if !missing.is_empty() {
        println!("never answered: {missing}");
    }
    println!(
        "{} calls, {} wrong, seed {seed} ({:.1} s)",
        fuzz.calls,
        fuzz.differences,
        start.elapsed().as_secs_f64()
    );
    match fuzz.differences == 0 && missing.is_empty() {
        true => ExitCode::SUCCESS,
        false => ExitCode::FAILURE,
    }
}
