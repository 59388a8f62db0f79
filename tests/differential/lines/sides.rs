// One arena and the line of sets in it, twice: by the port's calls and by the model's.
use crate::calls::world::{Ask, By, Opened, Sizes, World, model, port};
use crate::report::Group;
use crate::rng::pattern;

// One of the finished sets, or what is being made.
#[derive(Clone, Copy, PartialEq, Debug)]
pub enum At {
    Set(usize),
    Open,
}

// The worlds have no arena of their own: it goes into one for a call and out again.
pub struct Side {
    by: By,
    pub arena: Vec<u8>,
    sets: Vec<World>,
    open: Option<World>,
}

impl Side {
    fn new(by: By, world: &World, arena: usize) -> Side {
        Side {
            by,
            arena: pattern(arena + 3),
            sets: Vec::new(),
            open: Some(world.clone()),
        }
    }

    pub fn world(&self, at: At) -> Option<&World> {
        match at {
            At::Set(set) => self.sets.get(set),
            At::Open => self.open.as_ref(),
        }
    }

    fn world_mut(&mut self, at: At) -> Option<&mut World> {
        match at {
            At::Set(set) => self.sets.get_mut(set),
            At::Open => self.open.as_mut(),
        }
    }

    fn call(&mut self, at: At, ask: &Ask) -> u64 {
        let (by, mut arena) = (self.by, std::mem::take(&mut self.arena));
        let mut refusal = 0;
        if let Some(world) = self.world_mut(at) {
            std::mem::swap(&mut world.arena, &mut arena);
            refusal = by(world, ask, ask.answer());
            std::mem::swap(&mut world.arena, &mut arena);
        }
        self.arena = arena;
        refusal
    }
}

pub struct Sides {
    pub ours: Side,
    pub wanted: Side,
}

impl Sides {
    // With an arena of so many bytes, of which nothing is filled.
    pub fn new(setting: &[u64], lent: Sizes) -> Sides {
        let arena = lent.arena;
        let world = bare(World::new(setting, Sizes { arena: 0, ..lent }), arena);
        Sides {
            ours: Side::new(port, &world, arena),
            wanted: Side::new(model, &world, arena),
        }
    }

    // A call by both; the model's number comes back.
    pub fn call(&mut self, group: &mut Group, about: &str, at: At, ask: &Ask) -> u64 {
        let number = self.wanted.call(at, ask);
        let refusal = self.ours.call(at, ask);
        let input = || format!("{about}, {at:?}, {ask:x?}");
        group.rule("refusal", refusal, number, input);
        let (ours, wanted) = (self.ours.world(at), self.wanted.world(at));
        let same = ours == wanted && self.ours.arena == self.wanted.arena;
        group.rule("areas and answer", same, true, || {
            let places = ours.zip(wanted);
            let place = places.map(|(ours, wanted)| ours.difference(wanted));
            format!("{}: {}", input(), place.unwrap_or_default())
        });
        number
    }

    // The same with other sizes lent for this one call.
    pub fn call_with(
        &mut self,
        group: &mut Group,
        about: &str,
        at: At,
        ask: &Ask,
        lend: &dyn Fn(&mut Sizes),
    ) -> u64 {
        let mut before = None;
        for side in [&mut self.ours, &mut self.wanted] {
            if let Some(world) = side.world_mut(at) {
                before = Some(world.lent.clone());
                lend(&mut world.lent);
            }
        }
        let number = self.call(group, about, at, ask);
        for side in [&mut self.ours, &mut self.wanted] {
            if let (Some(world), Some(lent)) = (side.world_mut(at), &before) {
                world.lent = lent.clone();
            }
        }
        number
    }

    // Opens a rebuild of the newest set in fresh areas. What was open stays where this is refused.
    pub fn rebuild_open(
        &mut self,
        group: &mut Group,
        about: &str,
        lent: &Sizes,
        opened: Opened,
        forge: &dyn Fn(&mut World),
    ) -> u64 {
        let mut before = Vec::new();
        for side in [&mut self.ours, &mut self.wanted] {
            let no_arena = Sizes {
                arena: 0,
                ..lent.clone()
            };
            let newest = &side.sets[side.sets.len() - 1];
            let mut world = bare(World::for_rebuild(newest, no_arena), lent.arena);
            forge(&mut world);
            before.push(side.open.replace(world));
        }
        let number = self.call(group, about, At::Open, &Ask::RebuildOpen(opened));
        if number != 0 {
            for (side, before) in [&mut self.ours, &mut self.wanted].into_iter().zip(before) {
                side.open = before;
            }
        }
        number
    }

    // The file of a set, which both write alike; in an area three bytes longer.
    pub fn write(&mut self, group: &mut Group, about: &str, at: At) -> Vec<u8> {
        self.call(group, about, at, &Ask::FileBytes);
        let size = self.wanted.world(at).map_or(0, |world| world.out[0]) as usize;
        for side in [&mut self.ours, &mut self.wanted] {
            if let Some(world) = side.world_mut(at) {
                world.room_for_file(size);
            }
        }
        self.call(group, about, at, &Ask::WriteFile);
        let mut file = Vec::new();
        for side in [&mut self.ours, &mut self.wanted] {
            if let Some(world) = side.world_mut(at) {
                file = std::mem::take(&mut world.file);
                world.lent.file = 0;
            }
        }
        file.truncate(size);
        file
    }

    // The sheet of a set, which both print alike or refuse: the port's number and page area, of so many bytes and
    // three more, with three behind.
    pub fn print(
        &mut self,
        group: &mut Group,
        about: &str,
        at: At,
        bytes: usize,
    ) -> (u64, Vec<u8>) {
        for side in [&mut self.ours, &mut self.wanted] {
            if let Some(world) = side.world_mut(at) {
                world.room_for_page(bytes);
            }
        }
        let number = self.call(group, about, at, &Ask::PrintSheet);
        let mut page = Vec::new();
        for side in [&mut self.wanted, &mut self.ours] {
            if let Some(world) = side.world_mut(at) {
                page = std::mem::take(&mut world.page);
                world.lent.page = 0;
            }
        }
        (number, page)
    }

    // Goes on with the set of a file alone, loaded by both into a fresh arena of so many bytes.
    pub fn load(&mut self, group: &mut Group, about: &str, lent: Sizes, file: &[u8]) -> u64 {
        let arena = lent.arena;
        let setting = self
            .wanted
            .world(At::Set(0))
            .map(|world| world.setting.clone());
        let setting = setting.unwrap_or_default();
        let mut world = bare(World::new(&setting, Sizes { arena: 0, ..lent }), arena);
        world.file = file.to_vec();
        world.lent.file = file.len();
        self.ours = Side::new(port, &world, arena);
        self.wanted = Side::new(model, &world, arena);
        let number = self.call(group, about, At::Open, &Ask::LoadFile);
        for side in [&mut self.ours, &mut self.wanted] {
            if let Some(world) = side.world_mut(At::Open) {
                world.file = Vec::new();
                world.lent.file = 0;
            }
        }
        self.close();
        number
    }

    // What was open is a finished set now.
    pub fn close(&mut self) {
        for side in [&mut self.ours, &mut self.wanted] {
            side.sets.extend(side.open.take());
        }
    }
}

fn bare(mut world: World, arena: usize) -> World {
    world.arena.clear();
    world.lent.arena = arena;
    world
}
