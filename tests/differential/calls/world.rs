// The areas and states of one set, and the calls on them, asked of the port or of the model.
use crate::model::rules::ARENA_MAX;
use crate::model::{calls as model_calls, rebuilds};
use crate::port::calls as port_calls;
use crate::rng::{pattern, word_pattern};

// Each area is longer than what is lent of it, so that what is written behind shows.
#[derive(Clone, PartialEq)]
pub struct World {
    pub setting: Vec<u64>,
    pub builder: Vec<u64>,
    pub set: Vec<u64>,
    pub index: Vec<u64>,
    pub filter: Vec<u64>,
    pub starts: Vec<u64>,
    pub lengths: Vec<u64>,
    pub scratch: Vec<u64>,
    pub arena: Vec<u8>,
    // A file that is written or loaded; nothing of it is lent but for that.
    pub file: Vec<u8>,
    // A page area for a sheet, likewise.
    pub page: Vec<u8>,
    // Empty but for a rebuild.
    pub rebuild: Vec<u64>,
    pub source: Source,
    // The answer's words, all UNSET before each call.
    pub out: Vec<u64>,
    pub lent: Sizes,
}

// The set that a rebuild begins with, and its segments; all of it is lent.
#[derive(Clone, PartialEq, Default)]
pub struct Source {
    pub set: Vec<u64>,
    pub starts: Vec<u64>,
    pub lengths: Vec<u64>,
}

// How much of each area is lent.
#[derive(Clone, PartialEq, Debug)]
pub struct Sizes {
    pub index: usize,
    pub filter: usize,
    pub starts: usize,
    pub lengths: usize,
    pub scratch: usize,
    pub arena: usize,
    pub file: usize,
    pub page: usize,
}

impl Sizes {
    // Three words or bytes more than so many buckets, filter words and bytes need, as far as an
    // arena may be so long.
    pub fn for_counts(buckets: usize, filter_words: usize, arena: usize) -> Sizes {
        Sizes {
            index: 8 * buckets + 3,
            filter: filter_words + 3,
            starts: 259,
            lengths: 259,
            scratch: buckets + 3,
            arena: (arena + 3).min(ARENA_MAX as usize),
            file: 0,
            page: 0,
        }
    }
}

const OUT: usize = 14;

// Arenas of so many bytes are held once.
const LARGE: usize = 1 << 28;

// Areas of fewer bytes are small; of larger ones about so many bytes to a call are compared.
const SMALL: usize = 1 << 16;

const PART: usize = 1 << 12;

// With occupancy 7 these are small too: 4,097 records are.
const STILL_SMALL: usize = 1 << 20;

// What stands in the answer's words before a call.
pub const UNSET: u64 = 0xa5c3_9d71_e6b4_2f8d;

impl World {
    pub fn new(setting: &[u64], lent: Sizes) -> World {
        World {
            setting: setting.to_vec(),
            builder: word_pattern(model_calls::BUILDER_WORDS),
            set: word_pattern(model_calls::SET_WORDS),
            index: word_pattern(lent.index + 3),
            filter: word_pattern(lent.filter + 3),
            starts: word_pattern(lent.starts + 3),
            lengths: word_pattern(lent.lengths + 3),
            scratch: word_pattern(lent.scratch + 3),
            arena: pattern(lent.arena + 3),
            file: pattern(lent.file + 3),
            page: pattern(lent.page + 3),
            rebuild: Vec::new(),
            source: Source::default(),
            out: vec![UNSET; OUT],
            lent,
        }
    }

    // Areas for the rebuild of a set that stands in another world; its arena is lent to both.
    pub fn for_rebuild(source: &World, lent: Sizes) -> World {
        let mut world = World::new(&source.setting, lent);
        world.rebuild = word_pattern(rebuilds::REBUILD_WORDS);
        world.source = Source {
            set: source.set.clone(),
            starts: source.starts[..source.lent.starts].to_vec(),
            lengths: source.lengths[..source.lent.lengths].to_vec(),
        };
        world
    }

    // An area for a file of so many bytes, three longer, with three more behind.
    pub fn room_for_file(&mut self, bytes: usize) {
        self.file = pattern(bytes + 6);
        self.lent.file = bytes + 3;
    }

    // The same for a sheet of so many bytes.
    pub fn room_for_page(&mut self, bytes: usize) {
        self.page = pattern(bytes + 6);
        self.lent.page = bytes + 3;
    }

    // A copy to compare with later. A large arena is not in it: what is filled there stands in the
    // Rust as well, and what is not has the pattern.
    pub fn kept(&mut self) -> World {
        if self.arena.len() < LARGE {
            return self.clone();
        }
        let arena = std::mem::take(&mut self.arena);
        let copy = self.clone();
        self.arena = arena;
        copy
    }

    // After so many calls all areas are compared whole: small ones after each.
    pub fn interval(&self) -> usize {
        let bytes = 8 * (self.index.len() + self.filter.len()) + self.arena.len();
        let small = match self.setting[..] {
            [_, _, _, 7, _, _] => STILL_SMALL,
            _ => SMALL,
        };
        if bytes < small { 1 } else { bytes / PART }
    }

    // Whether all is as in such a copy.
    pub fn same(&mut self, kept: &World) -> bool {
        if !kept.arena.is_empty() {
            return self == kept;
        }
        let arena = std::mem::take(&mut self.arena);
        let same = self == kept;
        self.arena = arena;
        same
    }

    // The first area that is not the same, and where.
    pub fn difference(&self, other: &World) -> String {
        let areas = [
            ("setting", &self.setting, &other.setting),
            ("builder", &self.builder, &other.builder),
            ("set", &self.set, &other.set),
            ("index", &self.index, &other.index),
            ("filter", &self.filter, &other.filter),
            ("starts", &self.starts, &other.starts),
            ("lengths", &self.lengths, &other.lengths),
            ("scratch", &self.scratch, &other.scratch),
            ("rebuild", &self.rebuild, &other.rebuild),
            ("answer", &self.out, &other.out),
        ];
        for (name, port, wanted) in areas {
            if let Some(at) = (0..port.len()).find(|&i| port.get(i) != wanted.get(i)) {
                let (port, wanted) = (port[at], wanted.get(at));
                return format!("{name} {at}: {port:#x}, wanted {wanted:x?}");
            }
        }
        let areas = [
            (&self.file, &other.file),
            (&self.page, &other.page),
            (&self.arena, &other.arena),
        ];
        let [file, page, arena] =
            areas.map(|(port, wanted)| (0..port.len()).find(|&i| port.get(i) != wanted.get(i)));
        format!("file {file:?}, page {page:?}, arena {arena:?}")
    }
}

#[derive(Clone, Copy, Debug)]
pub enum Ask<'a> {
    Open { records: u64 },
    Push(Pushed<'a>),
    Finish { target: u64 },
    Get { hash: u64, key: &'a [u8], tick: u64 },
    Peek { hash: u64, key: &'a [u8], tick: u64 },
    Take { hash: u64, key: &'a [u8] },
    Probe { hash: u64, key: &'a [u8], tick: u64 },
    Walk { from: u64, tick: u64 },
    // The record at a position of a segment's bytes, with the setting in the set's words.
    Step { segment: usize, position: u64 },
    Stats,
    // The four calls on files; the file is the world's.
    FileBytes,
    WriteFile,
    FileNeeds,
    LoadFile,
    // The sheet of the set, in the world's page area.
    SheetPages,
    PrintSheet,
    RebuildOpen(Opened<'a>),
    Reused(Reused<'a>),
    Copied(Pushed<'a>),
    RebuildFinish,
}

#[derive(Clone, Copy, Debug)]
pub struct Opened<'a> {
    pub records: u64,
    pub capacity: u64,
    pub keep: &'a [u8],
    pub now: u64,
}

#[derive(Clone, Copy, Debug)]
pub struct Reused<'a> {
    pub hash: u64,
    pub key: &'a [u8],
    pub value: &'a [u8],
    pub location: u64,
    pub header: u64,
}

#[derive(Clone, Copy, Debug)]
pub struct Pushed<'a> {
    pub hash: u64,
    pub key: &'a [u8],
    pub value: &'a [u8],
    // No words for never, else seconds and nanoseconds.
    pub lifetime: &'a [u64],
}

impl Ask<'_> {
    // How many words the answer has.
    pub fn answer(&self) -> usize {
        match self {
            Ask::Open { .. } | Ask::Finish { .. } | Ask::RebuildOpen(_) | Ask::LoadFile => 0,
            Ask::Push(_) | Ask::Reused(_) | Ask::Copied(_) => 2,
            Ask::Get { .. } | Ask::Peek { .. } => 3,
            Ask::Take { .. } | Ask::FileBytes | Ask::WriteFile => 1,
            Ask::SheetPages | Ask::PrintSheet => 1,
            Ask::FileNeeds => 5,
            Ask::Probe { .. } | Ask::Walk { .. } => 12,
            Ask::Step { .. } => 9,
            Ask::Stats => 8,
            Ask::RebuildFinish => 4,
        }
    }
}

// The port's calls and the model's have the same names and arguments.
macro_rules! ask_by {
    ($calls:ident, $world:ident, $ask:ident, $words:ident) => {{
        let World {
            setting,
            builder,
            set,
            index,
            filter,
            starts,
            lengths,
            ..
        } = $world;
        let World {
            scratch,
            arena,
            file,
            page,
            rebuild,
            source,
            out,
            lent,
            ..
        } = $world;
        out.fill(UNSET);
        let (index, filter) = (&mut index[..lent.index], &mut filter[..lent.filter]);
        let (starts, lengths) = (&mut starts[..lent.starts], &mut lengths[..lent.lengths]);
        let (scratch, arena) = (&mut scratch[..lent.scratch], &mut arena[..lent.arena]);
        let (file, page) = (&mut file[..lent.file], &mut page[..lent.page]);
        let out = &mut out[..$words];
        match *$ask {
            Ask::Open { records } => $calls::open(
                setting,
                records as usize,
                builder,
                index,
                filter,
                starts,
                lengths,
                arena,
            ),
            Ask::Push(Pushed {
                hash,
                key,
                value,
                lifetime,
            }) => $calls::push(
                builder, hash, key, value, lifetime, index, filter, arena, out,
            ),
            Ask::Finish { target } => $calls::finish(
                builder,
                target as usize,
                index,
                starts,
                lengths,
                scratch,
                arena,
                set,
            ),
            Ask::Get { hash, key, tick } => $calls::get(
                set, hash, key, tick, index, filter, starts, lengths, arena, out,
            ),
            Ask::Peek { hash, key, tick } => $calls::peek(
                set, hash, key, tick, index, filter, starts, lengths, arena, out,
            ),
            Ask::Take { hash, key } => {
                $calls::take_accessed(set, hash, key, index, filter, starts, lengths, arena, out)
            }
            Ask::Probe { hash, key, tick } => $calls::probe(
                set, hash, key, tick, index, filter, starts, lengths, arena, out,
            ),
            Ask::Walk { from, tick } => {
                $calls::next_entry(set, from as usize, tick, index, starts, lengths, arena, out)
            }
            Ask::Step { segment, position } => $calls::record_at(
                set.get(..6).unwrap_or(&[]),
                segment_bytes(starts, lengths, arena, segment),
                position as usize,
                out,
            ),
            Ask::Stats => $calls::stats(set, out),
            Ask::FileBytes => $calls::file_bytes(set, starts, lengths, out),
            Ask::WriteFile => {
                $calls::write_file(set, index, filter, starts, lengths, arena, file, out)
            }
            Ask::FileNeeds => $calls::file_needs(file, out),
            Ask::LoadFile => $calls::load_file(file, index, filter, starts, lengths, arena, set),
            Ask::SheetPages => $calls::sheet_pages(set, index, starts, lengths, arena, out),
            Ask::PrintSheet => $calls::print_sheet(set, index, starts, lengths, arena, page, out),
            Ask::RebuildOpen(opened) => $calls::rebuild_open(
                source, arena, &opened, rebuild, index, filter, starts, lengths,
            ),
            Ask::Reused(reused) => {
                $calls::push_reused(rebuild, &reused, index, filter, starts, lengths, arena, out)
            }
            Ask::Copied(copied) => {
                $calls::push_copied(rebuild, &copied, index, filter, starts, lengths, arena, out)
            }
            Ask::RebuildFinish => {
                $calls::rebuild_finish(rebuild, index, starts, lengths, scratch, arena, set, out)
            }
        }
    }};
}

// A segment's bytes, none where it is not in the arena.
pub fn segment_bytes<'a>(
    starts: &[u64],
    lengths: &[u64],
    arena: &'a [u8],
    segment: usize,
) -> &'a [u8] {
    let place = starts.get(segment).zip(lengths.get(segment));
    let bytes = place.and_then(|(&start, &length)| {
        let end = usize::try_from(start.checked_add(length)?).ok()?;
        arena.get(start as usize..end)
    });
    bytes.unwrap_or(&[])
}

// The Rust's refusal as a number, 0 for none.
pub fn refusal_of<T>(rust: &Result<T, u64>) -> u64 {
    rust.as_ref().err().copied().unwrap_or(0)
}

// The Rust's refusal of a push, and the answer's words: slot and location, where it has none.
pub fn placed(rust: Result<(), u64>, place: [u64; 2]) -> (u64, [u64; 2]) {
    match rust {
        Ok(()) => (0, place),
        Err(refusal) => (refusal, [UNSET; 2]),
    }
}

// Who answers: the port, or the model in its place.
pub type By = fn(&mut World, &Ask, usize) -> u64;

// With an answer of so many words, which is the right number but for calls of a wrong form.
pub fn port(world: &mut World, ask: &Ask, words: usize) -> u64 {
    ask_by!(port_calls, world, ask, words)
}

pub fn model(world: &mut World, ask: &Ask, words: usize) -> u64 {
    ask_by!(model_calls, world, ask, words)
}
