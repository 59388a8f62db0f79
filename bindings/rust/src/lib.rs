//! A frozen set of keyed records with lapse times: filled once, frozen, asked many times, rebuilt from
//! itself. This is a safe layer over libcapi.a, in which every call is proved for every input; the
//! layer itself is tested.
//!
//! - [`Arena`] owns the bytes that records stand in.
//! - [`Builder`] fills a set; [`Builder::finish`] freezes it.
//! - [`Set`] owns its index and is asked with its arena: [`Set::get`], [`Set::peek`], [`Set::probe`],
//!   [`Set::take_accessed`], [`Set::entries`], [`Set::stats`].
//! - [`SegmentRecords`] steps through a segment without the index.
//! - [`Rebuild`] makes the next set out of the newest one, while older ones can still
//!   be asked.
//! - [`Set::to_file`] writes a set as a file, and [`Set::from_file`] loads it.
//! - [`Set::sheet`] is a set on paper: its chart room sheet.
//!
//! Hash and tick come from the caller.
//!
//! # Hashes
//!
//! Equal keys must come with equal hashes, in every call. A key's tag is hash div 2^41, its top 23 bits,
//! and its first bucket hash * buckets div 2^64, so that the upper bits must differ from key to key.
//! FNV-1a alone on short keys, a hash of 32 bits and a number as its own hash are poor there: answers
//! stay right, but a lookup may walk over all records. [`hash`] is a hash that will do.
//!
//! # Ticks
//!
//! The caller counts ticks, in units of the setting's tick length. A pushed record lapses its lifetime
//! after tick 0, whenever it is pushed, so let the count begin when the builder is opened; of a lifetime
//! that began before, give what is left at tick 0. A rebuilt or loaded set goes on with the same count: to
//! begin at 0 again shows lapsed records as live. A copied record lapses its lifetime after [`Plan::now_tick`].
//! [`Rebuild::copy`] copies a record with what is left of its time; with [`Rebuild::push_copied`] take what
//! is left at that very tick, since with what was left at an earlier one the copy outlives the record. The
//! library has no clock and notices neither.
//!
//! # Linking
//!
//! The build script links libcapi.a from the folder in the environment variable
//! `SEGMENT_CACHE_LIB_DIR`, or else from target/staticlib of the source tree, as `make library` left it.
//! After a change of the sources run that first: cargo does not ask whether the proof still holds.
//! Without cargo:
//! `rustc --edition 2024 --crate-type rlib -L native=FOLDER -l static=capi src/lib.rs`.
#![warn(missing_docs)]

mod areas;
mod arena;
mod builder;
mod entry;
mod ffi;
mod file;
mod hash;
mod rebuild;
mod refusal;
mod set;
mod setting;
mod sheet;
mod stats;
mod stored;

pub use areas::AreaWords;
pub use arena::Arena;
pub use builder::{Builder, Placed};
pub use entry::{Entries, Entry, OwnedEntry, Place, Remaining};
pub use file::FileNeeds;
pub use hash::hash;
pub use rebuild::{Plan, Rebuild, Rebuilt};
pub use refusal::{Refusal, Unfinished};
pub use set::Set;
pub use setting::Setting;
pub use stats::Stats;
pub use stored::{SegmentRecords, StoredRecord, Unreadable};
