// The areas and numbers that a call is lent.
use crate::guarded::Placed;
use Role::*;

macro_rules! roles {
    ($($role:ident),* $(,)?) => {
        #[derive(Clone, Copy, PartialEq, Debug)]
        pub enum Role {
            $($role),*
        }

        pub const ROLES: &[Role] = &[$($role),*];
    };
}

// Out: what the call tells beside its answer.
roles!(
    Setting,
    Builder,
    Set,
    Rebuild,
    Index,
    Filter,
    Starts,
    Lengths,
    Scratch,
    SourceStarts,
    SourceLengths,
    Lifetime,
    Stats,
    Out,
    Arena,
    Key,
    Value,
    Keep,
    File,
    Page,
);

impl Role {
    pub fn is_bytes(self) -> bool {
        matches!(self, Arena | Key | Value | Keep | File | Page)
    }
}

// The arguments that are numbers. Count: records, target, slot or key bytes; size: copied bytes,
// header bytes or value bytes; tick: also the base of a rebuild; location: also a position in bytes.
#[derive(Clone, Copy, Debug, Default)]
pub struct Numbers {
    pub hash: u64,
    pub tick: u64,
    pub count: u64,
    pub size: u64,
    pub location: u64,
}

// The areas of one call; no two of them overlap.
pub struct Lent {
    pub places: [Option<Placed>; ROLES.len()],
}

// Arenas of 2^30 bytes and of one more are lent where they are only read.
pub const VAST: usize = 1 << 30;

impl Lent {
    pub fn is_vast(&self, role: Role) -> bool {
        self.places[role as usize].is_some_and(|placed| placed.bytes >= VAST)
    }

    fn place(&self, role: Role) -> Placed {
        self.places[role as usize].expect("every area of the call is placed")
    }

    pub fn words(&self, role: Role) -> &[u64] {
        let Placed { at, bytes } = self.place(role);
        // SAFETY: guarded memory, aligned at both ends; any bytes are words.
        unsafe { std::slice::from_raw_parts(at.cast(), bytes / 8) }
    }

    pub fn bytes(&self, role: Role) -> &[u8] {
        let Placed { at, bytes } = self.place(role);
        // SAFETY: guarded memory.
        unsafe { std::slice::from_raw_parts(at, bytes) }
    }

    // Each area is lent once to a call, so that nothing else refers to it.
    #[allow(clippy::mut_from_ref)]
    pub fn words_mut(&self, role: Role) -> &mut [u64] {
        let Placed { at, bytes } = self.place(role);
        // SAFETY: as for words.
        unsafe { std::slice::from_raw_parts_mut(at.cast(), bytes / 8) }
    }

    #[allow(clippy::mut_from_ref)]
    pub fn bytes_mut(&self, role: Role) -> &mut [u8] {
        let Placed { at, bytes } = self.place(role);
        // SAFETY: as for bytes.
        unsafe { std::slice::from_raw_parts_mut(at, bytes) }
    }
}
