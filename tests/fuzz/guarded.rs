// Memory between two pages that nobody may touch: an access outside faults at once.
use std::ffi::c_void;
use std::ptr::null_mut;

const PAGE: usize = 4_096;

// What stands around an area on the side that has no guard.
const SLACK: u8 = 0xa5;

// So many bytes of it are looked at after every call.
const NEAR: usize = 64;

const PROT_NONE: i32 = 0;
const PROT_READ: i32 = 1;
const PROT_WRITE: i32 = 2;
const MAP_PRIVATE: i32 = 2;
const MAP_ANONYMOUS: i32 = 0x20;
const MAP_NORESERVE: i32 = 0x4000;

unsafe extern "C" {
    fn mmap(
        at: *mut c_void,
        length: usize,
        protection: i32,
        flags: i32,
        file: i32,
        offset: i64,
    ) -> *mut c_void;
    fn mprotect(at: *mut c_void, length: usize, protection: i32) -> i32;
}

pub struct Guarded {
    start: *mut u8,
    bytes: usize,
}

// Where an area was placed.
#[derive(Clone, Copy)]
pub struct Placed {
    pub at: *mut u8,
    pub bytes: usize,
}

impl Placed {
    pub fn content(&self) -> &[u8] {
        // SAFETY: it was placed inside a mapping, which is never given back.
        unsafe { std::slice::from_raw_parts(self.at, self.bytes) }
    }
}

impl Guarded {
    pub fn new(bytes: usize) -> Guarded {
        let mut guarded = Guarded::mapped(bytes, PROT_READ | PROT_WRITE);
        guarded.all().fill(SLACK);
        guarded
    }

    // Zeros that take no memory and can't be written.
    pub fn zeros(bytes: usize) -> Guarded {
        Guarded::mapped(bytes, PROT_READ)
    }

    fn mapped(bytes: usize, protection: i32) -> Guarded {
        let bytes = bytes.next_multiple_of(PAGE);
        let flags = MAP_PRIVATE | MAP_ANONYMOUS | MAP_NORESERVE;
        // SAFETY: a new mapping; its first and last page stay without any right.
        unsafe {
            let map = mmap(null_mut(), bytes + 2 * PAGE, PROT_NONE, flags, -1, 0);
            assert_ne!(map as isize, -1, "no memory");
            let start = map.cast::<u8>().add(PAGE);
            assert_eq!(mprotect(start.cast(), bytes, protection), 0, "mprotect");
            Guarded { start, bytes }
        }
    }

    fn all(&mut self) -> &mut [u8] {
        // SAFETY: all of it may be read and written, and no area is placed while this is used.
        unsafe { std::slice::from_raw_parts_mut(self.start, self.bytes) }
    }

    // So many bytes flush against the guard behind them, or in front of them.
    pub fn area(&self, bytes: usize, at_end: bool) -> Placed {
        assert!(bytes <= self.bytes, "an area of {bytes} bytes");
        let offset = if at_end { self.bytes - bytes } else { 0 };
        let at = self.start.wrapping_add(offset);
        Placed { at, bytes }
    }

    pub fn place(&mut self, content: &[u8], at_end: bool) -> Placed {
        let placed = self.area(content.len(), at_end);
        let offset = placed.at as usize - self.start as usize;
        self.all()[offset..][..content.len()].copy_from_slice(content);
        placed
    }

    // Takes an area away; whether what is beside it was left alone.
    pub fn clear(&mut self, placed: Placed) -> bool {
        let offset = placed.at as usize - self.start as usize;
        let end = offset + placed.bytes;
        let bytes = self.bytes;
        let all = self.all();
        let before = &all[offset.saturating_sub(NEAR)..offset];
        let behind = &all[end..bytes.min(end + NEAR)];
        let same = before.iter().chain(behind).all(|&byte| byte == SLACK);
        all[offset..end].fill(SLACK);
        same
    }

    // Whether all of it is as it was, while nothing is placed.
    pub fn is_clear(&mut self) -> bool {
        self.all().iter().all(|&byte| byte == SLACK)
    }
}
