//! Rooms for bytes that are lent: between pages that may not be touched, so that a read or a write too far ends the
//! program.

use std::ffi::c_void;
use std::{ptr, slice};

#[cfg(test)]
mod tests;

extern "C" {
    fn mmap(at: *mut c_void, length: usize, protection: i32, flags: i32, file: i32, from: i64)
        -> *mut c_void;
    fn mprotect(at: *mut c_void, length: usize, protection: i32) -> i32;
}

// Linux's numbers.
const PROT_NONE: i32 = 0;
const PROT_READ: i32 = 1;
const PROT_WRITE: i32 = 2;
const MAP_PRIVATE_ANONYMOUS: i32 = 0x22;

/// A multiple of the page size of every machine.
const PAGES: usize = 65_536;
/// How many bytes a room can lend.
pub const ROOM: usize = 2 * PAGES;
const PAINT: u8 = 0xa5;

/// Where in its room a slice stands: right behind a page that may not be touched, or right before one.
#[derive(Clone, Copy, Debug, PartialEq, Eq)]
pub enum Edge {
    Start,
    End,
}

/// Painted but for the bytes that stand in it. It stays until the program ends.
pub struct Room {
    at: *mut u8,
    lent: (usize, usize),
}

impl Room {
    #[allow(clippy::new_without_default)]
    pub fn new() -> Room {
        let length = ROOM + 2 * PAGES;
        let all = unsafe { mmap(ptr::null_mut(), length, PROT_NONE, MAP_PRIVATE_ANONYMOUS, -1, 0) };
        assert!(all as isize != -1, "no memory");
        let mut room = Room { at: unsafe { all.cast::<u8>().add(PAGES) }, lent: (0, 0) };
        room.protect(PROT_READ | PROT_WRITE);
        room.bytes().fill(PAINT);
        room
    }

    fn protect(&mut self, protection: i32) {
        assert_eq!(unsafe { mprotect(self.at.cast(), ROOM, protection) }, 0, "pages cannot be changed");
    }

    fn bytes(&mut self) -> &mut [u8] {
        unsafe { slice::from_raw_parts_mut(self.at, ROOM) }
    }

    /// Puts the bytes at the edge. If the room is `closed` they can only be read.
    pub fn lend(&mut self, bytes: &[u8], edge: Edge, closed: bool) -> &mut [u8] {
        self.protect(PROT_READ | PROT_WRITE);
        let (start, end) = self.lent;
        self.bytes()[start..end].fill(PAINT);
        self.lent = match edge {
            Edge::Start => (0, bytes.len()),
            Edge::End => (ROOM - bytes.len(), ROOM),
        };
        let (start, end) = self.lent;
        self.bytes()[start..end].copy_from_slice(bytes);
        if closed {
            self.protect(PROT_READ);
        }
        &mut self.bytes()[start..end]
    }

    /// No byte beside the lent ones has lost its paint.
    pub fn is_painted(&mut self) -> bool {
        const PAINTED: [u8; 4_096] = [PAINT; 4_096];
        let (start, end) = self.lent;
        let bytes = self.bytes();
        [&bytes[..start], &bytes[end..]]
            .iter()
            .all(|beside| beside.chunks(PAINTED.len()).all(|part| part == &PAINTED[..part.len()]))
    }
}
