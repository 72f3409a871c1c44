//! Buffers to lend across the C boundary: each ends or starts at a page that may not be touched, so that a read or write past it
//! ends the run, and has guard bytes on the sides where it does not.
use std::ptr;

const PAGE: usize = 4096;
const GUARD: usize = 96;

extern "C" {
    fn mmap(at: *mut u8, len: usize, protection: i32, flags: i32, file: i32, offset: i64) -> *mut u8;
    fn mprotect(at: *mut u8, len: usize, protection: i32) -> i32;
    fn munmap(at: *mut u8, len: usize) -> i32;
}

const NONE: i32 = 0;
const READ_WRITE: i32 = 3;
const PRIVATE_ANONYMOUS: i32 = 0x22;

/// Where a buffer stands between the two forbidden pages.
#[derive(Clone, Copy, Debug)]
pub enum Place {
    /// Its first byte follows a forbidden page.
    First,
    /// Its last byte stands before a forbidden page.
    Last,
    /// So many bytes after the first place, guard bytes on both sides.
    Inner(usize),
}

/// Room for one buffer at a time, between two forbidden pages.
pub struct Fence {
    base: *mut u8,
    room: usize,
    at: usize,
    len: usize,
}

/// The guard byte at a place: no constant, so that a shifted copy is seen.
fn guard(at: usize) -> u8 {
    0xa5 ^ (at as u8).wrapping_mul(29)
}

impl Fence {
    pub fn new(room: usize) -> Fence {
        let room = (room + 2 * GUARD).div_ceil(PAGE) * PAGE;
        // SAFETY: a new private mapping; its first and last pages are then forbidden.
        let base = unsafe {
            let base = mmap(ptr::null_mut(), room + 2 * PAGE, READ_WRITE, PRIVATE_ANONYMOUS, -1, 0);
            assert!(base as isize != -1, "no memory");
            assert_eq!(mprotect(base, PAGE, NONE), 0);
            assert_eq!(mprotect(base.add(PAGE + room), PAGE, NONE), 0);
            base
        };
        Fence { base, room, at: 0, len: 0 }
    }

    fn room(&mut self) -> &mut [u8] {
        // SAFETY: the pages between the two forbidden ones are ours and readable and writable.
        unsafe { std::slice::from_raw_parts_mut(self.base.add(PAGE), self.room) }
    }

    /// Lays these bytes down at a place, guard bytes around them.
    pub fn lay(&mut self, bytes: &[u8], place: Place) {
        let spare = self.room.checked_sub(bytes.len()).expect("buffer longer than its fence");
        let at = match place {
            Place::First => 0,
            Place::Last => spare,
            Place::Inner(n) => n.min(spare),
        };
        (self.at, self.len) = (at, bytes.len());
        let (before, after) = (at.saturating_sub(GUARD), (at + bytes.len() + GUARD).min(self.room));
        let room = self.room();
        for (i, b) in room.iter_mut().enumerate().take(after).skip(before) {
            *b = guard(i);
        }
        room[at..at + bytes.len()].copy_from_slice(bytes);
    }

    /// Where the buffer starts.
    pub fn ptr(&mut self) -> *mut u8 {
        // SAFETY: `at` is within the room, or just past its end for an empty buffer.
        unsafe { self.base.add(PAGE + self.at) }
    }

    /// The buffer's bytes now.
    pub fn bytes(&mut self) -> &[u8] {
        let (at, len) = (self.at, self.len);
        &self.room()[at..at + len]
    }

    /// Are the guard bytes as they were laid down?
    pub fn guards_stand(&mut self) -> bool {
        let (at, len, end) = (self.at, self.len, self.room);
        let room = self.room();
        let before = at.saturating_sub(GUARD)..at;
        let after = at + len..(at + len + GUARD).min(end);
        before.chain(after).all(|i| room[i] == guard(i))
    }
}

impl Drop for Fence {
    fn drop(&mut self) {
        // SAFETY: the mapping made in `new`.
        unsafe { munmap(self.base, self.room + 2 * PAGE) };
    }
}
