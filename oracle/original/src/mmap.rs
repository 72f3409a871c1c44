//! Stand-in for mmap.rs: a shared map of a whole file and no more. A place past the file stops the call, and so does a walk that
//! takes more looks than it was given, or grows the file past all that is compared.

use crate::error::{Error, Result};
use std::{cell::Cell, ffi::c_void, fs::File, os::fd::AsRawFd};

extern "C" {
    fn mmap(at: *mut c_void, len: usize, protection: i32, flags: i32, file: i32, offset: i64) -> *mut c_void;
    fn munmap(at: *mut c_void, len: usize) -> i32;
}

const READ_AND_WRITE: i32 = 1 | 2;
const SHARED: i32 = 1;
/// A file that grows past this is taken to grow without end.
const LONGEST: usize = 4 << 20;

thread_local! {
    /// How many looks were taken, and how many may be.
    static LOOKS: Cell<(u64, u64)> = const { Cell::new((0, u64::MAX)) };
}

/// Why the stand-in stopped a call.
#[derive(Debug, Clone, Copy, PartialEq, Eq)]
pub enum Stopped {
    PastFile,
    Endless,
    TooLong,
}

/// Counts one look at a slot.
pub fn look() {
    let over = LOOKS.with(|cell| {
        let (looks, limit) = cell.get();
        cell.set((looks + 1, limit));
        looks >= limit
    });
    if over {
        std::panic::panic_any(Stopped::Endless);
    }
}

/// Starts the count of looks anew.
pub fn allow(limit: u64) {
    LOOKS.set((0, limit));
}

pub fn looks() -> u64 {
    LOOKS.get().0
}

#[derive(Debug)]
pub struct Mmap {
    at: *mut u8,
    len: usize,
}

impl Mmap {
    /// A map of the file as long as it is now; `_len` is what the original reserves from.
    pub fn map_growable(file: &File, _len: usize) -> Result<Self> {
        let len = file.metadata().map_err(Error::Io)?.len() as usize;
        if len > LONGEST {
            std::panic::panic_any(Stopped::TooLong);
        }
        let at = unsafe { mmap(std::ptr::null_mut(), len, READ_AND_WRITE, SHARED, file.as_raw_fd(), 0) };
        if at as isize == -1 {
            return Err(Error::Io(std::io::Error::last_os_error()));
        }
        Ok(Mmap { at: at as *mut u8, len })
    }

    #[allow(clippy::len_without_is_empty)]
    pub fn len(&self) -> usize {
        self.len
    }

    fn inside(&self, offset: usize, len: usize) {
        if offset.checked_add(len).is_none_or(|end| end > self.len) {
            std::panic::panic_any(Stopped::PastFile);
        }
    }

    /// The whole file.
    pub fn all(&self) -> &[u8] {
        unsafe { std::slice::from_raw_parts(self.at, self.len) }
    }

    pub fn slice(&self, offset: usize, len: usize) -> &[u8] {
        look();
        self.inside(offset, len);
        unsafe { std::slice::from_raw_parts(self.at.add(offset), len) }
    }

    pub fn read_at(&self, buf: &mut [u8], offset: usize) {
        look();
        self.inside(offset, buf.len());
        unsafe { std::ptr::copy_nonoverlapping(self.at.add(offset), buf.as_mut_ptr(), buf.len()) }
    }

    /// # Safety
    /// No slice of this range may be in use.
    pub unsafe fn write_at(&self, buf: &[u8], offset: usize) {
        self.inside(offset, buf.len());
        std::ptr::copy_nonoverlapping(buf.as_ptr(), self.at.add(offset), buf.len())
    }

    pub fn flush(&self) -> Result<()> {
        Ok(())
    }
}

impl Drop for Mmap {
    fn drop(&mut self) {
        unsafe { munmap(self.at as *mut c_void, self.len) };
    }
}
