//! Stand-in for the crate `libc`: the one call that file.rs makes. It is advice on read-ahead; here it does nothing.

pub const POSIX_FADV_RANDOM: i32 = 1;

/// # Safety
/// Always safe: nothing is done.
pub unsafe fn posix_fadvise(_fd: i32, _offset: i64, _len: i64, _advice: i32) -> i32 {
    0
}
