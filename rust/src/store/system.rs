//! What else the system is asked for.
use std::ffi::c_int;
use std::fs::File;
use std::io;
use std::os::fd::AsRawFd;

extern "C" {
    fn posix_fadvise64(fd: c_int, from: i64, len: i64, advice: c_int) -> c_int;
    fn flock(fd: c_int, how: c_int) -> c_int;
}

/// Those errors that tell of too many handles, in the process and in the system.
const TOO_MANY: [i32; 2] = [24, 23];

/// What is read of a file from now on comes from the disk, where that is all the same to the system.
pub fn forget(file: &File) {
    const DONTNEED: c_int = 4;
    // SAFETY: no pointer is given.
    unsafe { posix_fadvise64(file.as_raw_fd(), 0, 0, DONTNEED) };
}

/// Keeps others out of a file while it is open, unless one of them does so (`File::try_lock`, which Rust has since 1.89).
pub fn lock(file: &File) -> io::Result<()> {
    const EXCLUSIVE: c_int = 2;
    const AT_ONCE: c_int = 4;
    // SAFETY: no pointer is given.
    match unsafe { flock(file.as_raw_fd(), EXCLUSIVE | AT_ONCE) } {
        0 => Ok(()),
        _ => Err(io::Error::last_os_error()),
    }
}

/// Whether there were too many handles for what failed.
#[must_use]
pub fn is_of_handles(error: &io::Error) -> bool {
    error.raw_os_error().is_some_and(|number| TOO_MANY.contains(&number))
}
