//! What the system has ready, by `epoll`, the signals that it sends, the memory that is in use, and how many handles may be.
use std::ffi::{c_int, c_long, c_short, c_ulong, c_void};
use std::io::{self, ErrorKind, Write};
use std::net::TcpStream;
use std::os::fd::{AsRawFd, FromRawFd, OwnedFd};
use std::os::unix::net::UnixStream;
use std::thread;
use std::time::Duration;

/// As the kernel declares it: on this processor alone it is packed.
#[cfg_attr(target_arch = "x86_64", repr(C, packed))]
#[cfg_attr(not(target_arch = "x86_64"), repr(C))]
#[derive(Clone, Copy)]
struct Event {
    events: u32,
    of: u64,
}

/// A handle that is waited for, and for how long.
#[repr(C)]
struct Waited {
    fd: c_int,
    events: c_short,
    came: c_short,
}

#[repr(C)]
struct Span {
    seconds: c_long,
    nanos: c_long,
}

/// What memory allocated by the C library is: the bytes mapped are the fifth, those in use beside these the eighth.
#[repr(C)]
struct Allocated([usize; 10]);

/// How many of something may be: now, and at the most.
#[repr(C)]
struct Limit {
    soft: u64,
    hard: u64,
}

extern "C" {
    fn getrlimit(of: c_int, limit: *mut Limit) -> c_int;
    fn setrlimit(of: c_int, limit: *const Limit) -> c_int;
    fn setsockopt(fd: c_int, level: c_int, name: c_int, value: *const c_void, len: u32) -> c_int;
    fn setpriority(kind: c_int, of: u32, nice: c_int) -> c_int;
    fn umask(mask: u32) -> u32;
    fn epoll_create1(flags: c_int) -> c_int;
    fn epoll_ctl(epoll: c_int, op: c_int, fd: c_int, event: *mut Event) -> c_int;
    fn epoll_wait(epoll: c_int, events: *mut Event, most: c_int, timeout: c_int) -> c_int;
    fn ppoll(handles: *mut Waited, count: c_ulong, timeout: *const Span, mask: *const c_void) -> c_int;
    fn pthread_sigmask(how: c_int, set: *const [u64; 16], old: *mut [u64; 16]) -> c_int;
    fn mallinfo2() -> Allocated;
    fn malloc_trim(kept: usize) -> c_int;
    fn sigwait(set: *const [u64; 16], signal: *mut c_int) -> c_int;
}

const CLOEXEC: c_int = 0o2000000;
const IN: u32 = 1;
const OUT: u32 = 4;
const SIGINT: u32 = 2;
pub const SIGUSR1: u32 = 10;
const SIGTERM: u32 = 15;

/// How far a thread steps back behind those that serve.
const STEP: c_int = 10;
/// Open handles, as a limit of the system.
const HANDLES: c_int = 7;
/// So many seconds a connection is silent until it is looked whether its other side is there, so many between tries, and so many tries.
const KEPT_ALIVE: [(c_int, c_int, c_int); 4] = [(1, 9, 1), (6, 4, 300), (6, 5, 100), (6, 6, 3)];

pub(super) fn checked(did: c_int) -> io::Result<c_int> {
    if did < 0 {
        return Err(io::Error::last_os_error());
    }
    Ok(did)
}

/// Signals interrupt nothing from now on, in no thread that is started later either: each is told by a byte of its number.
pub fn signals(mut tell: UnixStream) {
    let mut set = [0; 16];
    set[0] = [SIGINT, SIGUSR1, SIGTERM].iter().map(|signal| 1 << (signal - 1)).sum();
    // Safety: the set has the size of the C library's, 128 bytes, and lives for the call; no old one is asked for.
    unsafe { pthread_sigmask(0, &set, std::ptr::null_mut()) };
    thread::spawn(move || loop {
        let mut signal = 0;
        // Safety: both live for the call.
        unsafe { sigwait(&set, &mut signal) };
        while tell.write(&[signal as u8]).is_err() {
            thread::sleep(Duration::from_millis(10));
        }
    });
}

/// How many bytes of memory are in use.
pub fn memory() -> u64 {
    // Safety: it takes nothing, and is told by value.
    let Allocated(of) = unsafe { mallinfo2() };
    (of[4] + of[7]) as u64
}

/// Lets this process have as many handles as it may: how many.
pub fn raise_handles() -> u64 {
    let mut limit = Limit { soft: 0, hard: 0 };
    // Safety: both live for their calls, and are as the C library declares them.
    unsafe {
        getrlimit(HANDLES, &mut limit);
        if setrlimit(HANDLES, &Limit { soft: limit.hard, ..limit }) == 0 {
            return limit.hard;
        }
    }
    limit.soft
}

/// Gives memory that nothing uses back to the system.
pub fn give_memory_back() {
    // Safety: it takes a number, of bytes that are kept.
    unsafe { malloc_trim(0) };
}

/// Lets other threads go before the one that says so, where not all can go on.
pub fn step_back() {
    // Safety: it takes numbers: of a thread, the one that calls, and how far it steps back.
    unsafe { setpriority(0, 0, STEP) };
}

/// Files and folders are made for their owner alone from now on.
pub fn own_files() {
    // Safety: it takes a number, and can't fail.
    unsafe { umask(0o077) };
}

/// Has the system look from time to time whether the other side is there yet.
pub fn keep_alive(socket: &TcpStream) -> io::Result<()> {
    for (level, name, value) in KEPT_ALIVE {
        let (at, len) = ((&raw const value).cast(), size_of::<c_int>() as u32);
        // Safety: the value lives for the call, and has this length. A handle that isn't open is refused.
        checked(unsafe { setsockopt(socket.as_raw_fd(), level, name, at, len) })?;
    }
    Ok(())
}

pub struct Poll(OwnedFd);

impl Poll {
    pub fn new() -> io::Result<Poll> {
        // Safety: no pointer is given.
        let fd = checked(unsafe { epoll_create1(CLOEXEC) })?;
        // Safety: the system has just opened it, for nobody else.
        Ok(Poll(unsafe { OwnedFd::from_raw_fd(fd) }))
    }

    /// Waits for a handle, which is new or not, to be read and to be written.
    pub fn ask(&self, is_new: bool, fd: &impl AsRawFd, of: u64, (read, write): (bool, bool)) -> io::Result<()> {
        let mut event = Event { events: if read { IN } else { 0 } | if write { OUT } else { 0 }, of };
        // Safety: the event lives for the call. A handle that isn't open is refused.
        checked(unsafe { epoll_ctl(self.0.as_raw_fd(), if is_new { 1 } else { 3 }, fd.as_raw_fd(), &mut event) })
            .map(drop)
    }

    /// Waits for so long, or for ever, and tells whose handles are ready, and whether to be read.
    pub fn wait(&self, patience: Option<Duration>) -> io::Result<Vec<(u64, bool)>> {
        let mut events = [Event { events: 0, of: 0 }; 256];
        let timeout = patience.map_or(-1, |it| it.as_millis() as c_int);
        if let Some(short) = patience.filter(|it| timeout == 0 && !it.is_zero()) {
            // That waits for whole milliseconds alone.
            let mut waited = Waited { fd: self.0.as_raw_fd(), events: IN as c_short, came: 0 };
            let span = Span { seconds: 0, nanos: short.subsec_nanos().into() };
            // Safety: there is one handle, and both live for the call; signals are as they were.
            unsafe { ppoll(&mut waited, 1, &span, std::ptr::null()) };
        }
        // Safety: there is room for so many events.
        let count = match checked(unsafe { epoll_wait(self.0.as_raw_fd(), events.as_mut_ptr(), 256, timeout) }) {
            Err(error) if error.kind() == ErrorKind::Interrupted => 0,
            did => did?,
        };
        Ok(events[..count as usize].iter().map(|it| (it.of, it.events & !OUT != 0)).collect())
    }
}
