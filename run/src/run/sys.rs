//! The few system calls that the standard library doesn't have: ptrace, and the memory of a traced process.
use std::cell::RefCell;
use std::cmp::Ordering;
use std::ffi::{CStr, CString, OsStr};
use std::fs::{self, File, Metadata, Permissions};
use std::io::{self, Read};
use std::mem::ManuallyDrop;
use std::os::fd::{AsRawFd, FromRawFd, OwnedFd, RawFd};
use std::os::unix::ffi::OsStrExt;
use std::os::unix::fs::PermissionsExt;
use std::path::Path;

pub type Pid = i32;
pub type Regs = libc::user_regs_struct;

/// What a stopped process was stopped by.
#[derive(Clone, Copy, PartialEq, Eq, Debug)]
pub enum Stop {
    Fork,
    Vfork,
    Clone,
    Exec,
    Filter,
    /// An interrupt of ours, a newborn, or (with that signal) a stop of its whole group.
    Trap(i32),
    /// Just before or just behind a call that it was made to make.
    Call,
    Signal(i32),
    Other,
}

/// What `wait` tells of a process.
#[derive(Clone, Copy, PartialEq, Eq, Debug)]
pub enum Told {
    Ended(i32),
    Stopped(Stop),
}

#[derive(Clone, Copy)]
pub struct Waited {
    pub pid: Pid,
    pub told: Told,
    pub usage: libc::rusage,
}

/// Options with which each process is traced: births, exec, filter, marked calls, all end with us.
pub const TRACE_OPTIONS: usize = (libc::PTRACE_O_TRACESYSGOOD
    | libc::PTRACE_O_TRACEFORK
    | libc::PTRACE_O_TRACEVFORK
    | libc::PTRACE_O_TRACECLONE
    | libc::PTRACE_O_TRACEEXEC
    | libc::PTRACE_O_TRACESECCOMP
    | libc::PTRACE_O_EXITKILL) as usize;

const SEIZE: u32 = 0x4206;
const INTERRUPT: u32 = 0x4207;
const LISTEN: u32 = 0x4208;
const GETEVENTMSG: u32 = 0x4201;
const GETREGSET: u32 = 0x4204;
const SETREGSET: u32 = 0x4205;
const PEEKSIGINFO: u32 = 0x4209;
const GETSIGMASK: u32 = 0x420a;
const SETSIGMASK: u32 = 0x420b;
const SETSIGINFO: u32 = 0x4203;
const GET_RSEQ: u32 = 0x420f;
const NT_X86_XSTATE: usize = 0x202;

fn ptrace(request: u32, pid: Pid, addr: usize, data: usize) -> io::Result<i64> {
    // SAFETY: `addr` and `data` are what the request wants of them, as each caller below says.
    let r = unsafe { libc::syscall(libc::SYS_ptrace, request as usize, pid as usize, addr, data) };
    if r < 0 {
        Err(io::Error::last_os_error())
    } else {
        Ok(r)
    }
}

pub fn seize(pid: Pid) -> io::Result<()> {
    ptrace(SEIZE, pid, 0, TRACE_OPTIONS).map(drop)
}
pub fn registers(pid: Pid) -> io::Result<Regs> {
    // SAFETY: registers are plain numbers.
    let mut r: Regs = unsafe { std::mem::zeroed() };
    ptrace(libc::PTRACE_GETREGS, pid, 0, &raw mut r as usize)?;
    Ok(r)
}
pub fn set_registers(pid: Pid, r: &Regs) -> io::Result<()> {
    ptrace(libc::PTRACE_SETREGS, pid, 0, std::ptr::from_ref(r) as usize).map(drop)
}
pub fn go_on(pid: Pid, signal: i32) -> io::Result<()> {
    ptrace(libc::PTRACE_CONT, pid, 0, signal as usize).map(drop)
}
/// Goes on up to the next call, or to the end of the one that it is in.
pub fn to_call(pid: Pid) -> io::Result<()> {
    ptrace(libc::PTRACE_SYSCALL, pid, 0, 0).map(drop)
}
pub fn interrupt(pid: Pid) -> io::Result<()> {
    ptrace(INTERRUPT, pid, 0, 0).map(drop)
}
/// Leaves a process in its group's stop until a signal lets it go on.
pub fn listen(pid: Pid) -> io::Result<()> {
    ptrace(LISTEN, pid, 0, 0).map(drop)
}
/// The child of a birth, or the former number of who made an exec.
pub fn event_pid(pid: Pid) -> Pid {
    let mut v: u64 = 0;
    let _ = ptrace(GETEVENTMSG, pid, 0, &raw mut v as usize);
    v as Pid
}
pub fn float_state(pid: Pid) -> Vec<u8> {
    let mut v = vec![0u8; 16384];
    let mut at = libc::iovec { iov_base: v.as_mut_ptr().cast(), iov_len: v.len() };
    let _ = ptrace(GETREGSET, pid, NT_X86_XSTATE, &raw mut at as usize);
    v.truncate(at.iov_len);
    v
}
pub fn set_float_state(pid: Pid, v: &[u8]) {
    let at = libc::iovec { iov_base: v.as_ptr().cast_mut().cast(), iov_len: v.len() };
    let _ = ptrace(SETREGSET, pid, NT_X86_XSTATE, &raw const at as usize);
}
pub fn signal_mask(pid: Pid) -> u64 {
    let mut m = 0u64;
    let _ = ptrace(GETSIGMASK, pid, 8, &raw mut m as usize);
    m
}
pub fn set_signal_mask(pid: Pid, m: u64) {
    let _ = ptrace(SETSIGMASK, pid, 8, &raw const m as usize);
}
/// A signal's information as the kernel has it.
pub type SigInfo = [i32; 32];
pub fn set_signal_info(pid: Pid, i: &SigInfo) {
    let _ = ptrace(SETSIGINFO, pid, 0, i.as_ptr() as usize);
}
/// The signals that are pending: a thread's own, or its process's.
pub fn pending(pid: Pid, of_process: bool) -> Vec<SigInfo> {
    #[repr(C)]
    struct Args {
        off: u64,
        flags: u32,
        nr: i32,
    }
    let a = Args { off: 0, flags: u32::from(of_process), nr: 32 };
    let mut v: Vec<SigInfo> = vec![[0; 32]; 32];
    let n = ptrace(PEEKSIGINFO, pid, &raw const a as usize, v.as_mut_ptr() as usize).unwrap_or(0);
    v.truncate(usize::try_from(n).unwrap_or(0));
    v
}
/// Where the thread's restartable sequences are: address, length and signature, flags.
pub fn rseq(pid: Pid) -> [u64; 3] {
    let mut v = [0u64; 3];
    let _ = ptrace(GET_RSEQ, pid, 24, v.as_mut_ptr() as usize);
    v
}
pub fn robust_list(pid: Pid) -> (u64, u64) {
    let mut v = (0u64, 0u64);
    // SAFETY: both are written by the kernel, and are ours.
    unsafe { libc::syscall(libc::SYS_get_robust_list, pid, &raw mut v.0, &raw mut v.1) };
    v
}

fn told(status: i32) -> Told {
    if !libc::WIFSTOPPED(status) {
        return Told::Ended(status);
    }
    let signal = libc::WSTOPSIG(status);
    Told::Stopped(match status >> 16 {
        0 if signal == libc::SIGTRAP | 0x80 => Stop::Call,
        0 => Stop::Signal(signal),
        libc::PTRACE_EVENT_FORK => Stop::Fork,
        libc::PTRACE_EVENT_VFORK => Stop::Vfork,
        libc::PTRACE_EVENT_CLONE => Stop::Clone,
        libc::PTRACE_EVENT_EXEC => Stop::Exec,
        libc::PTRACE_EVENT_SECCOMP => Stop::Filter,
        libc::PTRACE_EVENT_STOP => Stop::Trap(signal),
        _ => Stop::Other,
    })
}
thread_local! {
    /// Ends that came where another event was waited for: the next wait tells of them.
    static PUT_BACK: RefCell<Vec<Waited>> = const { RefCell::new(Vec::new()) };
}
/// Whoever waits for this process, or for any, is told of this once more.
pub fn put_back(w: Waited) {
    PUT_BACK.with_borrow_mut(|all| all.push(w));
}
fn wait4(pid: Pid, flags: i32) -> Option<Waited> {
    let kept = PUT_BACK.with_borrow_mut(|all| {
        let at = all.iter().position(|w| pid == -1 || w.pid == pid)?;
        Some(all.remove(at))
    });
    if kept.is_some() {
        return kept;
    }
    let mut status = 0;
    // SAFETY: plain numbers.
    let mut usage: libc::rusage = unsafe { std::mem::zeroed() };
    // SAFETY: both are ours.
    let r = unsafe { libc::wait4(pid, &raw mut status, flags | libc::__WALL, &raw mut usage) };
    (r > 0).then(|| Waited { pid: r, told: told(status), usage })
}
/// Waits for what happens to this process (-1: to any); `None` where there is none.
pub fn wait(pid: Pid) -> Option<Waited> {
    loop {
        if let Some(w) = wait4(pid, 0) {
            return Some(w);
        }
        if io::Error::last_os_error().raw_os_error() != Some(libc::EINTR) {
            return None;
        }
    }
}
/// As `wait` of any, but a signal ends it.
pub fn wait_or_signal() -> Option<Waited> {
    wait4(-1, 0)
}

pub fn read_memory(pid: Pid, addr: u64, buf: &mut [u8]) -> bool {
    let here = libc::iovec { iov_base: buf.as_mut_ptr().cast(), iov_len: buf.len() };
    let there = libc::iovec { iov_base: addr as *mut _, iov_len: buf.len() };
    // SAFETY: the kernel writes into `buf` only, and refuses addresses that the process doesn't have.
    unsafe { libc::process_vm_readv(pid, &raw const here, 1, &raw const there, 1, 0) == buf.len() as isize }
}
pub fn read_word(pid: Pid, addr: u64) -> Option<u64> {
    let mut b = [0u8; 8];
    read_memory(pid, addr, &mut b).then(|| u64::from_le_bytes(b))
}
/// Writes where the process itself may not.
pub fn write_word(pid: Pid, addr: u64, word: u64) -> bool {
    ptrace(libc::PTRACE_POKEDATA, pid, addr as usize, word as usize).is_ok()
}
pub fn write_memory(pid: Pid, addr: u64, buf: &[u8]) -> bool {
    let here = libc::iovec { iov_base: buf.as_ptr().cast_mut().cast(), iov_len: buf.len() };
    let there = libc::iovec { iov_base: addr as *mut _, iov_len: buf.len() };
    // SAFETY: the memory written is the traced process's, where its call wants an answer.
    unsafe { libc::process_vm_writev(pid, &raw const here, 1, &raw const there, 1, 0) == buf.len() as isize }
}
/// A string that ends with a zero.
pub fn read_string(pid: Pid, mut addr: u64) -> Option<Vec<u8>> {
    let mut v = Vec::new();
    let mut buf = [0u8; 256];
    while v.len() < 4096 {
        let n = (4096 - (addr as usize & 4095)).min(256);
        if !read_memory(pid, addr, &mut buf[..n]) {
            return None;
        }
        if let Some(i) = buf[..n].iter().position(|b| *b == 0) {
            v.extend_from_slice(&buf[..i]);
            return Some(v);
        }
        v.extend_from_slice(&buf[..n]);
        addr += n as u64;
    }
    None
}

/// A path for the kernel. A path of the tree's has no zero in it.
pub fn c_path(p: &Path) -> CString {
    CString::new(p.as_os_str().as_bytes()).unwrap_or_default()
}
pub fn c_str(s: impl AsRef<OsStr>) -> CString {
    CString::new(s.as_ref().as_bytes()).unwrap_or_default()
}
/// Opens a path with these flags; `O_CLOEXEC` is added.
pub fn open(p: &Path, flags: i32) -> io::Result<OwnedFd> {
    let c = c_path(p);
    // SAFETY: `c` ends with a zero; the descriptor is new, so it is ours alone.
    unsafe {
        let fd = libc::open(c.as_ptr(), flags | libc::O_CLOEXEC, 0o600);
        if fd < 0 {
            Err(io::Error::last_os_error())
        } else {
            Ok(OwnedFd::from_raw_fd(fd))
        }
    }
}
/// Makes a file below a folder, with as few calls as can be.
pub fn make_file(folder: RawFd, name: &Path, size: u64, mode: u32, at: (i64, i64)) -> io::Result<()> {
    let c = c_path(name);
    let flags = libc::O_CREAT | libc::O_EXCL | libc::O_WRONLY | libc::O_CLOEXEC;
    // SAFETY: `c` ends with a zero; the descriptor is new, so it is ours alone.
    let file = unsafe {
        let fd = libc::openat(folder, c.as_ptr(), flags, 0o600);
        if fd < 0 {
            return Err(io::Error::last_os_error());
        }
        OwnedFd::from_raw_fd(fd)
    };
    let t = [libc::timespec { tv_sec: at.0, tv_nsec: at.1 }; 2];
    let fd = file.as_raw_fd();
    // SAFETY: `t` has two times; else numbers.
    let bad = unsafe {
        libc::fchmod(fd, mode) != 0
            || (size > 0 && libc::ftruncate(fd, size as i64) != 0)
            || libc::futimens(fd, t.as_ptr()) != 0
    };
    if bad {
        return Err(io::Error::last_os_error());
    }
    Ok(())
}
/// Opens a file of ours to read it, whatever its mode says, and so that its time of access stays, where that is allowed.
pub fn open_quietly(p: &Path) -> io::Result<File> {
    let read = || open(p, libc::O_RDONLY | libc::O_NOATIME).or_else(|_| open(p, libc::O_RDONLY)).map(File::from);
    let refused = |e: &io::Error| e.kind() == io::ErrorKind::PermissionDenied;
    read().or_else(|e| {
        let mode = fs::metadata(p).ok().filter(|_| refused(&e)).ok_or(e)?.permissions();
        fs::set_permissions(p, Permissions::from_mode(mode.mode() | 0o400))?;
        let file = read();
        fs::set_permissions(p, mode)?;
        file
    })
}
pub fn read_quietly(p: &Path) -> io::Result<Vec<u8>> {
    let mut contents = Vec::new();
    open_quietly(p)?.read_to_end(&mut contents)?;
    Ok(contents)
}
/// As many files may be open from here on as may be at all; returns the limit of before.
pub fn open_many_files() -> libc::rlimit {
    let mut was = libc::rlimit { rlim_cur: 0, rlim_max: 0 };
    // SAFETY: both limits are ours.
    unsafe {
        libc::getrlimit(libc::RLIMIT_NOFILE, &raw mut was);
        libc::setrlimit(libc::RLIMIT_NOFILE, &libc::rlimit { rlim_cur: was.rlim_max, ..was });
    }
    was
}
/// Whether no process of this machine has a file open: a lease to write it is given then alone. `false` where none is to be had.
pub fn is_nowhere_open(p: &Path) -> bool {
    has_lease(p, libc::F_WRLCK) == Some(true)
}
/// Whether none has it open for writing, or mapped so: a lease to read it is given then alone. `None` where none is to be had.
pub fn is_nowhere_written(p: &Path) -> Option<bool> {
    has_lease(p, libc::F_RDLCK)
}
fn has_lease(p: &Path, kind: i32) -> Option<bool> {
    let file = open(p, libc::O_RDONLY | libc::O_NONBLOCK | libc::O_NOFOLLOW).ok()?;
    // SAFETY: numbers only; the lease ends with the descriptor.
    match unsafe { libc::fcntl(file.as_raw_fd(), libc::F_SETLEASE, kind) } {
        0 => Some(true),
        _ if io::Error::last_os_error().kind() == io::ErrorKind::WouldBlock => Some(false),
        _ => None,
    }
}
/// A handle of a file that neither reads nor writes, by which it can be opened again.
pub fn handle(p: &Path) -> io::Result<OwnedFd> {
    open(p, libc::O_PATH)
}
pub fn fd_path(fd: RawFd) -> std::path::PathBuf {
    format!("/proc/self/fd/{fd}").into()
}
pub fn stat(fd: RawFd) -> io::Result<libc::stat> {
    // SAFETY: plain numbers.
    let mut st: libc::stat = unsafe { std::mem::zeroed() };
    // SAFETY: `st` is ours.
    if unsafe { libc::fstat(fd, &raw mut st) } != 0 {
        return Err(io::Error::last_os_error());
    }
    Ok(st)
}
/// What is known of the file that a handle is of.
pub fn metadata(handle: &OwnedFd) -> io::Result<Metadata> {
    // SAFETY: it is only looked at, and stays the handle's.
    let file = ManuallyDrop::new(unsafe { File::from_raw_fd(handle.as_raw_fd()) });
    file.metadata()
}
/// Which kind of file system it is on.
pub fn file_system(fd: RawFd) -> Option<i64> {
    // SAFETY: plain numbers.
    let mut st: libc::statfs = unsafe { std::mem::zeroed() };
    // SAFETY: `st` is ours.
    (unsafe { libc::fstatfs(fd, &raw mut st) } == 0).then_some(st.f_type)
}
/// Reads the beginning of a file below a folder.
pub fn read_at(folder: RawFd, name: &CStr, to: &mut [u8]) -> Option<usize> {
    // SAFETY: `name` ends with a zero; the descriptor is new, so it is ours alone; `to` is as long as is said.
    unsafe {
        let fd = libc::openat(folder, name.as_ptr(), libc::O_RDONLY | libc::O_CLOEXEC);
        if fd < 0 {
            return None;
        }
        let file = OwnedFd::from_raw_fd(fd);
        usize::try_from(libc::read(file.as_raw_fd(), to.as_mut_ptr().cast(), to.len())).ok()
    }
}
/// Sets both times of a name itself (not of what a symbolic link names).
pub fn set_times(p: &Path, at: (i64, i64)) {
    set_both_times(p, at, at);
}
/// The same: when it was accessed, and when it was changed.
pub fn set_both_times(p: &Path, accessed: (i64, i64), changed: (i64, i64)) {
    let c = c_path(p);
    let t = [accessed, changed].map(|at| libc::timespec { tv_sec: at.0, tv_nsec: at.1 });
    // SAFETY: `c` ends with a zero, `t` has two times.
    unsafe { libc::utimensat(libc::AT_FDCWD, c.as_ptr(), t.as_ptr(), libc::AT_SYMLINK_NOFOLLOW) };
}
/// Two take each other's names.
pub fn exchange(one: &Path, other: &Path) -> io::Result<()> {
    let (a, b) = (c_path(one), c_path(other));
    // SAFETY: both end with a zero.
    let r = unsafe { libc::renameat2(libc::AT_FDCWD, a.as_ptr(), libc::AT_FDCWD, b.as_ptr(), libc::RENAME_EXCHANGE) };
    if r == 0 {
        Ok(())
    } else {
        Err(io::Error::last_os_error())
    }
}
pub fn link(from: &Path, to: &Path) -> bool {
    let (a, b) = (c_path(from), c_path(to));
    // SAFETY: both end with a zero.
    unsafe { libc::linkat(libc::AT_FDCWD, a.as_ptr(), libc::AT_FDCWD, b.as_ptr(), 0) == 0 }
}
/// Gives a file that we have a handle of one more name.
pub fn link_open(handle: &OwnedFd, to: &Path) -> bool {
    let (a, b) = (c_path(&fd_path(handle.as_raw_fd())), c_path(to));
    // SAFETY: both end with a zero.
    unsafe { libc::linkat(libc::AT_FDCWD, a.as_ptr(), libc::AT_FDCWD, b.as_ptr(), libc::AT_SYMLINK_FOLLOW) == 0 }
}
/// Whether we may change what is in a folder, by its permissions.
pub fn may_write(folder: &Path) -> bool {
    let c = c_path(folder);
    // SAFETY: `c` ends with a zero.
    unsafe { libc::access(c.as_ptr(), libc::W_OK | libc::X_OK) == 0 }
}
pub fn kill(pid: Pid, signal: i32) {
    // SAFETY: a number and a signal; `pid` is a process of the tree or a copy of one.
    unsafe { libc::kill(pid, signal) };
}
/// Puts a child of ours, which has not run another program, into a group.
pub fn set_group(child: Pid, group: Pid) -> bool {
    // SAFETY: numbers only.
    unsafe { libc::setpgid(child, group) == 0 }
}
/// Whether a process is there, or its end is still to be told.
pub fn is_there(pid: Pid) -> bool {
    // SAFETY: numbers only; no signal is sent.
    unsafe { libc::kill(pid, 0) == 0 || PUT_BACK.with_borrow(|all| all.iter().any(|w| w.pid == pid)) }
}
pub fn kill_thread(process: Pid, thread: Pid, signal: i32) {
    // SAFETY: numbers only.
    unsafe { libc::syscall(libc::SYS_tgkill, process, thread, signal) };
}
/// Two descriptors of two processes in an order that the kernel keeps: equal where they are one description.
pub fn compare_descriptions(a: (Pid, RawFd), b: (Pid, RawFd)) -> Ordering {
    const KCMP_FILE: i32 = 0;
    // SAFETY: numbers only.
    match unsafe { libc::syscall(libc::SYS_kcmp, a.0, b.0, KCMP_FILE, a.1, b.1) } {
        0 => Ordering::Equal,
        1 => Ordering::Less,
        2 => Ordering::Greater,
        // where it doesn't tell, all are different
        _ => a.cmp(&b),
    }
}
/// What happened to any process, without waiting.
pub fn wait_if_any() -> Option<Waited> {
    wait4(-1, libc::WNOHANG)
}
