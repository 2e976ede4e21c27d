//! Which calls the supervisor sees: a filter of the kernel's hands them to it, all others go by at full speed.
//!
//! Seen are the calls that name a file, that make or wait for a process, and those after which a process could not be
//! copied. `read`, `write`, `close` and `lseek` are the kernel's own.
use crate::run::inside;
use libc::{c_long, sock_filter, BPF_ABS, BPF_JEQ, BPF_JMP, BPF_JSET, BPF_K, BPF_LD, BPF_RET, BPF_W};

/// Calls whose numbers libc does not name.
pub const SYS_FCHMODAT2: c_long = 452;

/// When a call is seen.
#[derive(Clone, Copy)]
enum When {
    Always,
    /// Where the argument of this place has none of these bits.
    Without(u32, u32),
    /// Where the argument of this place has one of these bits.
    With(u32, u32),
    /// Where the argument of this place is one of these.
    OneOf(u32, &'static [i32]),
}

const EMPTY_PATH: u32 = libc::AT_EMPTY_PATH as u32;
/// Locks; and flags, among which is that all that is written goes to the end.
const LOCKS: &[i32] = &[libc::F_SETLK, libc::F_SETLKW, libc::F_OFD_SETLK, libc::F_OFD_SETLKW, libc::F_SETFL];

/// Calls with a path, or that change what a path names.
const FILES: &[(c_long, When)] = &[
    (libc::SYS_open, When::Always),
    (libc::SYS_openat, When::Always),
    (libc::SYS_openat2, When::Always),
    (libc::SYS_creat, When::Always),
    (libc::SYS_stat, When::Always),
    (libc::SYS_lstat, When::Always),
    // of a descriptor itself it is fstat
    (libc::SYS_newfstatat, When::Without(3, EMPTY_PATH)),
    (libc::SYS_statx, When::Without(2, EMPTY_PATH)),
    (libc::SYS_access, When::Always),
    (libc::SYS_faccessat, When::Always),
    (libc::SYS_faccessat2, When::Always),
    (libc::SYS_readlink, When::Always),
    (libc::SYS_readlinkat, When::Always),
    (libc::SYS_unlink, When::Always),
    (libc::SYS_unlinkat, When::Always),
    (libc::SYS_rename, When::Always),
    (libc::SYS_renameat, When::Always),
    (libc::SYS_renameat2, When::Always),
    (libc::SYS_mkdir, When::Always),
    (libc::SYS_mkdirat, When::Always),
    (libc::SYS_rmdir, When::Always),
    (libc::SYS_symlink, When::Always),
    (libc::SYS_symlinkat, When::Always),
    (libc::SYS_link, When::Always),
    (libc::SYS_linkat, When::Always),
    (libc::SYS_chmod, When::Always),
    (libc::SYS_fchmod, When::Always),
    (libc::SYS_fchmodat, When::Always),
    (SYS_FCHMODAT2, When::Always),
    (libc::SYS_utimensat, When::Always),
    (libc::SYS_futimesat, When::Always),
    (libc::SYS_utimes, When::Always),
    (libc::SYS_utime, When::Always),
    (libc::SYS_truncate, When::Always),
    (libc::SYS_mknod, When::Always),
    (libc::SYS_mknodat, When::Always),
    (libc::SYS_execve, When::Always),
    (libc::SYS_execveat, When::Always),
    (libc::SYS_chdir, When::Always),
    (libc::SYS_chown, When::Always),
    (libc::SYS_lchown, When::Always),
    (libc::SYS_fchown, When::Always),
    (libc::SYS_fchownat, When::Always),
    (libc::SYS_setxattr, When::Always),
    (libc::SYS_lsetxattr, When::Always),
    (libc::SYS_fsetxattr, When::Always),
    (libc::SYS_removexattr, When::Always),
    (libc::SYS_lremovexattr, When::Always),
    (libc::SYS_fremovexattr, When::Always),
    (libc::SYS_connect, When::Always),
    (libc::SYS_bind, When::Always),
    (libc::SYS_socket, When::Always),
];

/// Calls that make, wait for or tell of processes.
const PROCESSES: &[(c_long, When)] = &[
    (libc::SYS_clone, When::Always),
    (libc::SYS_fork, When::Always),
    (libc::SYS_vfork, When::Always),
    (libc::SYS_wait4, When::Always),
    (libc::SYS_waitid, When::Always),
    (libc::SYS_getppid, When::Always),
    (libc::SYS_setpgid, When::Always),
    (libc::SYS_setsid, When::Always),
    (libc::SYS_rt_sigaction, When::OneOf(0, &[libc::SIGCHLD])),
    (libc::SYS_sigaltstack, When::Always),
];

/// Calls after which a process has what a fork of it has not.
const UNCOPYABLE: &[(c_long, When)] = &[
    (libc::SYS_setitimer, When::Always),
    (libc::SYS_alarm, When::Always),
    (libc::SYS_timer_create, When::Always),
    (libc::SYS_flock, When::Always),
    (libc::SYS_fcntl, When::OneOf(1, LOCKS)),
    (libc::SYS_mmap, When::With(3, libc::MAP_SHARED as u32)),
    (libc::SYS_shmat, When::Always),
    (libc::SYS_semget, When::Always),
    (libc::SYS_msgget, When::Always),
    (libc::SYS_mq_open, When::Always),
    (libc::SYS_seccomp, When::Always),
    (libc::SYS_prctl, When::OneOf(0, &[libc::PR_SET_SECCOMP])),
];

/// Calls that would go round the supervisor: they are refused.
pub const REFUSED: &[(c_long, i32)] = &[
    (libc::SYS_io_uring_setup, libc::ENOSYS),
    // the C library makes a clone then, which is seen
    (libc::SYS_clone3, libc::ENOSYS),
    (libc::SYS_ptrace, libc::EPERM),
    (libc::SYS_open_by_handle_at, libc::EPERM),
    (libc::SYS_chroot, libc::EPERM),
    (libc::SYS_pivot_root, libc::EPERM),
    (libc::SYS_mount, libc::EPERM),
    (libc::SYS_umount2, libc::EPERM),
    (libc::SYS_move_mount, libc::EPERM),
    (libc::SYS_open_tree, libc::EPERM),
    (libc::SYS_fsopen, libc::EPERM),
    (libc::SYS_unshare, libc::EPERM),
    (libc::SYS_setns, libc::EPERM),
];

const ARCH_X86_64: u32 = 0xC000_003E;
const FIRST_X32: u32 = 0x4000_0000;
const ALLOW: u32 = 0x7fff_0000;
const TRACE: u32 = 0x7ff0_0000;
const ERRNO: u32 = 0x0005_0000;
const NR_AT: u32 = 0;
const ARCH_AT: u32 = 4;
const PLACE_AT: u32 = 8;

fn op(code: u32, jt: u8, jf: u8, k: u32) -> sock_filter {
    sock_filter { code: code as u16, jt, jf, k }
}
fn load(at: u32) -> sock_filter {
    op(BPF_LD | BPF_W | BPF_ABS, 0, 0, at)
}
fn load_arg(place: u32) -> sock_filter {
    load(16 + place * 8)
}
fn give(k: u32) -> sock_filter {
    op(BPF_RET | BPF_K, 0, 0, k)
}
/// Skips `no` operations where what is loaded is not `k`.
fn unless_is(k: u32, no: u8) -> sock_filter {
    op(BPF_JMP | BPF_JEQ | BPF_K, 0, no, k)
}

/// The operations that give a call's answer, where its number is `nr`.
fn rule(f: &mut Vec<sock_filter>, nr: c_long, when: When) {
    let body = match when {
        When::Always => vec![give(TRACE)],
        When::Without(place, bits) => {
            vec![load_arg(place), op(BPF_JMP | BPF_JSET | BPF_K, 0, 1, bits), give(ALLOW), give(TRACE)]
        }
        When::With(place, bits) => {
            vec![load_arg(place), op(BPF_JMP | BPF_JSET | BPF_K, 0, 1, bits), give(TRACE), give(ALLOW)]
        }
        When::OneOf(place, of) => {
            let mut v = vec![load_arg(place)];
            v.extend(of.iter().flat_map(|k| [unless_is(*k as u32, 1), give(TRACE)]));
            v.push(give(ALLOW));
            v
        }
    };
    f.push(unless_is(nr as u32, body.len() as u8));
    f.extend(body);
}

/// A call that is seen unless it comes from a place of the board that lets it by.
fn rule_inside(f: &mut Vec<sock_filter>, nr: c_long, when: When, place: u32) {
    let mut free = vec![load(PLACE_AT), unless_is(place, 3), load(PLACE_AT + 4), unless_is(0, 1), give(ALLOW)];
    free.push(load(NR_AT));
    rule(&mut free, nr, when);
    f.push(unless_is(nr as u32, free.len() as u8));
    f.extend(free);
}

/// The filter. `terminal`: reads of descriptor 0 are seen, too, as what was read there can't be unread.
///
/// Nothing but a call's number is looked at before it is one of those that may be seen: so the kernel knows beforehand of all others
/// that they go by, and doesn't run it for them. What is frequent stands first.
pub fn program(terminal: bool) -> Vec<sock_filter> {
    let mut f = vec![load(ARCH_AT), op(BPF_JMP | BPF_JEQ | BPF_K, 1, 0, ARCH_X86_64)];
    f.push(give(ERRNO | libc::ENOSYS as u32));
    f.push(load(NR_AT));
    f.push(op(BPF_JMP | libc::BPF_JGE | BPF_K, 0, 1, FIRST_X32));
    f.push(give(ERRNO | libc::ENOSYS as u32));
    if terminal {
        rule(&mut f, libc::SYS_read, When::OneOf(0, &[0]));
    }
    let all = || FILES.iter().chain(PROCESSES).chain(UNCOPYABLE).copied();
    let (looks, others): (Vec<_>, Vec<_>) = all().partition(|(nr, _)| inside::LOOKS.contains(nr));
    let (always, at_times): (Vec<_>, Vec<_>) = others.into_iter().partition(|(_, when)| matches!(when, When::Always));
    at_times.into_iter().for_each(|(nr, when)| rule(&mut f, nr, when));
    looks.into_iter().for_each(|(nr, when)| rule_inside(&mut f, nr, when, inside::free_place()));
    rule_inside(&mut f, libc::SYS_clone, When::Always, inside::copied_place());
    always.into_iter().for_each(|(nr, when)| rule(&mut f, nr, when));
    for (nr, error) in REFUSED {
        f.extend([unless_is(*nr as u32, 1), give(ERRNO | *error as u32)]);
    }
    f.push(give(ALLOW));
    f
}

/// Installs the filter on this thread and on all that comes of it. To be called between fork and exec.
pub fn install(program: &mut [sock_filter]) -> bool {
    let p = libc::sock_fprog { len: program.len() as u16, filter: program.as_mut_ptr() };
    // SAFETY: `p` names the operations, which outlive the call; nothing is allocated.
    unsafe {
        libc::prctl(libc::PR_SET_NO_NEW_PRIVS, 1, 0, 0, 0) == 0
            && libc::prctl(libc::PR_SET_SECCOMP, libc::SECCOMP_MODE_FILTER, &raw const p) == 0
    }
}

#[cfg(test)]
mod tests {
    use super::*;

    /// What the kernel would do with the filter.
    fn answer(program: &[sock_filter], arch: u32, number: u32, args: [u64; 6]) -> u32 {
        let mut data = vec![number, arch, 0, 0];
        data.extend(args.iter().flat_map(|a| [*a as u32, (*a >> 32) as u32]));
        run(program, &data)
    }
    fn run(program: &[sock_filter], data: &[u32]) -> u32 {
        let (mut at, mut loaded) = (0, 0);
        loop {
            let f = &program[at];
            at += 1;
            let holds = match u32::from(f.code) {
                c if c == BPF_LD | BPF_W | BPF_ABS => {
                    loaded = data[f.k as usize / 4];
                    continue;
                }
                c if c == BPF_RET | BPF_K => return f.k,
                c if c == BPF_JMP | BPF_JEQ | BPF_K => loaded == f.k,
                c if c == BPF_JMP | BPF_JSET | BPF_K => loaded & f.k != 0,
                _ => loaded >= f.k,
            };
            at += usize::from(if holds { f.jt } else { f.jf });
        }
    }

    #[test]
    fn calls_that_are_seen() {
        let p = program(false);
        let on = |number: c_long, args: [u64; 6]| answer(&p, ARCH_X86_64, number as u32, args);
        assert_eq!(on(libc::SYS_openat, [0; 6]), TRACE);
        assert_eq!(on(libc::SYS_read, [0; 6]), ALLOW);
        assert_eq!(on(libc::SYS_newfstatat, [0, 0, 0, 0, 0, 0]), TRACE);
        assert_eq!(on(libc::SYS_newfstatat, [0, 0, 0, libc::AT_EMPTY_PATH as u64, 0, 0]), ALLOW);
        assert_eq!(on(libc::SYS_mmap, [0, 0, 0, libc::MAP_PRIVATE as u64, 0, 0]), ALLOW);
        assert_eq!(on(libc::SYS_mmap, [0, 0, 0, libc::MAP_SHARED as u64, 0, 0]), TRACE);
        assert_eq!(on(libc::SYS_fcntl, [0, libc::F_SETLKW as u64, 0, 0, 0, 0]), TRACE);
        assert_eq!(on(libc::SYS_fcntl, [0, libc::F_GETFL as u64, 0, 0, 0, 0]), ALLOW);
        assert_eq!(on(libc::SYS_io_uring_setup, [0; 6]), ERRNO | libc::ENOSYS as u32);
        assert_eq!(answer(&p, 0x4000_0003, libc::SYS_read as u32, [0; 6]), ERRNO | libc::ENOSYS as u32);
        assert_eq!(answer(&p, ARCH_X86_64, FIRST_X32, [0; 6]), ERRNO | libc::ENOSYS as u32);
        // from the board, and not from elsewhere
        let from = |place: u32, number: c_long| {
            let mut data = vec![number as u32, ARCH_X86_64, place, 0];
            data.extend([0; 12]);
            run(&p, &data)
        };
        assert_eq!(from(inside::free_place(), libc::SYS_openat), ALLOW);
        assert_eq!(from(inside::free_place(), libc::SYS_clone), TRACE);
        assert_eq!(from(inside::copied_place(), libc::SYS_clone), ALLOW);
        assert_eq!(from(inside::copied_place(), libc::SYS_openat), TRACE);
        assert_eq!(answer(&program(true), ARCH_X86_64, libc::SYS_read as u32, [0; 6]), TRACE);
    }
}
