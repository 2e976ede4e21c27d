//! A filter inside the processes: calls that look at paths of this machine aren't stopped.
//!
//! A board of memory, mapped into a program at a fixed place, has the paths that were seen to stay on this machine, and a little code.
//! Where a program's C library makes such a call, its `syscall` instruction is replaced by a jump to that code: a path that is on the
//! board goes to the kernel from the one place that the kernel's filter lets by; any other call is made as ever, and is stopped. The
//! supervisor alone writes on the board, and wipes it where something outside may have changed.
use crate::run::inject::{self, Puppet};
use crate::run::learned::Piece;
use crate::run::supervisor::Supervisor;
use crate::run::sys::{self, Pid, Regs};
use crate::run::tree::{Bound, State};
use std::collections::hash_map::DefaultHasher;
use std::collections::HashMap;
use std::fs::File;
use std::hash::{Hash, Hasher};
use std::io;
use std::os::fd::{AsRawFd, FromRawFd, OwnedFd};
use std::os::unix::fs::FileExt;
use std::sync::atomic::{AtomicU64, Ordering};

/// Where the board is in each program: low, so that its addresses fit in the instructions, and far above programs' heaps.
const BASE: usize = 0x7000_0000;
const SIZE: usize = 4 << 20;
/// Of the board: the code, an entry for each place that was replaced, where these go on, the paths by their hashes, the paths.
const ENTRIES: usize = 0x1000;
const PLACES: usize = 0x2000;
const SLOTS: usize = 0x3000;
const MOST_SLOTS: usize = 1 << 14;
const TEXTS: usize = SLOTS + MOST_SLOTS * 8;
const MOST_PLACES: usize = 64;
/// Flags with which an open changes nothing.
const PLAIN: i32 =
    libc::O_CLOEXEC | libc::O_NONBLOCK | libc::O_NOCTTY | libc::O_DIRECTORY | libc::O_NOFOLLOW | 0o100_000;
/// A program is changed when it has made so many such calls: most make many more then.
const ENOUGH: u32 = 4;

/// A call that the filter tells of, wherever it is made: by it a process says that it is done.
const SEEN: i64 = libc::SYS_getppid;
const RUNS: i32 = libc::PROT_READ | libc::PROT_EXEC;
const FIXED: i32 = libc::MAP_PRIVATE | libc::MAP_FIXED_NOREPLACE;
/// The code segment of programs of 64 bits.
const WIDE: u64 = 0x33;

const FNV_BEGIN: u64 = 0xcbf2_9ce4_8422_2325;
const FNV_PRIME: u64 = 0x0100_0000_01b3;

/// Calls of which the code knows where the path is.
pub const LOOKS: [i64; 12] = [
    // a search for a program tries one folder after the other
    libc::SYS_execve,
    libc::SYS_open,
    libc::SYS_stat,
    libc::SYS_lstat,
    libc::SYS_access,
    libc::SYS_readlink,
    libc::SYS_openat,
    libc::SYS_newfstatat,
    libc::SYS_readlinkat,
    libc::SYS_faccessat,
    libc::SYS_statx,
    libc::SYS_faccessat2,
];

// Entered with the number of the replaced place in r11, as `syscall` would be else: rcx and r11 may change, nothing else may. It stays
// off the 128 bytes below the stack that the C library may use.
std::arch::global_asm!(
    ".pushsection .rodata",
    ".balign 16",
    ".globl hidewillow_inside_begin",
    ".hidden hidewillow_inside_begin",
    ".globl hidewillow_inside_free",
    ".hidden hidewillow_inside_free",
    ".globl hidewillow_inside_stops",
    ".hidden hidewillow_inside_stops",
    ".globl hidewillow_inside_call",
    ".hidden hidewillow_inside_call",
    ".globl hidewillow_inside_copies",
    ".hidden hidewillow_inside_copies",
    ".globl hidewillow_inside_copied",
    ".hidden hidewillow_inside_copied",
    ".globl hidewillow_inside_end",
    ".hidden hidewillow_inside_end",
    "hidewillow_inside_begin:",
    "lea rsp, [rsp - 192]",
    "mov [rsp], rdx",
    "mov [rsp + 8], rsi",
    "mov [rsp + 16], rdi",
    "mov [rsp + 24], r8",
    "mov [rsp + 32], r9",
    "mov [rsp + 40], r10",
    "mov [rsp + 48], r11",
    "mov [rsp + 56], rax",
    // which argument is the path
    "cmp eax, 257",
    "je 20f",
    "cmp eax, 2",
    "je 21f",
    "cmp eax, 262",
    "je 22f",
    "cmp eax, 21",
    "je 23f",
    "cmp eax, 4",
    "je 23f",
    "cmp eax, 6",
    "je 23f",
    "cmp eax, 89",
    "je 23f",
    "cmp eax, 59",
    "je 23f",
    "cmp eax, 267",
    "je 22f",
    "cmp eax, 269",
    "je 22f",
    "cmp eax, 332",
    "je 22f",
    "cmp eax, 439",
    "je 22f",
    "jmp 90f",
    "20: test edx, {changes}",
    "jnz 90f",
    "22: mov rcx, rsi",
    "jmp 30f",
    "21: test esi, {changes}",
    "jnz 90f",
    "23: mov rcx, rdi",
    // its hash in r8, its length in rdx
    "30: cmp rcx, 4096",
    "jb 90f",
    "cmp byte ptr [rcx], 47",
    "jne 90f",
    "movabs r8, {begin}",
    "movabs r9, {prime}",
    "xor edx, edx",
    "31: movzx r10d, byte ptr [rcx + rdx]",
    "test r10d, r10d",
    "jz 32f",
    "xor r8, r10",
    "imul r8, r9",
    "inc rdx",
    "cmp rdx, 4096",
    "jb 31b",
    "jmp 90f",
    // a slot: half of a hash, and where the path is
    "32: mov r10, r8",
    "33: and r10d, {mask}",
    "mov r9, [r10 * 8 + {slots}]",
    "test r9, r9",
    "jz 90f",
    "mov rdi, r9",
    "shr rdi, 32",
    "mov rsi, r8",
    "shr rsi, 32",
    "cmp edi, esi",
    "jne 35f",
    "mov r9d, r9d",
    "movzx esi, word ptr [r9 + {base}]",
    "cmp esi, edx",
    "jne 35f",
    "34: dec rsi",
    "js 80f",
    "movzx edi, byte ptr [r9 + rsi + {base} + 2]",
    "cmp dil, byte ptr [rcx + rsi]",
    "je 34b",
    "35: inc r10d",
    "jmp 33b",
    // it is on the board: the kernel's filter lets by what comes from here
    "80: mov rdx, [rsp]",
    "mov rsi, [rsp + 8]",
    "mov rdi, [rsp + 16]",
    "mov r8, [rsp + 24]",
    "mov r9, [rsp + 32]",
    "mov r10, [rsp + 40]",
    "syscall",
    "hidewillow_inside_free:",
    "jmp 95f",
    // it is not
    "hidewillow_inside_stops:",
    "90: mov rdx, [rsp]",
    "mov rsi, [rsp + 8]",
    "mov rdi, [rsp + 16]",
    "mov r8, [rsp + 24]",
    "mov r9, [rsp + 32]",
    "mov r10, [rsp + 40]",
    "mov rax, [rsp + 56]",
    "hidewillow_inside_call:",
    "syscall",
    // on behind the comparison that was replaced with the call
    "95: mov rcx, [rsp + 48]",
    "lea rsp, [rsp + 192]",
    "mov rcx, [rcx * 8 + {places}]",
    "cmp rax, -4096",
    "jmp rcx",
    // a process that the supervisor sends here makes a copy of itself, and tells of it; the copy closes its descriptors, and waits
    "hidewillow_inside_copies:",
    "mov eax, {clone}",
    "syscall",
    "hidewillow_inside_copied:",
    "mov r15, rax",
    "test rax, rax",
    "jnz 96f",
    "xor edi, edi",
    "mov esi, -1",
    "xor edx, edx",
    "mov eax, {close_range}",
    "syscall",
    "96: mov eax, {seen}",
    "syscall",
    "ud2",
    "hidewillow_inside_end:",
    // a program that has just begun maps the board: this is written into it, and runs once
    ".globl hidewillow_maps_begin",
    ".hidden hidewillow_maps_begin",
    ".globl hidewillow_maps_end",
    ".hidden hidewillow_maps_end",
    "hidewillow_maps_begin:",
    "mov eax, {pidfd_open}",
    "syscall",
    "mov r12, rax",
    "mov rdi, rax",
    "mov rsi, r13",
    "xor edx, edx",
    "mov eax, {pidfd_getfd}",
    "syscall",
    "mov r14, rax",
    "mov r8, rax",
    "mov edi, {base}",
    "mov esi, {size}",
    "mov edx, {runs}",
    "mov r10d, {fixed}",
    "xor r9d, r9d",
    "mov eax, {mmap}",
    "syscall",
    "mov r15, rax",
    "mov rdi, r14",
    "mov eax, {close}",
    "syscall",
    "mov rdi, r12",
    "mov eax, {close}",
    "syscall",
    "mov eax, {seen}",
    "syscall",
    "hidewillow_maps_end:",
    ".popsection",
    changes = const !PLAIN,
    begin = const FNV_BEGIN,
    prime = const FNV_PRIME,
    mask = const MOST_SLOTS - 1,
    slots = const BASE + SLOTS,
    base = const BASE,
    places = const BASE + PLACES,
    clone = const libc::SYS_clone,
    close_range = const libc::SYS_close_range,
    seen = const SEEN,
    pidfd_open = const libc::SYS_pidfd_open,
    pidfd_getfd = const libc::SYS_pidfd_getfd,
    mmap = const libc::SYS_mmap,
    close = const libc::SYS_close,
    size = const SIZE,
    runs = const RUNS,
    fixed = const FIXED,
);

extern "C" {
    static hidewillow_inside_begin: u8;
    static hidewillow_inside_free: u8;
    static hidewillow_inside_stops: u8;
    static hidewillow_inside_call: u8;
    static hidewillow_inside_copies: u8;
    static hidewillow_inside_copied: u8;
    static hidewillow_inside_end: u8;
    static hidewillow_maps_begin: u8;
    static hidewillow_maps_end: u8;
}

fn offset_of(label: *const u8) -> usize {
    label as usize - (&raw const hidewillow_inside_begin) as usize
}
fn code() -> &'static [u8] {
    let begin = &raw const hidewillow_inside_begin;
    // SAFETY: the bytes from the first label to the last, which are never written.
    unsafe { std::slice::from_raw_parts(begin, offset_of(&raw const hidewillow_inside_end)) }
}
/// What has a program that has just begun map the board.
fn maps() -> &'static [u8] {
    let begin = &raw const hidewillow_maps_begin;
    let end = &raw const hidewillow_maps_end;
    // SAFETY: the bytes from the first label to the last, which are never written.
    unsafe { std::slice::from_raw_parts(begin, end as usize - begin as usize) }
}
fn place_of(label: *const u8) -> u64 {
    (BASE + offset_of(label)) as u64
}
/// Where the processor stands behind the call that isn't stopped.
pub fn free_place() -> u32 {
    place_of(&raw const hidewillow_inside_free) as u32
}
/// Where a process is sent to make a copy of itself.
pub fn copies_place() -> u64 {
    place_of(&raw const hidewillow_inside_copies)
}
/// Where the processor stands behind the call that makes the copy.
pub fn copied_place() -> u32 {
    place_of(&raw const hidewillow_inside_copied) as u32
}

/// What a program has of it.
#[derive(Clone, Copy, PartialEq, Eq, Debug, Default)]
pub enum Inside {
    /// It has made so many calls that could be looked at within it.
    #[default]
    Not,
    Seen(u32),
    /// The board is mapped, and so many places are replaced.
    Mapped(usize),
    /// It can't be had.
    Never,
}

/// The board, as the supervisor has it.
pub struct Board {
    file: OwnedFd,
    at: *mut u8,
    /// Where the next text goes, and how many slots are taken.
    next: usize,
    taken: usize,
    /// Places that were looked at, by what is around them: how long they are, where they may be replaced.
    safe: HashMap<u64, Option<usize>>,
    pub is_used: bool,
}

impl Board {
    pub fn make() -> io::Result<Board> {
        // SAFETY: the name ends with a zero; the descriptor is new and ours alone.
        let fd = unsafe { libc::memfd_create(c"hidewillow".as_ptr(), libc::MFD_CLOEXEC) };
        if fd < 0 {
            return Err(io::Error::last_os_error());
        }
        // SAFETY: as above; the mapping is new.
        let (file, at) = unsafe {
            let file = OwnedFd::from_raw_fd(fd);
            libc::ftruncate(fd, SIZE as i64);
            let both = libc::PROT_READ | libc::PROT_WRITE;
            (file, libc::mmap(std::ptr::null_mut(), SIZE, both, libc::MAP_SHARED, fd, 0))
        };
        if at == libc::MAP_FAILED {
            return Err(io::Error::last_os_error());
        }
        let is_used = std::env::var_os("HIDEWILLOW_RUN_STOPS").is_none();
        let mut board = Board { file, at: at.cast(), next: TEXTS, taken: 0, safe: HashMap::new(), is_used };
        board.write(0, code());
        for place in 0..MOST_PLACES {
            board.write(ENTRIES + place * 16, &entry(place));
        }
        Ok(board)
    }
    fn write(&mut self, at: usize, bytes: &[u8]) {
        assert!(at + bytes.len() <= SIZE);
        // SAFETY: within the mapping, which is ours as long as this lives; others only read, and only what a slot names.
        unsafe { std::ptr::copy_nonoverlapping(bytes.as_ptr(), self.at.add(at), bytes.len()) };
    }
    fn slot(&self, slot: usize) -> &AtomicU64 {
        // SAFETY: within the mapping, and a multiple of eight from its beginning.
        unsafe { &*self.at.add(SLOTS + slot % MOST_SLOTS * 8).cast::<AtomicU64>() }
    }
    /// A path that stays on this machine. Where there is no room for more, calls with others are stopped as ever.
    pub fn add(&mut self, path: &[u8]) {
        if !self.is_used || path.len() >= 4096 || self.next + path.len() + 2 > SIZE || self.taken * 2 > MOST_SLOTS {
            return;
        }
        self.write(self.next, &(path.len() as u16).to_le_bytes());
        self.write(self.next + 2, path);
        let hash = path.iter().fold(FNV_BEGIN, |h, b| (h ^ u64::from(*b)).wrapping_mul(FNV_PRIME));
        let mut slot = hash as usize;
        while self.slot(slot).load(Ordering::Relaxed) != 0 {
            slot += 1;
        }
        self.slot(slot).store(hash >> 32 << 32 | self.next as u64, Ordering::Release);
        self.next += path.len() + 2;
        self.taken += 1;
    }
    /// Nothing is known any more. Texts stay as they are, since some program may just be reading one.
    pub fn wipe(&mut self) {
        if std::mem::take(&mut self.taken) > 0 {
            (0..MOST_SLOTS).for_each(|s| self.slot(s).store(0, Ordering::Relaxed));
        }
    }
    /// How long a `syscall` instruction is with the comparison of its result behind it; `None` where it is not to be replaced, since
    /// something else follows, or something may jump in between.
    fn length(&mut self, pid: Pid, site: u64) -> Option<usize> {
        let (code, near) = around(pid, site)?;
        *self.safe.entry(code).or_insert_with(|| {
            let mut wide = [0u8; 8192];
            let from = site - 4096;
            let wide = if sys::read_memory(pid, from, &mut wide) { (&wide[..], 4096) } else { (&near[..], 512) };
            let call = CALLS.iter().find(|c| near[512..].starts_with(c))?;
            (!is_jumped_into(wide.0, wide.1, call.len())).then_some(call.len())
        })
    }
}

/// The code around a place, and what it is known by.
fn around(pid: Pid, site: u64) -> Option<(u64, [u8; 1024])> {
    let mut near = [0u8; 1024];
    let begin = site.checked_sub(512)?;
    if !sys::read_memory(pid, begin, &mut near) {
        return None;
    }
    let mut hash = DefaultHasher::new();
    (site & 0xfff, &near).hash(&mut hash);
    Some((hash.finish(), near))
}

/// `syscall`, and a comparison with the least error, as the C library has them. One comparison does for all, since no call has a
/// result between these numbers.
const CALLS: [&[u8]; 3] = [
    &[0x0f, 0x05, 0x48, 0x3d, 0x00, 0xf0, 0xff, 0xff],
    &[0x0f, 0x05, 0x48, 0x3d, 0x01, 0xf0, 0xff, 0xff],
    &[0x0f, 0x05, 0x3d, 0x00, 0xf0, 0xff, 0xff],
];

/// `mov r11d, place`, and a jump to the beginning.
fn entry(place: usize) -> [u8; 11] {
    let [a, b, c, d] = (place as u32).to_le_bytes();
    let back = 0i32.wrapping_sub((ENTRIES + place * 16 + 11) as i32);
    let [p, q, r, s] = back.to_le_bytes();
    [0x41, 0xbb, a, b, c, d, 0xe9, p, q, r, s]
}
/// `mov ecx, entry`, `jmp rcx`; the eighth byte is what it was.
fn jump(place: usize, old: u64) -> u64 {
    let [a, b, c, d] = ((BASE + ENTRIES + place * 16) as u32).to_le_bytes();
    u64::from_le_bytes([0xb9, a, b, c, d, 0xff, 0xe1, (old >> 56) as u8])
}

/// Whether something that may be a jump leads behind the beginning of what is at `site`.
fn is_jumped_into(code: &[u8], site: usize, len: usize) -> bool {
    let leads = |to: i64| to > site as i64 && to < (site + len) as i64;
    let byte = |at: usize| code.get(at).map_or(0, |b| i64::from(*b as i8));
    let four = |at: usize| code.get(at..at + 4).map_or(0, |b| i64::from(i32::from_le_bytes([b[0], b[1], b[2], b[3]])));
    (0..code.len()).filter(|at| !(site..site + len).contains(at)).any(|at| {
        let here = at as i64;
        match code[at] {
            0x70..=0x7f | 0xeb | 0xe0..=0xe3 => leads(here + 2 + byte(at + 1)),
            0xe8 | 0xe9 => leads(here + 5 + four(at + 1)),
            0x0f if matches!(code.get(at + 1), Some(0x80..=0x8f)) => leads(here + 6 + four(at + 2)),
            _ => false,
        }
    })
}

impl Supervisor {
    /// A call that stays on this machine: from now on the program looks at such calls itself, from this place of its code. True where
    /// it makes this one once more.
    pub fn goes_inside(&mut self, pid: Pid, number: i64) -> bool {
        if !self.paths.board().is_used || !LOOKS.contains(&number) || !self.is_alone(pid) {
            return false;
        }
        let p = self.tree.at(pid);
        let (regs, inside) = (p.regs, p.facts.inside);
        let site = regs.rip - 2;
        let seen = match inside {
            Inside::Never => return false,
            Inside::Mapped(MOST_PLACES..) => return false,
            Inside::Mapped(_) => ENOUGH,
            Inside::Seen(n) => n + 1,
            Inside::Not => 1,
        };
        if seen < ENOUGH {
            self.set_inside(pid, Inside::Seen(seen));
            return false;
        }
        if (BASE..BASE + SIZE).contains(&(site as usize)) {
            return false;
        }
        if self.paths.board().length(pid, site).is_none() {
            return false;
        }
        let Some(place) = self.mapped(pid, inside) else {
            self.set_inside(pid, Inside::Never);
            let _ = sys::set_registers(pid, &regs);
            return false;
        };
        self.set_inside(pid, Inside::Mapped(place));
        let done = self.replace_like(pid, site);
        if done || inside != Inside::Mapped(place) {
            self.make_again(pid);
            self.go(pid);
        }
        done || inside != Inside::Mapped(place)
    }
    /// Replaces a place of its code, and all others that were replaced in the same piece of code before.
    fn replace_like(&mut self, pid: Pid, site: u64) -> bool {
        // what it is known by, before it is replaced
        let Some((code, _)) = around(pid, site) else { return false };
        let done = self.replace(pid, site);
        if done {
            let piece = self.piece_of(pid, site, code);
            for other in self.learned.places(piece) {
                if other != site {
                    self.replace(pid, other);
                }
            }
            self.learned.is_replaced(piece, site);
        }
        done
    }
    /// Replaces a `syscall` instruction of its code, where it has the board and there is room for one more.
    fn replace(&mut self, pid: Pid, site: u64) -> bool {
        let Some(Inside::Mapped(place @ ..MOST_PLACES)) = self.tree.get(pid).map(|p| p.facts.inside) else {
            return false;
        };
        let Some(length) = self.paths.board().length(pid, site) else { return false };
        let old = sys::read_word(pid, site);
        let done = sys::write_word(pid, (BASE + PLACES + place * 8) as u64, site + length as u64)
            && old.is_some_and(|old| sys::write_word(pid, site, jump(place, old)));
        self.set_inside(pid, Inside::Mapped(place + usize::from(done)));
        self.stats.inside += u64::from(done);
        done
    }
    /// The piece of code that a place is of.
    fn piece_of(&mut self, pid: Pid, site: u64, code: u64) -> Piece {
        let pieces = self.tree.get(pid).map_or_else(Vec::new, |p| p.facts.pieces.clone());
        let piece = self.learned.piece_of(pid, site, code, &pieces);
        if !pieces.contains(&piece) {
            let p = self.tree.at(pid);
            p.facts.pieces.push(piece);
            let lender = p.vforked;
            if let Some(q) = lender.and_then(|of| self.tree.get_mut(of)) {
                q.facts.pieces.push(piece);
            }
        }
        piece
    }
    /// A program begins. Where what it begins with is known, what was replaced of that before is so before it runs.
    pub fn begins_inside(&mut self, pid: Pid) {
        let Ok(regs) = sys::registers(pid) else { return };
        // a filter of its own may allow none of the calls that map it
        let filtered = self.tree.at(pid).facts.bound.contains(&Bound::OwnFilter);
        if !self.paths.board().is_used || regs.cs != WIDE || filtered {
            return;
        }
        let Some((code, _)) = around(pid, regs.rip) else { return };
        let piece = self.piece_of(pid, regs.rip, code);
        let places = self.learned.places(piece);
        let Some(first) = places.first() else { return };
        if !self.map_at_once(pid, &regs, *first) {
            return;
        }
        let p = self.tree.at(pid);
        p.facts.inside = Inside::Mapped(0);
        p.facts.site = place_of(&raw const hidewillow_inside_call);
        for site in places {
            self.replace(pid, site);
        }
    }
    /// Has a program that has just begun map the board: by code that takes the place of its own as long as that lasts.
    fn map_at_once(&mut self, pid: Pid, regs: &Regs, at: u64) -> bool {
        let code = maps();
        let mut own = vec![0; code.len()];
        let Ok(memory) = File::options().write(true).open(format!("/proc/{pid}/mem")) else { return false };
        if !sys::read_memory(pid, at, &mut own) || memory.write_all_at(code, at).is_err() {
            return false;
        }
        let (keeper, board) = (self.keeper as u64, self.paths.board().file.as_raw_fd() as u64);
        let sent = Regs { rip: at, rdi: keeper, rsi: 0, r13: board, orig_rax: u64::MAX, ..*regs };
        let mut signals = Vec::new();
        let told = sys::set_registers(pid, &sent).is_ok()
            && sys::go_on(pid, 0).is_ok()
            && inject::until_seen(pid, &mut signals);
        let mapped = told && sys::registers(pid).is_ok_and(|r| r.r15 == BASE as u64);
        let back = memory.write_all_at(&own, at).is_ok();
        let _ = sys::set_registers(pid, &Regs { orig_rax: u64::MAX, rax: 0, ..*regs });
        self.tree.at(pid).signals.append(&mut signals);
        if told && !back {
            // its code is not what it was
            sys::kill(pid, libc::SIGKILL);
        }
        mapped && back
    }
    /// Whether it can make a copy of itself.
    pub fn has_board(&self, pid: Pid) -> bool {
        self.tree.get(pid).is_some_and(|p| matches!(p.facts.inside, Inside::Mapped(_)))
    }
    /// No other thread or process runs in its memory: who lends it that stands still.
    fn is_alone(&self, pid: Pid) -> bool {
        let Some(p) = self.tree.get(pid).filter(|p| p.state == State::Entry) else { return false };
        let has_own = |pid: Pid| {
            self.tree.get(pid).is_some_and(|p| !p.thread && p.facts.process == pid)
                && self.tree.threads_of(pid).is_empty()
        };
        match p.vforked {
            None => has_own(pid) && !self.tree.lends_memory(pid),
            Some(of) => {
                let lender_is_first = self.tree.get(of).is_some_and(|q| q.vforked.is_none());
                has_own(pid) && has_own(of) && lender_is_first && !self.tree.lends_memory(pid)
            }
        }
    }
    /// What its memory has of it; that is who lent it the memory's, too.
    fn set_inside(&mut self, pid: Pid, inside: Inside) {
        let p = self.tree.at(pid);
        p.facts.inside = inside;
        let lender = p.vforked;
        if let Some(q) = lender.and_then(|of| self.tree.get_mut(of)) {
            q.facts.inside = inside;
        }
    }
    /// Has a program at a stop of the filter map the board, where it has not; the next place to replace.
    fn mapped(&mut self, pid: Pid, inside: Inside) -> Option<usize> {
        if let Inside::Mapped(n) = inside {
            return Some(n);
        }
        let regs = self.tree.at(pid).regs;
        let path = format!("/proc/{}/fd/{}\0", self.keeper, self.paths.board().file.as_raw_fd());
        let mut p = Puppet { pid, regs, site: regs.rip - 2, signals: Vec::new() };
        sys::write_memory(pid, p.spare(), path.as_bytes());
        let flags = (libc::O_RDONLY | libc::O_CLOEXEC) as u64;
        let fd = p.call_here(libc::SYS_openat, [libc::AT_FDCWD as u64, p.spare(), flags, 0]).ok()?;
        (p.regs.r8, p.regs.r9) = (fd as u64, 0);
        let mapping = [BASE as u64, SIZE as u64, RUNS as u64, FIXED as u64];
        let at = if fd < 0 { -1 } else { p.call(libc::SYS_mmap, mapping).ok()? };
        if fd >= 0 {
            p.call(libc::SYS_close, [fd as u64, 0, 0, 0]).ok()?;
        }
        self.tree.at(pid).signals.append(&mut p.signals);
        (at == BASE as i64).then_some(0)
    }
}

/// A program that was given an address which it doesn't have: the kernel is to say so, not a signal within the code.
pub fn out_of_code(pid: Pid) -> Option<Regs> {
    let mut r = sys::registers(pid).ok()?;
    let at = (r.rip as usize).checked_sub(BASE)?;
    if at >= code().len() {
        return None;
    }
    r.rip = (BASE + offset_of(&raw const hidewillow_inside_stops)) as u64;
    Some(r)
}

#[cfg(test)]
mod tests {
    use super::*;

    #[test]
    fn jumps() {
        let mut code = [0x90u8; 64];
        code[32..40].copy_from_slice(CALLS[0]);
        assert!(!is_jumped_into(&code, 32, 8));
        // behind it, and to its beginning
        code[10..12].copy_from_slice(&[0x74, 40 - 12]);
        code[14..16].copy_from_slice(&[0xeb, 32 - 16]);
        assert!(!is_jumped_into(&code, 32, 8));
        code[20..22].copy_from_slice(&[0x74, 34 - 22]);
        assert!(is_jumped_into(&code, 32, 8));
    }

    #[test]
    fn a_board_is_read() {
        let mut b = Board::make().unwrap();
        b.is_used = true;
        b.add(b"/usr/lib");
        assert_eq!(b.taken, 1);
        b.wipe();
        assert!((0..MOST_SLOTS).all(|s| b.slot(s).load(Ordering::Relaxed) == 0));
    }
}
