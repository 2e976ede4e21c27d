//! What a call makes use of.
use crate::name::Name;
use crate::run::descriptors::path_of;
use crate::run::filter::SYS_FCHMODAT2;
use crate::run::names::Names;
use crate::run::paths::{Paths, Where};
use crate::run::sys::{self, Pid, Regs};
use std::os::unix::fs::MetadataExt;
use std::path::PathBuf;

/// A file that is undone with its epoch: remote, or of a scratch folder.
#[derive(Clone, PartialEq, Eq, Debug)]
pub enum Target {
    Remote(Name),
    Scratch(PathBuf),
}

impl Target {
    pub fn remote(&self) -> Option<&Name> {
        match self {
            Target::Remote(n) => Some(n),
            Target::Scratch(_) => None,
        }
    }
    pub fn path(&self, names: &Names) -> PathBuf {
        match self {
            Target::Remote(n) => names.local(n),
            Target::Scratch(p) => p.clone(),
        }
    }
}

#[derive(Clone, PartialEq, Eq, Debug)]
pub enum Use {
    /// Its kind and attributes are looked at.
    Look(Name),
    /// Its contents, too.
    Read(Name),
    /// The names in it.
    List(Name),
    /// It is opened for writing.
    Open {
        at: Target,
        truncates: bool,
        creates: bool,
        appends: bool,
    },
    Remove(Target),
    RemoveFolder(Target),
    MakeFolder(Target),
    MakeLink(Target),
    /// A pipe with a name, or such: it stays on this machine.
    MakeNode(Target),
    Rename(Target, Target),
    /// Each takes the other's name.
    Exchange(Target, Target),
    Link(Target, Target),
    /// Mode or times.
    Attributes(Target),
    /// Its length.
    Truncate(Target),
    /// It shows outside of the mount and of scratch folders.
    Outside,
    /// It is for what the server has none of.
    Unsupported(i32),
}

impl Use {
    pub fn changes(&self) -> bool {
        !matches!(self, Use::Look(_) | Use::Read(_) | Use::List(_))
    }
    /// The names whose state a result of it depends on.
    pub fn names(&self) -> Vec<&Name> {
        match self {
            Use::Look(n) | Use::Read(n) | Use::List(n) => vec![n],
            Use::Open { at, .. }
            | Use::Remove(at)
            | Use::RemoveFolder(at)
            | Use::MakeFolder(at)
            | Use::MakeLink(at)
            | Use::MakeNode(at)
            | Use::Attributes(at)
            | Use::Truncate(at) => at.remote().into_iter().collect(),
            Use::Rename(a, b) | Use::Exchange(a, b) | Use::Link(a, b) => {
                a.remote().into_iter().chain(b.remote()).collect()
            }
            Use::Outside | Use::Unsupported(_) => Vec::new(),
        }
    }
}

/// A process at its call.
pub struct Caller<'a> {
    pub pid: Pid,
    pub regs: &'a Regs,
    pub paths: &'a Paths,
    pub names: &'a Names,
}

const CWD: i32 = libc::AT_FDCWD;

/// What the uses of a call are, in order.
pub fn uses(c: &Caller, number: i64) -> Vec<Use> {
    let mut v = Vec::new();
    match number {
        libc::SYS_open | libc::SYS_openat | libc::SYS_openat2 | libc::SYS_creat => c.open(number, &mut v),
        libc::SYS_execve | libc::SYS_execveat => c.exec(number, &mut v),
        libc::SYS_connect => c.connect(&mut v),
        libc::SYS_bind => v.push(Use::Outside),
        libc::SYS_socket if !c.is_stream_here() => v.push(Use::Outside),
        _ => {
            c.looks(number, &mut v);
            c.changes_one(number, &mut v);
            c.changes_owner(number, &mut v);
            c.changes_attributes(number, &mut v);
            c.changes_two(number, &mut v);
        }
    }
    v
}

impl Caller<'_> {
    fn args(&self) -> [u64; 5] {
        let r = self.regs;
        [r.rdi, r.rsi, r.rdx, r.r10, r.r8]
    }
    /// Where the path in this argument leads; the links that it passes are looked at.
    fn lead(&self, folder: i32, at: u64, follow: bool, v: &mut Vec<Use>) -> Option<Where> {
        let path = sys::read_string(self.pid, at)?;
        if path.is_empty() {
            return None;
        }
        let led = self.paths.lead(self.names, self.pid, folder, &path, follow);
        v.extend(led.links.into_iter().map(Use::Look));
        if matches!(&led.to, Where::Local(p) if p.starts_with("(unreachable)") || p.starts_with("/(unreachable)")) {
            // of a folder that was removed
            v.push(Use::Unsupported(libc::ENOENT));
            return None;
        }
        Some(led.to)
    }
    fn look(&self, folder: u64, at: u64, follow: bool, v: &mut Vec<Use>) {
        if let Some(Where::Remote(n)) = self.lead(folder as i32, at, follow, v) {
            v.push(Use::Look(n));
        }
    }
    fn open(&self, number: i64, v: &mut Vec<Use>) {
        let a = self.args();
        let (folder, path, flags) = match number {
            libc::SYS_open => (CWD, a[0], a[1]),
            libc::SYS_creat => (CWD, a[0], (libc::O_CREAT | libc::O_TRUNC | libc::O_WRONLY) as u64),
            libc::SYS_openat2 => (a[0] as i32, a[1], sys::read_word(self.pid, a[2]).unwrap_or(0)),
            _ => (a[0] as i32, a[1], a[2]),
        };
        let flags = flags as i32;
        let has = |f: i32| flags & f == f;
        let exclusive = has(libc::O_CREAT | libc::O_EXCL);
        let Some(to) = self.lead(folder, path, !has(libc::O_NOFOLLOW) && !exclusive, v) else { return };
        let unnamed = has(libc::O_TMPFILE);
        let writes = flags & libc::O_ACCMODE != libc::O_RDONLY || has(libc::O_TRUNC) || has(libc::O_CREAT);
        let (truncates, creates, appends) = (has(libc::O_TRUNC), has(libc::O_CREAT), has(libc::O_APPEND));
        let open = |at| Use::Open { at, truncates, creates, appends };
        match to {
            Where::Remote(n) if has(libc::O_PATH) || unnamed => v.push(Use::Look(n)),
            Where::Remote(n) if writes => v.push(open(Target::Remote(n))),
            Where::Remote(n) if has(libc::O_DIRECTORY) => v.push(Use::List(n)),
            Where::Remote(n) => v.push(Use::Read(n)),
            Where::Scratch(p) if writes && !unnamed => v.push(open(Target::Scratch(p))),
            Where::Local(p) if writes && !has(libc::O_PATH) && !stays_inside(&p) => v.push(Use::Outside),
            _ => {}
        }
    }
    fn exec(&self, number: i64, v: &mut Vec<Use>) {
        let a = self.args();
        let (folder, path) = if number == libc::SYS_execve { (CWD, a[0]) } else { (a[0] as i32, a[1]) };
        let Some(Where::Remote(n)) = self.lead(folder, path, true, v) else { return };
        // a script names the program that runs it
        if let Some(program) = crate::run::stored::script_program(&self.names.local(&n)) {
            let led = self.paths.lead(self.names, self.pid, CWD, &program, true);
            v.extend(led.links.into_iter().map(Use::Look));
            if let Where::Remote(n) = led.to {
                v.push(Use::Read(n));
            }
        }
        v.push(Use::Read(n));
    }
    /// A socket that says nothing outside before it is connected.
    fn is_stream_here(&self) -> bool {
        let [family, kind, ..] = self.args();
        family == libc::AF_UNIX as u64 && kind as i32 & 0xf != libc::SOCK_DGRAM
    }
    /// A socket with a path that nobody has is none that shows outside.
    fn connect(&self, v: &mut Vec<Use>) {
        let mut b = vec![0u8; (self.args()[2] as usize).min(110)];
        let read = sys::read_memory(self.pid, self.args()[1], &mut b);
        let unix = read && b.len() > 2 && u16::from_le_bytes([b[0], b[1]]) == libc::AF_UNIX as u16;
        let path = b.get(2..).unwrap_or_default().split(|x| *x == 0).next().unwrap_or_default();
        let nobody = unix && !path.is_empty() && !PathBuf::from(crate::run::paths::os(path)).exists();
        if !nobody {
            v.push(Use::Outside);
        }
    }
    /// A folder isn't removed by such a name.
    fn ends_in_dots(&self, at: u64) -> bool {
        let path = sys::read_string(self.pid, at).unwrap_or_default();
        matches!(path.rsplit(|b| *b == b'/').find(|p| !p.is_empty()), Some(b"." | b".."))
    }
    fn looks(&self, number: i64, v: &mut Vec<Use>) {
        let a = self.args();
        let cwd = CWD as u64;
        let follow = |flags: u64| flags & libc::AT_SYMLINK_NOFOLLOW as u64 == 0;
        match number {
            libc::SYS_stat | libc::SYS_access | libc::SYS_chdir => self.look(cwd, a[0], true, v),
            libc::SYS_lstat | libc::SYS_readlink => self.look(cwd, a[0], false, v),
            libc::SYS_newfstatat => self.look(a[0], a[1], follow(a[3]), v),
            libc::SYS_statx => self.look(a[0], a[1], follow(a[2]), v),
            libc::SYS_faccessat => self.look(a[0], a[1], true, v),
            libc::SYS_faccessat2 => self.look(a[0], a[1], follow(a[3]), v),
            libc::SYS_readlinkat => self.look(a[0], a[1], false, v),
            _ => {}
        }
    }
    fn change(&self, folder: u64, at: u64, follow: bool, v: &mut Vec<Use>, make: &dyn Fn(Target) -> Use) {
        let target = match self.lead(folder as i32, at, follow, v) {
            Some(Where::Remote(n)) => Target::Remote(n),
            Some(Where::Scratch(p)) => Target::Scratch(p),
            Some(Where::Local(_)) => return v.push(Use::Outside),
            None => return,
        };
        v.push(make(target));
    }
    /// The same of what a descriptor is open at.
    fn change_open(&self, fd: u64, v: &mut Vec<Use>, make: &dyn Fn(Target) -> Use) {
        let Ok(path) = path_of(format!("/proc/{}/fd/{}", self.pid, fd as i32).as_ref()) else { return };
        match self.paths.place(crate::run::paths::bytes(&path)) {
            Where::Remote(n) => v.push(make(Target::Remote(n))),
            Where::Scratch(p) => v.push(make(Target::Scratch(p))),
            Where::Local(p) if !p.starts_with("/dev") && p.starts_with("/") => v.push(Use::Outside),
            Where::Local(_) => {}
        }
    }
    fn changes_one(&self, number: i64, v: &mut Vec<Use>) {
        let a = self.args();
        let cwd = CWD as u64;
        let follow = |flags: u64| flags & libc::AT_SYMLINK_NOFOLLOW as u64 == 0;
        match number {
            libc::SYS_unlink => self.change(cwd, a[0], false, v, &Use::Remove),
            libc::SYS_rmdir if self.ends_in_dots(a[0]) => self.look(cwd, a[0], true, v),
            libc::SYS_rmdir => self.change(cwd, a[0], false, v, &Use::RemoveFolder),
            libc::SYS_unlinkat if self.ends_in_dots(a[1]) => self.look(a[0], a[1], true, v),
            libc::SYS_unlinkat if a[2] & libc::AT_REMOVEDIR as u64 != 0 => {
                self.change(a[0], a[1], false, v, &Use::RemoveFolder)
            }
            libc::SYS_unlinkat => self.change(a[0], a[1], false, v, &Use::Remove),
            libc::SYS_mkdir => self.change(cwd, a[0], false, v, &Use::MakeFolder),
            libc::SYS_mkdirat => self.change(a[0], a[1], false, v, &Use::MakeFolder),
            libc::SYS_mknod => self.change(cwd, a[0], false, v, &Use::MakeNode),
            libc::SYS_mknodat => self.change(a[0], a[1], false, v, &Use::MakeNode),
            libc::SYS_symlink => self.change(cwd, a[1], false, v, &Use::MakeLink),
            libc::SYS_symlinkat => self.change(a[1], a[2], false, v, &Use::MakeLink),
            libc::SYS_truncate => self.change(cwd, a[0], true, v, &Use::Truncate),
            libc::SYS_chmod | libc::SYS_utime | libc::SYS_utimes => self.change(cwd, a[0], true, v, &Use::Attributes),
            libc::SYS_fchmodat => self.change(a[0], a[1], true, v, &Use::Attributes),
            SYS_FCHMODAT2 => self.change(a[0], a[1], follow(a[3]), v, &Use::Attributes),
            libc::SYS_futimesat if a[1] != 0 => self.change(a[0], a[1], true, v, &Use::Attributes),
            libc::SYS_utimensat if a[1] != 0 => self.change(a[0], a[1], follow(a[3]), v, &Use::Attributes),
            libc::SYS_fchmod | libc::SYS_utimensat | libc::SYS_futimesat => {
                self.change_open(a[0], v, &Use::Attributes);
            }
            _ => {}
        }
    }
    fn changes_owner(&self, number: i64, v: &mut Vec<Use>) {
        let a = self.args();
        let owned = |user: u64, group: u64| move |t: Target| self.owner(t, user as u32, group as u32);
        match number {
            libc::SYS_chown => self.change(CWD as u64, a[0], true, v, &owned(a[1], a[2])),
            libc::SYS_lchown => self.change(CWD as u64, a[0], false, v, &owned(a[1], a[2])),
            libc::SYS_fchown => self.change_open(a[0], v, &owned(a[1], a[2])),
            libc::SYS_fchownat if a[4] & libc::AT_EMPTY_PATH as u64 != 0 && self.is_empty(a[1]) => {
                self.change_open(a[0], v, &owned(a[2], a[3]));
            }
            libc::SYS_fchownat => {
                let follow = a[4] & libc::AT_SYMLINK_NOFOLLOW as u64 == 0;
                self.change(a[0], a[1], follow, v, &owned(a[2], a[3]));
            }
            _ => {}
        }
    }
    fn is_empty(&self, at: u64) -> bool {
        sys::read_string(self.pid, at).is_some_and(|p| p.is_empty())
    }
    /// Owners of the mount's files are the server's: a call that leaves them as they are seen changes attributes only.
    fn owner(&self, at: Target, user: u32, group: u32) -> Use {
        let stays = |asked: u32, is: u32| asked == u32::MAX || asked == is;
        let m = std::fs::symlink_metadata(at.path(self.names)).ok();
        let changed = m.is_some_and(|m| !stays(user, m.uid()) || !stays(group, m.gid()));
        match at {
            Target::Remote(_) if changed => Use::Unsupported(libc::EPERM),
            at => Use::Attributes(at),
        }
    }
    fn changes_attributes(&self, number: i64, v: &mut Vec<Use>) {
        let a = self.args();
        let make = |t: Target| match t {
            Target::Remote(_) => Use::Unsupported(libc::EOPNOTSUPP),
            Target::Scratch(_) => Use::Attributes(t),
        };
        match number {
            libc::SYS_setxattr | libc::SYS_removexattr => self.change(CWD as u64, a[0], true, v, &make),
            libc::SYS_lsetxattr | libc::SYS_lremovexattr => self.change(CWD as u64, a[0], false, v, &make),
            libc::SYS_fsetxattr | libc::SYS_fremovexattr => self.change_open(a[0], v, &make),
            _ => {}
        }
    }
    fn changes_two(&self, number: i64, v: &mut Vec<Use>) {
        let a = self.args();
        let cwd = CWD as u64;
        match number {
            libc::SYS_rename => self.two((cwd, a[0]), (cwd, a[1]), false, 0, v),
            libc::SYS_renameat => self.two((a[0], a[1]), (a[2], a[3]), false, 0, v),
            libc::SYS_renameat2 => self.two((a[0], a[1]), (a[2], a[3]), false, a[4], v),
            libc::SYS_link => self.two((cwd, a[0]), (cwd, a[1]), true, 0, v),
            libc::SYS_linkat => self.two((a[0], a[1]), (a[2], a[3]), true, a[4], v),
            _ => {}
        }
    }
    fn two(&self, from: (u64, u64), to: (u64, u64), links: bool, flags: u64, v: &mut Vec<Use>) {
        const NOREPLACE: u64 = 1;
        const EXCHANGE: u64 = 2;
        let follow = links && flags & libc::AT_SYMLINK_FOLLOW as u64 != 0;
        let a = self.lead(from.0 as i32, from.1, follow, v);
        let b = self.lead(to.0 as i32, to.1, false, v);
        let target = |w: Where| match w {
            Where::Remote(n) => Some(Target::Remote(n)),
            Where::Scratch(p) => Some(Target::Scratch(p)),
            Where::Local(_) => None,
        };
        let (Some(a), Some(b)) = (a, b) else { return };
        let outside = matches!(a, Where::Local(_)) && matches!(b, Where::Local(_));
        match (target(a), target(b)) {
            _ if !links && flags & !(NOREPLACE | EXCHANGE) != 0 && !outside => {
                v.push(Use::Unsupported(libc::EINVAL));
            }
            (Some(a), Some(b)) if links => v.push(Use::Link(a, b)),
            (Some(a), Some(b)) if flags & EXCHANGE != 0 => v.push(Use::Exchange(a, b)),
            (Some(a), Some(b)) => v.push(Use::Rename(a, b)),
            _ => v.push(Use::Outside),
        }
    }
}

/// Devices and the kernel's own files: what is written there shows nowhere, or is no file of this machine's.
fn stays_inside(path: &std::path::Path) -> bool {
    let of_the_machine = ["/proc/sys", "/proc/sysrq-trigger"].iter().any(|p| path.starts_with(p));
    path.starts_with("/proc") && !of_the_machine
        || ["/dev/null", "/dev/zero", "/dev/full", "/dev/random", "/dev/urandom"]
            .iter()
            .any(|d| path == std::path::Path::new(d))
        || !path.starts_with("/")
}
