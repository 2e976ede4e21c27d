//! Where a path of a process leads: into the mount, into a scratch folder, or elsewhere on this machine.
use crate::name::Name;
use crate::run::inside::Board;
use crate::run::names::Names;
use crate::run::sys::Pid;
use crate::wire::Kind;
use std::cell::{RefCell, RefMut};
use std::collections::{HashMap, VecDeque};
use std::ffi::OsStr;
use std::fs;
use std::os::unix::ffi::{OsStrExt, OsStringExt};
use std::path::{Path, PathBuf};

/// The links that a path may pass, as the kernel has it.
const MOST_LINKS: usize = 40;

pub fn os(bytes: &[u8]) -> &OsStr {
    OsStr::from_bytes(bytes)
}
pub fn bytes(path: &Path) -> &[u8] {
    path.as_os_str().as_bytes()
}

#[derive(Clone, PartialEq, Eq, Debug)]
pub enum Where {
    Remote(Name),
    Scratch(PathBuf),
    Local(PathBuf),
}

/// A path's end, and the remote links that it passed.
pub struct Led {
    pub to: Where,
    pub links: Vec<Name>,
}

pub struct Paths {
    mount: Vec<u8>,
    scratch: Vec<Vec<u8>>,
    /// Links of this machine, by their paths; `None`: it is none.
    local_links: RefCell<HashMap<Vec<u8>, Option<Vec<u8>>>>,
    /// Where whole paths lead that stay on this machine, and not into a scratch folder.
    local: RefCell<HashMap<Vec<u8>, Where>>,
    /// The same for the processes themselves.
    board: RefCell<Board>,
}

/// No more paths are remembered than these.
const MOST_PATHS: usize = 100_000;

fn under<'a>(path: &'a [u8], folder: &[u8]) -> Option<&'a [u8]> {
    let rest = path.strip_prefix(folder)?;
    if rest.is_empty() {
        Some(rest)
    } else {
        rest.strip_prefix(b"/")
    }
}

impl Paths {
    pub fn new(mount: Vec<u8>, scratch: Vec<Vec<u8>>, board: Board) -> Paths {
        let (local_links, local) = (RefCell::default(), RefCell::default());
        Paths { mount, scratch, local_links, local, board: RefCell::new(board) }
    }
    pub fn board(&self) -> RefMut<'_, Board> {
        self.board.borrow_mut()
    }
    /// Something outside may have changed: what was seen of local links is forgotten.
    pub fn forget_local(&self) {
        self.local_links.borrow_mut().clear();
        self.local.borrow_mut().clear();
        self.board().wipe(); // [19]
    }
    pub fn place(&self, path: &[u8]) -> Where {
        if let Some(name) = under(path, &self.mount).and_then(Name::new) {
            return Where::Remote(name);
        }
        let path = PathBuf::from(std::ffi::OsString::from_vec(path.to_vec()));
        if self.scratch.iter().any(|s| under(path.as_os_str().as_bytes(), s).is_some()) {
            Where::Scratch(path)
        } else {
            Where::Local(path)
        }
    }
    /// Where a path leads; `follow`: also where its last part is a link.
    pub fn lead(&self, names: &Names, pid: Pid, folder: i32, path: &[u8], follow: bool) -> Led {
        if let Some(to) = self.local.borrow().get(path) {
            return Led { to: to.clone(), links: Vec::new() };
        }
        let led = self.follow(names, pid, folder, path, follow);
        let is_kept = path.starts_with(b"/") && !path.starts_with(b"/proc") && !is_of_process(path);
        let stays = |l: &Led| l.links.is_empty() && self.stays(&l.to);
        // also where its last part is a link that some other call follows
        let stays_followed = || {
            let other = self.follow(names, pid, folder, path, true);
            stays(&other) && std::mem::discriminant(&other.to) == std::mem::discriminant(&led.to)
        };
        if is_kept && stays(&led) && (follow || stays_followed()) {
            let mut local = self.local.borrow_mut();
            if local.len() >= MOST_PATHS {
                local.clear();
                self.board().wipe();
            }
            if local.insert(path.to_vec(), led.to.clone()).is_none() {
                self.board().add(path); // [19]
            }
        }
        led
    }
    /// It is on this machine, and none of the command's calls makes something else of it but those that this is told of.
    fn stays(&self, to: &Where) -> bool {
        match to {
            Where::Remote(_) => false,
            Where::Scratch(path) => self.is_scratch(path),
            Where::Local(_) => true,
        }
    }
    /// Whether it is a scratch folder itself.
    pub fn is_scratch(&self, path: &Path) -> bool {
        self.scratch.iter().any(|s| s == bytes(path))
    }
    fn follow(&self, names: &Names, pid: Pid, folder: i32, path: &[u8], follow: bool) -> Led {
        let mut todo: VecDeque<Vec<u8>> = path.split(|b| *b == b'/').map(<[u8]>::to_vec).collect();
        let follow = follow || path.ends_with(b"/");
        let mut at: Vec<u8> = if path.starts_with(b"/") { Vec::new() } else { begin(pid, folder) };
        let mut links = Vec::new();
        let mut passed = 0;
        while let Some(part) = todo.pop_front() {
            match part.as_slice() {
                b"" | b"." => continue,
                b".." => {
                    let cut = at.iter().rposition(|b| *b == b'/').unwrap_or(0);
                    at.truncate(cut);
                    continue;
                }
                _ => {}
            }
            let before = at.len();
            at.push(b'/');
            at.extend_from_slice(&part);
            let last = todo.iter().all(|p| p.is_empty());
            if (last && !follow) || passed >= MOST_LINKS {
                continue;
            }
            let Some(target) = self.target(names, pid, &at, &mut links) else { continue };
            passed += 1;
            at.truncate(if target.starts_with(b"/") { 0 } else { before });
            target.split(|b| *b == b'/').rev().for_each(|p| todo.push_front(p.to_vec()));
        }
        Led { to: self.place(&at), links }
    }
    /// Where a link leads that this path is.
    fn target(&self, names: &Names, pid: Pid, at: &[u8], links: &mut Vec<Name>) -> Option<Vec<u8>> {
        if let Some(name) = under(at, &self.mount).and_then(Name::new) {
            if names.get(&name).kind != Kind::Link {
                return None;
            }
            let target = fs::read_link(names.local(&name)).ok()?;
            links.push(name);
            return Some(target.into_os_string().into_vec());
        }
        if let Some(rest) = under(at, b"/proc") {
            return of_process(pid, rest);
        }
        if let Some(known) = self.local_links.borrow().get(at) {
            return known.clone();
        }
        let target = fs::read_link(OsStr::from_bytes(at)).ok().map(|t| t.into_os_string().into_vec());
        if self.scratch.iter().any(|s| under(at, s).is_some()) {
            // the command's own calls change it
            return target;
        }
        self.local_links.borrow_mut().insert(at.to_vec(), target.clone());
        target
    }
}

/// Devices may lead to what is of a process, but for the memory that has a name.
fn is_of_process(path: &[u8]) -> bool {
    under(path, b"/dev").is_some_and(|rest| !rest.is_empty()) && under(path, b"/dev/shm").is_none()
}

/// The folder that a path begins at which doesn't begin with `/`.
fn begin(pid: Pid, folder: i32) -> Vec<u8> {
    let link = match folder {
        libc::AT_FDCWD => format!("/proc/{pid}/cwd"),
        fd => format!("/proc/{pid}/fd/{fd}"),
    };
    let path = fs::read_link(link).unwrap_or_default().into_os_string().into_vec();
    if path == b"/" {
        Vec::new()
    } else {
        path
    }
}

/// Links below `/proc` are of who follows them.
fn of_process(pid: Pid, rest: &[u8]) -> Option<Vec<u8>> {
    match rest {
        b"" => None,
        b"self" => Some(pid.to_string().into_bytes()),
        b"thread-self" => Some(format!("{pid}/task/{pid}").into_bytes()),
        _ => {
            let path = [b"/proc/".as_slice(), rest].concat();
            let target = fs::read_link(OsStr::from_bytes(&path)).ok()?.into_os_string().into_vec();
            // a pipe or a socket has no path
            target.starts_with(b"/").then_some(target).or(rest.ends_with(b"mounts").then(|| b"self/mounts".to_vec()))
        }
    }
}
