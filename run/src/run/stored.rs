//! Which files of the mount were closed after writing, and so have to be stored.
use crate::name::Name;
use crate::run::descriptors::path_of;
use crate::run::names::Names;
use crate::run::paths::{bytes, Paths, Where};
use crate::run::sys;
use std::collections::HashMap;
use std::fs::{self, File};
use std::io::{self, Read};
use std::os::fd::{AsRawFd, FromRawFd, OwnedFd, RawFd};
use std::os::unix::fs::MetadataExt;
use std::path::Path;

/// What a stored file was: when it is closed again and is the same, it needn't be stored again.
type Mark = (i64, i64, u64, u32, u64);

/// Who tells of closed files.
enum Teller {
    /// fanotify: of the mount as a whole.
    Mount(File),
    /// inotify: of each folder; where the other is not allowed.
    Folders(File, HashMap<i32, Name>),
}

pub struct Stored {
    teller: Teller,
    /// Those that are due, in the order in which they were closed.
    pub due: Vec<Name>,
    marks: HashMap<Name, Mark>,
    /// Files that were made without names, by their inodes: when they are closed, the kernel tells of the inode.
    named: HashMap<u64, Name>,
    /// The kernel could not tell of all that was closed.
    pub missed: bool,
}

fn new_file(fd: RawFd) -> Option<File> {
    // SAFETY: where it is a descriptor, it is new and ours alone.
    (fd >= 0).then(|| File::from(unsafe { OwnedFd::from_raw_fd(fd) }))
}

fn of_mount(mount: &Path) -> Option<File> {
    let c = sys::c_path(mount);
    // SAFETY: `c` ends with a zero; else numbers.
    unsafe {
        let flags = libc::FAN_CLASS_NOTIF | libc::FAN_CLOEXEC | libc::FAN_NONBLOCK;
        let f = new_file(libc::fanotify_init(flags, (libc::O_RDONLY | libc::O_CLOEXEC) as u32))?;
        let add = libc::FAN_MARK_ADD | libc::FAN_MARK_MOUNT;
        let done = libc::fanotify_mark(f.as_raw_fd(), add, libc::FAN_CLOSE_WRITE, libc::AT_FDCWD, c.as_ptr());
        (done == 0).then_some(f)
    }
}

impl Stored {
    pub fn watch_mount(mount: &Path) -> io::Result<Stored> {
        let teller = match of_mount(mount).filter(|_| std::env::var_os("HIDEWILLOW_RUN_INOTIFY").is_none()) {
            Some(f) => Teller::Mount(f),
            None => {
                // SAFETY: numbers only.
                let fd = unsafe { libc::inotify_init1(libc::IN_NONBLOCK | libc::IN_CLOEXEC) };
                Teller::Folders(new_file(fd).ok_or_else(io::Error::last_os_error)?, HashMap::new())
            }
        };
        Ok(Stored { teller, due: Vec::new(), marks: HashMap::new(), named: HashMap::new(), missed: false })
    }
    /// Watches a folder, where each is watched by itself.
    pub fn watch(&mut self, names: &Names, folder: &Name) {
        let Teller::Folders(f, watches) = &mut self.teller else { return };
        let c = sys::c_path(&names.local(folder));
        // SAFETY: `c` ends with a zero.
        let w = unsafe { libc::inotify_add_watch(f.as_raw_fd(), c.as_ptr(), libc::IN_CLOSE_WRITE | libc::IN_ONLYDIR) };
        if w >= 0 {
            watches.insert(w, folder.clone());
        }
    }
    pub fn watches_folders(&self) -> bool {
        matches!(self.teller, Teller::Folders(..))
    }
    pub fn is_due(&mut self, name: &Name) {
        if !self.due.contains(name) {
            self.due.push(name.clone());
        }
    }
    /// Takes in what was closed so far.
    pub fn drain(&mut self, paths: &Paths) {
        let mut buf = [0u8; 2048];
        loop {
            let found = match &mut self.teller {
                Teller::Mount(f) => f.read(&mut buf).map(|n| of_events(&buf[..n], paths)),
                Teller::Folders(f, w) => f.read(&mut buf).map(|n| of_watches(&buf[..n], w)),
            };
            match found {
                Ok(v) => v.iter().for_each(|n| match n {
                    Some(n) => self.was_closed(n),
                    None => self.missed = true,
                }),
                Err(e) if e.kind() == io::ErrorKind::Interrupted => {}
                Err(e) => {
                    self.missed |= e.kind() != io::ErrorKind::WouldBlock;
                    return;
                }
            }
        }
    }
    fn was_closed(&mut self, name: &Name) {
        let inode = name.last().strip_prefix(b"#").and_then(|n| std::str::from_utf8(n).ok()?.parse().ok());
        match inode.and_then(|i: u64| self.named.get(&i)).cloned() {
            Some(n) => self.is_due(&n),
            None => self.is_due(name),
        }
    }
    /// A file that was made without a name has one now.
    pub fn named(&mut self, inode: u64, name: &Name) {
        self.named.insert(inode, name.clone());
    }
    /// The supervisor's own changes are none of the processes'.
    pub fn discard(&mut self, paths: &Paths, due: Vec<Name>) {
        self.drain(paths);
        self.due = due;
        self.marks.clear();
    }
    /// The file that is due, where it is one and has changed since it was stored.
    pub fn changed(&self, names: &Names, name: &Name) -> Option<(fs::Metadata, Mark)> {
        let m = fs::symlink_metadata(names.local(name)).ok().filter(|m| m.is_file())?;
        let mark = (m.mtime(), m.mtime_nsec(), m.len(), m.mode(), m.ino());
        (self.marks.get(name) != Some(&mark)).then_some((m, mark))
    }
    /// What is here is what the server has: that it was written so needn't be stored.
    pub fn is_as_sent(&mut self, names: &Names, name: &Name) {
        self.forget(name);
        if let Some((_, mark)) = self.changed(names, name) {
            self.marks.insert(name.clone(), mark);
        }
    }
    pub fn stored(&mut self, name: &Name, mark: Mark) {
        self.due.retain(|n| n != name);
        self.marks.insert(name.clone(), mark);
    }
    /// Names were moved: what was closed under the old ones is due under the new ones. Of a mount the kernel tells the new ones itself.
    pub fn moved(&mut self, paths: &Paths, from: &Name, to: &Name) {
        if self.watches_folders() {
            self.drain(paths);
        }
        for n in &mut self.due {
            *n = n.moved(from, to).unwrap_or_else(|| n.clone());
        }
    }
    /// Two have taken each other's names: whether what is told of one was closed before that isn't told, so both are due.
    pub fn exchanged(&mut self, paths: &Paths, one: &Name, other: &Name) {
        if self.watches_folders() {
            self.drain(paths);
            if self.due.contains(one) || self.due.contains(other) {
                self.is_due(one);
                self.is_due(other);
            }
        }
    }
    pub fn forget(&mut self, name: &Name) {
        self.marks.remove(name);
    }
}

/// The names in fanotify's events; each brings a descriptor. Whose close it was says nothing: who looks at descriptors of a process by
/// `/proc` just as that closes them is the last one. `None`: one could not be told.
fn of_events(mut b: &[u8], paths: &Paths) -> Vec<Option<Name>> {
    let mut v = Vec::new();
    while let Some(event) = b.get(..24) {
        let number = |at: usize| i32::from_le_bytes(event[at..at + 4].try_into().expect("four bytes"));
        let (len, file) = (number(0) as usize, new_file(number(16)));
        b = b.get(len.max(24)..).unwrap_or_default();
        let Some(path) = file.and_then(|f| path_of(&sys::fd_path(f.as_raw_fd())).ok()) else {
            v.push(None);
            continue;
        };
        let removed = bytes(&path).strip_suffix(b" (deleted)");
        match paths.place(removed.unwrap_or(bytes(&path))) {
            Where::Remote(n) if removed.is_none() || n.last().starts_with(b"#") => v.push(Some(n)),
            _ => {}
        }
    }
    v
}

/// The names in inotify's events. `None`: some could not be told.
fn of_watches(mut b: &[u8], watches: &HashMap<i32, Name>) -> Vec<Option<Name>> {
    let mut v = Vec::new();
    while let Some(event) = b.get(..16) {
        let number = |at: usize| i32::from_le_bytes(event[at..at + 4].try_into().expect("four bytes"));
        let len = number(12) as usize;
        let part = b.get(16..16 + len).unwrap_or_default().split(|x| *x == 0).next().unwrap_or_default();
        match watches.get(&number(0)) {
            Some(folder) => v.extend(folder.child(part).map(Some)),
            None if number(0) < 0 => v.push(None),
            None => {}
        }
        b = b.get(16 + len..).unwrap_or_default();
    }
    v
}

/// The program that a script's first line names.
pub fn script_program(path: &Path) -> Option<Vec<u8>> {
    let mut b = [0u8; 256];
    let n = File::open(path).ok()?.read(&mut b).ok()?;
    let line = b[..n].strip_prefix(b"#!")?.split(|x| *x == b'\n').next()?;
    let mut words = line.split(|x| *x == b' ' || *x == b'\t').filter(|w| !w.is_empty());
    words.next().map(<[u8]>::to_vec)
}
