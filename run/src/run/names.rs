//! What is known of the names of the mount, and the local copies that the processes see.
use crate::name::Name;
use crate::run::sys;
use crate::wire::{Entry, Kind, NameSum, Version};
use std::collections::{BTreeMap, HashMap};
use std::ffi::OsStr;
use std::fs::{self, Permissions};
use std::io::{self, Write};
use std::ops::Bound;
use std::os::fd::RawFd;
use std::os::unix::ffi::OsStrExt;
use std::os::unix::fs::{MetadataExt, PermissionsExt};
use std::path::{Path, PathBuf};

/// What is known of a name.
#[derive(Clone, Copy, PartialEq, Eq, Debug, Default)]
pub struct Known {
    pub version: Version,
    pub kind: Kind,
    /// The contents are here.
    pub have: bool,
    /// Of a folder: all its names are known.
    pub listed: bool,
    /// The same for all names of a file that has several; else 0.
    pub file: u64,
    /// The epoch that has looked at it.
    pub looked: u64,
}

/// What a file's number has where it got its names here.
const OURS: u64 = 1 << 63;

pub struct Names {
    /// Where the local copies are.
    data: PathBuf,
    /// Where new ones are made before they get their names.
    making: PathBuf,
    entries: BTreeMap<Name, Known>,
    numbers: HashMap<Name, u64>,
    by_number: Vec<Name>,
    values: Vec<Known>,
    next: u64,
}

impl Names {
    pub fn new(data: PathBuf, making: PathBuf) -> Names {
        Names {
            data,
            making,
            entries: BTreeMap::new(),
            numbers: HashMap::new(),
            by_number: Vec::new(),
            values: Vec::new(),
            next: 0,
        }
    }
    pub fn local(&self, name: &Name) -> PathBuf {
        if name.is_root() {
            self.data.clone()
        } else {
            self.data.join(name.path())
        }
    }
    /// What is known of a name; `Err`: the folder that has to be listed first.
    pub fn lookup(&self, name: &Name) -> Result<Known, Name> {
        if let Some(k) = self.entries.get(name) {
            return Ok(*k);
        }
        if name.is_root() {
            return Err(Name::root());
        }
        let parent = name.parent();
        let k = self.lookup(&parent)?;
        if k.kind != Kind::Folder || k.listed {
            Ok(Known::default())
        } else {
            Err(parent)
        }
    }
    pub fn get(&self, name: &Name) -> Known {
        self.entries.get(name).copied().unwrap_or_default()
    }
    /// The names of a folder that there are.
    pub fn children(&self, folder: &Name) -> Vec<Name> {
        let mut prefix = folder.bytes().to_vec();
        if !folder.is_root() {
            prefix.push(b'/');
        }
        let mut found = Vec::new();
        let mut from = prefix.clone();
        while let Some((n, k)) = self.entries.range::<[u8], _>(from_here(&from)).next() {
            if !n.starts_with(&prefix) {
                break;
            }
            match n.bytes()[prefix.len()..].iter().position(|b| *b == b'/') {
                // it is further below: on behind all that is there
                Some(at) => {
                    from = n.bytes()[..prefix.len() + at].to_vec();
                    from.push(b'/' + 1);
                }
                None => {
                    if n.len() > prefix.len() && k.kind != Kind::Absent {
                        found.push(n.clone());
                    }
                    from = n.bytes().to_vec();
                    from.push(0);
                }
            }
        }
        found
    }
    pub fn sum(&self, folder: &Name) -> NameSum {
        self.children(folder).iter().fold(NameSum::default(), |s, n| s.with(n.last(), self.get(n).kind))
    }
    /// This name, and all that are known below it.
    pub fn within(&self, folder: &Name) -> Vec<Name> {
        self.entries
            .range::<[u8], _>(from_here(folder.bytes()))
            .take_while(|(n, _)| n.starts_with(folder.bytes()))
            .filter(|(n, _)| n.is_within(folder))
            .map(|(n, _)| n.clone())
            .collect()
    }
    pub fn folders(&self) -> Vec<Name> {
        self.entries.iter().filter(|(_, k)| k.kind == Kind::Folder).map(|(n, _)| n.clone()).collect()
    }
    /// All names of the file that has this one.
    pub fn names_of_file(&self, name: &Name) -> Vec<Name> {
        let k = self.get(name);
        if k.file == 0 {
            return vec![name.clone()];
        }
        self.entries.iter().filter(|(_, o)| o.file == k.file).map(|(n, _)| n.clone()).collect()
    }
    /// The names that are known of the file that an entry tells of, where it has several.
    pub fn others_of(&self, e: &Entry) -> Vec<Name> {
        if e.kind != Kind::File || e.links <= 1 {
            return Vec::new();
        }
        // one that got its names here has a number of ours until the server tells its own
        let ours = Some(self.get(&e.name).file).filter(|file| file & OURS != 0);
        let is_it = |k: &Known| k.kind == Kind::File && (k.file == e.file & !OURS || Some(k.file) == ours);
        self.entries.iter().filter(|(_, k)| is_it(k)).map(|(n, _)| n.clone()).collect()
    }
    /// A name is of the same local file as another.
    pub fn link_again(&mut self, of: &Name, name: &Name) -> io::Result<()> {
        self.next += 1;
        let (new, path) = (self.making.join(format!("n{}", self.next)), self.local(name));
        fs::hard_link(self.local(of), &new)?;
        keeping_folder_time(&path, || fs::rename(&new, &path));
        // where both were of one file already the rename has done nothing
        let _ = fs::remove_file(new);
        Ok(())
    }

    /// Notes what is known; the numbers are what it is called where it is decided.
    pub fn set(&mut self, name: &Name, known: Known) -> (u64, Option<u64>) {
        let absent = known.kind == Kind::Absent;
        if absent && self.get(&name.parent()).listed {
            self.entries.remove(name);
        } else {
            self.entries.insert(name.clone(), known);
        }
        self.values.push(known);
        (self.number(name), (!absent).then_some(self.values.len() as u64))
    }
    /// What it is called where it is decided.
    pub fn number(&mut self, name: &Name) -> u64 {
        if let Some(n) = self.numbers.get(name) {
            return *n;
        }
        self.by_number.push(name.clone());
        let n = self.by_number.len() as u64;
        self.numbers.insert(name.clone(), n);
        n
    }
    /// A name goes back to what was known of it.
    pub fn go_back(&mut self, name: u64, version: Option<u64>) {
        let Some(n) = self.by_number.get(name as usize - 1).cloned() else { return };
        match version.and_then(|v| self.values.get(v as usize - 1)) {
            Some(k) => self.entries.insert(n, *k),
            None => self.entries.remove(&n),
        };
    }
    pub fn looked(&mut self, name: &Name, epoch: u64) {
        if let Some(k) = self.entries.get_mut(name) {
            k.looked = epoch;
        }
    }
    pub fn forget_looks(&mut self) {
        self.entries.values_mut().for_each(|k| k.looked = 0);
    }
    pub fn listed(&mut self, folder: &Name) {
        if let Some(k) = self.entries.get_mut(folder) {
            k.listed = true;
        }
    }
    pub fn new_file_number(&mut self) -> u64 {
        self.next += 1;
        OURS | self.next
    }

    /// Makes the local copy what the server has; contents come later.
    pub fn install(&mut self, e: &Entry) -> Known {
        let path = self.local(&e.name);
        let old = self.get(&e.name);
        keeping_folder_time(&path, || self.install_at(e, &path));
        let same = old.version == e.version && old.kind == e.kind;
        Known {
            version: e.version,
            kind: e.kind,
            have: e.kind != Kind::File || e.size == 0 || (same && old.have),
            listed: old.listed && e.kind == Kind::Folder,
            file: if e.links > 1 && e.kind == Kind::File { e.file & !OURS } else { 0 },
            looked: 0,
        }
    }
    /// The same at the start, when nobody looks: `folder` is that of the copies, which is empty.
    pub fn install_first(&mut self, folder: RawFd, e: &Entry) -> Known {
        let alone = e.kind == Kind::File && e.links <= 1;
        if !alone || sys::make_file(folder, e.name.path(), e.size, e.mode, parts(e.modified)).is_err() {
            return self.install(e);
        }
        let have = e.size == 0;
        Known { version: e.version, kind: e.kind, have, listed: false, file: 0, looked: 0 }
    }
    fn install_at(&mut self, e: &Entry, path: &Path) -> io::Result<()> {
        if let Ok(m) = fs::symlink_metadata(path) {
            let same = match e.kind {
                Kind::Folder => m.is_dir(),
                Kind::File => m.is_file(),
                _ => false,
            };
            if !same && m.is_dir() {
                fs::remove_dir_all(path)?;
            } else if !same {
                fs::remove_file(path)?;
            }
        }
        match e.kind {
            Kind::Folder => {
                let _ = fs::create_dir(path);
                fs::set_permissions(path, Permissions::from_mode(e.mode | 0o700))?;
                sys::set_times(path, parts(e.modified));
            }
            Kind::File => self.install_file(e, path)?,
            Kind::Link => {
                std::os::unix::fs::symlink(OsStr::from_bytes(&e.target.0), path)?;
                sys::set_times(path, parts(e.modified));
            }
            Kind::Other => {
                let c = sys::c_path(path);
                // SAFETY: `c` ends with a zero.
                unsafe { libc::mknod(c.as_ptr(), libc::S_IFSOCK | 0o600, 0) };
            }
            Kind::Absent => {}
        }
        Ok(())
    }
    /// A new file takes the name: who has the old one open goes on reading what he had.
    fn install_file(&mut self, e: &Entry, path: &Path) -> io::Result<()> {
        let old = self.get(&e.name);
        if old.version == e.version && old.kind == Kind::File && path.exists() {
            return Ok(());
        }
        if fs::symlink_metadata(path).is_ok_and(|m| m.is_file() && m.nlink() == 1 && is_as_long_and_old(&m, e)) {
            // touched only: who has it open has the same file still
            return fs::set_permissions(path, Permissions::from_mode(e.mode));
        }
        let same = self.others_of(e).into_iter().find(|n| *n != e.name && self.get(n).version == e.version);
        if let Some(other) = same {
            let other = self.local(&other);
            let _ = fs::remove_file(path);
            return fs::hard_link(other, path);
        }
        self.next += 1;
        let new = self.making.join(format!("n{}", self.next));
        let f = fs::File::create(&new)?;
        f.set_len(e.size)?;
        f.set_permissions(Permissions::from_mode(e.mode))?;
        sys::set_times(&new, parts(e.modified));
        fs::rename(&new, path)
    }
    /// Puts a file's contents into its local copy.
    pub fn fill(&self, name: &Name, contents: &[u8]) -> io::Result<()> {
        let path = self.local(name);
        let m = fs::metadata(&path)?;
        fs::set_permissions(&path, Permissions::from_mode(m.mode() | 0o200))?;
        // it is never shorter in between: after a rollback someone may have it open
        let mut f = fs::OpenOptions::new().write(true).open(&path)?;
        f.write_all(contents)?;
        f.set_len(contents.len() as u64)?;
        f.set_permissions(Permissions::from_mode(m.mode() & 0o7777))?;
        drop(f);
        sys::set_times(&path, (m.mtime(), m.mtime_nsec()));
        Ok(())
    }
    /// Names behind this one in their order, then those from its folder's first on.
    pub fn near(&self, name: &Name, most: usize) -> Vec<Name> {
        let behind = self.entries.range::<[u8], _>((Bound::Excluded(name.bytes()), Bound::Unbounded)).take(most);
        let beside = self.entries.range::<[u8], _>(from_here(name.parent().bytes())).take(most);
        behind.chain(beside).map(|(n, _)| n.clone()).collect()
    }
    /// Folders get the times that they had before things were put into them.
    pub fn set_folder_times(&self, entries: &[Entry]) {
        for e in entries.iter().rev().filter(|e| e.kind == Kind::Folder) {
            let path = self.local(&e.name);
            let _ = fs::set_permissions(&path, Permissions::from_mode(e.mode));
            sys::set_times(&path, parts(e.modified));
        }
    }
}

fn is_as_long_and_old(m: &fs::Metadata, e: &Entry) -> bool {
    e.links <= 1 && m.len() == e.size && (m.mtime(), m.mtime_nsec()) == parts(e.modified)
}

fn from_here(name: &[u8]) -> (Bound<&[u8]>, Bound<&[u8]>) {
    (Bound::Included(name), Bound::Unbounded)
}

/// Seconds and nanoseconds.
pub fn parts(nanoseconds: i64) -> (i64, i64) {
    (nanoseconds.div_euclid(1_000_000_000), nanoseconds.rem_euclid(1_000_000_000))
}

/// What the supervisor changes in a folder does not show in its time.
fn keeping_folder_time(path: &Path, change: impl FnOnce() -> io::Result<()>) {
    let folder = path.parent().filter(|_| path.file_name().is_some());
    let before = folder.and_then(|f| fs::symlink_metadata(f).ok());
    let _ = change();
    if let (Some(f), Some(m)) = (folder, before) {
        sys::set_times(f, (m.mtime(), m.mtime_nsec()));
    }
}
