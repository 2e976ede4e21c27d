//! Changes of files on this machine that may have to be taken back: the local copies of the mount, and scratch folders.
use crate::run::{sys, wrong};
use std::collections::HashMap;
use std::fs::{self, Metadata, Permissions};
use std::io::{Read, Write};
use std::os::fd::{AsRawFd, OwnedFd};
use std::os::unix::fs::{MetadataExt, PermissionsExt};
use std::path::{Path, PathBuf};
use std::rc::Rc;

/// How one change is taken back.
pub enum Undo {
    /// It was made: it goes.
    Made(PathBuf),
    /// A file without a name got one. It may get one just once, so this is not removed, but moved away, until it gets it again.
    Named {
        path: PathBuf,
        saved: PathBuf,
    },
    /// It was removed: its file has another name, from where it is put back.
    Gone {
        saved: PathBuf,
        path: PathBuf,
    },
    /// It was removed, and its file has more names: how many shows, so it gets none meanwhile.
    LinkGone {
        handle: OwnedFd,
        path: PathBuf,
    },
    /// An empty folder was moved away instead of being removed: who has it open has the same one again.
    FolderGone {
        saved: PathBuf,
        path: PathBuf,
    },
    Renamed {
        from: PathBuf,
        to: PathBuf,
    },
    /// Each took the other's name.
    Exchanged(PathBuf, PathBuf),
    /// The time of a folder in which names came or went.
    Time {
        path: PathBuf,
        at: (i64, i64),
    },
    /// Its contents, mode and times may have changed.
    Content {
        handle: Rc<OwnedFd>,
        data: Pieces,
        mode: u32,
        at: (i64, i64),
    },
    /// Its mode, times or owner may have changed.
    Attributes {
        path: PathBuf,
        mode: u32,
        at: (i64, i64),
        accessed: (i64, i64),
        owner: (u32, u32),
        of_link: bool,
    },
}

/// What a file was when it was read: change of contents shows in it.
type Mark = (i64, i64, u64);

/// A file's contents. Those of two moments share the pieces that are the same.
pub type Pieces = Vec<Rc<[u8]>>;
const PIECE: usize = 256 << 10;

/// A file's contents when it was this.
struct Image {
    mark: Mark,
    data: Pieces,
}

/// Reads a file; pieces that are as in `old` are those.
pub fn pieces(mut from: impl Read, old: &[Rc<[u8]>]) -> Pieces {
    let mut all = Pieces::new();
    let mut piece = Vec::new();
    loop {
        piece.clear();
        if !matches!(from.by_ref().take(PIECE as u64).read_to_end(&mut piece), Ok(1..)) {
            return all;
        }
        match old.get(all.len()).filter(|o| o[..] == piece[..]) {
            Some(same) => all.push(same.clone()),
            None => all.push(piece.as_slice().into()),
        }
    }
}

#[derive(Default)]
pub struct UndoLog {
    log: Vec<(u64, Undo)>,
    images: HashMap<(u64, u64), Image>,
    /// Folders for saved names, by the device that they are on.
    folders: Vec<(u64, PathBuf)>,
    /// Where names of files that had none before may have been moved to.
    moved: Vec<PathBuf>,
    next: u64,
    /// Each folder for saved names is locked as long as this lives.
    locks: Vec<OwnedFd>,
    /// Why something could not be kept.
    failed: Option<std::io::Error>,
}

/// What a folder for saved names is called, before who made it.
pub const SAVED: &str = ".hidewillow-run-";

/// A folder with a lock on it; `None` where somebody else has it.
fn locked(folder: &Path) -> Option<OwnedFd> {
    let f = sys::open(folder, libc::O_RDONLY | libc::O_DIRECTORY).ok()?;
    // SAFETY: numbers only.
    (unsafe { libc::flock(f.as_raw_fd(), libc::LOCK_EX | libc::LOCK_NB) } == 0).then_some(f)
}

/// Makes a folder for saved names, which nobody sees before it is locked.
fn made_locked(folder: &Path) -> Option<OwnedFd> {
    let name = folder.file_name()?.to_str()?;
    let new = folder.with_file_name(format!(".new{name}"));
    fs::create_dir(&new).ok()?;
    let lock = locked(&new);
    fs::rename(new, folder).ok()?;
    lock
}

/// Removes the folders for saved names whose owners were killed.
pub fn clear_left(scratch: &Path) {
    for e in fs::read_dir(scratch).into_iter().flatten().flatten() {
        let ours = e.file_name().to_str().is_some_and(|n| n.starts_with(SAVED));
        if ours && locked(&e.path()).is_some() {
            let _ = fs::remove_dir_all(e.path());
        }
    }
}

fn mark(m: &Metadata) -> Mark {
    (m.mtime(), m.mtime_nsec(), m.len())
}

impl UndoLog {
    /// Names that go from this device are kept in this folder, which is made when it is needed.
    pub fn add_folder(&mut self, device: u64, folder: PathBuf) {
        self.folders.push((device, folder));
    }
    pub fn add(&mut self, epoch: u64, undo: Undo) {
        self.log.push((epoch, undo));
    }
    pub fn extend(&mut self, epoch: u64, all: Vec<Undo>) {
        self.log.extend(all.into_iter().map(|u| (epoch, u)));
    }
    /// A file that has no name is about to get this one.
    pub fn name_nameless(&mut self, path: &Path) -> Option<Undo> {
        let saved = self.new_place(fs::metadata(path.parent()?).ok()?.dev())?;
        self.moved.push(saved.clone());
        Some(Undo::Named { path: path.to_owned(), saved })
    }
    /// It has that name again: the one that it was moved to goes.
    pub fn has_name(&mut self, m: &Metadata) {
        let is_it = |p: &PathBuf| fs::symlink_metadata(p).is_ok_and(|o| (o.dev(), o.ino()) == (m.dev(), m.ino()));
        for p in self.moved.iter().filter(|p| is_it(p)) {
            let _ = fs::remove_file(p);
        }
    }
    /// Keeps a name's file before the name goes.
    pub fn keep_name(&mut self, path: &Path) -> Option<Undo> {
        let m = fs::symlink_metadata(path).ok()?;
        if m.is_file() && m.nlink() > 1 {
            return self.handle(path).map(|handle| Undo::LinkGone { handle, path: path.to_owned() });
        }
        let saved = self.new_place(m.dev())?;
        sys::link(path, &saved).then(|| Undo::Gone { saved, path: path.to_owned() })
    }
    /// Moves an empty folder away, as its removal.
    pub fn move_folder(&mut self, path: &Path) -> Option<Undo> {
        let m = fs::symlink_metadata(path).ok().filter(Metadata::is_dir)?;
        if fs::read_dir(path).ok()?.next().is_some() || !sys::may_write(path.parent()?) {
            return None;
        }
        let saved = self.new_place(m.dev())?;
        fs::rename(path, &saved).ok()?;
        Some(Undo::FolderGone { saved, path: path.to_owned() })
    }
    /// Whether names that go from this device can be kept.
    pub fn has_folder(&self, device: u64) -> bool {
        self.folders.iter().any(|(d, _)| *d == device)
    }
    /// A name on this device that nobody sees.
    pub fn new_place(&mut self, device: u64) -> Option<PathBuf> {
        let (_, folder) = self.folders.iter().find(|(d, _)| *d == device)?;
        self.next += 1;
        if !folder.exists() {
            self.locks.extend(made_locked(folder));
        }
        Some(folder.join(format!("s{}", self.next)))
    }
    /// Where something could not be kept, nothing may be done that it would be wanted for.
    pub fn has_kept_all(&mut self) -> std::io::Result<()> {
        self.failed.take().map_or(Ok(()), Err)
    }
    /// A handle of a file; a file that isn't there needs none.
    fn handle(&mut self, path: &Path) -> Option<OwnedFd> {
        self.kept(sys::handle(path))
    }
    fn kept<T>(&mut self, done: std::io::Result<T>) -> Option<T> {
        match done {
            Ok(it) => Some(it),
            Err(e) if e.kind() == std::io::ErrorKind::NotFound => None,
            Err(e) => {
                self.failed = Some(e);
                None
            }
        }
    }
    /// What is in a file.
    pub fn contents(&mut self, path: &Path) -> Pieces {
        match (self.handle(path), fs::symlink_metadata(path)) {
            (Some(handle), Ok(m)) => self.image(&handle, &m),
            _ => Pieces::new(),
        }
    }
    /// Keeps a file's contents before they change.
    pub fn keep_content(&mut self, path: &Path) -> Option<Undo> {
        let m = fs::symlink_metadata(path).ok()?;
        let handle = Rc::new(self.handle(path)?);
        Some(self.content(handle, &m))
    }
    /// The same of a file that is open for writing.
    pub fn keep_open(&mut self, handle: &Rc<OwnedFd>) -> Option<Undo> {
        let m = sys::metadata(handle).ok()?;
        Some(self.content(handle.clone(), &m))
    }
    fn content(&mut self, handle: Rc<OwnedFd>, m: &Metadata) -> Undo {
        let data = self.image(&handle, m);
        Undo::Content { handle, data, mode: m.mode() & 0o7777, at: (m.mtime(), m.mtime_nsec()) }
    }
    /// What is in a file; read once as long as it stays the same.
    fn image(&mut self, handle: &OwnedFd, m: &Metadata) -> Pieces {
        let file = (m.dev(), m.ino());
        let old = self.images.get(&file).map(|i| (i.mark == mark(m), i.data.clone()));
        if let Some((true, data)) = old {
            return data;
        }
        let old = old.map(|(_, data)| data).unwrap_or_default();
        let from = self.kept(sys::open_quietly(&sys::fd_path(handle.as_raw_fd())));
        let data = from.map_or(Pieces::new(), |f| pieces(f, &old));
        self.images.insert(file, Image { mark: mark(m), data: data.clone() });
        data
    }
    /// An epoch is accepted: what it changed stays.
    pub fn settle(&mut self, epoch: u64) {
        let n = self.log.iter().take_while(|(e, _)| *e <= epoch).count();
        for (_, u) in self.log.drain(..n) {
            forget(u);
        }
        if self.log.is_empty() {
            self.images.clear();
        }
    }
    /// Takes back all that isn't settled.
    pub fn take_back_all(&mut self) {
        let mut all = std::mem::take(&mut self.log);
        if wrong::is(wrong::UNDO_MISSED) {
            all.pop();
        }
        take_back(all.into_iter().map(|(_, u)| u).collect());
        self.images.clear();
    }
    /// Removes the folders for saved names.
    pub fn close(&mut self) {
        for (_, f) in &self.folders {
            let _ = fs::remove_dir_all(f);
        }
    }
}

/// A change that stays.
pub fn forget(u: Undo) {
    let _ = match u {
        Undo::Gone { saved, .. } => fs::remove_file(saved),
        Undo::FolderGone { saved, .. } => fs::remove_dir(saved),
        _ => Ok(()),
    };
}

/// A call that failed has changed nothing; what was moved away for it comes back.
pub fn never_mind(changes: Vec<Undo>) {
    for u in changes {
        match u {
            Undo::FolderGone { .. } => drop(take_back_one(u)),
            u => forget(u),
        }
    }
}

/// Takes changes back, the last first. Where one does not succeed, the change was not made.
pub fn take_back(changes: Vec<Undo>) {
    for u in changes.into_iter().rev() {
        let _ = take_back_one(u);
    }
}

fn take_back_one(u: Undo) -> std::io::Result<()> {
    match u {
        Undo::Made(path) => fs::remove_file(&path).or_else(|_| fs::remove_dir(&path)),
        Undo::Named { path, saved } => fs::rename(path, saved),
        Undo::Gone { saved, path } => {
            fs::rename(&saved, &path)?;
            // where both were one file still, the rename did nothing
            fs::remove_file(&saved).or(Ok(()))
        }
        Undo::LinkGone { handle, path } => {
            if !sys::link_open(&handle, &path) {
                let other = path.with_file_name(format!(".hidewillow-link-{}", handle.as_raw_fd()));
                if sys::link_open(&handle, &other) {
                    fs::rename(other, path)?;
                }
            }
            Ok(())
        }
        Undo::FolderGone { saved, path } => fs::rename(saved, path),
        Undo::Renamed { from, to } => fs::rename(to, from),
        Undo::Exchanged(one, other) => sys::exchange(&one, &other),
        Undo::Time { path, at } => {
            sys::set_times(&path, at);
            Ok(())
        }
        Undo::Content { handle, data, mode, at } => fill_again(&handle, &data, mode, at),
        Undo::Attributes { path, mode, at, accessed, owner, of_link } => {
            // where it stayed, who has no privileges may say so
            let _ = std::os::unix::fs::lchown(&path, Some(owner.0), Some(owner.1));
            if !of_link {
                fs::set_permissions(&path, Permissions::from_mode(mode))?;
            }
            sys::set_both_times(&path, accessed, at);
            Ok(())
        }
    }
}

/// A file has its contents, mode and time again.
fn fill_again(handle: &OwnedFd, data: &[Rc<[u8]>], mode: u32, at: (i64, i64)) -> std::io::Result<()> {
    let path = sys::fd_path(handle.as_raw_fd());
    fs::set_permissions(&path, Permissions::from_mode(mode | 0o200))?;
    let mut f = fs::OpenOptions::new().write(true).truncate(true).open(&path)?;
    data.iter().try_for_each(|piece| f.write_all(piece))?;
    f.set_permissions(Permissions::from_mode(mode))?;
    let t = [libc::timespec { tv_sec: at.0, tv_nsec: at.1 }; 2];
    // SAFETY: `f` is open, `t` has two times.
    unsafe { libc::futimens(f.as_raw_fd(), t.as_ptr()) };
    Ok(())
}

#[cfg(test)]
mod tests {
    use super::*;

    /// A folder that goes with the test.
    struct Room(PathBuf);

    impl Room {
        fn new(name: &str) -> Room {
            let path = std::env::temp_dir().join(format!("hidewillow-undo-{}-{name}", std::process::id()));
            fs::create_dir_all(&path).unwrap();
            Room(path)
        }
        fn log(&self) -> UndoLog {
            let mut log = UndoLog::default();
            log.add_folder(fs::metadata(&self.0).unwrap().dev(), self.0.join(".saved"));
            log
        }
    }

    impl Drop for Room {
        fn drop(&mut self) {
            let _ = fs::remove_dir_all(&self.0);
        }
    }

    #[test]
    fn all_comes_back() {
        let room = Room::new("back");
        let (a, b, d) = (room.0.join("a"), room.0.join("b"), room.0.join("d"));
        fs::write(&a, "one").unwrap();
        fs::create_dir(&d).unwrap();
        let folder = fs::metadata(&d).unwrap().ino();
        let mut log = room.log();
        let kept = log.keep_content(&a).unwrap();
        log.add(1, kept);
        fs::write(&a, "changed").unwrap();
        log.add(1, Undo::Renamed { from: a.clone(), to: b.clone() });
        fs::rename(&a, &b).unwrap();
        let kept = log.keep_name(&b).unwrap();
        log.add(2, kept);
        fs::remove_file(&b).unwrap();
        let moved = log.move_folder(&d).unwrap();
        log.add(2, moved);
        assert!(!b.exists() && !d.exists());
        log.take_back_all();
        assert_eq!(fs::read_to_string(&a).unwrap(), "one");
        assert!(!b.exists());
        assert_eq!(fs::metadata(&d).unwrap().ino(), folder);
    }

    #[test]
    fn links_stay_links() {
        let room = Room::new("links");
        let (a, b) = (room.0.join("a"), room.0.join("b"));
        fs::write(&a, "one").unwrap();
        fs::hard_link(&a, &b).unwrap();
        let mut log = room.log();
        let kept = log.keep_name(&a).unwrap();
        log.add(1, kept);
        fs::remove_file(&a).unwrap();
        assert_eq!(fs::metadata(&b).unwrap().nlink(), 1);
        log.take_back_all();
        assert_eq!(fs::metadata(&a).unwrap().ino(), fs::metadata(&b).unwrap().ino());
    }

    #[test]
    fn what_is_settled_stays() {
        let room = Room::new("settled");
        let a = room.0.join("a");
        fs::write(&a, "one").unwrap();
        let mut log = room.log();
        let kept = log.keep_name(&a).unwrap();
        log.add(1, kept);
        fs::remove_file(&a).unwrap();
        log.settle(1);
        log.take_back_all();
        assert!(!a.exists());
    }
}
