//! Folders that are being read when all goes back. A name that is put back has another place in its folder then, so that who reads on
//! could be given it twice, or not at all. What each reader has not been given yet is kept with a checkpoint; behind a rollback the folder
//! is put into an order in which just that comes.
use crate::run::descriptors::Descriptor;
use crate::run::sys::{self, Pid};
use crate::run::undo::UndoLog;
use std::collections::{HashMap, HashSet};
use std::ffi::{CStr, OsStr};
use std::fs;
use std::io;
use std::os::fd::{AsRawFd, OwnedFd, RawFd};
use std::os::unix::ffi::OsStrExt;
use std::os::unix::fs::MetadataExt;
use std::path::{Path, PathBuf};

/// A description of a folder that is read, as it was at a checkpoint.
pub struct Reading {
    pub pid: Pid,
    pub of: Descriptor,
    /// The names that it has not given yet.
    left: HashSet<Vec<u8>>,
}

/// A name of a folder, and the position behind it.
struct Place {
    name: Vec<u8>,
    behind: i64,
}

impl Reading {
    pub fn at(pid: Pid, of: &Descriptor, position: u64) -> io::Result<Reading> {
        let places = places_from(&sys::fd_path(of.handle.as_raw_fd()), position as i64)?;
        Ok(Reading { pid, of: of.clone(), left: places.into_iter().map(|p| p.name).collect() })
    }
    /// Whether a description gives what is left of it, as far as that is there.
    fn goes_on(&self, at: RawFd, there: &[Place]) -> io::Result<bool> {
        // SAFETY: numbers only.
        let position = unsafe { libc::lseek(at, 0, libc::SEEK_CUR) };
        let given = places_from(&sys::fd_path(self.of.handle.as_raw_fd()), position)?;
        let wanted = there.iter().filter(|p| self.left.contains(&p.name)).count();
        Ok(given.len() == wanted && given.iter().all(|p| self.left.contains(&p.name)))
    }
}

/// A description that was opened once more, and the path of its folder by which names can leave it.
pub struct Again<'a> {
    pub of: &'a Reading,
    pub at: RawFd,
    pub folder: PathBuf,
}

/// Has descriptions go on with what was left of their folders.
pub fn read_on(all: &[Again], undo: &mut UndoLog) -> io::Result<()> {
    let mut by_folder: HashMap<(u64, u64), Vec<&Again>> = HashMap::new();
    for a in all {
        by_folder.entry((a.of.of.device, a.of.of.inode)).or_default().push(a);
    }
    by_folder.values().try_for_each(|all| read_on_in(&all[0].folder, all, undo))
}

fn read_on_in(folder: &Path, all: &[&Again], undo: &mut UndoLog) -> io::Result<()> {
    let there = places_from(folder, 0)?;
    if all.iter().map(|a| a.of.goes_on(a.at, &there)).collect::<io::Result<Vec<_>>>()?.iter().all(|goes| *goes) {
        return Ok(());
    }
    let m = fs::metadata(folder)?;
    // those first that most have been given
    let waiting = |p: &Place| all.iter().filter(|a| a.of.left.contains(&p.name)).count();
    let mut order: Vec<(usize, Vec<u8>)> = there.iter().map(|p| (waiting(p), p.name.clone())).collect();
    order.sort();
    put_in_order(folder, order.iter().map(|(_, name)| name), m.dev(), undo)?;
    let mut now = places_from(folder, 0)?;
    if !now.is_sorted_by_key(waiting) {
        // the newest name is given first
        put_in_order(folder, order.iter().rev().map(|(_, name)| name), m.dev(), undo)?;
        now = places_from(folder, 0)?;
    }
    sys::set_times(folder, (m.mtime(), m.mtime_nsec()));
    for a in all {
        let behind = now.iter().rfind(|p| !a.of.left.contains(&p.name)).map_or(0, |p| p.behind);
        // SAFETY: numbers only.
        unsafe { libc::lseek(a.at, behind, libc::SEEK_SET) };
    }
    Ok(())
}

/// Each name leaves the folder and comes back, one after the other.
fn put_in_order<'a>(
    folder: &Path,
    names: impl Iterator<Item = &'a Vec<u8>>,
    device: u64,
    undo: &mut UndoLog,
) -> io::Result<()> {
    for name in names.filter(|n| !matches!(n.as_slice(), b"." | b"..")) {
        let (path, room) =
            (folder.join(OsStr::from_bytes(name)), undo.new_place(device).ok_or(io::ErrorKind::NotFound)?);
        fs::rename(&path, &room)?;
        fs::rename(&room, &path)?;
    }
    Ok(())
}

/// What a folder gives from a position on.
fn places_from(folder: &Path, position: i64) -> io::Result<Vec<Place>> {
    let flags = libc::O_RDONLY | libc::O_DIRECTORY;
    let folder: OwnedFd = sys::open(folder, flags | libc::O_NOATIME).or_else(|_| sys::open(folder, flags))?;
    let mut room = vec![0u8; 32 << 10];
    let mut all = Vec::new();
    // SAFETY: numbers only.
    unsafe { libc::lseek(folder.as_raw_fd(), position, libc::SEEK_SET) };
    loop {
        // SAFETY: the kernel writes into `room` only.
        let len = unsafe { libc::syscall(libc::SYS_getdents64, folder.as_raw_fd(), room.as_mut_ptr(), room.len()) };
        let Ok(len @ 1..) = usize::try_from(len) else { return Ok(all) };
        let mut given = &room[..len];
        while let Some(place) = next_place(&mut given) {
            all.push(place);
        }
    }
}

/// An entry as the kernel has it: inode, position behind it, length, kind, name.
fn next_place(given: &mut &[u8]) -> Option<Place> {
    const NAME: usize = 19;
    let behind = i64::from_le_bytes(given.get(8..16)?.try_into().ok()?);
    let len = usize::from(u16::from_le_bytes(given.get(16..18)?.try_into().ok()?));
    let name = CStr::from_bytes_until_nul(given.get(NAME..len)?).ok()?.to_bytes().to_vec();
    *given = &given[len..];
    Some(Place { name, behind })
}

#[cfg(test)]
mod tests {
    use super::*;
    use crate::run::descriptors::Kind;
    use std::rc::Rc;

    /// A folder in memory that goes with the test.
    struct Room(PathBuf);

    impl Drop for Room {
        fn drop(&mut self) {
            let _ = fs::remove_dir_all(&self.0);
        }
    }

    fn open(folder: &Path) -> OwnedFd {
        sys::open(folder, libc::O_RDONLY | libc::O_DIRECTORY).unwrap()
    }

    /// The names that a description gives behind its position, and no more than so many bytes of them.
    fn given(of: &OwnedFd, most: usize) -> Vec<Vec<u8>> {
        let mut room = vec![0u8; most];
        // SAFETY: the kernel writes into `room` only.
        let len = unsafe { libc::syscall(libc::SYS_getdents64, of.as_raw_fd(), room.as_mut_ptr(), most) };
        let mut all = &room[..usize::try_from(len).unwrap()];
        std::iter::from_fn(|| next_place(&mut all)).map(|p| p.name).filter(|n| n[0] != b'.').collect()
    }

    #[test]
    fn each_name_is_given_once() {
        for (most, gone) in [(400, 0..3), (400, 20..30), (400, 0..30), (1 << 16, 5..9)] {
            let base = if Path::new("/dev/shm").is_dir() { "/dev/shm".into() } else { std::env::temp_dir() };
            let room = Room(base.join(format!("hidewillow-folders-{}-{most}-{gone:?}", std::process::id())));
            let folder = room.0.join("folder");
            fs::create_dir_all(&folder).unwrap();
            let names: Vec<Vec<u8>> = (0..30).map(|n| format!("name-{n}").into_bytes()).collect();
            names.iter().for_each(|n| fs::write(folder.join(OsStr::from_bytes(n)), "").unwrap());
            let mut undo = UndoLog::default();
            let m = fs::metadata(&folder).unwrap();
            undo.add_folder(m.dev(), room.0.join("saved"));

            let reader = open(&folder);
            let mut all = given(&reader, most);
            // SAFETY: numbers only.
            let position = unsafe { libc::lseek(reader.as_raw_fd(), 0, libc::SEEK_CUR) } as u64;
            let handle = Rc::new(sys::handle(&folder).unwrap());
            let (device, inode) = (m.dev(), m.ino());
            let of = Descriptor {
                fd: 0,
                kind: Kind::Folder,
                handle,
                flags: 0,
                closes_on_exec: false,
                offset: position,
                device,
                inode,
                named: None,
            };
            let reading = Reading::at(1, &of, position).unwrap();

            for n in gone {
                let path = folder.join(format!("name-{n}"));
                fs::rename(&path, room.0.join("other")).unwrap();
                fs::rename(room.0.join("other"), &path).unwrap();
            }
            let again = open(&folder);
            // SAFETY: numbers only.
            unsafe { libc::lseek(again.as_raw_fd(), position as i64, libc::SEEK_SET) };
            read_on(&[Again { of: &reading, at: again.as_raw_fd(), folder }], &mut undo).unwrap();
            loop {
                let more = given(&again, 400);
                if more.is_empty() {
                    break;
                }
                all.extend(more);
            }
            all.sort();
            let mut names = names;
            names.sort();
            assert_eq!(all, names);
        }
    }
}
