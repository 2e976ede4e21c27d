//! What descriptors a process has, and what each is, so that it can be opened once more.
use crate::run::output::Streams;
use crate::run::paths::{bytes, os};
use crate::run::sys::{self, Pid};
use nix::dir::Dir;
use nix::fcntl::OFlag;
use nix::sys::stat::Mode;
use std::collections::HashMap;
use std::ffi::{CStr, CString};
use std::fs::{self, Metadata};
use std::io;
use std::os::fd::{AsRawFd, OwnedFd, RawFd};
use std::os::unix::fs::MetadataExt;
use std::path::{Path, PathBuf};
use std::rc::{Rc, Weak};

#[derive(Clone, PartialEq, Eq, Debug)]
pub enum Kind {
    File {
        writing: bool,
    },
    Pipe,
    /// A pipe of the supervisor's: the command's output.
    Output(usize),
    /// Its offset tells how far its names were read.
    Folder,
    /// A device without a state of its own.
    Plain,
    /// Reads of it are seen, as long as it is descriptor 0.
    Terminal,
    /// It can't be opened once more.
    Other,
}

#[derive(Clone)]
pub struct Descriptor {
    pub fd: RawFd,
    pub kind: Kind,
    pub handle: Rc<OwnedFd>,
    pub flags: i32,
    pub closes_on_exec: bool,
    pub offset: u64,
    pub device: u64,
    pub inode: u64,
    /// Of a file: its name then.
    pub named: Option<PathBuf>,
}

impl Descriptor {
    /// What its handle says that it is.
    pub fn path(&self) -> PathBuf {
        path_of(&sys::fd_path(self.handle.as_raw_fd())).unwrap_or_default()
    }
    /// By what it is opened once more: by the name that it had, where that went and came back, so that it is open under that.
    pub fn way_back(&self) -> PathBuf {
        let is_it = |m: Metadata| (m.dev(), m.ino()) == (self.device, self.inode);
        let named = self.named.as_ref().filter(|p| fs::symlink_metadata(p).is_ok_and(is_it));
        named.cloned().unwrap_or_else(|| sys::fd_path(self.handle.as_raw_fd()))
    }
}

/// The path of what is open, by the kernel's link to it. Where a name went and came back, that calls it deleted still.
pub fn path_of(link: &Path) -> io::Result<PathBuf> {
    let path = fs::read_link(link)?;
    let Some(named) = bytes(&path).strip_suffix(b" (deleted)").map(|p| PathBuf::from(os(p))) else { return Ok(path) };
    let is_it = |there: Metadata| fs::metadata(link).is_ok_and(|m| (m.dev(), m.ino()) == (there.dev(), there.ino()));
    Ok(if fs::symlink_metadata(&named).is_ok_and(is_it) { named } else { path })
}

/// What a descriptor is open at.
#[derive(Clone, Copy)]
struct Status {
    device: u64,
    inode: u64,
    mode: u32,
    of_device: u64,
}

/// Handles of files that checkpoints have, by mount and inode: as long as there is a handle, no other file is called so.
#[derive(Default)]
pub struct Handles(HashMap<(u64, u64), (Weak<OwnedFd>, Status)>);

/// No more are remembered than these, but for those that are in use.
const MOST_HANDLES: usize = 4096;

impl Handles {
    fn find(&self, file: (u64, u64)) -> Option<(Rc<OwnedFd>, Status)> {
        let (handle, status) = self.0.get(&file)?;
        Some((handle.upgrade()?, *status))
    }
    /// Those that are in use may be of names that went and came back.
    pub fn forget_all(&mut self) {
        self.0.clear();
    }
    /// Remembers a handle, where its file system has one inode of each number: some have several, of different parts.
    fn keep(&mut self, file: (u64, u64), handle: &Rc<OwnedFd>, status: Status) {
        const SINGLE: [i64; 4] = [libc::TMPFS_MAGIC, 0x5049_5045, libc::EXT4_SUPER_MAGIC, libc::XFS_SUPER_MAGIC];
        if !sys::file_system(handle.as_raw_fd()).is_some_and(|kind| SINGLE.contains(&kind)) {
            return;
        }
        if self.0.len() >= MOST_HANDLES {
            self.0.retain(|_, (handle, _)| handle.strong_count() > 0);
        }
        self.0.insert(file, (Rc::downgrade(handle), status));
    }
}

/// All descriptors of a process.
pub fn of(pid: Pid, streams: &Streams, handles: &mut Handles) -> Vec<Descriptor> {
    let flags = OFlag::O_RDONLY | OFlag::O_DIRECTORY | OFlag::O_CLOEXEC;
    let path = format!("/proc/{pid}/fdinfo");
    let Ok(mut folder) = Dir::open(path.as_str(), flags, Mode::empty()) else { return Vec::new() };
    let at = folder.as_raw_fd();
    let mut v: Vec<Descriptor> = folder
        .iter()
        .flatten()
        .filter_map(|e| Some((e.file_name().to_str().ok()?.parse().ok()?, Info::read(at, e.file_name())?)))
        .filter_map(|(fd, info)| describe(pid, fd, &info, streams, handles))
        .collect();
    v.sort_unstable_by_key(|d| d.fd);
    v
}

/// Those that are of this file.
pub fn at(pid: Pid, file: (u64, u64)) -> Vec<RawFd> {
    let all = fs::read_dir(format!("/proc/{pid}/fd")).into_iter().flatten().flatten();
    all.filter(|e| fs::metadata(e.path()).is_ok_and(|m| (m.dev(), m.ino()) == file))
        .filter_map(|e| e.file_name().to_str()?.parse().ok())
        .collect()
}

fn describe(pid: Pid, fd: RawFd, info: &Info, streams: &Streams, handles: &mut Handles) -> Option<Descriptor> {
    let (handle, st) = match info.file.and_then(|file| handles.find(file)) {
        Some(known) => known,
        None => open_handle(pid, fd, info, handles)?,
    };
    let writing = info.flags & libc::O_ACCMODE != libc::O_RDONLY;
    let kind = match st.mode & libc::S_IFMT {
        libc::S_IFREG => Kind::File { writing },
        libc::S_IFIFO => streams.output_of(st.inode).map_or(Kind::Pipe, Kind::Output),
        libc::S_IFCHR if is_terminal(st.of_device) => Kind::Terminal,
        libc::S_IFCHR if is_plain_device(st.of_device) => Kind::Plain,
        libc::S_IFDIR => Kind::Folder,
        _ => Kind::Other,
    };
    let is_file = matches!(kind, Kind::File { .. });
    let named = is_file.then(|| path_of(&sys::fd_path(handle.as_raw_fd())).ok()).flatten();
    Some(Descriptor {
        fd,
        kind,
        handle,
        named,
        flags: info.flags & !libc::O_CLOEXEC,
        closes_on_exec: info.flags & libc::O_CLOEXEC != 0,
        offset: info.offset,
        device: st.device,
        inode: st.inode,
    })
}
fn open_handle(pid: Pid, fd: RawFd, info: &Info, handles: &mut Handles) -> Option<(Rc<OwnedFd>, Status)> {
    let handle = Rc::new(sys::handle(format!("/proc/{pid}/fd/{fd}").as_ref()).ok()?);
    let st = sys::stat(handle.as_raw_fd()).ok()?;
    let status = Status { device: st.st_dev, inode: st.st_ino, mode: st.st_mode, of_device: st.st_rdev };
    if let Some(file) = info.file.filter(|(_, inode)| *inode == st.st_ino) {
        handles.keep(file, &handle, status);
    }
    Some((handle, status))
}

/// What the kernel tells of a descriptor.
struct Info {
    offset: u64,
    flags: i32,
    /// Its mount and its inode, where it tells of these.
    file: Option<(u64, u64)>,
}

impl Info {
    fn read(folder: RawFd, name: &CStr) -> Option<Info> {
        let mut text = [0u8; 256];
        let n = sys::read_at(folder, name, &mut text)?;
        Info::of(std::str::from_utf8(&text[..n]).ok()?)
    }
    fn of(text: &str) -> Option<Info> {
        let field = |name: &str| text.lines().find_map(|l| l.strip_prefix(name)).map(str::trim);
        let number = |name: &str| field(name)?.parse().ok();
        let flags = i32::from_str_radix(field("flags:")?, 8).ok()?;
        Some(Info { offset: number("pos:")?, flags, file: number("mnt_id:").zip(number("ino:")) })
    }
}

/// Offset and flags.
pub fn position(pid: Pid, fd: RawFd) -> Option<(u64, i32)> {
    let path = CString::new(format!("/proc/{pid}/fdinfo/{fd}")).ok()?;
    let info = Info::read(libc::AT_FDCWD, &path)?;
    Some((info.offset, info.flags))
}

fn is_terminal(device: u64) -> bool {
    // terminals, consoles, ends of pseudo terminals
    matches!(nix::sys::stat::major(device), 4 | 5 | 136..=143)
}
/// null, zero, full, random, urandom.
fn is_plain_device(device: u64) -> bool {
    nix::sys::stat::major(device) == 1 && matches!(nix::sys::stat::minor(device), 3 | 5 | 7 | 8 | 9)
}

#[cfg(test)]
mod tests {
    use super::*;

    #[test]
    fn a_name_that_comes_back() {
        let room = std::env::temp_dir().join(format!("hidewillow-names-{}", std::process::id()));
        fs::create_dir_all(&room).unwrap();
        let (path, saved) = (room.join("a"), room.join("saved"));
        let file = fs::File::create(&path).unwrap();
        let link = sys::fd_path(file.as_raw_fd());
        assert_eq!(path_of(&link).unwrap(), path);
        fs::hard_link(&path, &saved).unwrap();
        fs::remove_file(&path).unwrap();
        assert!(bytes(&path_of(&link).unwrap()).ends_with(b" (deleted)"));
        fs::write(&path, "another").unwrap();
        assert!(bytes(&path_of(&link).unwrap()).ends_with(b" (deleted)"));
        fs::rename(&saved, &path).unwrap();
        assert_eq!(path_of(&link).unwrap(), path);
        fs::remove_dir_all(room).unwrap();
    }

    #[test]
    fn a_handle_is_remembered() {
        let me = std::process::id() as Pid;
        let (read, _write) = crate::run::output::pipe().unwrap();
        let (streams, mut handles) = (Streams::open().unwrap(), Handles::default());
        let mut described = || of(me, &streams, &mut handles).into_iter().find(|d| d.fd == read.as_raw_fd()).unwrap();
        let one = described();
        let other = described();
        assert!(Rc::ptr_eq(&one.handle, &other.handle));
        assert_eq!((one.kind.clone(), one.inode, one.flags), (Kind::Pipe, other.inode, other.flags));
        assert!(one.closes_on_exec);
        assert_eq!(position(me, read.as_raw_fd()), Some((0, libc::O_CLOEXEC)));
        drop((one, other));
        assert!(handles.0.values().all(|(h, _)| h.upgrade().is_none()));
    }
}
