//! The system's calls below a folder. Nothing here follows a symbolic link, or leaves the folder's file system.
use crate::name::Name;
use crate::wire::Kind;
use nix::dir::Dir;
use nix::errno::Errno;
use nix::fcntl::{self, AtFlags, OFlag};
use nix::sys::stat::{self, FchmodatFlags, FileStat, Mode, SFlag, UtimensatFlags};
use nix::sys::statfs::{fstatfs, FsType, EXT4_SUPER_MAGIC, TMPFS_MAGIC};
use nix::sys::time::TimeSpec;
use nix::unistd::{self, LinkatFlags, UnlinkatFlags};
use std::ffi::CString;
use std::fs::File;
use std::io;
use std::os::fd::{AsRawFd, FromRawFd, OwnedFd};
use std::os::unix::ffi::OsStringExt;

/// The folder in a served one that is the server's own, and that clients don't see.
pub const HIDDEN: &[u8] = b".hidewillow-files";

/// What the system says of a name.
#[derive(Clone, Copy, PartialEq, Eq, Debug)]
pub struct Found {
    pub kind: Kind,
    pub inode: u64,
    pub mode: u32,
    pub size: u64,
    pub links: u32,
    pub owner: (u32, u32),
    /// Nanoseconds since 1970: of the contents, and of anything.
    pub modified: i64,
    pub changed: i64,
    device: u64,
}

impl Found {
    fn new(stat: &FileStat, device: u64) -> Found {
        let kind = match SFlag::from_bits_truncate(stat.st_mode & SFlag::S_IFMT.bits()) {
            _ if stat.st_dev != device => Kind::Other,
            SFlag::S_IFREG => Kind::File,
            SFlag::S_IFDIR => Kind::Folder,
            SFlag::S_IFLNK => Kind::Link,
            _ => Kind::Other,
        };
        Found {
            kind,
            inode: stat.st_ino,
            mode: stat.st_mode & 0o7777,
            size: u64::try_from(stat.st_size).unwrap_or(0),
            links: u32::try_from(stat.st_nlink).unwrap_or(u32::MAX),
            owner: (stat.st_uid, stat.st_gid),
            modified: nanoseconds(stat.st_mtime, stat.st_mtime_nsec),
            changed: nanoseconds(stat.st_ctime, stat.st_ctime_nsec),
            device: stat.st_dev,
        }
    }

    /// Whether both are the same file with the same contents and mode, whatever names it has.
    pub fn is_still(&self, before: &Found) -> bool {
        let of = |found: &Found| (found.inode, found.size, found.modified, found.mode);
        of(self) == of(before)
    }
}

fn nanoseconds(seconds: i64, rest: i64) -> i64 {
    seconds.saturating_mul(1_000_000_000).saturating_add(rest)
}

/// A folder that names are looked for in.
#[derive(Debug)]
pub struct Folder {
    handle: OwnedFd,
    device: u64,
}

/// Whether an error says that there is nothing of such a name (or only by way of a link).
pub fn is_nothing(error: &io::Error) -> bool {
    const NOTHING: [i32; 5] = [libc::ENOENT, libc::ENOTDIR, libc::ELOOP, libc::EXDEV, libc::ENAMETOOLONG];
    error.raw_os_error().is_some_and(|number| NOTHING.contains(&number))
}

impl Folder {
    /// A folder of any path, of which links are followed.
    pub fn open(path: &str) -> io::Result<Folder> {
        let flags = OFlag::O_PATH | OFlag::O_DIRECTORY | OFlag::O_CLOEXEC;
        Folder::of(owned(fcntl::open(path, flags, Mode::empty())?))
    }

    fn of(handle: OwnedFd) -> io::Result<Folder> {
        let device = stat::fstat(handle.as_raw_fd())?.st_dev;
        Ok(Folder { handle, device })
    }

    /// Opens a name below.
    pub fn open_below(&self, name: &[u8], flags: OFlag) -> io::Result<OwnedFd> {
        let name = CString::new(if name.is_empty() { b"." } else { name })?;
        // SAFETY: `open_how` is three numbers, for each of which zero is good.
        let mut how: libc::open_how = unsafe { std::mem::zeroed() };
        how.flags = (flags | OFlag::O_CLOEXEC).bits() as u64;
        how.resolve =
            libc::RESOLVE_BENEATH | libc::RESOLVE_NO_MAGICLINKS | libc::RESOLVE_NO_SYMLINKS | libc::RESOLVE_NO_XDEV; // [7]
        let size = std::mem::size_of::<libc::open_how>();
        // SAFETY: the name ends with NUL and both live through the call, which writes nothing.
        let opened =
            unsafe { libc::syscall(libc::SYS_openat2, self.handle.as_raw_fd(), name.as_ptr(), &how as *const _, size) };
        Ok(owned(Errno::result(opened)? as i32))
    }

    /// A folder below.
    pub fn folder(&self, name: &[u8]) -> io::Result<Folder> {
        let handle = self.open_below(name, OFlag::O_PATH | OFlag::O_DIRECTORY | OFlag::O_NOFOLLOW)?;
        Ok(Folder { handle, device: self.device })
    }

    /// The folder that a name is in, and its last part.
    pub fn within<'a>(&self, name: &'a Name) -> io::Result<(Folder, &'a [u8])> {
        Ok((self.folder(&name.parent())?, name.last()))
    }

    /// What is there of a part in this folder.
    pub fn look(&self, part: &[u8]) -> io::Result<Option<Found>> {
        let (part, flags) =
            if part.is_empty() { (&b"."[..], AtFlags::empty()) } else { (part, AtFlags::AT_SYMLINK_NOFOLLOW) };
        match stat::fstatat(self.handle.as_raw_fd(), part, flags).map_err(io::Error::from) {
            Ok(stat) => Ok(Some(Found::new(&stat, self.device))),
            Err(error) if is_nothing(&error) => Ok(None),
            Err(error) => Err(error),
        }
    }

    /// What is there of a name below.
    pub fn look_below(&self, name: &Name) -> io::Result<Option<Found>> {
        match self.within(name) {
            Ok((folder, part)) => folder.look(part),
            Err(error) if is_nothing(&error) => Ok(None),
            Err(error) => Err(error),
        }
    }

    /// What an open file of this folder's file system is.
    pub fn look_at(&self, file: &impl AsRawFd) -> io::Result<Found> {
        Ok(Found::new(&stat::fstat(file.as_raw_fd())?, self.device))
    }

    /// The parts in this folder and what they are, but for the server's own.
    pub fn parts(&self) -> io::Result<Vec<(Vec<u8>, Kind)>> {
        let handle = self.open_below(b".", OFlag::O_RDONLY | OFlag::O_DIRECTORY)?;
        let mut parts = Vec::new();
        for entry in Dir::from(handle)?.iter() {
            let entry = entry?;
            let part = entry.file_name().to_bytes();
            if part == b"." || part == b".." || part == HIDDEN {
                continue;
            }
            let kind = match entry.file_type() {
                Some(nix::dir::Type::File) => Kind::File,
                Some(nix::dir::Type::Symlink) => Kind::Link,
                Some(nix::dir::Type::Directory) | None => match self.look(part)? {
                    Some(found) => found.kind,
                    None => continue,
                },
                Some(_) => Kind::Other,
            };
            parts.push((part.to_vec(), kind));
        }
        Ok(parts)
    }

    /// Where a link points.
    pub fn target(&self, part: &[u8]) -> io::Result<Vec<u8>> {
        Ok(fcntl::readlinkat(self.handle.as_raw_fd(), part)?.into_vec())
    }

    /// A new file of this name, to be written and read.
    pub fn make(&self, part: &[u8]) -> io::Result<File> {
        let flags = OFlag::O_RDWR | OFlag::O_CREAT | OFlag::O_EXCL | OFlag::O_NOFOLLOW | OFlag::O_CLOEXEC;
        let mode = Mode::S_IRUSR | Mode::S_IWUSR;
        Ok(File::from(owned(fcntl::openat(self.handle.as_raw_fd(), part, flags, mode)?)))
    }

    pub fn make_folder(&self, part: &[u8]) -> io::Result<()> {
        Ok(stat::mkdirat(self.handle.as_raw_fd(), part, Mode::S_IRWXU)?)
    }

    pub fn make_link(&self, part: &[u8], target: &[u8]) -> io::Result<()> {
        Ok(unistd::symlinkat(target, Some(self.handle.as_raw_fd()), part)?)
    }

    /// Gives a file of this folder another name in another.
    pub fn link(&self, part: &[u8], to: &Folder, name: &[u8]) -> io::Result<()> {
        let (from, to) = (Some(self.handle.as_raw_fd()), Some(to.handle.as_raw_fd()));
        Ok(unistd::linkat(from, part, to, name, LinkatFlags::NoSymlinkFollow)?)
    }

    pub fn rename(&self, part: &[u8], to: &Folder, name: &[u8]) -> io::Result<()> {
        let (from, to) = (Some(self.handle.as_raw_fd()), Some(to.handle.as_raw_fd()));
        Ok(fcntl::renameat(from, part, to, name)?)
    }

    pub fn remove(&self, part: &[u8]) -> io::Result<()> {
        Ok(unistd::unlinkat(Some(self.handle.as_raw_fd()), part, UnlinkatFlags::NoRemoveDir)?)
    }

    pub fn remove_folder(&self, part: &[u8]) -> io::Result<()> {
        Ok(unistd::unlinkat(Some(self.handle.as_raw_fd()), part, UnlinkatFlags::RemoveDir)?)
    }

    /// Sets the mode of a file or folder, which is no link.
    pub fn set_mode(&self, part: &[u8], mode: u32) -> io::Result<()> {
        let part = if part.is_empty() { b"." } else { part };
        let mode = Mode::from_bits_truncate(mode);
        Ok(stat::fchmodat(Some(self.handle.as_raw_fd()), part, mode, FchmodatFlags::FollowSymlink)?)
    }

    /// Sets when the contents changed.
    pub fn set_modified(&self, part: &[u8], modified: i64) -> io::Result<()> {
        let part = if part.is_empty() { b"." } else { part };
        let (read, modified) = (as_it_is(), time(modified));
        let links = UtimensatFlags::NoFollowSymlink;
        Ok(stat::utimensat(Some(self.handle.as_raw_fd()), part, &read, &modified, links)?)
    }

    /// Sets the group of a file, folder or link.
    pub fn set_group(&self, part: &[u8], group: u32) -> io::Result<()> {
        let (at, group) = (Some(self.handle.as_raw_fd()), Some(unistd::Gid::from_raw(group)));
        Ok(unistd::fchownat(at, part, None, group, unistd::FchownatFlags::NoFollowSymlink)?)
    }

    /// Whether names can be made and removed in it.
    pub fn may_change(&self) -> bool {
        let access = unistd::AccessFlags::W_OK | unistd::AccessFlags::X_OK;
        unistd::faccessat(Some(self.handle.as_raw_fd()), ".", access, AtFlags::empty()).is_ok()
    }

    /// Whether its file system brings all changes of names to the disk in order, whatever is synced (ext4 and XFS), or never to any.
    pub fn is_ordered(&self) -> io::Result<bool> {
        const XFS: FsType = FsType(0x5846_5342);
        let kind = fstatfs(&self.open_below(b".", OFlag::O_RDONLY | OFlag::O_DIRECTORY)?)?.filesystem_type();
        Ok([EXT4_SUPER_MAGIC, XFS, TMPFS_MAGIC].contains(&kind))
    }

    /// Syncs the names in it.
    pub fn sync(&self) -> io::Result<()> {
        let handle = self.open_below(b".", OFlag::O_RDONLY | OFlag::O_DIRECTORY)?;
        Ok(unistd::fsync(handle.as_raw_fd())?)
    }

    /// Syncs the file system that it is in.
    pub fn sync_all(&self) -> io::Result<()> {
        let handle = self.open_below(b".", OFlag::O_RDONLY | OFlag::O_DIRECTORY)?;
        Ok(unistd::syncfs(handle.as_raw_fd())?)
    }
}

/// Writes a file's contents to the disk's own memory, which the next sync of names there empties.
pub fn write_out(file: &File) -> io::Result<()> {
    let flags = libc::SYNC_FILE_RANGE_WAIT_BEFORE | libc::SYNC_FILE_RANGE_WRITE | libc::SYNC_FILE_RANGE_WAIT_AFTER;
    // SAFETY: the call takes numbers, and the file is open.
    let done = unsafe { libc::sync_file_range(file.as_raw_fd(), 0, 0, flags) };
    Ok(Errno::result(done).map(drop)?)
}

/// Sets mode and time of an open file.
pub fn set_attributes(file: &File, mode: u32, modified: i64) -> io::Result<()> {
    stat::fchmod(file.as_raw_fd(), Mode::from_bits_truncate(mode))?;
    Ok(stat::futimens(file.as_raw_fd(), &as_it_is(), &time(modified))?)
}

/// Whether a file has more than its contents, mode and times: lists of who may use it, or labels.
pub fn has_more(file: &File) -> io::Result<bool> {
    let mut room = [0_u8; 4096];
    // SAFETY: the call writes at most as many bytes as the room has.
    let len = unsafe { libc::flistxattr(file.as_raw_fd(), room.as_mut_ptr().cast(), room.len()) };
    match Errno::result(len) {
        Ok(len) => {
            let names = room[..usize::try_from(len).unwrap_or(0)].split(|byte| *byte == 0);
            Ok(names.filter(|name| !name.is_empty()).any(|name| name != b"security.selinux"))
        }
        Err(Errno::EOPNOTSUPP) => Ok(false),
        Err(Errno::ERANGE) => Ok(true),
        Err(error) => Err(error.into()),
    }
}

fn time(nanoseconds: i64) -> TimeSpec {
    TimeSpec::new(nanoseconds.div_euclid(1_000_000_000), nanoseconds.rem_euclid(1_000_000_000))
}

fn as_it_is() -> TimeSpec {
    TimeSpec::from(libc::timespec { tv_sec: 0, tv_nsec: libc::UTIME_OMIT })
}

fn owned(handle: i32) -> OwnedFd {
    // SAFETY: the call that made it has just answered with it, and nobody else has it.
    unsafe { OwnedFd::from_raw_fd(handle) }
}
