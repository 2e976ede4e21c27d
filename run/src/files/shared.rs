//! What the servers of one folder share, in its hidden folder: a lock, and a count of the changes that they made to each file.
use super::disk::{Folder, Found, HIDDEN};
use super::known;
use crate::wire::Version;
use nix::errno::Errno;
use nix::fcntl::{flock, FlockArg, OFlag};
use std::cell::{Cell, RefCell};
use std::collections::HashMap;
use std::fs::File;
use std::io;
use std::os::fd::AsRawFd;
use std::os::unix::fs::FileExt;
use std::sync::Arc;

/// The file of counts begins anew where it is longer and nobody else serves the folder.
const LONGEST_COUNTS: u64 = 4 << 20;
const RECORD: u64 = 8;

pub struct Shared {
    pub hidden: Folder,
    lock: Arc<File>,
    /// Each server holds it shared while it lives.
    _alive: File,
    /// The inode of each change, in order.
    changes: File,
    read_to: Cell<u64>,
    counts: RefCell<HashMap<u64, u64>>,
    /// Whether nobody else served the folder when this began.
    pub was_alone: bool,
}

/// Dropped, the lock is free.
pub struct Locked(Arc<File>);

impl Drop for Locked {
    fn drop(&mut self) {
        // The end of the process does it otherwise.
        let _ = flock(self.0.as_raw_fd(), FlockArg::Unlock);
    }
}

fn file(folder: &Folder, part: &[u8]) -> io::Result<File> {
    match folder.make(part) {
        Err(error) if error.kind() == io::ErrorKind::AlreadyExists => {
            folder.open_below(part, OFlag::O_RDWR | OFlag::O_NOFOLLOW).map(File::from)
        }
        made => made,
    }
}

fn is_free(file: &File) -> io::Result<bool> {
    match flock(file.as_raw_fd(), FlockArg::LockExclusiveNonblock) {
        Ok(()) => Ok(true),
        Err(Errno::EWOULDBLOCK) => Ok(false),
        Err(error) => Err(error.into()),
    }
}

impl Shared {
    /// Opens it, and makes it where it isn't there. With the lock held; what a start must do stands before the lock is free.
    pub fn open(folder: &Folder) -> io::Result<(Shared, Locked)> {
        match folder.make_folder(HIDDEN) {
            Err(error) if error.kind() != io::ErrorKind::AlreadyExists => return Err(error),
            _ => {}
        }
        let hidden = folder.folder(HIDDEN)?;
        let lock = Arc::new(file(&hidden, b"lock")?);
        flock(lock.as_raw_fd(), FlockArg::LockExclusive)?;
        let locked = Locked(lock.clone());
        let (alive, changes) = (file(&hidden, b"alive")?, file(&hidden, b"changes")?);
        let was_alone = is_free(&alive)?;
        if was_alone && changes.metadata()?.len() > LONGEST_COUNTS {
            changes.set_len(0)?;
        }
        flock(alive.as_raw_fd(), FlockArg::LockShared)?;
        let (read_to, counts) = Default::default();
        let shared = Shared { hidden, lock, _alive: alive, changes, read_to, counts, was_alone };
        shared.read_changes()?;
        Ok((shared, locked))
    }

    /// Waits for the lock, alone or with others who only look, and reads what others changed meanwhile.
    pub fn lock(&self, alone: bool) -> io::Result<Locked> {
        let how = if alone { FlockArg::LockExclusive } else { FlockArg::LockShared };
        loop {
            match flock(self.lock.as_raw_fd(), how) {
                Err(Errno::EINTR) => {}
                done => break done?,
            }
        }
        let locked = Locked(self.lock.clone());
        self.read_changes()?;
        Ok(locked)
    }

    fn read_changes(&self) -> io::Result<()> {
        let len = self.changes.metadata()?.len() / RECORD * RECORD;
        let mut records = vec![0; usize::try_from(len.saturating_sub(self.read_to.get())).unwrap_or(0)];
        self.changes.read_exact_at(&mut records, self.read_to.get())?;
        let mut counts = self.counts.borrow_mut();
        for record in records.chunks_exact(RECORD as usize) {
            let mut inode = [0; RECORD as usize];
            inode.copy_from_slice(record);
            self.read_to.set(self.read_to.get() + RECORD);
            counts.insert(u64::from_le_bytes(inode), self.read_to.get() / RECORD);
        }
        Ok(())
    }

    /// Counts a change of each of these, for all servers; the lock is held alone.
    pub fn count(&self, inodes: &[u64]) -> io::Result<()> {
        let records: Vec<u8> = inodes.iter().flat_map(|inode| inode.to_le_bytes()).collect();
        // Over what a server that died left of a record.
        self.changes.write_all_at(&records, self.read_to.get())?;
        self.read_changes()
    }

    /// The version of what was found.
    pub fn version(&self, found: &Found) -> Version {
        known::version(found, self.counts.borrow().get(&found.inode).copied().unwrap_or(0))
    }
}
