//! Backups: a folder beside, that a store starts on.
use super::folder::{named, Folder};
use super::log::Closed;
use super::recovery::Made;
use std::fs::{self, File};
use std::io::{self, ErrorKind};
use std::path::Path;
use std::time::Duration;

/// Where a backup is to stand: the folder above it, which is made if it isn't there, and where it is in the making.
fn places(path: &Path) -> io::Result<(Folder, Folder)> {
    let (Some(home), Some(name)) = (path.parent(), path.file_name()) else {
        return named(path, Err(io::Error::new(ErrorKind::InvalidInput, "a backup has a name")));
    };
    let home = Folder(home.into());
    home.make()?;
    let new = Folder(home.0.join(format!(".{}.new-backup", name.to_string_lossy())));
    Ok((home, new))
}

impl Folder {
    /// Makes a folder with a snapshot that stands for these segments, under its name once it is whole and on the disk. Where it can't be
    /// made nothing of it stays.
    ///
    /// # Errors
    /// Where something has that name already, where it would stand among the store's own files, and those of the disk.
    pub fn back_up(&self, closed: &Closed, path: &Path) -> io::Result<Made> {
        if path.exists() {
            return named(path, Err(ErrorKind::AlreadyExists.into()));
        }
        let (home, new) = places(path)?;
        if fs::canonicalize(&home.0)? == fs::canonicalize(&self.0)? {
            let words = "a backup does not stand among the files of its store";
            return named(path, Err(io::Error::new(ErrorKind::InvalidInput, words)));
        }
        let lock = new.lock(Duration::ZERO, "a backup in the making");
        let _lock = lock.inspect_err(|_| _ = fs::remove_dir(&new.0))?;
        let make = || {
            new.files("snapshot-")?.iter().try_for_each(|(.., old)| fs::remove_file(old))?;
            let made = self.write(closed, &new)?;
            fs::remove_file(new.0.join("lock"))?;
            fs::rename(&new.0, path).and_then(|()| File::open(&home.0)?.sync_all())?;
            Ok(made)
        };
        named(path, make().inspect_err(|_| _ = fs::remove_dir_all(&new.0)))
    }
}
