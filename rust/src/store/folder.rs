//! What a store has in its folder: `store`, which says whose it is; `log-N`, segments of zeros with frames over them, each behind its
//! envelope; and `snapshot-N-F`, which stands for all segments up to N, so that the log goes on behind it with frame F.
use super::reading::is_zeros;
use super::room::Growth;
use super::{disk, system};
use std::fs::{self, DirBuilder, File, OpenOptions};
use std::io::{self, Read, Seek, SeekFrom, Write};
use std::ops::RangeInclusive;
use std::os::unix::fs::{DirBuilderExt, FileExt};
use std::path::{Path, PathBuf};
use std::time::{Duration, Instant};
use std::{process, thread};

const PIECE: usize = 1 << 20;
/// Zeros that a start on a full disk writes over.
const SPARE: &str = "spare";

/// What came of a file, an error with its name.
///
/// # Errors
/// The error.
pub fn named<T>(path: &Path, did: io::Result<T>) -> io::Result<T> {
    did.map_err(|error| io::Error::new(error.kind(), format!("{}: {error}", path.display())))
}

/// A folder, by its path.
#[derive(Debug)]
pub struct Folder(pub PathBuf);

/// Keeps others out of a folder while it is open: by the folder itself, and by a file that says who this is.
pub struct Lock {
    _of: [File; 2],
}

/// Who has a folder, as far as the file says that has it too.
fn another(mut file: &File) -> String {
    let mut who = String::new();
    let _ = file.read_to_string(&mut who);
    format!("another server has this folder: {}", if who.is_empty() { "it doesn't say who it is" } else { &who })
}

impl Folder {
    pub fn segment(&self, segment: u64) -> PathBuf {
        self.0.join(format!("log-{segment:010}"))
    }

    /// The files of a kind, by rising number, with the number behind that of a snapshot.
    pub(super) fn files(&self, kind: &str) -> io::Result<Vec<(u64, u64, PathBuf)>> {
        let mut files = Vec::new();
        for entry in named(&self.0, fs::read_dir(&self.0))? {
            let path = entry?.path();
            let name = path.file_name().and_then(|name| name.to_str()?.strip_prefix(kind)).unwrap_or_default();
            let mut numbers = name.split('-').map(str::parse);
            if let (Some(Ok(number)), frame) = (numbers.next(), numbers.next()) {
                files.push((number, frame.and_then(Result::ok).unwrap_or(1), path));
            }
        }
        files.sort_unstable();
        Ok(files)
    }

    /// Makes the folder for its owner alone, if it isn't there.
    pub fn make(&self) -> io::Result<()> {
        if self.0.is_dir() {
            return Ok(());
        }
        let made = DirBuilder::new().mode(0o700).create(&self.0);
        named(&self.0, made.and_then(|()| File::open(self.0.join(".."))?.sync_all()))
    }

    /// Has the folder, a lock on it that keeps others out while it is open, and no file that a crash left in the making. Where another
    /// has it, this waits so long, and then says who that is; an address says who this one is.
    pub fn lock(&self, wait: Duration, address: &str) -> io::Result<Lock> {
        self.make()?;
        let (folder, path) = (named(&self.0, File::open(&self.0))?, self.0.join("lock"));
        let file = named(&path, OpenOptions::new().read(true).write(true).create(true).truncate(false).open(&path))?;
        let until = Instant::now() + wait;
        while system::lock(&folder).and_then(|()| system::lock(&file)).is_err() {
            if Instant::now() >= until {
                return named(&self.0, Err(io::Error::other(another(&file)))); // [10]
            }
            thread::sleep(Duration::from_millis(50));
        }
        // Who has it is known of the lock alone where this can't be written, as on a full disk.
        let who = format!("process {}, at {address}", process::id());
        let _ = file.set_len(0).and_then(|()| (&file).write_all(who.as_bytes()));
        for (.., path) in self.files("new-")? {
            named(&path, fs::remove_file(&path))?;
        }
        Ok(Lock { _of: [folder, file] })
    }

    /// Makes a segment longer by zeros, which are on the disk then. Where that fails it is as long as it was.
    pub(super) fn grow(&self, growth: &Growth) -> io::Result<()> {
        let (path, room) = (self.segment(growth.segment), vec![0; PIECE]);
        let make = |file: &mut File| {
            file.seek(SeekFrom::Start(growth.from))?;
            for place in (growth.from..growth.to).step_by(PIECE) {
                file.write_all(&room[..PIECE.min((growth.to - place) as usize)])?;
                // [3]
            }
            file.sync_data()
        };
        let mut file = named(&path, disk::opened(|| OpenOptions::new().write(true).open(&path)))?;
        named(&path, make(&mut file).inspect_err(|_| _ = file.set_len(growth.from)))
    }

    /// Removes segments in which nothing but the head of a start stands.
    pub(super) fn remove_unused(&self, segments: RangeInclusive<u64>) -> io::Result<()> {
        for segment in segments.rev() {
            let path = self.segment(segment);
            match fs::remove_file(&path) {
                Err(error) if error.kind() != io::ErrorKind::NotFound => return named(&path, Err(error)),
                _ => (),
            }
        }
        File::open(&self.0)?.sync_all()
    }

    /// Makes a file, under its name once it is on the disk and is found there as it should be, in the place of one of this name; and has
    /// that on the disk too.
    pub fn place<T>(
        &self,
        path: &Path,
        writes: impl FnOnce(&mut File) -> io::Result<T>,
        finds: impl FnOnce(&Path) -> io::Result<()>,
    ) -> io::Result<T> {
        let new = self.0.join(format!("new-0-{}", path.file_name().unwrap_or_default().to_string_lossy()));
        let make = || {
            let mut file = disk::opened(|| File::create(&new))?;
            let did = writes(&mut file)?;
            file.sync_all()?;
            finds(&new)?; // [8]
            fs::rename(&new, path)?;
            disk::opened(|| File::open(&self.0))?.sync_all()?;
            Ok(did)
        };
        named(path, make().inspect_err(|_| _ = fs::remove_file(&new)))
    }

    /// Makes a segment of zeros, in the place of one that is unused.
    pub(super) fn make_segment(&self, segment: u64, bytes: u64) -> io::Result<()> {
        self.place_zeros(&self.segment(segment), bytes)
    }

    /// Makes the file of zeros that is the segment of a start on a full disk, unless it is there.
    pub(super) fn keep_spare(&self, bytes: u64) -> io::Result<()> {
        let path = self.0.join(SPARE);
        if fs::metadata(&path).is_ok_and(|it| it.len() == bytes) {
            return Ok(());
        }
        self.place_zeros(&path, bytes)
    }

    /// Has that file be a segment, where there is no room for another: how long it is.
    pub(super) fn use_spare(&self, segment: u64) -> io::Result<u64> {
        let path = self.0.join(SPARE);
        let bytes = named(&path, fs::read(&path))?;
        if !is_zeros(&bytes) {
            return named(&path, Err(io::ErrorKind::InvalidData.into()));
        }
        named(&path, fs::rename(&path, self.segment(segment)).and_then(|()| File::open(&self.0)?.sync_all()))?; // [3]
        Ok(bytes.len() as u64)
    }

    /// Has a segment in which nothing but so many bytes of the head of a start stand be that file again.
    pub(super) fn spare_again(&self, segment: u64, head: usize) -> io::Result<()> {
        let path = self.segment(segment);
        let file = named(&path, OpenOptions::new().write(true).open(&path))?;
        named(&path, file.write_all_at(&vec![0; head], 0).and_then(|()| file.sync_all()))?;
        named(&path, fs::rename(&path, self.0.join(SPARE)))
    }

    fn place_zeros(&self, path: &Path, bytes: u64) -> io::Result<()> {
        let room = vec![0; PIECE];
        // Each piece is synced, so that a frame that is written meanwhile waits for one of them at most.
        let zeros = |file: &mut File| {
            for place in (0..bytes).step_by(PIECE) {
                file.write_all(&room[..PIECE.min((bytes - place) as usize)])?;
                file.sync_data()?;
            }
            Ok(())
        };
        self.place(path, zeros, |_| Ok(())) // [3]
    }

    /// The segments that the newest snapshot stands for, the next frame, and its file, where there is one.
    pub fn newest(&self) -> io::Result<(u64, u64, Option<PathBuf>)> {
        Ok(self.files("snapshot-")?.pop().map_or((0, 1, None), |(kept, first, path)| (kept, first, Some(path))))
    }

    /// Removes all that the newest snapshot stands for, once its name is on the disk.
    pub fn remove(&self) -> io::Result<()> {
        let (kept, _, newest) = self.newest()?;
        File::open(&self.0)?.sync_all()?;
        for (number, _, old) in [self.files("log-")?, self.files("snapshot-")?].concat() {
            if number <= kept && newest.as_ref() != Some(&old) {
                named(&old, fs::remove_file(&old))?; // [9]
            }
        }
        Ok(())
    }
}
