//! A store in a folder of this program's own: no server, no socket.
//!
//! ```no_run
//! # use hidewillow::store::File;
//! let bank = File::open("bank")?;
//! bank.set("ann", "100")?; // on the disk now
//! let left = bank.transaction(|t| {
//!     let ann: i64 = t.text("ann")?.parse().unwrap_or(0);
//!     t.set("ann", (ann - 30).to_string());
//!     t.set("bob", "30");
//!     Ok(ann - 30)
//! })?; // all of it is on the disk, or nothing
//! assert_eq!((left, bank.get("bob")?), (70, Some(b"30".to_vec())));
//!
//! let mut ahead = bank.ahead()?; // answers at once, before the disk has anything
//! for day in 0..100 {
//!     let day = day.to_string();
//!     ahead.transaction(|t| {
//!         let before = t.get("days").unwrap_or_default();
//!         t.set("days", [before, day.clone().into_bytes()].concat());
//!         Ok(())
//!     })?;
//! }
//! assert!(ahead.wait()?.is_empty()); // now the disk has all; else: the numbers of those of which nothing was done
//! # Ok::<_, std::io::Error>(())
//! ```
use super::engine::{Bell, Engine, Shared};
use super::folder::Folder;
use super::log::DiskLog;
use super::reply::{request, Reply};
use super::tell::Host;
use super::StoreLimits;
use std::collections::BTreeMap;
use std::fs::DirBuilder;
use std::os::unix::fs::DirBuilderExt;
use std::path::{self, Path};
use std::sync::Arc;
use std::thread::{self, JoinHandle};
use std::time::Duration;
use std::{env, fmt, fs, io};

/// How a store is opened.
pub struct Options {
    limits: StoreLimits,
    snapshot: u64,
    wait: Duration,
    accept: Option<u64>,
    says: Box<dyn Fn(fmt::Arguments<'_>) + Send + Sync>,
}

impl fmt::Debug for Options {
    fn fmt(&self, f: &mut fmt::Formatter<'_>) -> fmt::Result {
        f.debug_struct("Options")
            .field("limits", &self.limits)
            .field("snapshot", &self.snapshot)
            .finish_non_exhaustive()
    }
}

impl Default for Options {
    fn default() -> Options {
        let (undecided, segment) = (32 << 20, 64 << 20);
        #[rustfmt::skip]
        let limits = StoreLimits {
            words: undecided as usize / 64, bytes: undecided as usize / 4, line: 64 << 10, waiting: 1 << 20, segment, undecided,
            commands: 1_000_000, in_flight: 4,
        };
        Options { limits, snapshot: 1 << 30, wait: Duration::ZERO, accept: None, says: Box::new(|_| ()) }
    }
}

impl Options {
    /// What is so where nothing is said: as of the server's options.
    #[must_use]
    pub fn new() -> Options {
        Options::default()
    }

    /// Of the log a snapshot is made once it has so many bytes, and as many as the last snapshot; 1 GB.
    #[must_use]
    pub fn snapshot_after(mut self, bytes: u64) -> Options {
        self.snapshot = bytes;
        self
    }

    /// How long it is waited where another process has the folder; no time.
    #[must_use]
    pub fn wait_for_folder(mut self, wait: Duration) -> Options {
        self.wait = wait;
        self
    }

    /// Gives up a frame of a damaged log, which a refusal named, and all behind, for ever.
    #[must_use]
    pub fn accept_loss_from(mut self, frame: u64) -> Options {
        self.accept = Some(frame);
        self
    }

    /// Who is told what goes wrong beside, as that a segment can't be made on a full disk; nobody.
    #[must_use]
    pub fn says(mut self, says: impl Fn(fmt::Arguments<'_>) + Send + Sync + 'static) -> Options {
        self.says = Box::new(says);
        self
    }

    /// Opens the store of a folder, which is made if it isn't there.
    ///
    /// # Errors
    /// Where another process has the folder, where its log is damaged more than a crash explains, and those of the disk.
    pub fn open(self, folder: impl AsRef<Path>) -> io::Result<File> {
        let folder = folder.as_ref();
        made(folder)?;
        let (bell, says) = (Arc::new(Bell::default()), self.says);
        let ring = bell.clone();
        let host = Host::new(move || ring.ring(), says);
        let who = env::current_exe().map_or_else(|_| "a program".into(), |path| path.display().to_string());
        let lock = Folder(folder.into()).lock(self.wait, &who)?;
        let (store, log, found) = DiskLog::open(Folder(folder.into()), lock, self.limits, self.accept, host.clone())?;
        let engine = Engine::new(store, log, Folder(folder.into()), self.limits, self.snapshot, found.kept, host);
        let shared = Arc::new(Shared::new(engine, bell));
        let beside = shared.clone();
        let thread = thread::Builder::new().name("hidewillow".into()).spawn(move || beside.serve())?;
        Ok(File(Arc::new(Open { shared, thread: Some(thread) })))
    }
}

/// Makes a folder for its owner alone, if it isn't there, with all above it; then its name is on the disk, and so are theirs.
fn made(folder: &Path) -> io::Result<()> {
    let is_missing = |path: &&Path| !path.as_os_str().is_empty() && !path.exists();
    let missing: Vec<_> = folder.ancestors().take_while(is_missing).collect();
    DirBuilder::new().recursive(true).mode(0o700).create(folder)?;
    missing.iter().try_for_each(|path| fs::File::open(path.join(".."))?.sync_all())
}

/// A store that is open, with the thread that goes on for it.
struct Open {
    shared: Arc<Shared>,
    thread: Option<JoinHandle<()>>,
}

impl Open {
    fn stop(&mut self) {
        self.shared.stop();
        if let Some(thread) = self.thread.take() {
            let _ = thread.join();
        }
    }
}

impl Drop for Open {
    fn drop(&mut self) {
        self.stop();
    }
}

/// A store of byte strings in a folder of this program's own. A clone is the same store, and each may go to another thread.
///
/// Each answer is durable: what it tells is on the disk, and so is all that it depends on. Keys have at most 65,536 bytes, a request has
/// at most 8 MB. Once the last clone is dropped all that was asked for is brought to the disk. What a crash leaves is read by the next
/// `open`, or by `hidewillow-server`.
#[derive(Clone)]
pub struct File(Arc<Open>);

impl fmt::Debug for File {
    fn fmt(&self, f: &mut fmt::Formatter<'_>) -> fmt::Result {
        f.debug_struct("File").finish_non_exhaustive()
    }
}

/// Why a command is not done, or a transaction.
fn refused(text: String) -> io::Error {
    io::Error::other(text)
}

/// The reply to a command that is done.
fn well(reply: Reply) -> io::Result<Reply> {
    match reply {
        Reply::Error(text) => Err(refused(text)),
        reply => Ok(reply),
    }
}

fn bytes_of(reply: Reply) -> Option<Vec<u8>> {
    match reply {
        Reply::Bytes(bytes) => Some(bytes),
        _ => None,
    }
}

impl File {
    /// Opens the store of a folder, which is made if it isn't there.
    ///
    /// # Errors
    /// As of [`Options::open`].
    pub fn open(folder: impl AsRef<Path>) -> io::Result<File> {
        Options::default().open(folder)
    }

    /// What a key has; `None` where it is absent.
    ///
    /// # Errors
    /// Where the write that it depends on did not reach the disk, and where the store has stopped.
    pub fn get(&self, key: impl AsRef<[u8]>) -> io::Result<Option<Vec<u8>>> {
        self.command(&[b"GET", key.as_ref()]).and_then(well).map(bytes_of)
    }

    /// Sets what a key has.
    ///
    /// # Errors
    /// Where it did not reach the disk: nothing of it was done. Where there is no room on the disk, and where the store has stopped.
    pub fn set(&self, key: impl AsRef<[u8]>, value: impl AsRef<[u8]>) -> io::Result<()> {
        self.command(&[b"SET", key.as_ref(), value.as_ref()]).and_then(well).map(drop)
    }

    /// Makes a key absent; whether it was there.
    ///
    /// # Errors
    /// As of `set`.
    pub fn remove(&self, key: impl AsRef<[u8]>) -> io::Result<bool> {
        self.command(&[b"DEL", key.as_ref()]).and_then(well).map(|reply| reply == Reply::Number(1))
    }

    /// Carries out a command of the store's table, as `INCR` or `KEYS`, but for those of queues.
    ///
    /// # Errors
    /// Where there is no room on the disk, and where the store has stopped. A command that is not done is answered [`Reply::Error`].
    pub fn command(&self, words: &[&[u8]]) -> io::Result<Reply> {
        let channel = self.0.shared.borrow()?;
        let did = self.0.shared.carry_out(channel, words).and_then(|()| self.0.shared.replies(channel, 1));
        self.0.shared.give_back(channel);
        Ok(did?.swap_remove(0))
    }

    /// What a closure does is done as a whole, or not at all, and nothing comes between its reads and its writes: it runs while nobody
    /// else uses the store, so it must not use it but by what it is handed. Where it ends with an error nothing is done.
    ///
    /// # Errors
    /// What the closure says, and as of `set`.
    pub fn transaction<R>(&self, does: impl FnOnce(&mut Transaction<'_>) -> io::Result<R>) -> io::Result<R> {
        let channel = self.0.shared.borrow()?;
        let did = self.0.shared.transact(channel, false, does);
        let did =
            did.and_then(|(result, count)| self.0.shared.replies(channel, count).map(|replies| (result, replies)));
        self.0.shared.give_back(channel);
        let (result, mut replies) = did?;
        replies.pop().map_or(Ok(Reply::Nothing), well).map(|_| result)
    }

    /// Answers ahead of the disk, until they are waited for.
    ///
    /// # Errors
    /// Where the store has stopped, or has no channel left.
    pub fn ahead(&self) -> io::Result<Ahead> {
        let channel = self.0.shared.borrow()?;
        Ok(Ahead { file: self.clone(), channel, told: 0, waiting: Vec::new() })
    }

    /// Makes a snapshot of all that is there, so that the log before it goes; it is on the disk then.
    ///
    /// # Errors
    /// Those of the disk.
    pub fn snapshot(&self) -> io::Result<()> {
        self.0.shared.snapshot(None)
    }

    /// Makes a folder that a store starts on, here or by `hidewillow-server`, with all that was answered before. It is on the disk then, and
    /// has its name only once it is whole; the folder above it is made if it isn't there.
    ///
    /// # Errors
    /// [`io::ErrorKind::AlreadyExists`] where something has that name, [`io::ErrorKind::InvalidInput`] where it would stand among the
    /// files of this store or has no name, [`io::ErrorKind::StorageFull`] where a disk is full, and others of the disk; then there is
    /// nothing of it.
    pub fn backup(&self, folder: impl AsRef<Path>) -> io::Result<()> {
        self.0.shared.snapshot(Some(path::absolute(folder)?))
    }

    /// Stops, for all clones, once all that was asked for is on the disk.
    ///
    /// # Errors
    /// Where not all reached it.
    pub fn close(self) -> io::Result<()> {
        self.0.shared.stop();
        self.0.shared.stopped()
    }
}

/// What a transaction reads and writes. It reads its own writes.
pub struct Transaction<'a> {
    engine: &'a mut Engine,
    looked: Vec<Vec<u8>>,
    written: BTreeMap<Vec<u8>, Option<Vec<u8>>>,
}

impl fmt::Debug for Transaction<'_> {
    fn fmt(&self, f: &mut fmt::Formatter<'_>) -> fmt::Result {
        f.debug_struct("Transaction").field("written", &self.written).finish_non_exhaustive()
    }
}

impl<'a> Transaction<'a> {
    pub(super) fn new(engine: &'a mut Engine) -> Transaction<'a> {
        Transaction { engine, looked: Vec::new(), written: BTreeMap::new() }
    }

    /// What a key has, on which all that is written depends from now on; `None` where it is absent.
    pub fn get(&mut self, key: impl AsRef<[u8]>) -> Option<Vec<u8>> {
        let key = key.as_ref();
        if let Some(value) = self.written.get(key) {
            return value.clone();
        }
        self.looked.push(key.into());
        self.engine.value(key)
    }

    /// The same as a text; an empty one where it is absent.
    ///
    /// # Errors
    /// [`io::ErrorKind::InvalidData`] where it is none.
    pub fn text(&mut self, key: impl AsRef<[u8]>) -> io::Result<String> {
        let bytes = self.get(key).unwrap_or_default();
        String::from_utf8(bytes).map_err(|error| io::Error::new(io::ErrorKind::InvalidData, error))
    }

    /// Sets what a key has.
    pub fn set(&mut self, key: impl AsRef<[u8]>, value: impl Into<Vec<u8>>) {
        self.written.insert(key.as_ref().into(), Some(value.into()));
    }

    /// Makes a key absent.
    pub fn remove(&mut self, key: impl AsRef<[u8]>) {
        self.written.insert(key.as_ref().into(), None);
    }

    /// The requests that do it, as one queue; none where nothing was looked at or written.
    pub(super) fn requests(self) -> Vec<Vec<u8>> {
        let mut requests: Vec<_> = self.looked.iter().map(|key| request(&[b"GET", key])).collect();
        requests.extend(self.written.iter().map(|(key, value)| match value {
            Some(value) => request(&[b"SET", key, value]),
            None => request(&[b"DEL", key]),
        }));
        if !requests.is_empty() {
            requests.insert(0, request(&[b"MULTI"]));
            requests.push(request(&[b"EXEC"]));
        }
        requests
    }
}

/// Answers ahead of the disk: what is asked for is answered at once, and [`wait`](Self::wait) tells what of it is on the disk. Until then
/// nothing that was made of the answers is to leave the program. Each has a number, from 1 on.
pub struct Ahead {
    file: File,
    channel: u16,
    /// How many were told, and of which of them each reply is that is still to come: of none, or of this number.
    told: usize,
    waiting: Vec<Option<usize>>,
}

impl fmt::Debug for Ahead {
    fn fmt(&self, f: &mut fmt::Formatter<'_>) -> fmt::Result {
        f.debug_struct("Ahead").field("told", &self.told).finish_non_exhaustive()
    }
}

impl Ahead {
    /// What a key has, as of now.
    ///
    /// # Errors
    /// Where the store has stopped.
    pub fn get(&mut self, key: impl AsRef<[u8]>) -> io::Result<Option<Vec<u8>>> {
        self.command(&[b"GET", key.as_ref()]).and_then(well).map(bytes_of)
    }

    /// Sets what a key has.
    ///
    /// # Errors
    /// Where there is no room on the disk, and where the store has stopped.
    pub fn set(&mut self, key: impl AsRef<[u8]>, value: impl AsRef<[u8]>) -> io::Result<()> {
        self.command(&[b"SET", key.as_ref(), value.as_ref()]).and_then(well).map(drop)
    }

    /// Makes a key absent; whether it was there.
    ///
    /// # Errors
    /// As of `set`.
    pub fn remove(&mut self, key: impl AsRef<[u8]>) -> io::Result<bool> {
        self.command(&[b"DEL", key.as_ref()]).and_then(well).map(|reply| reply == Reply::Number(1))
    }

    /// As [`File::command`], answered at once.
    ///
    /// # Errors
    /// As there.
    pub fn command(&mut self, words: &[&[u8]]) -> io::Result<Reply> {
        let reply = self.file.0.shared.carry_out_ahead(self.channel, words)?;
        self.told += 1;
        self.waiting.push(Some(self.told));
        Ok(reply)
    }

    /// As [`File::transaction`], answered at once.
    ///
    /// # Errors
    /// As there.
    pub fn transaction<R>(&mut self, does: impl FnOnce(&mut Transaction<'_>) -> io::Result<R>) -> io::Result<R> {
        let (result, count) = self.file.0.shared.transact(self.channel, true, does)?;
        self.told += 1;
        if let Some(parts) = count.checked_sub(1) {
            self.waiting.extend((0..parts).map(|_| None));
            self.waiting.push(Some(self.told));
        }
        Ok(result)
    }

    /// Waits until all is decided that was answered: the numbers of those of which nothing was done, as their writes, or what they
    /// depended on, did not reach the disk. Where there are none all is on the disk. Numbers begin anew then.
    ///
    /// # Errors
    /// Where the store has stopped: then nobody knows.
    pub fn wait(&mut self) -> io::Result<Vec<usize>> {
        let waiting = std::mem::take(&mut self.waiting);
        self.told = 0;
        let replies = self.file.0.shared.replies(self.channel, waiting.len())?;
        let is_undone = |reply: &Reply| matches!(reply, Reply::Error(text) if text.starts_with("IOERR"));
        let undone = replies.iter().zip(waiting).filter_map(|(reply, number)| number.filter(|_| is_undone(reply)));
        Ok(undone.collect())
    }
}

/// What was not waited for is decided all the same.
impl Drop for Ahead {
    fn drop(&mut self) {
        self.file.0.shared.hang_up(self.channel);
    }
}
