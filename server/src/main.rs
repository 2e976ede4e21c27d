//! A store that people can run: one loop over sockets, and disk threads. Each decision is the proved library's.
//!
//! What this program must do for the library's theorem to hold of what clients see. The sentences 1 to 5, 8 and 9 are of a log on a
//! disk, 11 to 13 of a log in an engine, and 6, 7 and 10 of both. The lines that do them are marked by these numbers, and stand in
//! `trusted/` and, where they are of a folder, in `rust/src/store/`, which programs without a server have too; but for those of 11 to 13,
//! which stand in `etcd/` too. All else stands beside: it has no store, no log and no socket of a
//! client in its hands but by the functions of `trusted::channels::Channels` that are public, each of which does as the sentences say
//! whenever it is called; it accepts connections, and has folders made, copied and removed by the functions of `store::folder::Folder`.
//!
//!  1. A frame, or a head, is written whole, in the segment that the library said and in the order of the places there, each behind an
//!     envelope of its own and the first behind the segment's head, so that no two meet, and nothing else is (`disk.rs`, `log.rs`).
//!  2. It is told as synced, and marked as known, only when that write and then a sync through the same file handle answered Ok; else it
//!     is told as failed, and is never tried again (`disk.rs`, `log.rs`).
//!  3. A segment is zeros, on the disk with its name, before anything is written in it, and so is what it grows by before a frame is
//!     written there (`folder.rs`, `log.rs`).
//!  4. Each thread that writes frames does so through a file handle of its own, and through none that has failed, since the system
//!     tells an error once to each (`disk.rs`).
//!  5. A cut is told as made, and a start takes what writes, only when its head is on the disk; until then a start, as on a full disk,
//!     shows what it found, and a cut is tried in another segment, or the program ends and answers nothing more (`log.rs`).
//!  6. Bytes that came on a socket, behind those that say the password, are fed to its channel, in order and once, but that what the
//!     store did not take for want of memory is fed again. It has another channel in the place of its own only where the store has
//!     nothing of it. Where there is no room on the disk or in memory for what a request writes,
//!     one is fed in its place that the store hands back, or which in a queue is an error that drops the queue (`channels.rs`).
//!  7. What a channel puts out goes to its socket, in order and once, as long as there is the connection, behind what is answered at the
//!     door, and nothing else does; but a client that wishes so is sent answers ahead, each with a number, until it waits for all, and
//!     one that speaks version 3 of the protocol its null for each of version 2 (`channels.rs`, `replies.rs`).
//!  8. What a start reads of segments, but for zeros, it writes again and syncs before it serves, since what can be read needn't be on
//!     the disk; a snapshot has its name only once it is, and was read back whole (`reading.rs`, `folder.rs`, `recovery.rs`).
//!  9. A start gives the library the newest snapshot, which is whole, the heads of all segments behind, and then of each, in order, the
//!     frames up to the first whose envelope or checksum doesn't hold, but of the last ones nothing if they are zeros. One is removed only
//!     when a snapshot of it is on the disk with its name, which is made only of segments in which nothing is written any more, nor waits
//!     to be cut off, or at a stop where nothing but the head of a start was written in it; no other is made anew (`recovery.rs`,
//!     `reading.rs`, `folder.rs`, `log.rs`).
//! 10. One process has the folder, and one thread makes all calls of a store (`folder.rs`; the store is `Channels`', which is not `Send`).
//! 11. A batch has one number and the same bytes however often it is sent, and is told as synced only where the library says that an
//!     answer means so (`etcd/leader.rs`, `etcd/engine.rs`).
//! 12. It is told as failed only where the library says that it is lost, once each batch under way has its word; then all is wound up by
//!     one call, and nothing more is sent (`etcd/leader.rs`).
//! 13. What was carried out has the mark that was the rounds' then, and nothing that a channel puts out goes before that may be told; no
//!     round is taken later than what stands for it is sent (`channels.rs`, `etcd/leader.rs`).
#![deny(unsafe_code)]

/// Writes a line on stderr, if it can be written.
macro_rules! say {
    ($($words:tt)*) => {{
        use std::io::Write as _;
        let _ = writeln!(std::io::stderr(), $($words)*);
    }};
}

mod ahead;
mod asked;
mod door;
mod etcd;
mod gather;
mod glob;
mod guard;
mod guests;
mod house;
mod info;
mod keeper;
mod options;
mod progress;
mod request;
mod resp;
mod server;
mod settings;
mod table;
mod trusted;

use hidewillow::store::folder::Folder;
use hidewillow::store::log::DiskLog;
use hidewillow::store::recovery::{self, How};
use hidewillow::store::tell::Host;
use house::House;
use keeper::Keeper;
use options::{Options, Wish, HELP, VERSION};
use server::Server;
use std::io::{self, Write};
use std::os::unix::net::UnixStream;
use std::process::ExitCode;
use trusted::bound::Bound;
use trusted::system;

/// The loop, as the log knows it: woken by a byte, unless so many wait that it is awake; what it is told goes to stderr.
fn host_of(waker: UnixStream) -> Host {
    Host::new(move || _ = (&waker).write(&[0]), |words| say!("{words}"))
}

/// Says what a start on a folder would; whether nothing would be dropped that a crash doesn't explain.
fn check(folder: &str, options: &Options) -> io::Result<bool> {
    let (undecided, accept) = (options.limits.undecided, options.accept);
    let how = How { up_to: u64::MAX, again: false, undecided, accept, next: None };
    let found = progress::told(folder, || Folder(folder.into()).recover(how))?;
    tell(&info::read(&found))?;
    Ok(found.is_explained)
}

/// Starts on a folder, and serves until it is told to stop.
fn serve(mut options: Options) -> io::Result<()> {
    system::own_files();
    options.has_handles(system::raise_handles());
    let (wake, waker) = UnixStream::pair()?;
    waker.set_nonblocking(true)?;
    system::signals(waker.try_clone()?);
    if !options.engine.is_empty() {
        return etcd::leader::serve(&options, wake, &waker);
    }
    let (host, folder) = (host_of(waker), Folder(options.folder.clone().into()));
    let lock = folder.lock(options.wait_for_folder, &options.address)?;
    let bound = Bound::at(&options.address)?;
    let opened = || DiskLog::open(folder, lock, options.limits, options.accept, host.clone());
    let (store, log, found) = progress::told(&options.folder, opened)?;
    say!("{}", recovery::found(&found.counts));
    let listener = bound.listen()?;
    say!("listening on {}", listener.local_addr()?);
    let house = House::new(options, found.counts.keys, Keeper::new(found.kept, host));
    Server::new(house, listener, wake, store, Box::new(log))?.run().map(drop)
}

/// Writes a text on stdout.
fn tell(text: &str) -> io::Result<bool> {
    writeln!(io::stdout(), "{text}").map(|()| true)
}

fn main() -> ExitCode {
    let words: Vec<String> = std::env::args().skip(1).collect();
    let did = match Wish::of(&words) {
        Ok(Wish::Help) => tell(HELP.trim_end()),
        Ok(Wish::Version) => tell(VERSION),
        Ok(Wish::Check(folder, options)) => check(&folder, &options),
        Ok(Wish::Serve(options)) => serve(options).map(|()| true),
        Err(error) => {
            say!("hidewillow-server: {error}\nhidewillow-server --help tells all options");
            return ExitCode::from(2);
        }
    };
    match did {
        Ok(true) => ExitCode::SUCCESS,
        Ok(false) => ExitCode::from(3),
        Err(error) => {
            say!("hidewillow-server: {error}");
            ExitCode::FAILURE
        }
    }
}
