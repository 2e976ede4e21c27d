//! When snapshots are made, and backups.
use crate::resp::{error, Reply, OK};
use crate::server::Server;
use crate::trusted::system;
use hidewillow::store::folder::Folder;
use hidewillow::store::log::{Closed, Segments};
use hidewillow::store::recovery::Made;
use hidewillow::store::tell::{Host, Tell};
use std::collections::VecDeque;
use std::io::{self, ErrorKind};
use std::path::{Path, PathBuf};
use std::sync::mpsc::Receiver;
use std::thread;
use std::time::Instant;

/// A snapshot that is to stand for all segments up to one, for the log or as a backup, and the client that waits for it.
pub struct Wish {
    up_to: u64,
    backup: Option<PathBuf>,
    channel: u16,
    client: u64,
}

type Word = (Wish, io::Result<Made>);

pub struct Keeper {
    /// What is wished for, and what came of it.
    wishes: VecDeque<Wish>,
    tell: Tell<Word>,
    words: Receiver<Word>,
    /// The segments that one was to stand for, those that one stands for, with its bytes, and whether one is being made.
    tried: u64,
    pub kept: u64,
    pub bytes: u64,
    pub is_keeping: bool,
}

impl Keeper {
    pub fn new(kept: u64, host: Host) -> Keeper {
        let ((tell, words), wishes) = (Tell::new(host), VecDeque::new());
        Keeper { wishes, tell, words, tried: kept, kept, bytes: 0, is_keeping: false }
    }

    /// Makes a snapshot on a thread of its own.
    fn begin(&mut self, wish: Wish, closed: Closed, folder: &str) {
        let (folder, tell) = (Folder(folder.into()), self.tell.clone());
        self.is_keeping = true;
        thread::spawn(move || {
            system::step_back();
            let did = match &wish.backup {
                Some(path) => folder.back_up(&closed, path),
                None => folder.write(&closed, &folder).and_then(|made| folder.remove().map(|()| made)),
            };
            drop(closed);
            tell.tell((wish, did));
        });
    }
}

impl Server {
    /// Wishes for a snapshot of all that is in the log up to now, and who is told when it is made.
    pub fn wish(&mut self, channel: u16, backup: Option<&str>) -> Option<Reply> {
        let Some(Segments { written: up_to, .. }) = self.channels.log().segments() else {
            return Some(error("no snapshots are made of this log"));
        };
        let client = self.guest(channel).map_or(0, |guest| guest.id);
        let (options, keeper) = (&self.house.options, &mut self.house.keeper);
        let backups = options.backups.clone().unwrap_or_else(|| format!("{}/backups", options.folder));
        let backup = backup.map(|name| Path::new(&backups).join(name));
        keeper.tried = if backup.is_none() { up_to } else { keeper.tried };
        if client == 0 && keeper.wishes.iter().any(|wish| wish.client == 0 && wish.up_to == up_to) {
            // The same is wished for already, by nobody who is told.
            return None;
        }
        keeper.wishes.push_back(Wish { up_to, backup, channel, client });
        None
    }

    /// Tells what came of snapshots, and has the next made that is wished for, or due; one is due too where it may make room.
    pub fn keep(&mut self) -> io::Result<()> {
        while let Ok((wish, did)) = self.house.keeper.words.try_recv() {
            self.snapshot_made(wish, did);
        }
        let Some(Segments { closed, lacks_room, .. }) = self.channels.log().segments() else { return Ok(()) };
        let (keeper, options) = (&mut self.house.keeper, &self.house.options);
        let news = closed.saturating_sub(keeper.tried).saturating_mul(options.limits.segment);
        if news >= options.snapshot.max(keeper.bytes) || lacks_room && news > 0 {
            keeper.wishes.push_front(Wish { up_to: closed, backup: None, channel: 0, client: 0 });
            keeper.tried = closed;
        }
        let Some(wish) = keeper.wishes.pop_front() else { return Ok(()) };
        match self.channels.close_segments(wish.up_to)? {
            None if lacks_room && !self.house.keeper.is_keeping && wish.client > 0 => {
                self.snapshot_made(wish, Err(ErrorKind::StorageFull.into()))
            }
            None => self.house.keeper.wishes.push_front(wish),
            Some(closed) => {
                let (keeper, options) = (&mut self.house.keeper, &self.house.options);
                keeper.begin(wish, closed, &options.folder);
            }
        }
        Ok(())
    }

    /// What came of a snapshot.
    fn snapshot_made(&mut self, wish: Wish, did: io::Result<Made>) {
        let of_log = format!("snapshot up to segment {}", wish.up_to);
        let what = wish.backup.as_ref().map_or(of_log, |path| format!("backup {}", path.display()));
        let keeper = &mut self.house.keeper;
        keeper.is_keeping = false;
        match &did {
            Err(error) => say!("no {what}: {error}"),
            Ok(Made { keys, bytes }) => {
                say!("{what}: {keys} keys in {bytes} bytes");
                if wish.backup.is_none() {
                    (keeper.kept, keeper.bytes) = (wish.up_to, *bytes);
                    self.house.keys = (*keys, Instant::now(), 0);
                }
            }
        }
        if self.guest(wish.channel).is_some_and(|guest| guest.id == wish.client) {
            let told = did.map_or_else(|error| Reply::Error(format!("IOERR no snapshot: {error}")), |_| OK);
            self.reply(wish.channel, &told);
        }
    }
}
