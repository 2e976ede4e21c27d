//! `store`, a page in each folder: whose it is, from which segment on files have heads, and up to which frame all were synced.
//!
//! Of the last there are four marks, each with a checksum. Two are written in turn and synced: at a start, at each new segment, and at a
//! clean stop. The other two are written behind each frame that is synced, before anyone is told, and are synced by chance alone: they
//! are there after `kill -9`, and after a loss of power they are older, or torn. So the greatest number of all that hold is known.
use super::envelope::{is_sealed, number, numbers, sealed, Identity};
use super::folder::{named, Folder};
use super::StoreLimits;
use std::fs::{self, File, OpenOptions};
use std::io::{self, ErrorKind, Write};
use std::os::unix::fs::FileExt;
use std::path::PathBuf;
use std::sync::{Mutex, MutexGuard};

const MAGIC: &[u8; 8] = b"hidestr1";
const PAGE: usize = 4096;
/// How long the head is, and a mark; and where these stand: those that are synced, and those that needn't be.
const HEAD: usize = 128;
const MARK: usize = 128;
const SYNCED: [usize; 2] = [512, 1024];
const RUNNING: [usize; 2] = [1536, 2048];

/// What is known of a log.
#[derive(Clone, Copy, Default)]
pub struct Mark {
    /// Marks that are written later have a greater one.
    pub turn: u64,
    /// Whether it is all: the server stopped, and nothing more was written.
    pub is_stopped: bool,
    /// The number up to which all frames were told as synced, and where that frame ends in its segment.
    pub known: u64,
    pub segment: u64,
    pub place: u64,
    /// How many bytes might be undecided, and how many frames might be in flight, by the options of that run.
    pub undecided: u64,
    pub in_flight: u64,
    /// The frames from which on a start gave up, as it was told to: what older segments say of later ones doesn't count.
    pub gave_up: GaveUp,
}

/// Of segments below this one no frame from this number on is wanted any more.
#[derive(Clone, Copy, Default)]
pub struct GaveUp {
    pub segment: u64,
    pub frame: u64,
}

impl GaveUp {
    /// Up to where frames are wanted, where a segment says that they were synced.
    pub fn known(&self, segment: u64, known: u64) -> u64 {
        if segment < self.segment {
            known.min(self.frame.saturating_sub(1))
        } else {
            known
        }
    }
}

impl Mark {
    pub fn limits(limits: &StoreLimits) -> Mark {
        Mark { undecided: limits.undecided.into(), in_flight: limits.in_flight.into(), ..Mark::default() }
    }

    /// Another comes in its place, behind it.
    pub fn goes_on(&mut self, mark: Mark) {
        *self = Mark { turn: self.turn, ..mark };
    }

    fn bytes(&self, identity: &Identity) -> Vec<u8> {
        let Mark { turn, is_stopped, known, segment, place, undecided, in_flight, gave_up } = *self;
        let GaveUp { segment: below, frame } = gave_up;
        let all = [turn, is_stopped.into(), known, segment, place, undecided, in_flight, below, frame];
        sealed(&identity.0, numbers(all), MARK)
    }

    fn of(identity: &Identity, bytes: &[u8]) -> Option<Mark> {
        let bytes = bytes.get(..MARK).filter(|bytes| is_sealed(&identity.0, bytes))?;
        let at = |place: usize| number(bytes, place * 8);
        let gave_up = GaveUp { segment: at(7), frame: at(8) };
        let (turn, is_stopped, known, segment, place) = (at(0), at(1) == 1, at(2), at(3), at(4));
        Some(Mark { turn, is_stopped, known, segment, place, undecided: at(5), in_flight: at(6), gave_up })
    }
}

/// Whose a folder is.
#[derive(Clone, Copy)]
pub struct Owner {
    pub identity: Identity,
    /// The folder's own, which no other has, where hosts of one store have a folder each.
    pub host: Identity,
    pub is_of_engine: bool,
    /// The first segment whose file has a head: those before are of an older server, and so is a snapshot up to that segment.
    pub first: u64,
    pub old_snapshot: u64,
}

impl Owner {
    /// One that is new.
    pub fn new() -> io::Result<Owner> {
        let (identity, host) = (Identity::new()?, Identity::new()?);
        Ok(Owner { identity, host, is_of_engine: false, first: 1, old_snapshot: 0 })
    }

    fn bytes(&self) -> Vec<u8> {
        let rest = numbers([self.is_of_engine.into(), self.first, self.old_snapshot]);
        sealed(&[], [&MAGIC[..], &self.identity.0, &self.host.0, &rest].concat(), HEAD)
    }

    fn of(bytes: &[u8]) -> Option<Owner> {
        let bytes = bytes.get(..HEAD).filter(|bytes| bytes.starts_with(MAGIC) && is_sealed(&[], bytes))?;
        let (identity, host) = (Identity(*bytes[8..].first_chunk()?), Identity(*bytes[24..].first_chunk()?));
        let (first, old_snapshot) = (number(bytes, 48), number(bytes, 56));
        Some(Owner { identity, host, is_of_engine: number(bytes, 40) == 1, first, old_snapshot })
    }
}

/// What `store` says.
#[derive(Clone, Copy)]
pub struct Said {
    pub owner: Owner,
    pub mark: Mark,
    /// Which of the synced marks is to be written next.
    next: usize,
}

fn path(folder: &Folder) -> PathBuf {
    folder.0.join("store")
}

/// Reads it, where there is one.
pub fn read(folder: &Folder) -> io::Result<Option<Said>> {
    let path = path(folder);
    let bytes = match fs::read(&path) {
        Err(error) if error.kind() == ErrorKind::NotFound => return Ok(None),
        did => named(&path, did)?,
    };
    let broken =
        |what| named(&path, Err(io::Error::other(format!("{what}; copy this file back, or start on a backup"))));
    let Some(owner) = Owner::of(&bytes) else { return broken("it doesn't say whose the folder is") };
    let mark = |place: &usize| Mark::of(&owner.identity, bytes.get(*place..)?);
    let synced = SYNCED.each_ref().map(mark);
    let Some(newest) = synced.into_iter().flatten().max_by_key(|mark| mark.turn) else {
        return broken("neither of its marks holds");
    };
    // The newest that was synced stays: the other one is written next.
    let next = usize::from(synced[0].is_some_and(|mark| mark.turn == newest.turn));
    let marks = RUNNING.iter().filter_map(mark).chain([newest]);
    let mark = marks.max_by_key(|mark| mark.turn).unwrap_or(newest);
    Ok(Some(Said { owner, mark, next }))
}

/// Makes it, with a mark, and has it on the disk under its name.
pub fn make(folder: &Folder, owner: Owner, mark: Mark) -> io::Result<Said> {
    let mut page = vec![0; PAGE];
    page[..HEAD].copy_from_slice(&owner.bytes());
    page[SYNCED[0]..][..MARK].copy_from_slice(&mark.bytes(&owner.identity));
    folder.place(&path(folder), |file| file.write_all(&page), |_| Ok(()))?;
    Ok(Said { owner, mark, next: 1 })
}

/// Writes the marks of a log that is being written.
pub struct Marker {
    path: PathBuf,
    identity: Identity,
    /// What is known now, and the file by which that is written.
    now: Mutex<(Mark, File)>,
    /// The next of the synced marks, and a file by which no sync failed.
    synced: Mutex<(usize, Option<File>)>,
}

fn locked<T>(it: &Mutex<T>) -> MutexGuard<'_, T> {
    it.lock().expect("no thread ends that has it")
}

impl Marker {
    /// Goes on behind what is there.
    pub fn new(folder: &Folder, said: &Said) -> io::Result<Marker> {
        let path = path(folder);
        let file = named(&path, OpenOptions::new().write(true).open(&path))?;
        let (now, synced) = (Mutex::new((said.mark, file)), Mutex::new((said.next, None)));
        Ok(Marker { path, identity: said.owner.identity, now, synced })
    }

    /// What is known changes, before anyone is told; whether it is written.
    pub fn is(&self, change: impl FnOnce(&mut Mark)) -> io::Result<()> {
        let mut now = locked(&self.now);
        let (mark, file) = &mut *now;
        change(mark);
        mark.turn += 1;
        file.write_all_at(&mark.bytes(&self.identity), RUNNING[mark.turn as usize % 2] as u64)
    }

    /// Has what is known on the disk, behind a change.
    pub fn sync(&self, change: impl FnOnce(&mut Mark)) -> io::Result<()> {
        let mut synced = locked(&self.synced);
        let bytes = {
            let mark = &mut locked(&self.now).0;
            change(mark);
            mark.turn += 1;
            mark.bytes(&self.identity)
        };
        let (place, own) = (synced.0, synced.1.take());
        let write = || {
            let file = own.map_or_else(|| OpenOptions::new().write(true).open(&self.path), Ok)?;
            file.write_all_at(&bytes, SYNCED[place] as u64)?;
            file.sync_data().map(|()| file)
        };
        *synced = (1 - place, Some(named(&self.path, write())?));
        Ok(())
    }
}
