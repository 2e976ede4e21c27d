//! What a start finds in a folder, whether that is all it should be, and snapshots of it.
use super::damage::{self, Loss};
use super::envelope::{wrap, Ending, Envelope, FileHead, Identity, ENVELOPE, ROOM_BEFORE};
use super::folder::{named, Folder};
use super::log::Closed;
use super::mark::{self, GaveUp, Mark, Owner, Said};
use super::reading::{self, Again, Reader, Walk, Walked};
use super::system;
use super::{ReadCounts, Recovery, Refusal, HEAD};
use std::fs::File;
use std::io::{self, Write};
use std::path::{Path, PathBuf};

/// No piece of a snapshot is longer. What isn't used of it takes no memory.
const ENTRIES: usize = 32 << 20;

/// How a log is read: up to the end of which segment, whether what is read is written again, how many bytes may have been undecided where
/// the log doesn't say so, from which frame on it is given up, and which frame is to be the next, where that is known.
#[derive(Clone, Copy)]
pub struct How {
    pub up_to: u64,
    pub again: bool,
    pub undecided: u32,
    pub accept: Option<u64>,
    pub next: Option<u64>,
}

/// A log that was read.
pub struct Found {
    pub log: Recovery,
    pub counts: ReadCounts,
    /// The segments that its snapshot stands for, what that ends with, and what was read of those behind.
    pub kept: u64,
    pub ending: Option<Ending>,
    pub walked: Vec<Walked>,
    /// What `store` says, where there is one.
    pub said: Option<Said>,
    /// Whether what was dropped is no more than a crash explains, and whether frames were given up that were synced.
    pub is_explained: bool,
    pub gives_up: bool,
}

/// A snapshot that was made: its keys, and its bytes.
pub struct Made {
    pub keys: u64,
    pub bytes: u64,
}

/// In words what was found of a log.
#[must_use]
pub fn found(counts: &ReadCounts) -> String {
    let ReadCounts { frames, commands, keys, next, segment, place, dropped, .. } = counts;
    format!(
        "{keys} keys, {commands} commands in {frames} frames of the log; it ends at byte {place} of segment {segment}, before \
         frame {next}, and {dropped} bytes behind count for nothing"
    )
}

/// The front of a log: what the newest snapshot has.
pub struct Begun {
    pub log: Recovery,
    pub kept: u64,
    pub first: u64,
    pub ending: Option<Ending>,
}

impl Found {
    fn new(log: Recovery, kept: u64, ending: Option<Ending>, walked: Vec<Walked>, said: Option<Said>) -> Found {
        let (counts, is_explained, gives_up) = (ReadCounts::default(), true, false);
        Found { log, counts, kept, ending, walked, said, is_explained, gives_up }
    }

    /// All was read: whether it is all that it should be.
    fn end(&mut self, folder: &Folder, how: How) -> io::Result<()> {
        let marked = self.said.map(|said| said.mark);
        let (old, known) = (u64::from(how.undecided) + 64 * HEAD as u64, known(&self.walked, marked));
        // Where the log is given up from a frame on, which one is told first.
        let told_known = if how.accept.is_some() { 0 } else { how.next.map_or(known, |next| next - 1) };
        let did;
        (self.counts, did) = self.log.end(if marked.is_some() { u64::MAX } else { old }, told_known);
        let is_damaged = did == Err(Refusal::Damaged);
        let Found { counts, walked, kept, .. } = self;
        if let Some(last) = walked.iter().find(|it| it.segment == counts.segment && it.first.is_some()) {
            counts.place = last.place;
        }
        counts.dropped += dropped(walked);
        let wanted = how.next.unwrap_or(counts.next.max(known + 1));
        if !is_damaged {
            did?;
        } else if walked.iter().any(|it| it.has(counts.next)) {
            return Err(damage::says_nothing(counts));
        }
        self.gives_up = counts.next != wanted && how.accept == Some(counts.next);
        if counts.next != wanted && !self.gives_up {
            return Err(Loss { counts, walked, kept: *kept }.error(folder, wanted));
        }
        let most = marked.map_or(old, |mark| in_flight(&mark));
        let is_all = marked.is_some_and(|mark| mark.is_stopped && mark.known + 1 == counts.next);
        if counts.dropped > most && !is_all && !self.gives_up {
            return Err(damage::too_much(counts));
        }
        let is_crash = counts.dropped <= if is_all { 0 } else { most };
        self.is_explained = is_crash && !self.gives_up;
        if is_damaged {
            Err(damage::says_nothing(&self.counts))
        } else {
            Ok(())
        }
    }
}

/// A segment that is to be read, with its number.
type Segment = (u64, PathBuf);

impl Folder {
    /// What `store` says; nothing in a folder that is empty or of an older server. Files that have heads aren't read without it.
    pub fn said(&self) -> io::Result<Option<Said>> {
        let said = mark::read(self)?;
        if said.is_none() {
            for (.., path) in [self.files("log-")?, self.files("snapshot-")?].concat() {
                if named(&path, reading::has_head(&path))? {
                    let words = "the file `store`, which says whose this folder is, is gone; copy it back, or start on a backup";
                    return named(&self.0, Err(io::Error::other(words)));
                }
            }
        }
        Ok(said)
    }

    /// Begins to read a log: the newest snapshot, the segments that it stands for, and the next frame.
    pub fn begin(&self, said: Option<&Said>) -> io::Result<Begun> {
        let ((kept, first, snapshot), mut ending) = (self.newest()?, None);
        let mut log = Recovery::new(first)?;
        if let Some(path) = &snapshot {
            let feed = |piece: &[u8]| Ok(log.feed(0, piece)?);
            let owner = said.map(|said| said.owner).filter(|owner| owner.old_snapshot != kept);
            let did = match owner {
                None => whole_of_old(path, feed),
                Some(owner) => {
                    reading::snapshot(path, &owner.identity, (kept, first), feed).map(|it| ending = Some(it))
                }
            };
            damage::of_file(path, did)?;
            damage::of_file(path, log.head(kept, &[]).map(drop).map_err(io::Error::from))?;
        }
        Ok(Begun { log, kept, first, ending })
    }

    /// Reads the log up to the end of a segment.
    pub fn recover(&self, how: How) -> io::Result<Found> {
        let said = self.said()?;
        let Begun { mut log, kept, ending, .. } = self.begin(said.as_ref())?;
        let mut segments: Vec<Segment> =
            self.files("log-")?.into_iter().map(|(number, _, path)| (number, path)).collect();
        segments.retain(|(number, _)| *number > kept);
        while segments.last().is_some_and(|(_, path)| reading::is_unused(path)) {
            segments.pop();
        }
        for (number, path) in &segments {
            let head = named(path, front(path, *number, said.as_ref()))?;
            log.head(*number, &head)?;
        }
        let (mut walked, mut written) = (Vec::new(), Vec::new());
        for (number, path) in segments.iter().filter(|(number, _)| *number <= how.up_to) {
            let (read, again) = named(path, feed(&mut log, path, *number, how.again, said.as_ref()))?; // [9]
            walked.push(read);
            written.push((path, again));
        }
        for (path, again) in written {
            named(path, again.end())?; // [8]
        }
        let mut found = Found::new(log, kept, ending, walked, said);
        found.end(self, how)?;
        Ok(found)
    }

    /// Writes a snapshot that stands for these segments, into this folder or, as a backup, another.
    pub fn write(&self, closed: &Closed, into: &Folder) -> io::Result<Made> {
        let (up_to, next) = (closed.up_to(), Some(closed.next()));
        let how = How { up_to, again: false, undecided: u32::MAX, accept: None, next };
        let Found { mut log, counts: ReadCounts { keys, next, .. }, said, .. } = self.recover(how)?;
        let is_backup = into.0 != self.0;
        let owner = match said.filter(|_| !is_backup) {
            Some(said) => said.owner,
            None => Owner::new()?,
        };
        let bytes = into.write_of(&mut log, &owner.identity, (up_to, next, keys))?;
        if is_backup {
            mark::make(into, owner, Mark { is_stopped: true, known: next - 1, segment: up_to, ..Mark::default() })?;
        }
        Ok(Made { keys, bytes })
    }

    /// The name of a snapshot that stands for the segments up to one, behind which this frame is the next.
    pub fn snapshot_of(&self, up_to: u64, next: u64) -> PathBuf {
        self.0.join(format!("snapshot-{up_to:010}-{next}"))
    }

    /// Writes a snapshot of a log that was read up to the end of a segment, behind which this frame is the next, and that has so many keys,
    /// and reads it back before it has its name: its bytes.
    pub fn write_of(
        &self,
        log: &mut Recovery,
        identity: &Identity,
        (up_to, next, keys): (u64, u64, u64),
    ) -> io::Result<u64> {
        let (mut room, identity) = (vec![0; ROOM_BEFORE + ENTRIES], *identity);
        let writes = |file: &mut File| {
            let head = FileHead { of_snapshot: true, identity, segment: up_to, frame: next, known: next - 1 };
            file.write_all(&head.bytes())?;
            let mut ending = Ending { entries: keys, ..Ending::default() };
            loop {
                let Some(bytes) = log.snapshot(&mut room[ROOM_BEFORE..])? else {
                    file.write_all(&ending.bytes(&identity))?;
                    return Ok(ending.bytes);
                };
                let end = ROOM_BEFORE + bytes;
                ending = ending.with(&room[ROOM_BEFORE..end]);
                let envelope = Envelope::around(0, ending.pieces, 0, &room[ROOM_BEFORE..end]);
                let from = wrap(&mut room, None, &envelope, &identity);
                file.write_all(&room[from..end])?;
                // A frame that is written meanwhile waits for one of them at most.
                file.sync_data()?;
            }
        };
        self.place(&self.snapshot_of(up_to, next), writes, |new| read_back(new, &identity, (up_to, next)))
    }
}

/// Reads a snapshot whole, as the disk has it, that stands for all up to a segment, with the next frame.
pub fn read_back(path: &Path, identity: &Identity, of: (u64, u64)) -> io::Result<()> {
    system::forget(&File::open(path)?);
    reading::snapshot(path, identity, of, |_| Ok(())).map(drop)
}

/// A snapshot of an older server, which has no head and no end: one of nothing but zeros, or of nothing, can't be told from one that was lost.
fn whole_of_old(path: &Path, mut feed: impl FnMut(&[u8]) -> io::Result<()>) -> io::Result<()> {
    if reading::is_unused(path) {
        return Err(io::Error::other("it has no piece at all"));
    }
    reading::whole(Reader::ahead(path, false)?, |piece| feed(piece)).map(drop)
}

/// The head of the first frame of a segment, where that frame is whole.
fn front(path: &Path, segment: u64, said: Option<&Said>) -> io::Result<Vec<u8>> {
    let head = |bytes: &[u8]| bytes[..HEAD.min(bytes.len())].to_vec();
    match said.filter(|said| segment >= said.owner.first) {
        None => Ok(head(Reader::open(path)?.at(0, HEAD)?)),
        Some(said) => {
            let mut walk = Walk::begin(Reader::open(path)?, &said.owner.identity, segment, GaveUp::default())?;
            Ok(walk.next()?.map(head).unwrap_or_default())
        }
    }
}

/// Gives the library the frames of a segment that are whole, up to the first that isn't.
fn feed(
    log: &mut Recovery,
    path: &Path,
    segment: u64,
    again: bool,
    said: Option<&Said>,
) -> io::Result<(Walked, Again)> {
    let (reader, mut feed) = (Reader::ahead(path, again)?, |bytes: &[u8]| Ok(log.feed(segment, bytes)?));
    let Some(Said { owner, mark, .. }) = said.filter(|said| segment >= said.owner.first) else {
        let again = reading::whole(reader, feed)?;
        return Ok((Walked { segment, ..Walked::default() }, again));
    };
    let mut walk = Walk::begin(reader, &owner.identity, segment, mark.gave_up)?;
    while let Some(frame) = walk.next()? {
        feed(frame)?;
    }
    walk.end()
}

/// Up to which frame all were synced, as anything in the log says.
fn known(walked: &[Walked], marked: Option<Mark>) -> u64 {
    walked.iter().map(|it| it.known).chain(marked.map(|mark| mark.known)).max().unwrap_or(0)
}

/// How many bytes the frames in flight have at most, with what stands around them.
fn in_flight(mark: &Mark) -> u64 {
    mark.undecided + (mark.in_flight + 1) * (HEAD + ENVELOPE + ROOM_BEFORE) as u64
}

/// How many bytes behind the frames of segments count for nothing, but for those that were cut off.
fn dropped(walked: &[Walked]) -> u64 {
    let mut bound = u64::MAX;
    let rests = walked.iter().rev().map(|it| {
        // One without a head is closed by any later one.
        let is_open = if it.next == 0 { bound == u64::MAX } else { it.next < bound };
        bound = it.first.map_or(bound, |first| bound.min(first));
        if is_open {
            it.rest
        } else {
            0
        }
    });
    rests.sum()
}
