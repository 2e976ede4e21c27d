//! The log on a disk: frames to threads, what came of them, cuts, and the segments that they need.
use super::disk::{is_full, Disk, Head, Job, Word};
use super::envelope::{wrap, Envelope, FileHead, Identity, ROOM_BEFORE};
use super::folder::{Folder, Lock};
use super::mark::{self, GaveUp, Mark, Marker, Owner};
use super::recovery::{Found, How};
pub use super::room::Room;
use super::room::{Growth, Zeros};
use super::tell::Host;
use super::{FramePlace, Next, Store, StoreLimits, HEAD};
use std::collections::BTreeMap;
use std::sync::Arc;
use std::time::Duration;
use std::{io, mem};

/// How long a stop waits for a segment that is being made.
const STOPS: Duration = Duration::from_secs(5);
/// How often a cut fails, each time in another segment, until the store stops. A full disk counts for nothing.
const TRIES: u32 = 3;

/// What a log counts: frames on the disk, their bytes, the microseconds of all and of the longest, frames that failed, and rounds.
#[derive(Debug, Clone, Copy, Default)]
pub struct LogCounts {
    /// Frames on the disk.
    pub syncs: u64,
    /// Their bytes.
    pub bytes: u64,
    /// The microseconds of all of them.
    pub micros: u64,
    /// Those of the longest.
    pub longest: u64,
    /// Frames that failed.
    pub failures: u64,
    /// Rounds of an engine.
    pub rounds: u64,
}

impl LogCounts {
    /// The counts by their names.
    #[must_use]
    pub fn lines(&self) -> [(&'static str, u64); 6] {
        [
            ("syncs", self.syncs),
            ("written_bytes", self.bytes),
            ("sync_microseconds", self.micros),
            ("sync_longest_microseconds", self.longest),
            ("sync_failures", self.failures),
            ("rounds", self.rounds),
        ]
    }

    /// A frame is on the disk.
    pub fn synced(&mut self, bytes: u64, micros: u64) {
        (self.syncs, self.bytes, self.micros) = (self.syncs + 1, self.bytes + bytes, self.micros + micros);
        self.longest = self.longest.max(micros);
    }
}

/// What a snapshot may stand for: all segments up to this one, behind which this frame is the next. Nothing is written in them any more,
/// nor waits to be cut off, and there is one of these at a time.
pub struct Closed {
    up_to: u64,
    next: u64,
    _only: Arc<()>,
}

impl Closed {
    pub fn up_to(&self) -> u64 {
        self.up_to
    }

    pub fn next(&self) -> u64 {
        self.next
    }
}

/// The last segments: in which nothing is written any more, that is written, and that is made; whether the next is being made, and
/// couldn't be before.
#[derive(Default, Clone, Copy)]
pub struct Segments {
    pub closed: u64,
    pub written: u64,
    pub made: u64,
    is_making: bool,
    pub lacks_room: bool,
    /// How long the last two are.
    pub last_bytes: u64,
}

pub struct DiskLog {
    disk: Disk,
    /// Keeps others out of the folder while it is open.
    _lock: Lock,
    at: Segments,
    /// How much of the segment is written, and how far there are zeros; whether it grows; and what is being written.
    zeros: Zeros,
    is_growing: bool,
    under_way: Vec<FramePlace>,
    /// Whose the folder is, the first frame of each segment since the start, and what is known to be synced.
    identity: Identity,
    firsts: BTreeMap<u64, u64>,
    synced: Synced,
    /// The head of this start, as long as there was no room for its segment: until then nothing is written. And that segment.
    opening: Option<Head>,
    first: u64,
    /// Where a frame failed and is not cut off yet: how often a head failed that was to do it.
    cutting: Option<u32>,
    only: Arc<()>,
    host: Host,
    counts: LogCounts,
}

/// Which frames were told as synced: all up to one, and where each of those behind ends, as their numbers needn't come in order.
struct Synced {
    known: u64,
    ahead: BTreeMap<u64, (u64, u64)>,
    marker: Arc<Marker>,
    host: Host,
    /// Whether the mark couldn't be written, which is said once.
    is_mute: bool,
}

impl Synced {
    /// A frame is on the disk, and ends there; or a head is, which stands for all before it.
    fn is(&mut self, is_head: bool, at: &FramePlace, end: u64) {
        if is_head {
            self.ahead.clear();
            self.known = at.frame - 1;
        }
        self.ahead.insert(at.frame, (at.segment, end));
        let mut last = None;
        while let Some(place) = self.ahead.remove(&(self.known + 1)) {
            (self.known, last) = (self.known + 1, Some(place));
        }
        let Some((segment, place)) = last else { return };
        let known = self.known;
        let did = self.marker.is(|mark| (mark.known, mark.segment, mark.place) = (known, segment, place));
        if let Some(error) = did.err().filter(|_| !self.is_mute) {
            self.host.say(format_args!("what is known of the log is not written down: {error}"));
            self.is_mute = true;
        }
    }
}

/// What stands around a frame is put before it, in a room; from where on, and where that is written in the file of its segment.
fn wrapped(room: &mut [u8], at: &FramePlace, identity: &Identity, known: u64, end: u64) -> (usize, u64) {
    let (segment, frame) = (at.segment, at.frame);
    let envelope = Envelope::around(segment, frame, known, &room[ROOM_BEFORE..ROOM_BEFORE + at.len]);
    let head = (at.offset == 0).then_some(FileHead { of_snapshot: false, identity: *identity, segment, frame, known });
    (wrap(room, head, &envelope, identity), if at.offset == 0 { 0 } else { end })
}

/// What `store` says of a log that goes on behind what was found, in this segment: it is made where there is none. On a full disk what it
/// said before is as true, unless something is given up.
fn marked(folder: &Folder, found: &Found, limits: &StoreLimits, segment: u64) -> io::Result<(mark::Said, Arc<Marker>)> {
    let (next, mut mark) = (found.counts.next, Mark::limits(limits));
    (mark.known, mark.segment, mark.place) = (next - 1, found.counts.segment, found.counts.place);
    let said = match found.said {
        Some(said) => said,
        None => mark::make(folder, Owner { first: segment, old_snapshot: found.kept, ..Owner::new()? }, mark)?,
    };
    mark.gave_up = if found.gives_up { GaveUp { segment, frame: next } } else { said.mark.gave_up };
    let marker = Arc::new(Marker::new(folder, &said)?);
    match marker.sync(|now| now.goes_on(mark)) {
        Err(error) if found.gives_up || !is_full(&error) => Err(error),
        _ => Ok((said, marker)),
    }
}

impl DiskLog {
    /// Recovers the log of a folder, and goes on behind it, with what was found. On a full disk it begins without a segment, and has
    /// no room for writes until that is made.
    ///
    /// # Errors
    /// Where the log is damaged more than a crash explains, and those of the disk.
    pub fn open(
        folder: Folder,
        lock: Lock,
        limits: StoreLimits,
        accept: Option<u64>,
        host: Host,
    ) -> io::Result<(Store, DiskLog, Found)> {
        let how = How { up_to: u64::MAX, again: true, undecided: limits.undecided, accept, next: None };
        let mut found = folder.recover(how)?;
        if found.said.is_some_and(|said| said.owner.is_of_engine) {
            return Err(io::Error::other("this folder is of a host whose log is in an engine"));
        }
        let (store, place, head) = Store::open(&mut found.log, &limits)?;
        let (said, marker) = marked(&folder, &found, &limits, place.segment)?;
        let (identity, first, known) = (said.owner.identity, place.segment, place.frame - 1);
        let mut room = [0; ROOM_BEFORE + HEAD];
        room[ROOM_BEFORE..].copy_from_slice(&head);
        wrapped(&mut room, &place, &identity, known, 0);
        let at = Segments { written: first, made: first - 1, ..Segments::default() };
        let disk = Disk::start(folder, marker.clone(), limits.in_flight, host.clone());
        let synced = Synced { known, ahead: BTreeMap::new(), marker, host: host.clone(), is_mute: false };
        #[rustfmt::skip]
        let mut log = DiskLog {
            disk, _lock: lock, at, zeros: Zeros::new(limits.segment), is_growing: false, under_way: Vec::new(), identity,
            firsts: BTreeMap::from([(first, place.frame)]), synced, opening: Some((place, room)), first, cutting: None,
            only: Arc::new(()), host, counts: LogCounts::default(),
        };
        log.begin()?;
        Ok((store, log, found))
    }

    /// Makes the first segment, with the head of this start; a full disk is tried again later.
    fn begin(&mut self) -> io::Result<()> {
        self.prepare();
        while self.at.is_making {
            match self.disk.last_word(Duration::MAX) {
                Some(Word::Segment(Err(error))) if !is_full(&error) => return Err(error),
                Some(Word::Segment(did)) => self.segment_made(did),
                _ => (),
            }
        }
        Ok(())
    }

    /// Counts what came of a frame.
    fn count(&mut self, job: &Job, did: &io::Result<()>) {
        let FramePlace { frame, segment, len, .. } = job.at;
        match did {
            Ok(()) => self.counts.synced(len as u64, job.begun.elapsed().as_micros() as u64),
            Err(error) => {
                self.counts.failures += 1;
                self.host.say(format_args!(
                    "frame {frame} of {len} bytes is not on the disk, in segment {segment}: {error}"
                ));
            }
        }
    }

    /// Says what came of a segment that was to be made, where that is new.
    fn say_segment<T>(&self, segment: u64, did: &io::Result<T>) {
        match did {
            Err(error) if !self.at.lacks_room => {
                self.host.say(format_args!("segment {segment} can't be made, and is tried again: {error}"));
            }
            Ok(_) if self.at.lacks_room => {
                self.host.say(format_args!("segment {segment} is made, so writing goes on"));
            }
            _ => (),
        }
    }

    /// What came of a frame, or of the head of a cut.
    fn written(&mut self, store: &mut Store, job: Job, did: io::Result<()>) -> io::Result<()> {
        let at = job.at;
        self.under_way.retain(|it| it.frame != at.frame);
        self.count(&job, &did);
        if did.is_ok() {
            self.synced.is(job.is_head, &at, job.end());
        }
        match did {
            Ok(()) if job.is_head => {
                self.cutting = None;
                Ok(store.cut(true)?) // [5]
            }
            Ok(()) => Ok(store.synced(at.frame)?), // [2]
            Err(error) => {
                let failed = self.cutting.get_or_insert(0);
                if !job.is_head {
                    return Ok(store.failed(at.frame)?); // [2]
                }
                *failed += u32::from(!is_full(&error));
                if *failed < TRIES {
                    return Ok(store.turn()?);
                }
                let _ = store.cut(false);
                Err(io::Error::other("the log can't be cut, so nothing more is answered"))
            }
        }
    }

    /// What came of the next segment, or of the first with the head of this start.
    fn segment_made(&mut self, did: io::Result<u64>) {
        self.say_segment(self.at.made + 1, &did);
        (self.at.is_making, self.at.lacks_room) = (false, did.is_err());
        let Ok(zeros) = did else { return };
        self.at.made += 1;
        self.zeros.next = Some(zeros);
        if let Some((at, head)) = self.opening.take() {
            self.zeros.turn();
            self.zeros.end = head.len() as u64; // [5]
            self.synced.is(true, &at, self.zeros.end);
        }
    }

    /// What came of zeros that were to be made.
    fn grown(&mut self, growth: Growth, did: io::Result<()>) {
        self.say_segment(growth.segment, &did);
        (self.is_growing, self.at.lacks_room) = (false, did.is_err());
        if did.is_ok() {
            self.zeros.has_grown(self.at.written, growth);
        }
    }

    /// The log goes on in the next segment, which is made.
    fn turn(&mut self, store: &mut Store) -> io::Result<()> {
        self.at.written += 1;
        self.zeros.turn();
        Ok(store.turn()?)
    }

    /// Has the next segment made, and zeros where frames are to be. Where that failed before it waits a second first.
    fn prepare(&mut self) {
        let wait = Duration::from_secs(self.at.lacks_room.into());
        if self.is_growing || self.at.is_making {
            return;
        }
        if self.at.made <= self.at.written && self.zeros.next.is_none() {
            self.at.is_making = true;
            return self.disk.make_segment(self.at.made + 1, &self.zeros, self.opening, wait);
        }
        if let Some(growth) = self.zeros.growth(self.at.written) {
            self.is_growing = true;
            self.disk.grow(growth, wait);
        }
    }

    /// The last segment in which nothing is written any more.
    fn closed(&self) -> u64 {
        self.under_way.iter().map(|at| at.segment).min().unwrap_or(self.at.written) - 1
    }
}

impl DiskLog {
    /// Tells the store what came of frames since. An error ends the log, and nothing more is to be answered.
    ///
    /// # Errors
    /// Where what failed can't be cut off.
    pub fn hear(&mut self, store: &mut Store) -> io::Result<()> {
        while let Some(word) = self.disk.next_word() {
            match word {
                Word::Written(job, did) => self.written(store, job, did)?,
                Word::Segment(did) => self.segment_made(did),
                Word::Grown(growth, did) => self.grown(growth, did),
            }
        }
        Ok(())
    }

    /// Gives idle threads the next frames, or the head of the cut that is due.
    ///
    /// # Errors
    /// Where the store refuses what it may not.
    pub fn send(&mut self, store: &mut Store) -> io::Result<()> {
        while self.opening.is_none() && (self.cutting.is_none() || self.under_way.is_empty()) {
            let may_turn = self.at.written < self.at.made;
            let may_write = self.cutting.is_some() || self.zeros.takes(store.counts().next_frame as u64); // [3]
            if self.cutting.is_some() && !may_turn || !may_write {
                break;
            }
            let Some(room) = self.disk.room() else { break };
            match store.next_frame(self.cutting.is_some(), room, ROOM_BEFORE, self.zeros.most())? {
                Next::Frame(at) => {
                    if mem::replace(&mut self.at.written, at.segment) != at.segment {
                        self.zeros.turn();
                    }
                    let (room_from, from) = wrapped(room, &at, &self.identity, self.synced.known, self.zeros.end);
                    self.firsts.entry(at.segment).or_insert(at.frame);
                    self.under_way.push(at);
                    self.zeros.end = self.disk.send(at, self.cutting.is_some(), room_from, from);
                    // [1]
                }
                Next::Full if may_turn => self.turn(store)?,
                Next::Full | Next::None => break,
            }
        }
        self.prepare();
        Ok(())
    }

    /// Whether there is room for a request of so many bytes that writes, or that only takes away; where that lacks, it is refused by name.
    pub fn room(&mut self, store: &mut Store, bytes: usize, takes_away: bool) -> Room {
        let kept_back = if takes_away { 0 } else { self.zeros.kept_back() };
        let has = self.cutting.is_none() && self.zeros.takes_too(store.counts().next_frame, bytes, kept_back);
        match (has && self.opening.is_none(), self.at.lacks_room) {
            (true, _) => Room::Is,
            (false, true) => Room::Lacks,
            (false, false) => Room::Comes,
        }
    }

    /// Whether there is room for writes.
    #[must_use]
    pub fn has_room(&self) -> bool {
        !self.at.lacks_room
    }

    /// The store is to stop, and nothing is under way: where nothing was written but the head of this start, its segment goes, and the one
    /// that was made ahead.
    ///
    /// # Errors
    /// Those of the disk.
    pub fn let_go(&mut self) -> io::Result<()> {
        while self.at.is_making || self.is_growing {
            match self.disk.last_word(STOPS) {
                Some(Word::Segment(did)) => self.segment_made(did),
                Some(Word::Grown(growth, did)) => self.grown(growth, did),
                _ => return Ok(()),
            }
        }
        if self.cutting.is_some() || !self.under_way.is_empty() {
            return Ok(());
        }
        let is_used = self.at.written != self.first || self.zeros.end > (ROOM_BEFORE + HEAD) as u64;
        let (unused, known) = match is_used {
            true => (self.at.written + 1, self.synced.known),
            false => (self.first, self.firsts.first_key_value().map_or(self.synced.known, |(_, first)| first - 1)),
        };
        self.synced.marker.sync(|mark| (mark.is_stopped, mark.known) = (true, known))?;
        if !is_used && self.zeros.here == self.zeros.kept_back() {
            self.disk.folder().spare_again(self.first, ROOM_BEFORE + HEAD)?;
        }
        self.disk.folder().remove_unused(unused..=self.at.made) // [9]
    }

    /// What it counted.
    #[must_use]
    pub fn counts(&self) -> &LogCounts {
        &self.counts
    }

    /// Its segments.
    #[must_use]
    pub fn segments(&self) -> Segments {
        let last_bytes = self.zeros.here + self.zeros.next.unwrap_or(0);
        Segments { closed: self.closed(), last_bytes, ..self.at }
    }

    /// Lets a snapshot stand for all segments up to one, unless that can't be yet.
    ///
    /// # Errors
    /// [`Refusal::NoNumber`](super::Refusal::NoNumber).
    pub fn close(&mut self, store: &mut Store, up_to: u64) -> io::Result<Option<Closed>> {
        if self.cutting.is_some() || Arc::strong_count(&self.only) > 1 {
            return Ok(None);
        }
        if self.at.written <= up_to && self.at.made > self.at.written {
            self.turn(store)?;
        }
        if self.closed() < up_to {
            return Ok(None);
        }
        self.firsts = self.firsts.split_off(&(up_to + 1));
        let next = self.firsts.first_key_value().map_or(self.synced.known + 1, |(_, first)| *first);
        Ok(Some(Closed { up_to, next, _only: self.only.clone() })) // [9]
    }
}
