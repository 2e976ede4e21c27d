//! A store of byte strings whose replies wait for exactly what they depend on.
//!
//! - [`File`] is such a store in a folder of this program's own: get, set, transactions, each answer durable; or ahead of that.
//! - [`Store`] and [`Recovery`] are the store alone, for a host that brings sockets and a disk of its own: bytes of clients go in,
//!   bytes for them come out, and frames of a log are written where it is told. Each decision is the library's.
//!
//! The log in a folder that a [`File`] has is `hidewillow-server`'s too: each reads what the other left. Its parts are public for the
//! server alone, without a page here, and may change.
#![allow(clippy::must_use_candidate)]
mod backup;
#[doc(hidden)]
#[allow(clippy::missing_errors_doc)]
pub mod calls;
mod checksum;
mod damage;
mod disk;
mod engine;
#[doc(hidden)]
#[allow(clippy::missing_errors_doc)]
pub mod envelope;
pub mod file;
#[doc(hidden)]
#[allow(clippy::missing_errors_doc)]
pub mod folder;
#[doc(hidden)]
#[allow(clippy::missing_errors_doc)]
pub mod log;
#[doc(hidden)]
#[allow(clippy::missing_errors_doc)]
pub mod mark;
#[doc(hidden)]
#[allow(clippy::missing_errors_doc)]
pub mod reading;
#[doc(hidden)]
#[allow(clippy::missing_errors_doc)]
pub mod recovery;
mod reply;
mod room;
mod system;
#[doc(hidden)]
#[allow(clippy::missing_errors_doc)]
pub mod tell;

pub use calls::{CutOff, FramePlace, ReadCounts, StoreCounts, StoreLimits};
pub use file::File;
pub use reply::Reply;

use crate::{Told, ABSENT, DONE, MEMORY, OPENED, SHOWN};
use calls::{
    hidewillow_may_write, hidewillow_recovery_close, hidewillow_recovery_end, hidewillow_recovery_feed,
    hidewillow_recovery_head, hidewillow_recovery_open, hidewillow_recovery_snapshot, hidewillow_store_ahead,
    hidewillow_store_asked, hidewillow_store_close, hidewillow_store_connect, hidewillow_store_counts,
    hidewillow_store_cut, hidewillow_store_cut_due, hidewillow_store_cut_frame, hidewillow_store_decide,
    hidewillow_store_failed, hidewillow_store_feed, hidewillow_store_feed_ahead, hidewillow_store_hang_up,
    hidewillow_store_is_closed, hidewillow_store_let_go, hidewillow_store_lost, hidewillow_store_next_ready,
    hidewillow_store_open, hidewillow_store_output, hidewillow_store_queued, hidewillow_store_rests_on,
    hidewillow_store_synced, hidewillow_store_take_frame, hidewillow_store_tell, hidewillow_store_tell_unknown,
    hidewillow_store_turn, hidewillow_store_value, Durable, Recovering,
};
use std::hash::{BuildHasher, RandomState};
use std::{fmt, io, ptr};

/// How long the head of a frame is.
pub const HEAD: usize = 24;

const COMMITTED: u32 = 17;
const FAILED: u32 = 18;

/// Why a call is not done. Nothing has changed, but where the call says otherwise.
#[derive(Debug, Clone, Copy, PartialEq, Eq)]
#[non_exhaustive]
pub enum Refusal {
    /// No such channel is there.
    NoChannel,
    /// [`Store::decide`] is to be called first.
    DecisionDue,
    /// As much is undecided, or waits, as may; or a frame has no room in its segment.
    Full,
    /// The host is not asked.
    NoTicket,
    /// The store has stopped.
    Stopped,
    /// Nothing waits.
    Nothing,
    /// As many frames are in flight as may be, or one failed and is not cut off yet.
    Busy,
    /// No number is left.
    NoNumber,
    /// The room is too short.
    Short,
    /// No such frame is in flight.
    Unknown,
    /// No cut is due.
    NoCut,
    /// The limits are not those of a store.
    Limits,
    /// A key was read that no store has.
    Key,
    /// Another call comes first.
    Order,
    /// What was read is damaged, more than a crash explains.
    Damaged,
    /// Want of memory.
    Memory,
}

impl fmt::Display for Refusal {
    fn fmt(&self, f: &mut fmt::Formatter<'_>) -> fmt::Result {
        f.write_str(match self {
            Refusal::NoChannel => "no such channel is there",
            Refusal::DecisionDue => "a decision is due first",
            Refusal::Full => "as much waits as may",
            Refusal::NoTicket => "the host is not asked",
            Refusal::Stopped => "the store has stopped",
            Refusal::Nothing => "nothing waits",
            Refusal::Busy => "as many frames are in flight as may be",
            Refusal::NoNumber => "no number is left",
            Refusal::Short => "the room is too short",
            Refusal::Unknown => "no such frame is in flight",
            Refusal::NoCut => "no cut is due",
            Refusal::Limits => "the limits are not those of a store",
            Refusal::Key => "a key was read that no store has",
            Refusal::Order => "another call comes first",
            Refusal::Damaged => "the log is damaged, more than a crash explains",
            Refusal::Memory => "out of memory",
        })
    }
}

impl std::error::Error for Refusal {}

impl From<Refusal> for io::Error {
    fn from(refusal: Refusal) -> io::Error {
        let kind = if refusal == Refusal::Memory { io::ErrorKind::OutOfMemory } else { io::ErrorKind::Other };
        io::Error::new(kind, refusal)
    }
}

/// Why a call is refused that was told this.
fn refusal(told: &Told) -> Refusal {
    match (told.answer, told.number) {
        (MEMORY, _) => Refusal::Memory,
        (_, 1) => Refusal::NoChannel,
        (_, 2) => Refusal::DecisionDue,
        (_, 3) => Refusal::Full,
        (_, 4) => Refusal::NoTicket,
        (_, 5) => Refusal::Stopped,
        (_, 6) => Refusal::Nothing,
        (_, 7) => Refusal::Busy,
        (_, 8) => Refusal::NoNumber,
        (_, 9) => Refusal::Short,
        (_, 10) => Refusal::Unknown,
        (_, 11) => Refusal::NoCut,
        (_, 12) => Refusal::Limits,
        (_, 13) => Refusal::Key,
        (_, 15) => Refusal::Damaged,
        _ => Refusal::Order,
    }
}

/// What a call was told, where that is this answer.
fn told(told: Told, answer: u32) -> Result<Told, Refusal> {
    if told.answer == answer {
        Ok(told)
    } else {
        Err(refusal(&told))
    }
}

/// The same of a call that tells nothing more.
fn done(it: Told) -> Result<(), Refusal> {
    told(it, DONE).map(drop)
}

/// What a call shows, in a room that is made long enough.
fn shown(room: &mut Vec<u8>, mut call: impl FnMut(&mut [u8]) -> Told) -> Option<&[u8]> {
    let mut told = call(room);
    if told.bytes > room.len() {
        room.resize(told.bytes, 0);
        told = call(room);
    }
    (told.answer == SHOWN).then(|| &room[..told.bytes])
}

/// A log that is read. With none of it, as where a disk is empty, a store begins too.
#[derive(Debug)]
pub struct Recovery(Recovering);

// SAFETY: the handle is one pointer to a block of the C library's memory, which nothing else points to. The library has no thread of its
// own and nothing that belongs to a thread, and calls of one handle don't overlap: they take it exclusively.
unsafe impl Send for Recovery {}

// Of all calls of this file: the handle is of zeros or as the library left it, since none but these methods pass it. All else that is
// given are numbers, structs that the library declares alike, and slices with their own lengths, which live for the call and don't
// overlap.
impl Recovery {
    /// Begins to read a log whose first frame has this number: 1, or behind a snapshot [`ReadCounts::next`] of when that was made.
    ///
    /// # Errors
    /// [`Refusal::Memory`].
    pub fn new(first: u64) -> Result<Recovery, Refusal> {
        let mut recovery = Recovery(Recovering { at: ptr::null_mut() });
        // SAFETY: as above.
        told(unsafe { hidewillow_recovery_open(&raw mut recovery.0, first) }, OPENED).map(|_| recovery)
    }

    /// The head of the next segment comes, by rising number: its first 24 bytes, or all there are. Whether a whole one stands there.
    ///
    /// # Errors
    /// [`Refusal::Order`], [`Refusal::Damaged`] and [`Refusal::Memory`].
    pub fn head(&mut self, segment: u64, head: &[u8]) -> Result<bool, Refusal> {
        // SAFETY: as above.
        match unsafe { hidewillow_recovery_head(&raw mut self.0, segment, head.as_ptr(), head.len()) } {
            Told { answer: ABSENT, .. } => Ok(false),
            it => done(it).map(|()| true),
        }
    }

    /// The next piece of a segment comes, or, as segment 0, of a snapshot. What came whole is carried out.
    ///
    /// # Errors
    /// [`Refusal::Order`], [`Refusal::Damaged`] and [`Refusal::Memory`]: behind the latter two all begins anew.
    pub fn feed(&mut self, segment: u64, piece: &[u8]) -> Result<(), Refusal> {
        // SAFETY: as above.
        done(unsafe { hidewillow_recovery_feed(&raw mut self.0, segment, piece.as_ptr(), piece.len()) })
    }

    /// All came, of which so many bytes may have been in flight, and of which all up to a frame is known to be synced: what was read.
    ///
    /// # Errors
    /// [`Refusal::Damaged`], where the counts tell the place too, [`Refusal::Order`] and [`Refusal::Memory`]; all begins anew.
    pub fn end(&mut self, in_flight: u64, known: u64) -> (ReadCounts, Result<(), Refusal>) {
        let mut counts = ReadCounts::default();
        // SAFETY: as above.
        let did = unsafe { hidewillow_recovery_end(&raw mut self.0, in_flight, known, &raw mut counts) };
        (counts, done(did))
    }

    /// The next piece of a snapshot of what was found, as a frame in the room: its length, or nothing when all was given.
    ///
    /// # Errors
    /// [`Refusal::Order`], [`Refusal::Short`], [`Refusal::NoNumber`] and [`Refusal::Memory`].
    pub fn snapshot(&mut self, room: &mut [u8]) -> Result<Option<usize>, Refusal> {
        // SAFETY: as above.
        match unsafe { hidewillow_recovery_snapshot(&raw mut self.0, room.as_mut_ptr(), room.len()) } {
            Told { answer: ABSENT, .. } => Ok(None),
            it => told(it, SHOWN).map(|it| Some(it.bytes)),
        }
    }
}

impl Drop for Recovery {
    fn drop(&mut self) {
        // SAFETY: as above.
        unsafe { hidewillow_recovery_close(&raw mut self.0) }
    }
}

/// What became of the request that ends in bytes that were fed.
#[derive(Debug, Clone, Copy, PartialEq, Eq)]
#[non_exhaustive]
pub enum Request {
    /// It is not whole yet, or asks for nothing.
    Part,
    /// It was carried out, or an error is its answer.
    Done,
    /// Nothing of it was done, which its client is told in its turn: a key is too long, the store stopped, too many bytes or batches
    /// would be undecided, or there was no memory.
    NotDone(NotDone),
    /// It names no command: the host is asked for its reply, and until it tells that no byte of the channel is taken.
    Asked,
}

/// Why nothing of a request was done.
#[derive(Debug, Clone, Copy, PartialEq, Eq)]
#[non_exhaustive]
pub enum NotDone {
    /// A key is too long.
    LongKey,
    /// The store stopped.
    Stopped,
    /// Too many bytes would be undecided.
    Bytes,
    /// Too many batches are undecided.
    Batches,
    /// There was no memory.
    Memory,
}

/// How many bytes were taken, and what became of the request that they end.
#[derive(Debug, Clone, Copy, PartialEq, Eq)]
pub struct Fed {
    /// How many bytes.
    pub bytes: usize,
    /// What became of the request.
    pub request: Request,
}

impl Fed {
    fn of(did: Told) -> Result<Fed, Refusal> {
        let Told { number, bytes, .. } = told(did, DONE)?;
        let request = match number {
            0 => Request::Part,
            1 => Request::Done,
            2 => Request::NotDone(NotDone::LongKey),
            3 => Request::NotDone(NotDone::Stopped),
            4 => Request::NotDone(NotDone::Bytes),
            5 => Request::NotDone(NotDone::Batches),
            6 => Request::NotDone(NotDone::Memory),
            _ => Request::Asked,
        };
        Ok(Fed { bytes, request })
    }
}

/// What became of the oldest batch.
#[derive(Debug, Clone, Copy, PartialEq, Eq)]
pub enum Decision {
    /// It is logged: what depends on it may go out.
    Logged(u64),
    /// It was cut off, and what depended on it is taken back.
    CutOff {
        /// The batch.
        batch: u64,
        /// How many keys were taken back.
        keys: usize,
    },
}

/// The next frame: it is in the room, or its segment has none for it, or there is none now.
#[derive(Debug, Clone, Copy, PartialEq, Eq)]
pub enum Next {
    /// It is to be written here.
    Frame(FramePlace),
    /// [`Store::turn`] comes first.
    Full,
    /// None now.
    None,
}

/// A store of byte strings behind channels. Where it is dropped what is undecided is dropped too, and nothing more goes out.
#[derive(Debug)]
pub struct Store(Durable);

// SAFETY: as of `Recovery`.
unsafe impl Send for Store {}

impl Store {
    /// Goes on behind a log that was read to its end. The head is to be on the disk, at its place, before anything else is done.
    ///
    /// # Errors
    /// [`Refusal::Order`], [`Refusal::Limits`], [`Refusal::NoNumber`], [`Refusal::Key`] and [`Refusal::Memory`]; the log is as it was.
    pub fn open(log: &mut Recovery, limits: &StoreLimits) -> Result<(Store, FramePlace, [u8; HEAD]), Refusal> {
        let (mut store, mut at, mut head) = (Store(Durable { at: ptr::null_mut() }), FramePlace::default(), [0; HEAD]);
        let (seed, room) = (RandomState::new().hash_one(0), head.as_mut_ptr());
        // SAFETY: as above.
        let did =
            unsafe { hidewillow_store_open(&raw mut store.0, &raw mut log.0, limits, seed, room, HEAD, &raw mut at) };
        told(did, OPENED).map(|_| (store, at, head))
    }

    /// A channel more.
    ///
    /// # Errors
    /// [`Refusal::Full`] and [`Refusal::Memory`].
    pub fn connect(&mut self) -> Result<u16, Refusal> {
        // SAFETY: as above.
        told(unsafe { hidewillow_store_connect(&raw mut self.0) }, DONE).map(|it| it.number as u16)
    }

    /// A channel is gone: its replies are dropped, its writes stand.
    pub fn hang_up(&mut self, channel: u16) {
        // SAFETY: as above.
        unsafe { hidewillow_store_hang_up(&raw mut self.0, channel) };
    }

    /// Takes bytes that came on a channel, up to the end of a request, which is carried out, or all.
    ///
    /// # Errors
    /// [`Refusal::DecisionDue`], [`Refusal::Full`], [`Refusal::NoChannel`], [`Refusal::NoTicket`] and [`Refusal::Memory`].
    pub fn feed(&mut self, channel: u16, bytes: &[u8]) -> Result<Fed, Refusal> {
        // SAFETY: as above.
        Fed::of(unsafe { hidewillow_store_feed(&raw mut self.0, channel, bytes.as_ptr(), bytes.len()) })
    }

    /// The same; of a request that was carried out [`ahead`](Self::ahead) shows the answer at once.
    ///
    /// # Errors
    /// As of `feed`.
    pub fn feed_ahead(&mut self, channel: u16, bytes: &[u8]) -> Result<Fed, Refusal> {
        // SAFETY: as above.
        Fed::of(unsafe { hidewillow_store_feed_ahead(&raw mut self.0, channel, bytes.as_ptr(), bytes.len()) })
    }

    /// The answer to the request that the last `feed_ahead` carried out, as it is under what it depends on.
    pub fn ahead<'a>(&mut self, room: &'a mut Vec<u8>) -> Option<&'a [u8]> {
        // SAFETY: as above.
        shown(room, |room| unsafe { hidewillow_store_ahead(&raw mut self.0, room.as_mut_ptr(), room.len()) })
    }

    /// A word of the request that the host is asked on a channel, by its place.
    pub fn asked<'a>(&mut self, channel: u16, place: usize, room: &'a mut Vec<u8>) -> Option<&'a [u8]> {
        shown(room, |room| {
            let (to, of) = (room.as_mut_ptr(), room.len());
            // SAFETY: as above.
            unsafe { hidewillow_store_asked(&raw mut self.0, channel, place, to, of) }
        })
    }

    /// The host tells the reply to what it is asked, which goes out in its turn.
    ///
    /// # Errors
    /// [`Refusal::DecisionDue`], [`Refusal::NoChannel`], [`Refusal::NoTicket`] and [`Refusal::Memory`].
    pub fn tell(&mut self, channel: u16, reply: &[u8]) -> Result<(), Refusal> {
        // SAFETY: as above.
        done(unsafe { hidewillow_store_tell(&raw mut self.0, channel, reply.as_ptr(), reply.len()) })
    }

    /// The host tells that it knows no such command either.
    ///
    /// # Errors
    /// As of `tell`.
    pub fn tell_unknown(&mut self, channel: u16) -> Result<(), Refusal> {
        // SAFETY: as above.
        done(unsafe { hidewillow_store_tell_unknown(&raw mut self.0, channel) })
    }

    /// Whether a fault was told on a channel: what comes is dropped, and it is to be hung up once its output is taken.
    pub fn is_closed(&mut self, channel: u16) -> bool {
        // SAFETY: as above.
        let it = unsafe { hidewillow_store_is_closed(&raw mut self.0, channel) };
        (it.answer, it.number) == (DONE, 1)
    }

    /// How many bytes the commands take that wait for EXEC on a channel, at least as many as EXEC logs; 0 where no queue is open.
    pub fn queued(&mut self, channel: u16) -> usize {
        // SAFETY: as above.
        unsafe { hidewillow_store_queued(&raw mut self.0, channel) }.bytes
    }

    /// Drops what decisions of 64 keys or more, as of a FLUSHALL, left of old values, of at most so many keys: of how many there are
    /// still some. To be called between other calls while there are; nothing that is seen changes.
    pub fn let_go(&mut self, most: usize) -> usize {
        // SAFETY: as above.
        unsafe { hidewillow_store_let_go(&raw mut self.0, most) }.bytes
    }

    /// Moves bytes that may go out on a channel into the room: how many. To be called until it moves none.
    ///
    /// # Errors
    /// [`Refusal::NoChannel`] and [`Refusal::Memory`]; nothing is lost.
    pub fn output(&mut self, channel: u16, room: &mut [u8]) -> Result<usize, Refusal> {
        // SAFETY: as above.
        let it = unsafe { hidewillow_store_output(&raw mut self.0, channel, room.as_mut_ptr(), room.len()) };
        told(it, DONE).map(|it| it.bytes)
    }

    /// A channel that there is output for: the same until that is taken.
    pub fn next_ready(&mut self) -> Option<u16> {
        // SAFETY: as above.
        let it = unsafe { hidewillow_store_next_ready(&raw mut self.0) };
        (it.answer == DONE).then_some(it.number as u16)
    }

    /// Takes the next frame into a room of [`StoreCounts::next_frame`] bytes: where it is to be written.
    ///
    /// # Errors
    /// [`Refusal::Full`] where its segment has no room for it, [`Refusal::Stopped`], [`Refusal::Nothing`], [`Refusal::Busy`],
    /// [`Refusal::NoNumber`], [`Refusal::Short`] and [`Refusal::Memory`].
    pub fn take_frame(&mut self, room: &mut [u8]) -> Result<FramePlace, Refusal> {
        let mut at = FramePlace::default();
        // SAFETY: as above.
        done(unsafe { hidewillow_store_take_frame(&raw mut self.0, room.as_mut_ptr(), room.len(), &raw mut at) })
            .map(|()| at)
    }

    /// Takes the next frame, or the head that cuts off what failed, into a room that is made long enough, behind so many bytes of it; or
    /// none where it is longer than there is room for in its segment.
    ///
    /// # Errors
    /// What else refuses it.
    pub fn next_frame(&mut self, is_head: bool, room: &mut Vec<u8>, before: usize, most: u64) -> Result<Next, Refusal> {
        let next = self.counts().next_frame;
        if !is_head && next > HEAD && next as u64 > most {
            return Ok(Next::Full);
        }
        room.resize((before + next.max(HEAD)).max(room.len()), 0);
        let room = &mut room[before..];
        match if is_head { self.cut_frame(room) } else { self.take_frame(room) } {
            Ok(at) => Ok(Next::Frame(at)),
            Err(Refusal::Full) => Ok(Next::Full),
            Err(Refusal::Memory | Refusal::Nothing | Refusal::Busy | Refusal::NoCut) => Ok(Next::None),
            Err(refusal) => Err(refusal),
        }
    }

    /// The log goes on at the front of the next segment.
    ///
    /// # Errors
    /// [`Refusal::NoNumber`].
    pub fn turn(&mut self) -> Result<(), Refusal> {
        // SAFETY: as above.
        done(unsafe { hidewillow_store_turn(&raw mut self.0) })
    }

    /// The disk has a frame. These words come in any order.
    ///
    /// # Errors
    /// [`Refusal::Stopped`] and [`Refusal::Unknown`].
    pub fn synced(&mut self, frame: u64) -> Result<(), Refusal> {
        // SAFETY: as above.
        done(unsafe { hidewillow_store_synced(&raw mut self.0, frame) })
    }

    /// A frame failed: it may or may not be on the disk, and is not to be written again.
    ///
    /// # Errors
    /// As of `synced`.
    pub fn failed(&mut self, frame: u64) -> Result<(), Refusal> {
        // SAFETY: as above.
        done(unsafe { hidewillow_store_failed(&raw mut self.0, frame) })
    }

    /// The cut that is to be made, once a frame failed and all that were sent were told of.
    pub fn cut_due(&mut self) -> Option<CutOff> {
        let mut cut = CutOff::default();
        // SAFETY: as above.
        let it = unsafe { hidewillow_store_cut_due(&raw mut self.0, &raw mut cut) };
        (it.answer == DONE).then_some(cut)
    }

    /// Writes the head that makes the cut into the first bytes of a room: where it is to be written, at the front of the next segment.
    ///
    /// # Errors
    /// [`Refusal::NoNumber`], [`Refusal::Short`] and [`Refusal::NoCut`].
    pub fn cut_frame(&mut self, room: &mut [u8]) -> Result<FramePlace, Refusal> {
        let mut at = FramePlace::default();
        // SAFETY: as above.
        done(unsafe { hidewillow_store_cut_frame(&raw mut self.0, room.as_mut_ptr(), room.len(), &raw mut at) })
            .map(|()| at)
    }

    /// Whether that head is on the disk; where it can't be, the store stops, and nothing is logged or decided any more.
    ///
    /// # Errors
    /// [`Refusal::Stopped`], [`Refusal::NoNumber`] and [`Refusal::NoCut`].
    pub fn cut(&mut self, made: bool) -> Result<(), Refusal> {
        // SAFETY: as above.
        done(unsafe { hidewillow_store_cut(&raw mut self.0, made.into()) })
    }

    /// Winds up a store whose log lies in a consensus engine, once its leadership is over: what is open is refused and decided. The room
    /// has [`StoreCounts::undecided`] bytes and [`HEAD`].
    ///
    /// # Errors
    /// [`Refusal::Busy`], [`Refusal::NoCut`], [`Refusal::Stopped`], [`Refusal::NoNumber`], [`Refusal::Short`] and [`Refusal::Memory`]:
    /// then a part may be done, and it may be called again.
    pub fn lost(&mut self, room: &mut [u8]) -> Result<(), Refusal> {
        // SAFETY: as above.
        done(unsafe { hidewillow_store_lost(&raw mut self.0, room.as_mut_ptr(), room.len()) })
    }

    /// Decides the oldest batch, if it can be. To be called until it tells none, behind each word of the disk and each cut.
    pub fn decide(&mut self) -> Option<Decision> {
        // SAFETY: as above.
        let Told { answer, number: batch, bytes: keys } = unsafe { hidewillow_store_decide(&raw mut self.0) };
        match answer {
            COMMITTED => Some(Decision::Logged(batch)),
            FAILED => Some(Decision::CutOff { batch, keys }),
            _ => None,
        }
    }

    /// What a key has now, whatever it depends on.
    pub fn value<'a>(&mut self, key: &[u8], room: &'a mut Vec<u8>) -> Option<&'a [u8]> {
        shown(room, |room| {
            let (to, of) = (room.as_mut_ptr(), room.len());
            // SAFETY: as above.
            unsafe { hidewillow_store_value(&raw mut self.0, key.as_ptr(), key.len(), to, of) }
        })
    }

    /// How many bytes a key has now; 0 where it is absent.
    pub fn value_bytes(&mut self, key: &[u8]) -> usize {
        let room: &mut [u8] = &mut [];
        // SAFETY: as above.
        unsafe { hidewillow_store_value(&raw mut self.0, key.as_ptr(), key.len(), room.as_mut_ptr(), 0) }.bytes
    }

    /// One of the undecided batches that a key depends on, by its place among them, by rising number.
    pub fn rests_on(&mut self, key: &[u8], place: usize) -> Option<u64> {
        // SAFETY: as above.
        let it = unsafe { hidewillow_store_rests_on(&raw mut self.0, key.as_ptr(), key.len(), place) };
        (it.answer == SHOWN).then_some(it.number)
    }

    /// What is undecided, in constant time.
    pub fn counts(&mut self) -> StoreCounts {
        let mut counts = StoreCounts::default();
        // SAFETY: as above.
        unsafe { hidewillow_store_counts(&raw mut self.0, &raw mut counts) };
        counts
    }
}

/// Whether a request may write whose first word this is, as a command or by carrying out a queue; `None` where it names no command.
#[must_use]
pub fn may_write(word: &[u8]) -> Option<bool> {
    // SAFETY: the word is read, and no more.
    let it = unsafe { hidewillow_may_write(word.as_ptr(), word.len()) };
    (it.answer == DONE).then_some(it.number == 1)
}

impl Drop for Store {
    fn drop(&mut self) {
        // SAFETY: as above.
        unsafe { hidewillow_store_close(&raw mut self.0) }
    }
}
