//! A desk: a kernel whose cached copies are of files of a server of your own. Its requests go out as bytes, and the server's
//! replies come as bytes, whatever carries them.
use crate::{
    room, shown, unopened, Counts, Error, Lease, Told, DONE, FAULT, GUESSED, OPENED, REFUSED, ROOM_BYTES, SHOWN,
    STEPPED,
};
use std::ffi::c_void;
use std::fmt;

#[repr(C)]
struct DeskHandle {
    at: *mut c_void,
}

type Asks = unsafe extern "C" fn(*mut DeskHandle, *const u8, usize, *mut u8, usize) -> Told;

// What these take for granted is what the calls of the crate's root do.
unsafe extern "C" {
    fn hidewillow_desk_open(desk: *mut DeskHandle, text: *const u8, bytes: usize) -> Told;
    fn hidewillow_desk_turn(desk: *mut DeskHandle, name: *const u8, bytes: usize) -> Told;
    fn hidewillow_desk_lease(desk: *mut DeskHandle, name: *const u8, bytes: usize, count: u32) -> Told;
    fn hidewillow_desk_request(desk: *mut DeskHandle, room: *mut u8, bytes: usize) -> Told;
    fn hidewillow_desk_reply(desk: *mut DeskHandle, reply: *const u8, bytes: usize) -> Told;
    fn hidewillow_desk_pending(desk: *mut DeskHandle) -> Told;
    fn hidewillow_desk_epoch(desk: *mut DeskHandle) -> Told;
    fn hidewillow_desk_left(desk: *mut DeskHandle, number: u16, place: usize, room: *mut u8, bytes: usize) -> Told;
    fn hidewillow_desk_report(desk: *mut DeskHandle, room: *mut u8, bytes: usize) -> Told;
    fn hidewillow_desk_value(
        desk: *mut DeskHandle,
        name: *const u8,
        bytes: usize,
        room: *mut u8,
        room_bytes: usize,
    ) -> Told;
    fn hidewillow_desk_tags(
        desk: *mut DeskHandle,
        name: *const u8,
        bytes: usize,
        room: *mut u8,
        room_bytes: usize,
    ) -> Told;
    fn hidewillow_desk_terminal(desk: *mut DeskHandle, number: u16, room: *mut u8, bytes: usize) -> Told;
    fn hidewillow_desk_counts(desk: *mut DeskHandle, counts: *mut Counts) -> Told;
    fn hidewillow_desk_close(desk: *mut DeskHandle);
}

const GONE: u32 = 3;
const ASKED: u32 = 12;
const COMMITTED: u32 = 17;
const FAILED: u32 = 18;
const TAKEN: u32 = 19;
const FORGOTTEN: u32 = 20;
const IDLE: u32 = 22;

/// What a turn did.
#[derive(Debug, Clone, Copy, PartialEq, Eq)]
pub enum Turn {
    /// A step.
    Stepped,
    /// A step under this guess, of which a request waits to be sent.
    Guessed(u64),
    /// No step: the process waits for the reply to this request.
    Asked(u64),
}

/// What a reply did.
#[derive(Debug, Clone, Copy, PartialEq, Eq)]
pub enum Given {
    /// This guess holds.
    Committed(u64),
    /// This guess failed, and what depended on it is taken back.
    Failed(u64),
    /// The failure of another had struck this guess.
    Gone(u64),
    /// The process that waited for this request went on.
    Taken(u64),
    /// Nothing is done for this request any more.
    Forgotten(u64),
}

/// Why a call of a desk gives nothing. Nothing has changed.
#[derive(Debug, Clone, Copy, PartialEq, Eq)]
pub enum Refusal {
    /// Of a turn the refusal as the header numbers it; of a reply 1 where it is the turn of another request, or this one was
    /// not sent yet, and 2 where it does not fit what was asked; of an epoch 1 where a request has no reply.
    Refused(u64),
    /// The name or the bytes are none that there can be.
    Fault,
    /// Want of memory.
    Memory,
}

impl fmt::Display for Refusal {
    fn fmt(&self, f: &mut fmt::Formatter<'_>) -> fmt::Result {
        match self {
            Refusal::Refused(number) => write!(f, "refused {number}"),
            Refusal::Fault => write!(f, "no such name or bytes"),
            Refusal::Memory => write!(f, "out of memory"),
        }
    }
}

impl std::error::Error for Refusal {}

impl From<Error> for Refusal {
    fn from(_: Error) -> Refusal {
        Refusal::Memory
    }
}

fn refusal(told: Told) -> Refusal {
    match told.answer {
        REFUSED => Refusal::Refused(told.number),
        FAULT => Refusal::Fault,
        _ => Refusal::Memory,
    }
}

/// A desk at play; it ends when it is dropped, and the guesses of requests without a reply fail. It stays on its thread.
pub struct Desk {
    handle: DeskHandle,
}

impl Desk {
    /// Opens a desk over the kernel that a scenario's declarations say. The text ends with the line `world`; the files that it
    /// declares are the server's.
    ///
    /// # Errors
    /// [`Error::Fault`], [`Error::Section`] and [`Error::Memory`].
    pub fn open(text: &str) -> Result<Desk, Error> {
        let mut handle = DeskHandle { at: std::ptr::null_mut() };
        // SAFETY: the handle is of zeros. The pointers are those of references, one of them
        // exclusive: none is null, each is good for its length, and they don't overlap.
        let told = unsafe { hidewillow_desk_open(&raw mut handle, text.as_ptr(), text.len()) };
        match told.answer {
            OPENED => Ok(Desk { handle }),
            FAULT => Err(unopened(text, told.number)),
            _ => Err(Error::Memory),
        }
    }

    /// Takes a turn of a process, as of `1` or `1.2`.
    ///
    /// # Errors
    /// Why it is not taken: nothing has changed.
    pub fn turn(&mut self, process: &str) -> Result<Turn, Refusal> {
        // SAFETY: the handle is as the last call left it, since none but these methods pass it, and
        // it is on its thread, since a `Desk` is not `Send`. The pointers are those of references,
        // the handle's an exclusive one: none is null, each is good for its length, and they don't
        // overlap.
        let told = unsafe { hidewillow_desk_turn(&raw mut self.handle, process.as_ptr(), process.len()) };
        match told.answer {
            STEPPED => Ok(Turn::Stepped),
            GUESSED => Ok(Turn::Guessed(told.number)),
            ASKED => Ok(Turn::Asked(told.number)),
            _ => Err(refusal(told)),
        }
    }

    /// Lends a process, has it do up to so many private instructions away from its kernel, and hands it in.
    ///
    /// # Errors
    /// Why nothing was done.
    pub fn lease(&mut self, process: &str, count: u32) -> Result<Lease, Refusal> {
        let (name, bytes) = (process.as_ptr(), process.len());
        // SAFETY: as in `turn`.
        let told = unsafe { hidewillow_desk_lease(&raw mut self.handle, name, bytes, count) };
        match told.answer {
            STEPPED => Ok(Lease::Ran(told.number)),
            REFUSED => Ok(Lease::Refused(told.number)),
            _ => Err(refusal(told)),
        }
    }

    /// Takes the oldest request that waits to be sent, as bytes (`Request::of` reads them); `None` where none waits.
    ///
    /// # Errors
    /// Want of memory: the request stays.
    pub fn request(&mut self) -> Result<Option<Vec<u8>>, Refusal> {
        let mut into = room(ROOM_BYTES)?;
        loop {
            // SAFETY: of the handle and the room as in `turn`; the room is set.
            let told = unsafe { hidewillow_desk_request(&raw mut self.handle, into.as_mut_ptr(), into.len()) };
            match told.answer {
                SHOWN if told.bytes > into.len() => into = room(told.bytes)?,
                SHOWN => {
                    into.truncate(told.bytes);
                    return Ok(Some(into));
                }
                IDLE => return Ok(None),
                _ => return Err(refusal(told)),
            }
        }
    }

    /// Gives a reply of the server, of which these are the bytes, and all.
    ///
    /// # Errors
    /// Why it is not taken: nothing has changed.
    pub fn reply(&mut self, bytes: &[u8]) -> Result<Given, Refusal> {
        // SAFETY: as in `turn`.
        let told = unsafe { hidewillow_desk_reply(&raw mut self.handle, bytes.as_ptr(), bytes.len()) };
        let number = told.number;
        match told.answer {
            COMMITTED => Ok(Given::Committed(number)),
            FAILED => Ok(Given::Failed(number)),
            GONE => Ok(Given::Gone(number)),
            TAKEN => Ok(Given::Taken(number)),
            FORGOTTEN => Ok(Given::Forgotten(number)),
            _ => Err(refusal(told)),
        }
    }

    /// The request whose reply is next.
    pub fn expected(&mut self) -> u64 {
        // SAFETY: of the handle as in `turn`.
        unsafe { hidewillow_desk_pending(&raw mut self.handle) }.number
    }

    /// How many requests have no reply.
    pub fn pending(&mut self) -> usize {
        // SAFETY: of the handle as in `turn`.
        unsafe { hidewillow_desk_pending(&raw mut self.handle) }.bytes
    }

    /// Begins a new epoch, where each request has its reply: what was done is let go of, but for two bits of each guess,
    /// so that a long run takes no more memory than an epoch.
    ///
    /// # Errors
    /// Where a request has no reply, and for want of memory.
    pub fn new_epoch(&mut self) -> Result<(), Refusal> {
        // SAFETY: of the handle as in `turn`.
        let told = unsafe { hidewillow_desk_epoch(&raw mut self.handle) };
        match told.answer {
            DONE => Ok(()),
            _ => Err(refusal(told)),
        }
    }

    /// The text at a place among those that a terminal had released when the last epoch ended; `None` past the last.
    ///
    /// # Errors
    /// [`Error::Memory`].
    pub fn left(&mut self, number: u16, place: usize) -> Result<Option<String>, Error> {
        // SAFETY: of the handle and the room as in `request`.
        shown(|room: &mut [u8]| unsafe {
            hidewillow_desk_left(&raw mut self.handle, number, place, room.as_mut_ptr(), room.len())
        })
    }

    /// The report of the kernel.
    ///
    /// # Errors
    /// [`Error::Memory`].
    pub fn report(&mut self) -> Result<String, Error> {
        // SAFETY: of the handle and the room as in `request`.
        let ask =
            |room: &mut [u8]| unsafe { hidewillow_desk_report(&raw mut self.handle, room.as_mut_ptr(), room.len()) };
        Ok(shown(ask)?.unwrap_or_default())
    }

    /// What an entity has that the report names so, as `proc 1`; `None` where none is named so.
    ///
    /// # Errors
    /// [`Error::Memory`].
    pub fn value(&mut self, name: &str) -> Result<Option<String>, Error> {
        self.named(hidewillow_desk_value, name)
    }

    /// The undecided guesses that such an entity depends on, as `1,3`, or `-`.
    ///
    /// # Errors
    /// [`Error::Memory`].
    pub fn tags(&mut self, name: &str) -> Result<Option<String>, Error> {
        self.named(hidewillow_desk_tags, name)
    }

    fn named(&mut self, call: Asks, name: &str) -> Result<Option<String>, Error> {
        // SAFETY: of the handle, the name and the room as in `request`.
        let ask = |room: &mut [u8]| unsafe {
            let (to, of) = (room.as_mut_ptr(), room.len());
            call(&raw mut self.handle, name.as_ptr(), name.len(), to, of)
        };
        shown(ask)
    }

    /// The lines of a terminal in this epoch.
    ///
    /// # Errors
    /// [`Error::Memory`].
    pub fn terminal(&mut self, number: u16) -> Result<String, Error> {
        // SAFETY: of the handle and the room as in `request`.
        let ask = |room: &mut [u8]| unsafe {
            hidewillow_desk_terminal(&raw mut self.handle, number, room.as_mut_ptr(), room.len())
        };
        Ok(shown(ask)?.unwrap_or_default())
    }

    /// The guesses and the steps of this epoch.
    ///
    /// # Errors
    /// [`Error::Memory`].
    pub fn counts(&mut self) -> Result<Counts, Error> {
        let mut counts = Counts::default();
        // SAFETY: of the handle as in `turn`; the counts are set, and apart from it.
        let told = unsafe { hidewillow_desk_counts(&raw mut self.handle, &raw mut counts) };
        match told.answer {
            SHOWN => Ok(counts),
            _ => Err(Error::Memory),
        }
    }
}

impl fmt::Debug for Desk {
    fn fmt(&self, f: &mut fmt::Formatter<'_>) -> fmt::Result {
        f.debug_struct("Desk").finish_non_exhaustive()
    }
}

impl Drop for Desk {
    fn drop(&mut self) {
        // SAFETY: of the handle as in `turn`, and nothing uses it behind this.
        unsafe { hidewillow_desk_close(&raw mut self.handle) };
    }
}

// ---- the bytes

/// How many bytes of a request stand before its name, and of a reply before its content.
pub const REQUEST_HEAD: usize = 64;
/// See `REQUEST_HEAD`.
pub const REPLY_HEAD: usize = 32;

/// What is asked of a file.
#[derive(Debug, Clone, Copy, PartialEq, Eq)]
pub enum Ask<'a> {
    /// Its content.
    Get,
    /// Whether it has this version.
    Check(u64),
    /// To write these bytes where it has this version.
    Store(u64, &'a [u8]),
}

/// A request, read where its bytes stand.
#[derive(Debug, Clone, PartialEq, Eq)]
pub struct Request<'a> {
    /// Its number.
    pub number: u64,
    /// The guess that its reply decides; `None` where a process waits for it.
    pub guess: Option<u64>,
    /// Each guess below this number is decided.
    pub settled: u64,
    /// The file that is asked about.
    pub name: &'a [u8],
    /// What is asked.
    pub ask: Ask<'a>,
    /// The guesses on which it depends.
    pub rests: Vec<u64>,
}

fn number_at(bytes: &[u8], place: usize) -> Option<u64> {
    let number = bytes.get(8 * place..8 * place + 8)?;
    Some(u64::from_le_bytes(number.try_into().ok()?))
}

fn length_at(bytes: &[u8], place: usize) -> Option<usize> {
    number_at(bytes, place)?.try_into().ok()
}

impl<'a> Request<'a> {
    /// How many bytes stand behind the first `REQUEST_HEAD`; `None` of fewer bytes than these, and where it is too much.
    #[must_use]
    pub fn left(head: &[u8]) -> Option<usize> {
        let guesses = length_at(head, 7)?.checked_mul(8)?;
        length_at(head, 5)?.checked_add(length_at(head, 6)?)?.checked_add(guesses)
    }

    /// The request that these bytes are, all of them; `None` where they are none.
    #[must_use]
    pub fn of(bytes: &'a [u8]) -> Option<Request<'a>> {
        if Request::left(bytes)? != bytes.len() - REQUEST_HEAD {
            return None;
        }
        let (name, rest) = bytes[REQUEST_HEAD..].split_at(length_at(bytes, 5)?);
        let (stored, rests) = rest.split_at(length_at(bytes, 6)?);
        let version = number_at(bytes, 4)?;
        let ask = match number_at(bytes, 3)? {
            1 => Ask::Get,
            2 => Ask::Check(version),
            3 => Ask::Store(version, stored),
            _ => return None,
        };
        Some(Request {
            number: number_at(bytes, 0)?,
            guess: number_at(bytes, 1).filter(|it| *it != 0),
            settled: number_at(bytes, 2)?,
            name,
            ask,
            rests: (0..rests.len() / 8).filter_map(|it| number_at(rests, it)).collect(),
        })
    }
}

/// A version of a file.
#[derive(Debug, Clone, Default, PartialEq, Eq)]
pub struct Content {
    /// At most 2^63 - 1; 0 of a file that was never written.
    pub version: u64,
    /// At most 512.
    pub bytes: Vec<u8>,
}

/// What a server answers.
#[derive(Debug, Clone, PartialEq, Eq)]
pub enum Answer {
    /// The file has the version, or the store is done.
    Yes,
    /// The file has another version, which is this.
    No(Content),
    /// The content of the file.
    Copy(Content),
    /// The request depends on a guess that was refused.
    Dropped,
}

/// A server's reply to the request of a number.
#[derive(Debug, Clone, PartialEq, Eq)]
pub struct Reply {
    /// That of the request.
    pub number: u64,
    /// The answer.
    pub answer: Answer,
}

impl Reply {
    /// How many bytes stand behind the first `REPLY_HEAD`; `None` of fewer bytes than these.
    #[must_use]
    pub fn left(head: &[u8]) -> Option<usize> {
        length_at(head, 3)
    }

    /// Its bytes.
    pub fn bytes(&self) -> Vec<u8> {
        let none = Content::default();
        let (kind, content) = match &self.answer {
            Answer::Yes => (1, &none),
            Answer::No(content) => (2, content),
            Answer::Copy(content) => (3, content),
            Answer::Dropped => (4, &none),
        };
        let head = [self.number, kind, content.version, content.bytes.len() as u64];
        let mut bytes: Vec<u8> = head.into_iter().flat_map(u64::to_le_bytes).collect();
        bytes.extend_from_slice(&content.bytes);
        bytes
    }
}
