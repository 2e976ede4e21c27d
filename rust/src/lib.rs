//! Programs that don't wait: they go on from a guess, and what depended on a wrong guess is taken back. Safe Rust over a library
//! whose every call is proved against its contract.
//!
//! - [`speculator::Speculator`]: a kernel over keys and values of your own. A step is a closure that gets, puts and says.
//! - [`shared::Shared`]: the same for several threads, or for `async` code on any runtime ([`watch`]).
//! - [`store::File`]: a store in a folder of your program, each answer durable, or ahead of the disk; [`store`]: the same for a host with
//!   sockets and a disk of its own.
//! - [`Play`]: the kernel of scripts, called line by line, with files, pipes and signals.
//! - [`desk::Desk`]: a client of remote files whose server is yours; [`engine`]: what a consensus engine's answers mean.
//!
//! ```no_run
//! # use hidewillow::speculator::Speculator;
//! let mut shop: Speculator<str, u32> = Speculator::open(64, 1)?;
//! let ((), price) = shop.guess(|s| {
//!     s.put("apple", 12);
//!     Ok(())
//! })?;
//! shop.step(|s| {
//!     let apple = s.get("apple")?.unwrap_or_default();
//!     s.put("bill", apple);
//!     s.say(1, format!("a bill over {apple}")) // held until the price is decided
//! })?;
//! shop.fail(price)?; // the bill is gone, and nothing was said
//! # Ok::<_, Box<dyn std::error::Error + Send + Sync>>(())
//! ```
//!
//! ```no_run
//! # use hidewillow::store::File;
//! let bank = File::open("bank")?;
//! bank.set("ann", "100")?; // on the disk now
//! let mut ahead = bank.ahead()?;
//! ahead.set("bob", "30")?; // answered before the disk has it
//! assert!(ahead.wait()?.is_empty()); // now it has all
//! # Ok::<_, std::io::Error>(())
//! ```
//!
//! ```no_run
//! # use hidewillow::Play;
//! let mut kernel = Play::open("script main\nfetch /x\nsay\nend\ncopy /x 3 \"old\"\nprocess 1 main 1\n")?;
//! kernel.line("guess 1 good")?; // it fetches from its cached copy
//! kernel.line("step 1 none")?;
//! assert!(kernel.drain(1)?.is_empty()); // what it says is held
//! kernel.line("fail 1")?; // it stands before its `fetch` again
//! # Ok::<_, hidewillow::Error>(())
//! ```
//!
//! It needs Rust 1.85 and the library in the repository's `build/` or where `HIDEWILLOW_LIB` says, and no other crate. Keys have
//! at most 65,536 bytes, values and outputs 16,777,216; at most 65,535 guesses are undecided at once.
#![warn(missing_docs)]
pub mod data;
pub mod desk;
pub mod engine;
pub mod shared;
pub mod speculator;
mod standing;
pub mod store;
pub mod watch;

use std::collections::HashMap;
use std::ffi::c_void;
use std::fmt;

#[repr(C)]
struct Handle {
    at: *mut c_void,
}

/// What a call is told.
#[repr(C)]
#[derive(Debug, Clone, Copy, PartialEq, Eq)]
pub struct Told {
    /// The number of the answer.
    pub answer: u32,
    /// What the answer names, or 0.
    pub number: u64,
    /// The whole length of the text, or 0.
    pub bytes: usize,
}

/// The guesses and the steps so far.
#[repr(C)]
#[derive(Debug, Default, Clone, Copy, PartialEq, Eq)]
pub struct Counts {
    /// The guesses that were made.
    pub guesses: usize,
    /// Those that were committed.
    pub committed: usize,
    /// Those that were failed.
    pub failed: usize,
    /// Those whose own step the failure of another took away.
    pub struck: usize,
    /// The steps that were taken, those of guesses among them.
    pub steps: usize,
    /// The steps that failures took back.
    pub taken_back: usize,
    /// The most guesses that were undecided at once.
    pub most_open: usize,
    /// The notes that are held now for what may be taken back.
    pub notes: usize,
}

/// Where the word at fault stands, as the library tells it.
#[repr(C)]
#[derive(Debug, Default, Clone, Copy)]
struct FaultPlace {
    line: u64,
    column: usize,
    len: usize,
    kind: u64,
}

#[repr(C)]
struct Own {
    at: *mut c_void,
}

/// How many keys and guesses a kernel over its caller's own byte strings has.
#[repr(C)]
#[derive(Debug, Default, Clone, Copy, PartialEq, Eq)]
pub struct OwnCounts {
    /// The keys that are there, depend on a guess, or were taken back by the last failure.
    pub keys: usize,
    /// The undecided guesses.
    pub undecided: usize,
    /// The struck guesses that nobody has decided yet.
    pub struck: usize,
    /// Each guess below this number is decided.
    pub settled: u64,
}

type Asks = unsafe extern "C" fn(*mut Handle, *const u8, usize, *mut u8, usize) -> Told;

// Each of these takes for granted: the handle is of zeros, or as the last call left it, and no other
// thread uses it meanwhile; no pointer is null, not where a length is 0 either, and each is good
// for its length; what one call is given does not overlap; a room is set, and so are the counts.
unsafe extern "C" {
    fn hidewillow_open(handle: *mut Handle, text: *const u8, bytes: usize) -> Told;
    fn hidewillow_fault(
        text: *const u8,
        bytes: usize,
        place: *mut FaultPlace,
        room: *mut u8,
        room_bytes: usize,
    ) -> Told;
    fn hidewillow_line(handle: *mut Handle, line: *const u8, bytes: usize, room: *mut u8, room_bytes: usize) -> Told;
    fn hidewillow_value(handle: *mut Handle, name: *const u8, bytes: usize, room: *mut u8, room_bytes: usize) -> Told;
    fn hidewillow_tags(handle: *mut Handle, name: *const u8, bytes: usize, room: *mut u8, room_bytes: usize) -> Told;
    fn hidewillow_terminal(handle: *mut Handle, number: u16, room: *mut u8, bytes: usize) -> Told;
    fn hidewillow_released(handle: *mut Handle, number: u16, place: usize, room: *mut u8, bytes: usize) -> Told;
    fn hidewillow_epoch(handle: *mut Handle) -> Told;
    fn hidewillow_lease(handle: *mut Handle, name: *const u8, bytes: usize, count: u32) -> Told;
    fn hidewillow_report(handle: *mut Handle, room: *mut u8, bytes: usize) -> Told;
    fn hidewillow_counts(handle: *mut Handle, counts: *mut Counts) -> Told;
    fn hidewillow_close(handle: *mut Handle);
    fn hidewillow_own_open(own: *mut Own, number: u64, limit: u16, seed: u64) -> Told;
    fn hidewillow_own_clear(own: *mut Own) -> Told;
    fn hidewillow_own_look(own: *mut Own, key: *const u8, bytes: usize) -> Told;
    fn hidewillow_own_put(own: *mut Own, key: *const u8, bytes: usize, value: *const u8, value_bytes: usize) -> Told;
    fn hidewillow_own_remove(own: *mut Own, key: *const u8, bytes: usize) -> Told;
    fn hidewillow_own_say(own: *mut Own, channel: u16, output: *const u8, bytes: usize) -> Told;
    fn hidewillow_own_take(own: *mut Own) -> Told;
    fn hidewillow_own_guess(own: *mut Own) -> Told;
    fn hidewillow_own_commit(own: *mut Own, guess: u64) -> Told;
    fn hidewillow_own_fail(own: *mut Own, guess: u64) -> Told;
    fn hidewillow_own_undone(own: *mut Own, place: usize, room: *mut u8, bytes: usize) -> Told;
    fn hidewillow_own_value(own: *mut Own, key: *const u8, bytes: usize, room: *mut u8, room_bytes: usize) -> Told;
    fn hidewillow_own_tag(own: *mut Own, key: *const u8, bytes: usize, place: usize) -> Told;
    fn hidewillow_own_released(own: *mut Own, channel: u16, room: *mut u8, bytes: usize) -> Told;
    fn hidewillow_own_counts(own: *mut Own, counts: *mut OwnCounts) -> Told;
    fn hidewillow_own_places(own: *mut Own) -> Told;
    fn hidewillow_own_key(own: *mut Own, place: usize, room: *mut u8, bytes: usize) -> Told;
    fn hidewillow_own_dependent(own: *mut Own, guess: u64, place: usize, room: *mut u8, bytes: usize) -> Told;
    fn hidewillow_own_status(own: *mut Own, guess: u64) -> Told;
    fn hidewillow_own_waiting(own: *mut Own, channel: u16) -> Told;
    fn hidewillow_own_channel(own: *mut Own) -> Told;
    fn hidewillow_own_close(own: *mut Own);
}

const STEPPED: u32 = 0;
const GUESSED: u32 = 1;
const DONE: u32 = 2;
const REFUSED: u32 = 5;
const FAULT: u32 = 6;
const MEMORY: u32 = 7;
const NOTHING: u32 = 8;
const OPENED: u32 = 9;
const SHOWN: u32 = 10;
const ABSENT: u32 = 11;
const WRITTEN: u32 = 26;

/// An answer is at most this long.
const ANSWER_BYTES: usize = 64;

/// So much of what is wrong with a line is kept.
const REASON_BYTES: usize = 1024;

/// The first room for a text that is asked for.
const ROOM_BYTES: usize = 4096;

/// What a line is answered: its call was made.
#[derive(Debug, Clone, PartialEq, Eq)]
pub struct Answer {
    /// As the header numbers it.
    pub code: u32,
    /// What it names, as a guess; 0 where it names nothing.
    pub number: u64,
    /// As the program prints it; `None` where there was no memory for the text.
    pub text: Option<String>,
}

/// What is wrong with a line.
#[derive(Debug, Clone, Copy, PartialEq, Eq)]
pub enum FaultKind {
    /// A word is unknown, missing or one too many.
    Word,
    /// A word has not the form that it must have.
    Operand,
    /// A name is declared twice or not at all.
    Label,
    /// A script or a scenario is too long.
    TooLong,
}

/// A fault of a text, or of a line, and the word where it stands.
#[derive(Debug, Clone, PartialEq, Eq)]
pub struct Fault {
    /// The number of the line, from 1 on; of a line that was passed alone 1.
    pub line: u64,
    /// The place of the word's first byte in its line, from 1 on.
    pub column: usize,
    /// How many bytes the word has; 0 where a word is missing behind the line's last byte.
    pub len: usize,
    /// What is wrong.
    pub kind: FaultKind,
    /// What is wrong there and what was expected, as the program tells it; `None` without memory for it.
    pub reason: Option<String>,
}

impl fmt::Display for Fault {
    fn fmt(&self, f: &mut fmt::Formatter<'_>) -> fmt::Result {
        write!(f, "{}:{}: ", self.line, self.column)?;
        match &self.reason {
            Some(reason) => f.write_str(reason),
            None => write!(f, "{:?}", self.kind),
        }
    }
}

/// Why a call gives nothing.
#[derive(Debug, Clone, PartialEq, Eq)]
pub enum Error {
    /// The first fault of a text, or that of a line. Nothing has changed.
    Fault(Fault),
    /// The section of a text is a trace or has a line, or is another one than what is opened needs.
    Section,
    /// Want of memory. Nothing has changed, with one exception: the line `serve` of a world may
    /// have taken the oldest request, which the next `serve` then answers.
    Memory,
}

impl fmt::Display for Error {
    fn fmt(&self, f: &mut fmt::Formatter<'_>) -> fmt::Result {
        match self {
            Error::Fault(fault) => fault.fmt(f),
            Error::Section => write!(f, "the section is a trace, has a line, or is another one"),
            Error::Memory => write!(f, "out of memory"),
        }
    }
}

impl std::error::Error for Error {}

/// A kernel or a world at play; it ends when it is dropped, and guesses that are undecided then
/// fail: dropping commits nothing. It may be moved, but it is neither `Send`
/// nor `Sync`: it stays on its thread.
pub struct Play {
    handle: Handle,
    /// The heading of its section.
    section: &'static str,
    /// How many texts of each terminal were drained in this epoch.
    drained: HashMap<u16, usize>,
}

/// What comes of private instructions that a process does away from its kernel.
#[derive(Debug, Clone, Copy, PartialEq, Eq)]
pub enum Lease {
    /// So many were done, each a step of the trace.
    Ran(u64),
    /// Nothing was done, for this refusal, as the header numbers them: 10 where a signal is due.
    Refused(u64),
}

/// What comes of a wish for a new epoch.
#[derive(Debug, Clone, Copy, PartialEq, Eq)]
pub enum Epoch {
    /// It has begun, and so many events of the last one are let go of.
    Begun(u64),
    /// Nothing has changed: 1 a guess is undecided, 2 a request of a world has no reply, as the header numbers it.
    Refused(u64),
}

/// What is wrong by its number in the library.
fn kind_of(number: u64) -> FaultKind {
    match number {
        2 => FaultKind::Operand,
        3 => FaultKind::Label,
        4 => FaultKind::TooLong,
        _ => FaultKind::Word,
    }
}

/// The first fault of a text; `None` where no line is faulty, or where memory is wanted.
fn fault_of(text: &str) -> Option<Fault> {
    let mut place = FaultPlace::default();
    let mut into = [0; REASON_BYTES];
    // SAFETY: the pointers are those of references, of the place and the room exclusive ones: none
    // is null, each is good for its length, they don't overlap, and both are set.
    let told = unsafe {
        let (to, of) = (into.as_mut_ptr(), into.len());
        hidewillow_fault(text.as_ptr(), text.len(), &raw mut place, to, of)
    };
    let reason = match told.bytes {
        0 => None,
        bytes => text_of(&into[..bytes.min(into.len())]),
    };
    (told.answer == FAULT).then_some(Fault {
        line: place.line,
        column: place.column,
        len: place.len,
        kind: kind_of(place.kind),
        reason,
    })
}

/// Why a text that the library refuses with this line is not opened.
pub(crate) fn unopened(text: &str, line: u64) -> Error {
    match fault_of(text) {
        Some(fault) => Error::Fault(fault),
        None if line == 0 => Error::Section,
        None => Error::Memory,
    }
}

/// A fault of a line, or of a name, of which no word is known.
fn whole_fault(line: &str, kind: FaultKind) -> Fault {
    Fault { line: 1, column: 1, len: line.len(), kind, reason: None }
}

/// The fault of a line that was passed alone, of which this kind was told.
fn line_fault(section: &str, line: &str, number: u64) -> Error {
    let kind = kind_of(number);
    match fault_of(&[section, "\n", line].concat()) {
        Some(fault) if fault.kind == kind => Error::Fault(Fault { line: 1, ..fault }),
        _ => Error::Fault(whole_fault(line, kind)),
    }
}

/// The heading of the section of a text.
fn section_of(text: &str) -> &'static str {
    let is_world = |line: &str| line.split_ascii_whitespace().eq(["world"]);
    match text.lines().any(is_world) {
        true => "world",
        false => "steps",
    }
}

/// A room for a text.
fn room(bytes: usize) -> Result<Vec<u8>, Error> {
    let mut room = Vec::new();
    room.try_reserve_exact(bytes).map_err(|_| Error::Memory)?;
    room.resize(bytes, 0);
    Ok(room)
}

/// The bytes of a call that has a room of its own: it is made again where the room is too short.
fn shown_bytes(mut ask: impl FnMut(&mut [u8]) -> Told) -> Result<Option<Vec<u8>>, Error> {
    let mut into = room(ROOM_BYTES)?;
    loop {
        let told = ask(&mut into);
        match told.answer {
            SHOWN if told.bytes > into.len() => into = room(told.bytes)?,
            SHOWN => {
                into.truncate(told.bytes);
                return Ok(Some(into));
            }
            ABSENT => return Ok(None),
            _ => return Err(Error::Memory),
        }
    }
}

/// The same as a text.
fn shown(ask: impl FnMut(&mut [u8]) -> Told) -> Result<Option<String>, Error> {
    match shown_bytes(ask)? {
        Some(bytes) => text_of(&bytes).map(Some).ok_or(Error::Memory),
        None => Ok(None),
    }
}

/// A text of the library, which is ASCII; `None` without memory for it.
fn text_of(bytes: &[u8]) -> Option<String> {
    let mut text = String::new();
    text.try_reserve_exact(bytes.len()).ok()?;
    text.extend(bytes.iter().copied().map(char::from));
    Some(text)
}

/// The text of an answer, which is never empty: it is so where the library had no memory for it.
fn answer_text(room: &[u8], bytes: usize) -> Option<String> {
    match bytes {
        0 => None,
        _ => text_of(&room[..bytes.min(room.len())]),
    }
}

impl Play {
    /// Opens what a scenario's declarations say: a world where they end with the line `world`, else
    /// a kernel.
    ///
    /// # Errors
    /// [`Error::Fault`], [`Error::Section`] and [`Error::Memory`].
    pub fn open(text: &str) -> Result<Play, Error> {
        let mut handle = Handle { at: std::ptr::null_mut() };
        // SAFETY: the handle is of zeros. The pointers are those of references, one of them
        // exclusive: none is null, each is good for its length, and they don't overlap.
        let told = unsafe { hidewillow_open(&raw mut handle, text.as_ptr(), text.len()) };
        match told.answer {
            OPENED => Ok(Play { handle, section: section_of(text), drained: HashMap::new() }),
            FAULT => Err(unopened(text, told.number)),
            _ => Err(Error::Memory),
        }
    }

    /// Makes the call that a line says, as `guess 1 good`; `None` where the line says nothing. A
    /// line comes without its line feed.
    ///
    /// # Errors
    /// [`Error::Fault`] and [`Error::Memory`].
    pub fn line(&mut self, line: &str) -> Result<Option<Answer>, Error> {
        let mut room = [0; ANSWER_BYTES];
        let (to, of) = (room.as_mut_ptr(), room.len());
        // SAFETY: the handle is as the last call left it, since none but these methods pass it, and
        // it is on its thread, since a `Play` is not `Send`. The pointers are those of references,
        // the handle's and the room's exclusive ones: none is null, each is good for its length,
        // and they don't overlap. The room is set.
        let told = unsafe { hidewillow_line(&raw mut self.handle, line.as_ptr(), line.len(), to, of) };
        match told.answer {
            NOTHING => Ok(None),
            FAULT => Err(line_fault(self.section, line, told.number)),
            MEMORY => Err(Error::Memory),
            code => Ok(Some(Answer { code, number: told.number, text: answer_text(&room, told.bytes) })),
        }
    }

    /// The report.
    ///
    /// # Errors
    /// [`Error::Memory`].
    pub fn report(&mut self) -> Result<String, Error> {
        // SAFETY: of the handle and the room as in `line`.
        let ask = |room: &mut [u8]| unsafe { hidewillow_report(&raw mut self.handle, room.as_mut_ptr(), room.len()) };
        Ok(shown(ask)?.unwrap_or_default())
    }

    /// What an entity has that the report names so, as `proc 1`; `None` where none is named so.
    ///
    /// # Errors
    /// [`Error::Memory`].
    pub fn value(&mut self, name: &str) -> Result<Option<String>, Error> {
        self.named(hidewillow_value, name)
    }

    /// The undecided guesses that such an entity depends on, as `1,3`, or `-`.
    ///
    /// # Errors
    /// [`Error::Memory`].
    pub fn tags(&mut self, name: &str) -> Result<Option<String>, Error> {
        self.named(hidewillow_tags, name)
    }

    fn named(&mut self, call: Asks, name: &str) -> Result<Option<String>, Error> {
        // SAFETY: of the handle, the name and the room as in `line`; the call is `hidewillow_value`
        // or `hidewillow_tags`.
        let ask = |room: &mut [u8]| unsafe {
            let (to, of) = (room.as_mut_ptr(), room.len());
            call(&raw mut self.handle, name.as_ptr(), name.len(), to, of)
        };
        shown(ask)
    }

    /// The lines of a terminal: how many texts are released and how many wait, and those that are
    /// released.
    ///
    /// # Errors
    /// [`Error::Memory`].
    pub fn terminal(&mut self, number: u16) -> Result<String, Error> {
        // SAFETY: of the handle and the room as in `line`.
        let ask = |room: &mut [u8]| unsafe {
            hidewillow_terminal(&raw mut self.handle, number, room.as_mut_ptr(), room.len())
        };
        Ok(shown(ask)?.unwrap_or_default())
    }

    /// The texts that a terminal has released and that were not drained before, the oldest first.
    ///
    /// # Errors
    /// [`Error::Memory`]: what was not handed out is so at the next call.
    pub fn drain(&mut self, number: u16) -> Result<Vec<Vec<u8>>, Error> {
        let mut texts = Vec::new();
        let mut place = self.drained.get(&number).copied().unwrap_or(0);
        while let Some(text) = self.released(number, place)? {
            texts.push(text);
            place += 1;
        }
        self.drained.insert(number, place);
        Ok(texts)
    }

    /// The text at a place, from 0 on, among those that a terminal has released in this epoch.
    ///
    /// # Errors
    /// [`Error::Memory`].
    pub fn released(&mut self, number: u16, place: usize) -> Result<Option<Vec<u8>>, Error> {
        // SAFETY: of the handle and the room as in `line`.
        let ask = |room: &mut [u8]| unsafe {
            let (to, of) = (room.as_mut_ptr(), room.len());
            hidewillow_released(&raw mut self.handle, number, place, to, of)
        };
        shown_bytes(ask)
    }

    /// Begins a new epoch: the trace and the texts of terminals are let go of, so `drain` those first, and what is kept of
    /// a guess is two bits. The state and the numbers of guesses and requests go on.
    ///
    /// # Errors
    /// [`Error::Memory`].
    pub fn new_epoch(&mut self) -> Result<Epoch, Error> {
        // SAFETY: of the handle as in `line`.
        let told = unsafe { hidewillow_epoch(&raw mut self.handle) };
        match told.answer {
            DONE => {
                self.drained.clear();
                Ok(Epoch::Begun(told.number))
            }
            REFUSED => Ok(Epoch::Refused(told.number)),
            _ => Err(Error::Memory),
        }
    }

    /// Lends a process, as of `1` or `1.2`, has it do up to so many private instructions away from its kernel, and hands it in.
    ///
    /// # Errors
    /// [`Error::Fault`] where no process can have this name, and [`Error::Memory`].
    pub fn lease(&mut self, process: &str, count: u32) -> Result<Lease, Error> {
        // SAFETY: of the handle and the name as in `line`.
        let told = unsafe { hidewillow_lease(&raw mut self.handle, process.as_ptr(), process.len(), count) };
        match told.answer {
            STEPPED => Ok(Lease::Ran(told.number)),
            REFUSED => Ok(Lease::Refused(told.number)),
            FAULT => Err(Error::Fault(whole_fault(process, kind_of(told.number)))),
            _ => Err(Error::Memory),
        }
    }

    /// The guesses and the steps so far.
    ///
    /// # Errors
    /// [`Error::Memory`].
    pub fn counts(&mut self) -> Result<Counts, Error> {
        let mut counts = Counts::default();
        // SAFETY: of the handle as in `line`; the counts are set, and apart from it.
        let told = unsafe { hidewillow_counts(&raw mut self.handle, &raw mut counts) };
        match told.answer {
            SHOWN => Ok(counts),
            _ => Err(Error::Memory),
        }
    }
}

impl fmt::Debug for Play {
    fn fmt(&self, f: &mut fmt::Formatter<'_>) -> fmt::Result {
        f.debug_struct("Play").field("section", &self.section).finish_non_exhaustive()
    }
}

impl Drop for Play {
    fn drop(&mut self) {
        // SAFETY: of the handle as in `line`, and nothing uses it behind this.
        unsafe { hidewillow_close(&raw mut self.handle) };
    }
}
