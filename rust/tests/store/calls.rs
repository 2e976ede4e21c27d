//! The store's calls for C, without their pointers.
use hidewillow::store::calls as c;
use hidewillow::Told;
use std::ptr::null_mut;

pub use c::{CutOff, FramePlace, ReadCounts, StoreCounts, StoreLimits};

const DONE: u32 = 2;
const REFUSED: u32 = 5;
const OPENED: u32 = 9;
const SHOWN: u32 = 10;
const ABSENT: u32 = 11;
const COMMITTED: u32 = 17;
const FAILED: u32 = 18;

/// The room for a frame, an output or a value.
const ROOM: usize = 2048;

/// Why a call is refused, as the header numbers it.
#[derive(Debug, Clone, Copy, PartialEq, Eq)]
pub enum Refusal {
    DecisionDue,
    Full,
    Stopped,
    Nothing,
    Busy,
    Other(u64),
}

impl Refusal {
    fn of(number: u64) -> Refusal {
        match number {
            2 => Refusal::DecisionDue,
            3 => Refusal::Full,
            5 => Refusal::Stopped,
            6 => Refusal::Nothing,
            7 => Refusal::Busy,
            other => Refusal::Other(other),
        }
    }
}

/// What became of the request that bytes end.
#[derive(Debug, Clone, Copy, PartialEq, Eq)]
pub enum End {
    Part,
    Done,
    NotDone,
    Asked,
}

/// How many bytes were taken, and what became of the request that they end.
#[derive(Debug, Clone, Copy)]
pub struct Fed {
    pub count: usize,
    pub end: End,
}

/// A frame, and where it is to be written.
#[derive(Debug, Clone)]
pub struct Frame {
    pub place: FramePlace,
    pub bytes: Vec<u8>,
}

/// A batch that was decided.
#[derive(Debug, Clone, Copy, PartialEq, Eq)]
pub enum Decided {
    Logged(u64),
    Refused(u64),
}

/// What is told is this.
fn must(told: Told, answer: u32, of: &str) -> Told {
    assert_eq!(told.answer, answer, "{of} is told {told:?}");
    told
}

/// What a call gives that may be told ABSENT.
fn shown(told: Told, answer: u32, of: &str) -> Option<Told> {
    (told.answer != ABSENT).then(|| must(told, answer, of))
}

/// What a call gives that may be refused.
fn done(told: Told, of: &str) -> Result<Told, Refusal> {
    match told.answer {
        REFUSED => Err(Refusal::of(told.number)),
        _ => Ok(must(told, DONE, of)),
    }
}

/// A log that is read again.
pub struct Recovery(c::Recovering);

impl Recovery {
    pub fn open(first: u64) -> Recovery {
        let mut it = Recovery(c::Recovering { at: null_mut() });
        // SAFETY: here and below a handle is of zeros or as the last call left it, on one thread; the other pointers are of
        // references, good for their lengths, and apart from each other.
        must(unsafe { c::hidewillow_recovery_open(&mut it.0, first) }, OPENED, "recovery_open");
        it
    }

    /// Whether a whole head stands at the front of a segment.
    pub fn head(&mut self, segment: u64, bytes: &[u8]) -> bool {
        let told = unsafe { c::hidewillow_recovery_head(&mut self.0, segment, bytes.as_ptr(), bytes.len()) };
        shown(told, DONE, "recovery_head").is_some()
    }

    pub fn feed(&mut self, segment: u64, bytes: &[u8]) {
        let told = unsafe { c::hidewillow_recovery_feed(&mut self.0, segment, bytes.as_ptr(), bytes.len()) };
        must(told, DONE, "recovery_feed");
    }

    pub fn end(&mut self, in_flight: u64, known: u64) -> ReadCounts {
        let mut counts = ReadCounts::default();
        let told = unsafe { c::hidewillow_recovery_end(&mut self.0, in_flight, known, &mut counts) };
        must(told, DONE, "recovery_end");
        counts
    }

    /// The next piece of a snapshot.
    pub fn snapshot(&mut self, room: usize) -> Option<Vec<u8>> {
        let mut into = vec![0; room];
        let told = unsafe { c::hidewillow_recovery_snapshot(&mut self.0, into.as_mut_ptr(), into.len()) };
        let told = shown(told, SHOWN, "recovery_snapshot")?;
        into.truncate(told.bytes);
        Some(into)
    }
}

impl Drop for Recovery {
    fn drop(&mut self) {
        unsafe { c::hidewillow_recovery_close(&mut self.0) }
    }
}

/// A store.
pub struct Store(c::Durable);

impl Store {
    /// A store behind what was read, and the head with which its log goes on.
    pub fn open(mut recovery: Recovery, limits: &StoreLimits, seed: u64) -> (Store, Frame) {
        let (mut it, mut place) = (Store(c::Durable { at: null_mut() }), FramePlace::default());
        let mut room = vec![0; ROOM];
        let told = unsafe {
            let (to, of) = (room.as_mut_ptr(), room.len());
            c::hidewillow_store_open(&mut it.0, &mut recovery.0, limits, seed, to, of, &mut place)
        };
        must(told, OPENED, "store_open");
        (it, cut_to(room, place))
    }

    pub fn connect(&mut self) -> u16 {
        let told = must(unsafe { c::hidewillow_store_connect(&mut self.0) }, DONE, "store_connect");
        told.number as u16
    }

    pub fn hang_up(&mut self, channel: u16) {
        must(unsafe { c::hidewillow_store_hang_up(&mut self.0, channel) }, DONE, "store_hang_up");
    }

    pub fn feed(&mut self, channel: u16, bytes: &[u8]) -> Result<Fed, Refusal> {
        let told = unsafe { c::hidewillow_store_feed_ahead(&mut self.0, channel, bytes.as_ptr(), bytes.len()) };
        let told = done(told, "store_feed_ahead")?;
        let end = match told.number {
            0 => End::Part,
            1 => End::Done,
            7 => End::Asked,
            _ => End::NotDone,
        };
        Ok(Fed { count: told.bytes, end })
    }

    /// The answer to the request that was carried out last, before it may go out.
    pub fn ahead(&mut self) -> Option<Vec<u8>> {
        let mut room = vec![0; ROOM];
        let told = unsafe { c::hidewillow_store_ahead(&mut self.0, room.as_mut_ptr(), room.len()) };
        let told = shown(told, SHOWN, "store_ahead")?;
        room.truncate(told.bytes);
        Some(room)
    }

    /// The first word of what the host is asked.
    pub fn asked(&mut self, channel: u16) -> Option<Vec<u8>> {
        let mut room = vec![0; ROOM];
        let told = unsafe { c::hidewillow_store_asked(&mut self.0, channel, 0, room.as_mut_ptr(), room.len()) };
        let told = shown(told, SHOWN, "store_asked")?;
        room.truncate(told.bytes);
        Some(room)
    }

    /// The host tells what it is asked, or that it knows no such command.
    pub fn tell(&mut self, channel: u16, reply: Option<&[u8]>) {
        let told = match reply {
            Some(reply) => unsafe { c::hidewillow_store_tell(&mut self.0, channel, reply.as_ptr(), reply.len()) },
            None => unsafe { c::hidewillow_store_tell_unknown(&mut self.0, channel) },
        };
        must(told, DONE, "store_tell");
    }

    /// What may go out on a channel by now.
    pub fn output(&mut self, channel: u16) -> Vec<u8> {
        let (mut room, mut all) = (vec![0; ROOM], Vec::new());
        loop {
            let told = unsafe { c::hidewillow_store_output(&mut self.0, channel, room.as_mut_ptr(), room.len()) };
            match must(told, DONE, "store_output").bytes {
                0 => return all,
                bytes => all.extend_from_slice(&room[..bytes]),
            }
        }
    }

    pub fn next_ready(&mut self) -> Option<u16> {
        let told = unsafe { c::hidewillow_store_next_ready(&mut self.0) };
        Some(shown(told, DONE, "store_next_ready")?.number as u16)
    }

    pub fn take_frame(&mut self) -> Result<Frame, Refusal> {
        let (mut room, mut place) = (vec![0; ROOM], FramePlace::default());
        let (to, of) = (room.as_mut_ptr(), room.len());
        let told = unsafe { c::hidewillow_store_take_frame(&mut self.0, to, of, &mut place) };
        done(told, "store_take_frame")?;
        Ok(cut_to(room, place))
    }

    pub fn turn(&mut self) {
        must(unsafe { c::hidewillow_store_turn(&mut self.0) }, DONE, "store_turn");
    }

    pub fn synced(&mut self, frame: u64) {
        must(unsafe { c::hidewillow_store_synced(&mut self.0, frame) }, DONE, "store_synced");
    }

    pub fn failed(&mut self, frame: u64) {
        must(unsafe { c::hidewillow_store_failed(&mut self.0, frame) }, DONE, "store_failed");
    }

    pub fn cut_due(&mut self) -> Option<CutOff> {
        let mut cut = CutOff::default();
        let told = unsafe { c::hidewillow_store_cut_due(&mut self.0, &mut cut) };
        shown(told, DONE, "store_cut_due").map(|_| cut)
    }

    pub fn cut_frame(&mut self) -> Result<Frame, Refusal> {
        let (mut room, mut place) = (vec![0; ROOM], FramePlace::default());
        let (to, of) = (room.as_mut_ptr(), room.len());
        let told = unsafe { c::hidewillow_store_cut_frame(&mut self.0, to, of, &mut place) };
        done(told, "store_cut_frame")?;
        Ok(cut_to(room, place))
    }

    pub fn cut(&mut self, made: bool) {
        must(unsafe { c::hidewillow_store_cut(&mut self.0, made.into()) }, DONE, "store_cut");
    }

    pub fn decide(&mut self) -> Option<Decided> {
        let told = unsafe { c::hidewillow_store_decide(&mut self.0) };
        match told.answer {
            ABSENT => None,
            COMMITTED => Some(Decided::Logged(told.number)),
            _ => Some(Decided::Refused(must(told, FAILED, "store_decide").number)),
        }
    }

    pub fn value(&mut self, key: &[u8]) -> Option<Vec<u8>> {
        let mut room = vec![0; ROOM];
        let (to, of) = (room.as_mut_ptr(), room.len());
        let told = unsafe { c::hidewillow_store_value(&mut self.0, key.as_ptr(), key.len(), to, of) };
        let told = shown(told, SHOWN, "store_value")?;
        room.truncate(told.bytes);
        Some(room)
    }

    /// The undecided batches that a key depends on.
    pub fn rests_on(&mut self, key: &[u8]) -> Vec<u64> {
        let at = |place| unsafe { c::hidewillow_store_rests_on(&mut self.0, key.as_ptr(), key.len(), place) };
        (0..).map(at).map_while(|told| shown(told, SHOWN, "store_rests_on")).map(|told| told.number).collect()
    }

    /// How many bytes the commands take that wait for EXEC on a channel.
    pub fn queued(&mut self, channel: u16) -> usize {
        must(unsafe { c::hidewillow_store_queued(&mut self.0, channel) }, DONE, "store_queued").bytes
    }

    /// Drops what decisions of many keys left: of how many there are still some.
    pub fn let_go(&mut self, most: usize) -> usize {
        must(unsafe { c::hidewillow_store_let_go(&mut self.0, most) }, DONE, "store_let_go").bytes
    }

    pub fn counts(&mut self) -> StoreCounts {
        let mut counts = StoreCounts::default();
        must(unsafe { c::hidewillow_store_counts(&mut self.0, &mut counts) }, SHOWN, "store_counts");
        counts
    }
}

impl Drop for Store {
    fn drop(&mut self) {
        unsafe { c::hidewillow_store_close(&mut self.0) }
    }
}

/// The frame that a room begins with.
fn cut_to(mut room: Vec<u8>, place: FramePlace) -> Frame {
    room.truncate(place.len);
    Frame { place, bytes: room }
}
