//! The calls of a store of byte strings, as C has them: `hidewillow.h` tells of each.
use crate::Told;
use std::ffi::c_void;

/// A log that is read again, or nothing, as where the pointer is null.
#[repr(C)]
#[derive(Debug)]
pub struct Recovering {
    /// What is held.
    pub at: *mut c_void,
}

/// A store, or nothing, as where the pointer is null.
#[repr(C)]
#[derive(Debug)]
pub struct Durable {
    /// What is held.
    pub at: *mut c_void,
}

/// What was read of a log.
#[repr(C)]
#[derive(Debug, Default, Clone, Copy, PartialEq, Eq)]
pub struct ReadCounts {
    /// The frames that count.
    pub frames: u64,
    /// The commands that they say, a queue as one.
    pub commands: u64,
    /// The keys that are there.
    pub keys: u64,
    /// The number of the frame that would follow.
    pub next: u64,
    /// The segment in which the frames that count end.
    pub segment: u64,
    /// Their end there.
    pub place: u64,
    /// The bytes behind that count for nothing.
    pub dropped: u64,
    /// 1 where a whole frame stands at that place that says no commands, else 0.
    pub damaged: u64,
}

/// What a store takes.
#[repr(C)]
#[derive(Debug, Default, Clone, Copy, PartialEq, Eq)]
pub struct StoreLimits {
    /// The words of a request, at most.
    pub words: usize,
    /// The bytes of all its words together.
    pub bytes: usize,
    /// The bytes of a line of it.
    pub line: usize,
    /// No more of a channel's replies is taken while more bytes than these wait.
    pub waiting: usize,
    /// The bytes of a segment.
    pub segment: u64,
    /// The bytes that may be undecided.
    pub undecided: u32,
    /// The commands whose answers may wait.
    pub commands: u32,
    /// The frames that may be in flight.
    pub in_flight: u16,
}

/// Where a frame is to be written.
#[repr(C)]
#[derive(Debug, Default, Clone, Copy, PartialEq, Eq)]
pub struct FramePlace {
    /// Its number.
    pub frame: u64,
    /// Its segment.
    pub segment: u64,
    /// The place of its first byte there.
    pub offset: u64,
    /// How many bytes it has.
    pub len: usize,
}

/// What is cut off.
#[repr(C)]
#[derive(Debug, Default, Clone, Copy, PartialEq, Eq)]
pub struct CutOff {
    /// The frame that failed.
    pub frame: u64,
    /// Its first batch.
    pub first: u64,
    /// Its last batch.
    pub last: u64,
}

/// What of a store is undecided.
#[repr(C)]
#[derive(Debug, Default, Clone, Copy, PartialEq, Eq)]
pub struct StoreCounts {
    /// The undecided bytes.
    pub undecided: usize,
    /// The frames in flight.
    pub in_flight: u64,
    /// The batches that are undecided and have a guess.
    pub open_batches: usize,
    /// How many bytes the next frame has.
    pub next_frame: usize,
    /// The answers of commands that wait to be told.
    pub answers: usize,
}

// Each of these takes for granted what those of the other handles do.
unsafe extern "C" {
    /// Begins to read a log, for a handle that holds nothing. The first frame of its segments has this number.
    pub fn hidewillow_recovery_open(recovery: *mut Recovering, first: u64) -> Told;

    /// The head of the next segment comes: its first 24 bytes, or all there are.
    pub fn hidewillow_recovery_head(
        recovery: *mut Recovering,
        segment: u64,
        bytes: *const u8,
        bytes_count: usize,
    ) -> Told;

    /// A piece of a segment comes, or one of a snapshot, whose number is 0; what came whole is carried out. Without memory all
    /// begins anew.
    pub fn hidewillow_recovery_feed(
        recovery: *mut Recovering,
        segment: u64,
        bytes: *const u8,
        bytes_count: usize,
    ) -> Told;

    /// All came: counts what was read, where no more was dropped than may have been in flight, and no frame is missing of those up to
    /// the one that is known as synced.
    pub fn hidewillow_recovery_end(
        recovery: *mut Recovering,
        in_flight: u64,
        known: u64,
        counts: *mut ReadCounts,
    ) -> Told;

    /// The next piece of a snapshot of what was found, as a frame in the room.
    pub fn hidewillow_recovery_snapshot(recovery: *mut Recovering, room: *mut u8, room_count: usize) -> Told;

    /// Ends what the handle holds. It holds nothing then.
    pub fn hidewillow_recovery_close(recovery: *mut Recovering);

    /// Opens a store behind what was read of its log, for a handle that holds nothing. The room has the head of the segment then in
    /// which the log goes on, and its place is told: it is to be written and synced before anything else is done. The recovery
    /// holds nothing then; where no store is opened it holds what it held.
    pub fn hidewillow_store_open(
        store: *mut Durable,
        recovery: *mut Recovering,
        limits: *const StoreLimits,
        seed: u64,
        room: *mut u8,
        room_count: usize,
        place: *mut FramePlace,
    ) -> Told;

    /// A channel more, whose number is told.
    pub fn hidewillow_store_connect(store: *mut Durable) -> Told;

    /// A channel is gone: its replies are dropped, its writes stand.
    pub fn hidewillow_store_hang_up(store: *mut Durable, channel: u16) -> Told;

    /// Takes bytes that came on a channel, up to the end of a request, which is carried out, or all.
    pub fn hidewillow_store_feed(store: *mut Durable, channel: u16, bytes: *const u8, bytes_count: usize) -> Told;

    /// As feed; of a request that was carried out the answer is shown by `hidewillow_store_ahead`.
    pub fn hidewillow_store_feed_ahead(store: *mut Durable, channel: u16, bytes: *const u8, bytes_count: usize)
        -> Told;

    /// Shows the answer to the request that the last `hidewillow_store_feed_ahead` carried out.
    pub fn hidewillow_store_ahead(store: *mut Durable, room: *mut u8, room_count: usize) -> Told;

    /// Shows a word of the request that the host is asked on a channel, by its place.
    pub fn hidewillow_store_asked(
        store: *mut Durable,
        channel: u16,
        place: usize,
        room: *mut u8,
        room_count: usize,
    ) -> Told;

    /// The host tells the reply to what it is asked on a channel, which goes out in its turn.
    pub fn hidewillow_store_tell(store: *mut Durable, channel: u16, reply: *const u8, reply_count: usize) -> Told;

    /// The host tells that it knows no such command either.
    pub fn hidewillow_store_tell_unknown(store: *mut Durable, channel: u16) -> Told;

    /// Tells whether a fault was told on a channel: what comes is dropped, and it is to be hung up once its output is taken.
    pub fn hidewillow_store_is_closed(store: *mut Durable, channel: u16) -> Told;

    /// Tells how many bytes the commands take that wait for EXEC on a channel; none where no queue is open.
    pub fn hidewillow_store_queued(store: *mut Durable, channel: u16) -> Told;

    /// Drops what decisions of many keys left of old values, of at most so many keys, and tells of how many there are still some.
    pub fn hidewillow_store_let_go(store: *mut Durable, most: usize) -> Told;

    /// Tells whether a request may write whose first word this is: as a command, or by carrying out a queue.
    pub fn hidewillow_may_write(word: *const u8, word_count: usize) -> Told;

    /// Moves bytes that may go out on a channel into the room. It is to be called until it moves none.
    pub fn hidewillow_store_output(store: *mut Durable, channel: u16, room: *mut u8, room_count: usize) -> Told;

    /// Tells a channel that there is output for.
    pub fn hidewillow_store_next_ready(store: *mut Durable) -> Told;

    /// Takes the next frame into the room, and tells where it is to be written.
    pub fn hidewillow_store_take_frame(
        store: *mut Durable,
        room: *mut u8,
        room_count: usize,
        place: *mut FramePlace,
    ) -> Told;

    /// The log goes on at the front of the next segment.
    pub fn hidewillow_store_turn(store: *mut Durable) -> Told;

    /// The host says that a frame is synced.
    pub fn hidewillow_store_synced(store: *mut Durable, frame: u64) -> Told;

    /// The host says that a frame failed.
    pub fn hidewillow_store_failed(store: *mut Durable, frame: u64) -> Told;

    /// Tells the cut that is to be made, once a frame failed and all that were sent were told of.
    pub fn hidewillow_store_cut_due(store: *mut Durable, cut: *mut CutOff) -> Told;

    /// Writes the head that makes the cut into the room, and tells where it is to be written.
    pub fn hidewillow_store_cut_frame(
        store: *mut Durable,
        room: *mut u8,
        room_count: usize,
        place: *mut FramePlace,
    ) -> Told;

    /// The host says whether the cut was made; 0 says that it could not be, and the store stops.
    pub fn hidewillow_store_cut(store: *mut Durable, made: u32) -> Told;

    /// Winds up a store whose log lies in a consensus engine, once its leadership is over: what was open is refused. The room is as
    /// long as a frame of all that is undecided.
    pub fn hidewillow_store_lost(store: *mut Durable, room: *mut u8, room_count: usize) -> Told;

    /// Decides the oldest batch, if it is decided. It is to be called until it tells none.
    pub fn hidewillow_store_decide(store: *mut Durable) -> Told;

    /// Shows what a key has, whatever it depends on.
    pub fn hidewillow_store_value(
        store: *mut Durable,
        key: *const u8,
        key_count: usize,
        room: *mut u8,
        room_count: usize,
    ) -> Told;

    /// Tells one of the undecided batches that a key depends on, by its place among them.
    pub fn hidewillow_store_rests_on(store: *mut Durable, key: *const u8, key_count: usize, place: usize) -> Told;

    /// Counts what is undecided, in constant time.
    pub fn hidewillow_store_counts(store: *mut Durable, counts: *mut StoreCounts) -> Told;

    /// Ends what the handle holds: what is undecided is dropped, and nothing goes out. It holds nothing then.
    pub fn hidewillow_store_close(store: *mut Durable);
}
