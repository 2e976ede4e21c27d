//! A store that goes on behind what was read of its log.
use crate::bench::Call::{self, Connects, Has, Lacks, RestsOn, Sends, Takes};
use crate::bench::{limits, Bench};
use crate::frames::frame;
use hidewillow::store::calls::{
    hidewillow_recovery_close, hidewillow_recovery_end, hidewillow_recovery_feed, hidewillow_recovery_head,
    hidewillow_recovery_open, hidewillow_store_open, Durable, Recovering,
};
use hidewillow::store::{FramePlace, ReadCounts, Recovery, Store, StoreLimits, HEAD};
use std::ptr::null_mut;

const DONE: u32 = 2;
const REFUSED: u32 = 5;
const OPENED: u32 = 9;

/// The payload that sets a key to `12`.
fn set_of(key: &[u8]) -> Vec<u8> {
    let len = format!("*3\r\n$3\r\nset\r\n${}\r\n", key.len());
    [len.as_bytes(), key, b"\r\n$2\r\n12\r\n"].concat()
}

/// A log that was read, whose only segment is this, with a frame for each of these keys from this number on.
fn log_of(segment: u64, first: u64, keys: &[&[u8]]) -> Recovery {
    let bytes: Vec<u8> = (first..).zip(keys).flat_map(|(number, key)| frame(segment, number, &set_of(key))).collect();
    let mut log = Recovery::new(first).expect("a log is begun");
    assert_eq!(log.head(segment, &bytes[..HEAD]), Ok(true));
    log.feed(segment, &bytes).expect("a segment comes");
    log.end(0, 0).1.expect("a log is read");
    log
}

const GOES_ON: &[Call] = &[
    Has(b"b", b"12"),
    Lacks(b"c"),
    Connects(0),
    Sends(0, b"SET c 1\r\n"),
    Takes(6, 4, 24),
    RestsOn(b"c", 1),
    RestsOn(b"a", 0),
];

/// Its head is the next frame's, at the front of the next segment.
#[test]
fn goes_on_in_a_new_segment() {
    let mut log = log_of(3, 3, &[b"b", b"a"]);
    let (store, at, head) = Store::open(&mut log, &limits(500, 1000)).expect("a store is opened");
    assert_eq!(at, FramePlace { frame: 5, segment: 4, offset: 0, len: 24 });
    assert_eq!(head[..], frame(4, 5, b""));
    Bench::of(store).play(GOES_ON);
}

/// A log that was read, of which a store may be opened with a room of any length.
struct Log(Recovering);

impl Log {
    /// One whose first frame has this number, which sets a key.
    fn of(first: u64, key: &[u8]) -> Log {
        let bytes = frame(1, first, &set_of(key));
        let mut log = Log(Recovering { at: null_mut() });
        let mut counts = ReadCounts::default();
        // SAFETY: here and below a handle is of zeros or as the last call left it; all else is of references, apart from each other.
        let told = unsafe {
            [
                hidewillow_recovery_open(&mut log.0, first),
                hidewillow_recovery_head(&mut log.0, 1, bytes.as_ptr(), HEAD),
                hidewillow_recovery_feed(&mut log.0, 1, bytes.as_ptr(), bytes.len()),
                hidewillow_recovery_end(&mut log.0, 0, 0, &mut counts),
            ]
        };
        assert_eq!(told.map(|it| it.answer), [OPENED, DONE, DONE, DONE]);
        log
    }

    /// Of a store with these limits, and so much room, this refusal is told, and the room is as it was.
    fn refuses(&mut self, limits: &StoreLimits, len: usize, refusal: u64) {
        let (mut store, mut at, mut room) = (Durable { at: null_mut() }, FramePlace::default(), vec![1; len]);
        let told =
            unsafe { hidewillow_store_open(&mut store, &mut self.0, limits, 7, room.as_mut_ptr(), len, &mut at) };
        assert_eq!((told.answer, told.number), (REFUSED, refusal));
        assert!(store.at.is_null() && room.iter().all(|it| *it == 1), "nothing has changed");
    }
}

impl Drop for Log {
    fn drop(&mut self) {
        unsafe { hidewillow_recovery_close(&mut self.0) }
    }
}

const RESERVED: &[u8] = b"\xffbatch1";

#[test]
fn refuses_in_order() {
    let (limits, unsound) = (limits(500, 1000), limits(1_000_000, 1000));
    let mut last = Log::of((1 << 56) - 1, RESERVED);
    last.refuses(&unsound, 23, 12);
    last.refuses(&limits, 23, 8);
    let mut log = Log::of(5, RESERVED);
    log.refuses(&limits, 23, 9);
    log.refuses(&limits, 24, 13);
}
