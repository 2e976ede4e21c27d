//! A store, and calls that are held against what they are to be told.
use crate::frames::frame;
use hidewillow::store::{Decision, Recovery, Refusal, Request, Store, StoreLimits, HEAD};

/// A call, and what it is told.
#[derive(Debug, Clone, Copy)]
pub enum Call {
    /// A channel is connected, and has this number.
    Connects(u16),
    /// It is gone.
    HangsUp(u16),
    /// All of these bytes are taken, one request after another.
    Sends(u16, &'static [u8]),
    /// So many of these bytes are taken, and this became of the request that they end.
    Feeds(u16, &'static [u8], usize, Request),
    /// So many letters are taken, which end no request.
    FeedsLetters(u16, usize),
    /// None is taken, for this reason.
    Refuses(u16, &'static [u8], Refusal),
    /// The host is asked for these words.
    Asks(u16, &'static [&'static [u8]]),
    /// The host tells this.
    Tells(u16, &'static [u8]),
    /// It can't, since it is not asked.
    TellsNone(u16),
    /// These bytes go out next, up to so many at a time.
    SaysIn(u16, usize, &'static [u8]),
    /// These bytes go out next, at once.
    Says(u16, &'static [u8]),
    /// None does.
    Waits(u16),
    /// This channel has something for `output`, or none has.
    Ready(Option<u16>),
    /// A fault was told on it.
    Closed(u16),
    /// So many bytes wait for EXEC.
    Queued(u16, usize),
    /// The next frame is taken, and has this number, in this segment, at this place.
    Takes(u64, u64, u64),
    /// The frame that was taken last has this payload.
    Sent(&'static [u8]),
    /// None is taken, for this reason.
    TakesNone(Refusal),
    /// None is taken into a room of so many bytes.
    TakesShort(usize),
    /// The disk says that a frame is synced.
    Synced(u64),
    /// It can't say so, for this reason.
    SyncedNot(u64, Refusal),
    /// The disk says that it failed.
    Failed(u64),
    /// No cut is due.
    NoCut,
    /// The cut that is due is made by a head of this number in this segment.
    Cuts(u64, u64),
    /// None can be told as made, for this reason.
    CutsNot(Refusal),
    /// The cut that is due can't be made.
    Stops,
    /// The oldest batch is decided so, or it is not.
    Decides(Option<Decision>),
    /// A key has this.
    Has(&'static [u8], &'static [u8]),
    /// A key is absent.
    Lacks(&'static [u8]),
    /// A key depends on so many batches.
    RestsOn(&'static [u8], usize),
    /// So many bytes are undecided.
    Undecided(usize),
    /// So many frames are in flight.
    InFlight(u64),
}

/// The limits of a store, where so many bytes may be undecided, and so many commands wait.
pub const fn limits(undecided: u32, commands: u32) -> StoreLimits {
    StoreLimits {
        words: 1000,
        bytes: 100_000,
        line: 70_000,
        waiting: 100_000,
        segment: 1_000_000,
        undecided,
        commands,
        in_flight: 4,
    }
}

/// A store, and the frame that was taken last.
pub struct Bench {
    pub store: Store,
    frame: Vec<u8>,
}

impl Bench {
    /// A store with these limits, over an empty disk. Its head is frame 1, so that its first frame is 2.
    pub fn new(limits: &StoreLimits) -> Bench {
        let mut log = Recovery::new(1).expect("a log is begun");
        log.end(0, 0).1.expect("an empty log is read");
        let (store, at, head) = Store::open(&mut log, limits).expect("a store is opened");
        assert_eq!((at.frame, at.segment, at.offset), (1, 1, 0));
        assert_eq!(head[..], frame(1, 1, b""));
        Bench::of(store)
    }

    /// One of a store that was opened.
    pub fn of(store: Store) -> Bench {
        Bench { store, frame: Vec::new() }
    }

    /// All that waits is written, synced and decided.
    pub fn settle(&mut self) {
        let mut room = vec![0; 66_000];
        while let Ok(at) = self.store.take_frame(&mut room) {
            self.store.synced(at.frame).expect("a frame is synced");
        }
        while self.store.decide().is_some() {}
    }

    /// Feeds all bytes, one request after another.
    fn sends(&mut self, channel: u16, bytes: &[u8]) -> bool {
        let mut rest = bytes;
        while !rest.is_empty() {
            match self.store.feed(channel, rest) {
                Ok(fed) if fed.bytes > 0 => rest = &rest[fed.bytes..],
                _ => return false,
            }
        }
        true
    }

    fn feeds(&mut self, channel: u16, bytes: &[u8], count: usize, end: Request) -> bool {
        self.store.feed(channel, bytes).is_ok_and(|fed| fed.bytes == count && fed.request == end)
    }

    fn asks(&mut self, channel: u16, words: &[&[u8]]) -> bool {
        let mut room = Vec::new();
        let told = (0..).map_while(|place| self.store.asked(channel, place, &mut room).map(<[u8]>::to_vec));
        told.eq(words.iter().map(|it| it.to_vec()))
    }

    /// What goes out up to so many bytes, at most so many at a time.
    pub fn output(&mut self, channel: u16, most: usize, step: usize) -> Vec<u8> {
        let (mut room, mut all) = (vec![0; step], Vec::new());
        while all.len() < most {
            let part = &mut room[..step.min(most - all.len())];
            match self.store.output(channel, part).expect("a channel is there") {
                0 => break,
                count => all.extend_from_slice(&part[..count]),
            }
        }
        all
    }

    fn takes(&mut self, number: u64, segment: u64, offset: u64) -> bool {
        self.frame.resize(66_000, 9);
        let Ok(at) = self.store.take_frame(&mut self.frame) else {
            return false;
        };
        self.frame.truncate(at.len);
        let stands = (at.frame, at.segment, at.offset) == (number, segment, offset);
        stands && self.frame == frame(segment, number, &self.frame[HEAD..])
    }

    fn cuts(&mut self, number: u64, segment: u64) -> bool {
        let mut room = [0; HEAD];
        let Ok(at) = self.store.cut_frame(&mut room) else {
            return false;
        };
        let stands = (at.frame, at.segment, at.offset, at.len) == (number, segment, 0, HEAD);
        stands && room[..] == frame(segment, number, b"") && self.store.cut(true).is_ok()
    }

    fn has(&mut self, key: &[u8], value: Option<&[u8]>) -> bool {
        self.store.value(key, &mut Vec::new()) == value
    }

    fn rests_on(&mut self, key: &[u8], count: usize) -> bool {
        (0..).map_while(|place| self.store.rests_on(key, place)).count() == count
    }

    /// Whether a call is told so.
    fn is_told(&mut self, call: Call) -> bool {
        let store = &mut self.store;
        let mut room = vec![0; 66_000];
        match call {
            Call::Connects(channel) => store.connect() == Ok(channel),
            Call::HangsUp(channel) => {
                store.hang_up(channel);
                true
            }
            Call::Sends(channel, bytes) => self.sends(channel, bytes),
            Call::Feeds(channel, bytes, count, end) => self.feeds(channel, bytes, count, end),
            Call::FeedsLetters(channel, len) => self.feeds(channel, &vec![b'k'; len], len, Request::Part),
            Call::Refuses(channel, bytes, why) => store.feed(channel, bytes) == Err(why),
            Call::Asks(channel, words) => self.asks(channel, words),
            Call::Tells(channel, reply) => store.tell(channel, reply) == Ok(()),
            Call::TellsNone(channel) => store.tell(channel, b"+OK\r\n") == Err(Refusal::NoTicket),
            Call::SaysIn(channel, step, bytes) => self.output(channel, bytes.len(), step) == bytes,
            Call::Says(channel, bytes) => {
                store.output(channel, &mut room[..bytes.len()]) == Ok(bytes.len()) && room.starts_with(bytes)
            }
            Call::Waits(channel) => store.output(channel, &mut room) == Ok(0),
            Call::Ready(channel) => store.next_ready() == channel,
            Call::Closed(channel) => store.is_closed(channel),
            Call::Queued(channel, count) => store.queued(channel) == count,
            Call::Takes(number, segment, offset) => self.takes(number, segment, offset),
            Call::Sent(payload) => self.frame[HEAD..] == *payload,
            Call::TakesNone(why) => store.take_frame(&mut room) == Err(why),
            Call::TakesShort(len) => store.take_frame(&mut room[..len]) == Err(Refusal::Short),
            Call::Synced(number) => store.synced(number) == Ok(()),
            Call::SyncedNot(number, why) => store.synced(number) == Err(why),
            Call::Failed(number) => store.failed(number) == Ok(()),
            Call::NoCut => store.cut_due().is_none(),
            Call::Cuts(number, segment) => self.cuts(number, segment),
            Call::CutsNot(why) => store.cut(true) == Err(why),
            Call::Stops => store.cut(false) == Ok(()),
            Call::Decides(decision) => store.decide() == decision,
            Call::Has(key, value) => self.has(key, Some(value)),
            Call::Lacks(key) => self.has(key, None),
            Call::RestsOn(key, count) => self.rests_on(key, count),
            Call::Undecided(count) => store.counts().undecided == count,
            Call::InFlight(count) => store.counts().in_flight == count,
        }
    }

    /// Calls are told so, one after another.
    pub fn play(&mut self, calls: &[Call]) {
        for (place, call) in calls.iter().enumerate() {
            assert!(self.is_told(*call), "call {place}: {call:?}");
        }
    }
}

/// A new store, where so many bytes may be undecided, and so many commands wait, is told so.
pub fn plays(undecided: u32, commands: u32, calls: &[&[Call]]) {
    let mut bench = Bench::new(&limits(undecided, commands));
    calls.iter().for_each(|part| bench.play(part));
}
