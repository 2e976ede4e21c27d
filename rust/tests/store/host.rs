//! A host of a store: channels and a disk, of which each call is judged.
use crate::calls::{CutOff, Decided, End, Fed, FramePlace, ReadCounts, Recovery, Refusal, Store, StoreLimits};
use crate::dice::Dice;
use crate::disk::Disk;
use crate::frames::Frames;
use crate::model::Model;
use crate::plain::{Bytes, Map, Work};
use crate::requests::{any_bytes, Reader, KEYS};

/// How many bytes a segment has, and how many may be undecided.
const SEGMENT: usize = 700;
const UNDECIDED: u32 = 400;
/// How many answers may wait, and frames be in flight.
const COMMANDS: u32 = 60;
const IN_FLIGHT: u16 = 4;
/// The bytes of a head.
const HEAD: usize = 24;
/// How many channels there may be at once.
const LINKS: usize = 8;
/// The last batch of a life.
const BATCHES: u64 = 50;
/// How often a start is tried, which may crash too.
const STARTS: usize = 2000;
/// The room for a piece of a snapshot has so many bytes beside the longest entry.
const ENTRY: usize = 88;
/// What the host tells of a command that it knows, and what is told of one that it doesn't.
const TOLD: &[u8] = b":7\r\n";
const UNKNOWN: &[u8] = b"-ERR unknown command\r\n";

fn limits() -> StoreLimits {
    StoreLimits {
        words: 100,
        bytes: 1000,
        line: 100,
        waiting: 100_000,
        segment: SEGMENT as u64,
        undecided: UNDECIDED,
        commands: COMMANDS,
        in_flight: IN_FLIGHT,
    }
}

/// A client.
#[derive(Default)]
struct Link {
    channel: u16,
    /// Its place in the order in which channels were connected.
    order: usize,
    reader: Reader,
    /// What came and was not taken yet.
    left: Bytes,
    received: Bytes,
}

/// A snapshot, which stands for the segments up to one.
#[derive(Default)]
struct Base {
    /// Its pieces, one behind another.
    pieces: Bytes,
    /// The number of the first frame behind it.
    first: u64,
    /// The last segment that it stands for, 0 where there is none.
    segment: u64,
}

/// A host.
pub struct Host {
    dice: Dice,
    store: Store,
    disk: Disk,
    base: Base,
    model: Model,
    frames: Frames,
    links: Vec<Link>,
    connected: usize,
    /// Whether a cut could not be made: nothing is written any more.
    is_stopped: bool,
}

impl Host {
    /// A host of an empty disk, which has started.
    pub fn new(number: u64) -> Host {
        let mut recovery = Recovery::open(1);
        recovery.end(0, 0);
        let mut host = Host {
            dice: Dice(number),
            store: Store::open(recovery, &limits(), number).0,
            disk: Disk::new(SEGMENT),
            base: Base { first: 1, ..Base::default() },
            model: Model::default(),
            frames: Frames::new(1),
            links: Vec::new(),
            connected: 0,
            is_stopped: false,
        };
        host.crash();
        host
    }

    /// One thing that a host does.
    pub fn turn(&mut self) {
        self.happen();
        if self.model.batch >= BATCHES {
            self.crash();
        }
        self.judge();
    }

    fn happen(&mut self) {
        match self.dice.roll(40) {
            0 | 1 => self.connect(),
            2 => self.hang_up(),
            3..=19 => self.feed(),
            20..=23 => self.take(),
            24..=28 => self.word(),
            29..=32 => self.settle(),
            33 | 34 => self.cut(),
            35..=37 => self.pump_any(),
            38 => self.drain(),
            39 if self.dice.once_in(2) => drop(self.store.let_go(self.dice.roll(80))),
            _ if self.dice.once_in(3) => self.crash(),
            _ => {}
        }
    }

    /// Each key has what it has in the plain store, and depends on what the last that wrote it did; each queue is as long as what came.
    fn judge(&mut self) {
        for link in &self.links {
            assert_eq!(self.store.queued(link.channel), link.reader.queued(), "how much waits for EXEC");
        }
        for key in KEYS.map(|it| vec![it]) {
            assert_eq!(self.store.value(&key).as_ref(), self.model.map().get(&key), "the value of {key:?}");
            let rests: Vec<_> = self.model.rests_on(&key).into_iter().collect();
            assert_eq!(self.store.rests_on(&key), rests, "what {key:?} rests on");
        }
    }

    // ---- channels

    fn connect(&mut self) {
        if self.links.len() < LINKS {
            let channel = self.store.connect();
            assert!(self.links.iter().all(|it| it.channel != channel), "a channel has a number of its own");
            self.links.push(Link { channel, order: self.connected, ..Link::default() });
            self.connected += 1;
        }
    }

    fn any_link(&mut self) -> Option<usize> {
        let place = self.dice.roll(self.links.len());
        (place < self.links.len()).then_some(place)
    }

    fn hang_up(&mut self) {
        if let Some(place) = self.any_link() {
            self.store.hang_up(self.links.remove(place).channel);
        }
    }

    /// Some bytes come on a channel: what was left behind on it, or others; all, or the first of them.
    fn feed(&mut self) {
        let Some(place) = self.any_link() else { return };
        let mut bytes = std::mem::take(&mut self.links[place].left);
        if bytes.is_empty() {
            bytes = any_bytes(&mut self.dice);
        }
        let len = match self.dice.once_in(4) {
            true => self.dice.roll(bytes.len()),
            false => bytes.len(),
        };
        let mut at = 0;
        while at < len {
            match self.feed_piece(place, &bytes[at..len]) {
                0 => break,
                count => at += count,
            }
        }
        self.links[place].left.extend_from_slice(&bytes[at..]);
    }

    /// A piece of bytes comes: how many were taken.
    fn feed_piece(&mut self, place: usize, piece: &[u8]) -> usize {
        match self.store.feed(self.links[place].channel, piece) {
            Ok(fed) => {
                self.came(place, piece, fed);
                if fed.end == End::Asked {
                    self.tell(place);
                }
                fed.count
            }
            Err(Refusal::DecisionDue) => {
                assert!(self.model.is_due(), "a decision is due");
                0
            }
            Err(refusal) => {
                assert_eq!(refusal, Refusal::Full);
                let is_full = self.store.counts().undecided >= UNDECIDED as usize;
                assert!(is_full || self.model.count() >= COMMANDS as usize, "as much is undecided as may be");
                0
            }
        }
    }

    /// Of these bytes so many were taken, of which a channel alone reads the same.
    fn came(&mut self, place: usize, piece: &[u8], fed: Fed) {
        let link = &mut self.links[place];
        assert_eq!(fed.count, link.reader.takes(piece), "how many bytes are taken");
        let is_asked = !link.reader.is_posed;
        let asked = link.reader.take(&piece[..fed.count]);
        let (order, ticket, is_posed) = (link.order, link.reader.given, link.reader.is_posed);
        if is_posed && is_asked {
            let word = self.store.asked(self.links[place].channel);
            assert_eq!(word.as_deref(), Some(&b"NONE"[..]), "what the host is asked");
        }
        match (asked, fed.end) {
            (Some(_), End::NotDone) => {}
            (Some(work), End::Done) => {
                let answer = Some(self.model.carry(order, ticket, work));
                assert_eq!(self.store.ahead().as_ref(), answer, "an answer, before it goes out");
            }
            (None, End::Part) => assert!(!is_posed, "the host is asked nothing"),
            (None, End::Asked) => assert!(is_posed, "the host is asked"),
            (asked, end) => panic!("of {asked:?} became {end:?}"),
        }
    }

    /// The host tells what it is asked on a channel, or that it knows no such command; or it lets the channel wait.
    fn tell(&mut self, place: usize) {
        if self.dice.once_in(3) {
            return;
        }
        let link = &mut self.links[place];
        link.reader.tell();
        let is_known = self.dice.once_in(2);
        self.store.tell(link.channel, is_known.then_some(TOLD));
        let reply = if is_known { TOLD } else { UNKNOWN };
        self.model.carry(link.order, link.reader.given, Work::Say(reply.to_vec()));
    }

    /// Takes what may go out of a channel: all that may, and no more.
    fn pump(&mut self, place: usize) {
        let moved = self.store.output(self.links[place].channel);
        self.links[place].received.extend(moved);
        self.is_all(place);
    }

    fn is_all(&self, place: usize) {
        let link = &self.links[place];
        let due = self.model.due(link.order, link.reader.given);
        assert_eq!(link.received, due, "what went out on channel {}", link.channel);
    }

    fn pump_any(&mut self) {
        if let Some(place) = self.any_link() {
            self.pump(place);
        }
    }

    /// Takes what may go out of each channel that has something. Where none is left no channel has.
    fn drain(&mut self) {
        while let Some(channel) = self.store.next_ready() {
            let place = self.links.iter().position(|it| it.channel == channel);
            self.pump(place.expect("a channel that is there"));
        }
        (0..self.links.len()).for_each(|place| self.is_all(place));
    }

    // ---- the log

    /// A frame is taken, and its write begun.
    fn take(&mut self) {
        match self.store.take_frame() {
            Ok(frame) => {
                assert!(frame.bytes.len() <= HEAD + UNDECIDED as usize, "a frame of {} bytes", frame.bytes.len());
                self.frames.send(frame.place.frame, self.model.batch);
                self.model.seal();
                self.disk.begin(frame);
            }
            Err(Refusal::Full) => self.store.turn(),
            Err(why) => assert!(matches!(why, Refusal::Stopped | Refusal::Nothing | Refusal::Busy), "{why:?}"),
        }
    }

    /// The disk says something of a frame.
    fn word(&mut self) {
        let Some(at) = self.disk.any(&mut self.dice) else {
            return;
        };
        if self.dice.once_in(6) {
            let frame = self.disk.fail(at);
            self.store.failed(frame);
        } else {
            let frame = self.disk.sync(&mut self.dice, at);
            self.frames.sync(frame);
            self.store.synced(frame);
        }
    }

    /// A batch is decided.
    fn settle(&mut self) {
        match self.store.decide() {
            Some(Decided::Logged(batch)) => {
                assert!(self.frames.is_synced(batch), "batch {batch} is told as logged against the word of the disk");
                self.model.commit(batch);
            }
            Some(Decided::Refused(batch)) => self.model.fail(batch),
            None => {}
        }
    }

    /// The cut that is due is made, or its head is not written, or the host gives up.
    fn cut(&mut self) {
        let due = self.store.cut_due().filter(|_| !self.is_stopped);
        let Some(cut) = due else { return };
        let Ok(head) = self.store.cut_frame() else {
            return;
        };
        self.disk.begin(head);
        match self.dice.roll(8) {
            0 => self.crash(),
            1 => {
                self.disk.fail(self.disk.first());
                self.is_stopped = true;
                self.store.cut(false);
            }
            2 => {
                self.disk.fail(self.disk.first());
                self.store.turn();
            }
            _ => self.is_cut(cut),
        }
    }

    fn is_cut(&mut self, cut: CutOff) {
        let first = self.disk.first();
        self.disk.sync(&mut self.dice, first);
        self.store.cut(true);
        self.frames.cut(cut.frame, cut.first, cut.last);
        self.model.cut(cut.first, cut.last);
    }

    // ---- crashes

    /// A crash, and a start, which may crash too.
    fn crash(&mut self) {
        let begins = |_| {
            self.disk.crash(&mut self.dice);
            self.begin()
        };
        assert!((0..STARTS).any(begins), "no start came to its end");
    }

    /// A start: whether it comes to its end.
    fn begin(&mut self) -> bool {
        let (recovery, counts) = self.read();
        self.model.recover(contents(recovery, counts));
        let (recovery, counts) = self.read();
        match self.dice.once_in(4) {
            true => self.keep(recovery, counts),
            false => self.start(recovery, counts),
        }
    }

    /// Reads a snapshot and all segments behind it.
    fn read(&mut self) -> (Recovery, ReadCounts) {
        let mut recovery = Recovery::open(self.base.first);
        if !self.base.pieces.is_empty() {
            feed(&mut recovery, &mut self.dice, 0, &self.base.pieces);
        }
        if self.base.segment > 0 {
            assert!(!recovery.head(self.base.segment, &[]), "no head without bytes");
        }
        let segments = self.disk.segments.iter();
        let whole: Vec<_> = segments.filter(|it| recovery.head(*it.0, &it.1[..HEAD])).collect();
        for (number, bytes) in whole {
            feed(&mut recovery, &mut self.dice, *number, bytes);
        }
        let in_flight = u64::from(UNDECIDED) + 64 * HEAD as u64;
        let counts = recovery.end(in_flight, self.frames.known());
        (recovery, counts)
    }

    /// A snapshot is written, which stands for all segments from then on, unless the start crashes.
    fn keep(&mut self, mut recovery: Recovery, counts: ReadCounts) -> bool {
        let longest = self.model.map().iter().map(|(key, value)| key.len() + value.len()).max();
        let room = ENTRY + longest.unwrap_or(0) + self.dice.roll(60);
        let pieces = std::iter::from_fn(|| recovery.snapshot(room)).flatten().collect();
        if !self.dice.once_in(4) {
            let segment = self.disk.last().max(self.base.segment);
            self.base = Base { pieces, first: counts.next, segment };
            self.disk.segments.clear();
        }
        false
    }

    /// The log goes on in a new segment, and nothing is known any more of what was before, unless the start crashes.
    fn start(&mut self, recovery: Recovery, counts: ReadCounts) -> bool {
        let (store, head) = Store::open(recovery, &limits(), counts.next);
        let FramePlace { frame, segment, offset, len } = head.place;
        assert_eq!((offset, len), (0, HEAD), "a head stands at the front");
        assert_eq!(frame, counts.next, "a log goes on behind what was read");
        assert!(segment > self.disk.last().max(self.base.segment), "a log goes on in a segment of its own");
        self.store = store;
        self.disk.begin(head);
        if self.dice.once_in(4) {
            return false;
        }
        let first = self.disk.first();
        self.disk.sync(&mut self.dice, first);
        self.frames = Frames::new(frame + 1);
        self.links.clear();
        (self.connected, self.is_stopped) = (0, false);
        true
    }
}

/// Feeds a segment in two pieces.
fn feed(recovery: &mut Recovery, dice: &mut Dice, number: u64, bytes: &[u8]) {
    let (front, back) = bytes.split_at(dice.roll(bytes.len()));
    recovery.feed(number, front);
    recovery.feed(number, back);
}

/// What was read, by a store that goes on from it.
fn contents(recovery: Recovery, counts: ReadCounts) -> Map {
    let (mut store, _) = Store::open(recovery, &limits(), 1);
    let all = KEYS.map(|it| vec![it]).into_iter();
    let map: Map = all.filter_map(|key| store.value(&key).map(|it| (key, it))).collect();
    assert_eq!(map.len() as u64, counts.keys, "how many keys are read");
    map
}
