//! A store and its log, as the calls of a program and one thread beside have them in turn.
use super::file::Transaction;
use super::folder::Folder;
use super::log::{Closed, DiskLog, Room, Segments};
use super::recovery::Made;
use super::reply::{request, take, Reply};
use super::tell::{Host, Tell};
use super::{Decision, Fed, Refusal, Request, Store, StoreLimits};
use std::collections::{BTreeMap, VecDeque};
use std::path::PathBuf;
use std::sync::mpsc::Receiver;
use std::sync::{Arc, Condvar, Mutex, MutexGuard, PoisonError};
use std::time::{Duration, Instant};
use std::{io, thread};

/// What writes no more than this is admitted before it is known how much it writes.
const SMALL: usize = 1 << 18;
/// How long is waited for room where nobody else may use the store meanwhile.
const MOMENT: Duration = Duration::from_millis(1);
/// Old values of so many keys are dropped a turn, and how long is waited for something to do where none are left.
const OLD: usize = 1000;
const IDLE: Duration = Duration::from_millis(200);
/// How long a stop waits for the disk.
const PATIENCE: Duration = Duration::from_secs(10);
/// Commands that write nothing, and that only take away.
const READS: [&str; 8] = ["GET", "MGET", "EXISTS", "STRLEN", "DBSIZE", "KEYS", "PING", "ECHO"];
const TAKES_AWAY: [&str; 2] = ["DEL", "FLUSHALL"];
/// Those of queues, which a transaction has.
const OF_QUEUES: [&str; 3] = ["MULTI", "EXEC", "DISCARD"];

/// Whether a word is one of these names.
fn is_of(names: &[&str], word: &[u8]) -> bool {
    names.iter().any(|name| word.eq_ignore_ascii_case(name.as_bytes()))
}

/// Wakes the thread beside.
#[derive(Default)]
pub struct Bell {
    rung: Mutex<bool>,
    rings: Condvar,
}

impl Bell {
    pub fn ring(&self) {
        *self.rung.lock().unwrap_or_else(PoisonError::into_inner) = true;
        self.rings.notify_one();
    }

    /// Waits until it is rung, or for so long.
    fn wait(&self, patience: Duration) {
        let rung = self.rung.lock().unwrap_or_else(PoisonError::into_inner);
        let waited = self.rings.wait_timeout_while(rung, patience, |rung| !*rung);
        *waited.unwrap_or_else(PoisonError::into_inner).0 = false;
    }
}

/// A snapshot of the segments up to one, in their place or as a backup, and who is told what came of it.
struct Wish {
    up_to: u64,
    backup: Option<PathBuf>,
    caller: Option<u64>,
}

/// When snapshots are made.
struct Snapshots {
    folder: Folder,
    /// One is made once the log has so many bytes, and as many as the last one; the segments that one was to stand for.
    every: u64,
    bytes: u64,
    tried: u64,
    /// What is wished for, whether one is being made, and what came of those that a caller waits for.
    wishes: VecDeque<Wish>,
    is_making: bool,
    callers: u64,
    made: BTreeMap<u64, io::Result<()>>,
    tell: Tell<(Wish, io::Result<Made>)>,
    words: Receiver<(Wish, io::Result<Made>)>,
}

impl Snapshots {
    fn new(folder: Folder, every: u64, kept: u64, host: Host) -> Snapshots {
        let ((tell, words), wishes, made) = (Tell::new(host), VecDeque::new(), BTreeMap::new());
        Snapshots { folder, every, bytes: 0, tried: kept, wishes, is_making: false, callers: 0, made, tell, words }
    }

    /// Makes one on a thread of its own.
    fn begin(&mut self, wish: Wish, closed: Closed) -> io::Result<()> {
        let (folder, tell) = (Folder(self.folder.0.clone()), self.tell.clone());
        self.is_making = true;
        let work = move || {
            let did = match &wish.backup {
                Some(path) => folder.back_up(&closed, path),
                None => folder.write(&closed, &folder).and_then(|made| folder.remove().map(|()| made)),
            };
            drop(closed);
            tell.tell((wish, did));
        };
        thread::Builder::new().spawn(work).map(drop)
    }

    /// What came of one.
    fn is_made(&mut self, wish: Wish, did: io::Result<Made>, host: &Host) {
        match (&did, &wish.backup) {
            (Ok(made), None) => self.bytes = made.bytes,
            (Err(error), None) => host.say(format_args!("no snapshot: {error}")),
            _ => (),
        }
        if let Some(caller) = wish.caller {
            self.made.insert(caller, did.map(drop));
        }
    }
}

/// A store and its log.
pub struct Engine {
    store: Store,
    log: DiskLog,
    limits: StoreLimits,
    /// Channels that nobody uses, and what came out of those that somebody does.
    idle: Vec<u16>,
    came: BTreeMap<u16, Vec<u8>>,
    room: Vec<u8>,
    snapshots: Snapshots,
    host: Host,
    /// How many batches were cut off, whose writes are taken back.
    cut_off: u64,
    /// Whether decisions left old values that are to be dropped.
    has_old: bool,
    /// Since when it is to stop; and why nothing more is answered.
    stops: Option<Instant>,
    fault: Option<(io::ErrorKind, String)>,
    is_over: bool,
}

/// What a call that writes is fed as: how many bytes, and whether it only takes away.
#[derive(Clone, Copy)]
struct Weight {
    bytes: usize,
    takes_away: bool,
}

impl Engine {
    #[rustfmt::skip]
    pub fn new(
        store: Store, log: DiskLog, folder: Folder, limits: StoreLimits, every: u64, kept: u64, host: Host,
    ) -> Engine {
        let snapshots = Snapshots::new(folder, every, kept, host.clone());
        Engine {
            store, log, limits, idle: Vec::new(), came: BTreeMap::new(), room: vec![0; 1 << 16], snapshots, host,
            cut_off: 0, has_old: false, stops: None, fault: None, is_over: false,
        }
    }

    /// What a key has now.
    pub fn value(&mut self, key: &[u8]) -> Option<Vec<u8>> {
        self.store.value(key, &mut self.room).map(<[u8]>::to_vec)
    }

    /// Tells the store what the disk did, decides what can be, and gives on what is to be written. After a fault nothing more is done.
    fn go_on(&mut self) {
        self.has_old = false;
        if self.fault.is_none() {
            self.fault = self.turn().err().map(|error| (error.kind(), error.to_string()));
        }
    }

    fn turn(&mut self) -> io::Result<()> {
        self.log.hear(&mut self.store)?;
        while let Some(decision) = self.store.decide() {
            self.cut_off += u64::from(matches!(decision, Decision::CutOff { .. }));
        }
        self.has_old = self.store.let_go(OLD) > 0;
        self.log.send(&mut self.store)?;
        self.take_out()?;
        self.keep()
    }

    /// Takes out what may go out, of all channels.
    fn take_out(&mut self) -> io::Result<()> {
        let mut last = None;
        while let Some(channel) = self.store.next_ready() {
            if last.replace(channel) == Some(channel) {
                return Err(io::Error::other("a channel has output that can't be taken"));
            }
            let came = self.came.entry(channel).or_default();
            loop {
                let count = self.store.output(channel, &mut self.room)?;
                came.extend_from_slice(&self.room[..count]);
                if count == 0 {
                    break;
                }
            }
        }
        Ok(())
    }

    /// Has the next snapshot made that is wished for, or due; one is due too where it may make room.
    fn keep(&mut self) -> io::Result<()> {
        let (Segments { closed, lacks_room, .. }, it) = (self.log.segments(), &mut self.snapshots);
        if let Ok((wish, did)) = it.words.try_recv() {
            it.is_making = false;
            it.is_made(wish, did, &self.host);
        }
        let news = closed.saturating_sub(it.tried).saturating_mul(self.limits.segment);
        if news >= it.every.max(it.bytes) || lacks_room && news > 0 {
            it.tried = closed;
            it.wishes.push_front(Wish { up_to: closed, backup: None, caller: None });
        }
        let Some(wish) = it.wishes.pop_front() else { return Ok(()) };
        match self.log.close(&mut self.store, wish.up_to)? {
            None if lacks_room && !it.is_making && wish.caller.is_some() => {
                it.is_made(wish, Err(io::ErrorKind::StorageFull.into()), &self.host);
            }
            None => it.wishes.push_front(wish),
            Some(closed) => it.begin(wish, closed)?,
        }
        Ok(())
    }

    /// Why nothing more is answered, if so.
    fn well(&self) -> io::Result<()> {
        match &self.fault {
            Some((kind, text)) => Err(io::Error::new(*kind, text.clone())),
            None => Ok(()),
        }
    }

    /// Whether something may be taken up: it is to stop, or has a fault, else.
    fn is_open(&self) -> io::Result<()> {
        self.well()?;
        match self.stops {
            Some(_) => Err(io::Error::other("the store is closed")),
            None => Ok(()),
        }
    }

    /// Whether what writes so much may be fed now: not as too much waits for the disk, or room is being made. Where there is no room at
    /// all it is refused.
    fn admits(&mut self, weight: Option<Weight>) -> io::Result<bool> {
        let Some(Weight { bytes, takes_away }) = weight else { return Ok(true) };
        let half = self.limits.undecided as usize / 2;
        match self.log.room(&mut self.store, bytes.min(half), takes_away) {
            Room::Lacks => Err(io::ErrorKind::StorageFull.into()),
            Room::Comes => Ok(false),
            Room::Is => Ok(self.store.counts().undecided <= half),
        }
    }

    /// Waits until so much may be fed, while nobody else uses the store, so that what it has stays as it is, unless it is taken back.
    fn makes_room(&mut self, weight: Weight) -> io::Result<()> {
        let cut_off = self.cut_off;
        while !self.admits((weight.bytes > SMALL).then_some(weight))? {
            thread::sleep(MOMENT);
            self.go_on();
            self.well()?;
        }
        if self.cut_off > cut_off {
            return Err(io::Error::other("a write that it may rest on did not reach the disk, nothing of it was done"));
        }
        Ok(())
    }

    /// Feeds a request whole: what became of it.
    fn feed(&mut self, channel: u16, bytes: &[u8], is_ahead: bool) -> Result<Request, Refusal> {
        let mut rest = bytes;
        loop {
            let Fed { bytes: count, request } = match is_ahead {
                true => self.store.feed_ahead(channel, rest)?,
                false => self.store.feed(channel, rest)?,
            };
            rest = &rest[count..];
            if rest.is_empty() || request != Request::Part {
                return Ok(request);
            }
        }
    }

    /// Whether all is decided that is to be at a stop, or that has waited long enough.
    fn stop(&mut self) -> bool {
        let Some(since) = self.stops else { return false };
        let counts = self.store.counts();
        let is_late = since.elapsed() > PATIENCE;
        let is_wished = self.snapshots.wishes.iter().any(|wish| wish.caller.is_some());
        let is_keeping = self.snapshots.is_making || is_wished;
        let waits = counts.undecided > 0 || counts.in_flight > 0 || is_keeping;
        if self.fault.is_none() && waits && !is_late {
            return false;
        }
        if self.fault.is_none() {
            let late = || Err(io::Error::other("not all reached the disk in time"));
            let did = if counts.undecided > 0 { late() } else { self.log.let_go() };
            self.fault = did.err().map(|error| (error.kind(), error.to_string()));
        }
        self.is_over = true;
        true
    }
}

/// What calls and the thread beside share.
pub struct Shared {
    engine: Mutex<Engine>,
    /// Something has changed.
    changed: Condvar,
    bell: Arc<Bell>,
}

type Locked<'a> = MutexGuard<'a, Engine>;

impl Shared {
    pub fn new(engine: Engine, bell: Arc<Bell>) -> Shared {
        Shared { engine: Mutex::new(engine), changed: Condvar::new(), bell }
    }

    /// A closure of a transaction that panicked has changed nothing, so what it left is whole.
    fn lock(&self) -> Locked<'_> {
        self.engine.lock().unwrap_or_else(PoisonError::into_inner)
    }

    fn wait<'a>(&self, engine: Locked<'a>) -> Locked<'a> {
        self.changed.wait(engine).unwrap_or_else(PoisonError::into_inner)
    }

    /// Goes on whenever the disk has done something, until a stop is over.
    pub fn serve(&self) {
        let mut patience = IDLE;
        loop {
            self.bell.wait(patience);
            let mut engine = self.lock();
            engine.go_on();
            patience = if engine.has_old { Duration::ZERO } else { IDLE };
            let is_over = engine.stop();
            drop(engine);
            self.changed.notify_all();
            if is_over {
                return;
            }
        }
    }

    /// Takes up nothing more.
    pub fn stop(&self) {
        self.lock().stops.get_or_insert_with(Instant::now);
        self.bell.ring();
    }

    /// What came of a stop.
    pub fn stopped(&self) -> io::Result<()> {
        let mut engine = self.lock();
        while !engine.is_over {
            engine = self.wait(engine);
        }
        engine.well()
    }

    /// A channel for calls, until it is given back.
    pub fn borrow(&self) -> io::Result<u16> {
        let mut engine = self.lock();
        engine.is_open()?;
        match engine.idle.pop() {
            Some(channel) => Ok(channel),
            None => Ok(engine.store.connect()?),
        }
    }

    /// Of a channel nothing is wanted any more: it may be used again where all that it asked for is told.
    pub fn give_back(&self, channel: u16) {
        let mut engine = self.lock();
        if engine.came.remove(&channel).is_none_or(|came| came.is_empty()) && !engine.store.is_closed(channel) {
            engine.idle.push(channel);
        } else {
            engine.store.hang_up(channel);
        }
    }

    /// Lets go of a channel with all that it waits for.
    pub fn hang_up(&self, channel: u16) {
        let mut engine = self.lock();
        engine.came.remove(&channel);
        engine.store.hang_up(channel);
    }

    /// The store, once what writes so much may be fed.
    fn admitted(&self, weight: Option<Weight>) -> io::Result<Locked<'_>> {
        let mut engine = self.lock();
        loop {
            engine.is_open()?;
            engine.go_on();
            if engine.admits(weight)? {
                return Ok(engine);
            }
            engine = self.wait(engine);
        }
    }

    /// Feeds a command, once it may be.
    fn feed(&self, channel: u16, words: &[&[u8]], is_ahead: bool) -> io::Result<Locked<'_>> {
        let name = words.first().copied().unwrap_or_default();
        if name.is_empty() || is_of(&OF_QUEUES, name) {
            return Err(io::Error::new(io::ErrorKind::InvalidInput, "this is no command, or one of queues"));
        }
        let bytes = request(words);
        let weight = Weight { bytes: bytes.len(), takes_away: is_of(&TAKES_AWAY, name) };
        loop {
            let mut engine = self.admitted(Some(weight).filter(|_| !is_of(&READS, name)))?;
            match engine.feed(channel, &bytes, is_ahead) {
                Ok(Request::Asked) => engine.store.tell_unknown(channel)?,
                Ok(_) => (),
                Err(Refusal::DecisionDue) => continue,
                Err(Refusal::Full) => {
                    drop(self.wait(engine));
                    continue;
                }
                Err(refusal) => return Err(refusal.into()),
            }
            return Ok(engine);
        }
    }

    /// Has a command carried out, whose reply comes.
    pub fn carry_out(&self, channel: u16, words: &[&[u8]]) -> io::Result<()> {
        self.feed(channel, words, false)?.go_on();
        Ok(())
    }

    /// The same, answered at once.
    pub fn carry_out_ahead(&self, channel: u16, words: &[&[u8]]) -> io::Result<Reply> {
        let mut engine = self.feed(channel, words, true)?;
        let engine = &mut *engine;
        let shown = engine.store.ahead(&mut engine.room).and_then(|mut text| take(&mut text));
        engine.go_on();
        Ok(shown.unwrap_or_else(|| Reply::Error("ERR nothing of it was done".into())))
    }

    /// Runs a closure of a transaction, with nothing between what it reads and what it writes, and has it carried out: what it gave,
    /// and how many replies come.
    pub fn transact<R>(
        &self,
        channel: u16,
        is_ahead: bool,
        does: impl FnOnce(&mut Transaction<'_>) -> io::Result<R>,
    ) -> io::Result<(R, usize)> {
        let mut engine = self.admitted(Some(Weight { bytes: SMALL, takes_away: false }))?;
        let mut transaction = Transaction::new(&mut engine);
        let result = does(&mut transaction)?;
        let requests = transaction.requests();
        let bytes = requests.iter().map(Vec::len).sum();
        engine.makes_room(Weight { bytes, takes_away: false })?;
        for request in &requests {
            // All that was due is decided, and half of what may be undecided is free: nothing but memory can be wanting.
            if let Err(refusal) = engine.feed(channel, request, is_ahead) {
                let _ = engine.feed(channel, &super::reply::request(&[b"DISCARD"]), false);
                return Err(refusal.into());
            }
        }
        engine.go_on();
        Ok((result, requests.len()))
    }

    /// The next replies of a channel, once they are there.
    pub fn replies(&self, channel: u16, count: usize) -> io::Result<Vec<Reply>> {
        let (mut engine, mut replies) = (self.lock(), Vec::with_capacity(count));
        loop {
            if let Some(came) = engine.came.get_mut(&channel) {
                let mut rest = came.as_slice();
                while replies.len() < count {
                    let Some(reply) = take(&mut rest) else { break };
                    replies.push(reply);
                }
                let taken = came.len() - rest.len();
                came.drain(..taken);
            }
            if replies.len() == count {
                return Ok(replies);
            }
            engine.well()?;
            engine = self.wait(engine);
        }
    }

    /// Makes a snapshot of all that is there now, in the place of the log or as a backup.
    pub fn snapshot(&self, backup: Option<PathBuf>) -> io::Result<()> {
        let mut engine = self.lock();
        engine.is_open()?;
        let (up_to, it) = (engine.log.segments().written, &mut engine.snapshots);
        it.callers += 1;
        let caller = it.callers;
        it.tried = if backup.is_none() { up_to } else { it.tried };
        it.wishes.push_back(Wish { up_to, backup, caller: Some(caller) });
        engine.go_on();
        loop {
            if let Some(did) = engine.snapshots.made.remove(&caller) {
                return did;
            }
            engine.well()?;
            if engine.is_over {
                return engine.is_open();
            }
            self.bell.ring();
            engine = self.wait(engine);
        }
    }
}
