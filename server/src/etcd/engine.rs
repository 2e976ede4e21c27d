//! A leadership over the log in the engine, of which the loop asks and is told: to put batches, and whether it still leads.
//!
//! Each request to the engine is here, with what its answers mean; `docs/STORE.md` has them as a table. A request that is answered by an
//! error, or too late, is of unknown fate: the same is sent again, to the next member, until there is a definite word.
use super::requests::{
    delete, did, found, has_value, is_changed, is_made, is_older, put, range, read, transaction, Entry, Members,
    Request,
};
use hidewillow::engine::{self, Answer, BatchSeen, FenceSeen, Held, Word};
use hidewillow::store::envelope::Identity;
use hidewillow::store::tell::{Host, Tell};
use std::collections::hash_map::RandomState;
use std::hash::BuildHasher;
use std::io::{self, ErrorKind};
use std::mem;
use std::sync::atomic::{AtomicBool, AtomicU64, Ordering};
use std::sync::mpsc::Receiver;
use std::sync::{Arc, Mutex};
use std::thread;
use std::time::{Duration, Instant};

/// How long a try of a request may take, the first and any, and how long until the next.
const PATIENCE: Duration = Duration::from_millis(1000);
const MOST: Duration = Duration::from_secs(4);
const PAUSE: Duration = Duration::from_millis(20);
/// Bytes of a page of the log at which the next has no more entries.
const PAGE: usize = 4 << 20;

/// A frame of the log, as it lies in the engine: numbers, the leadership that wrote it, and the place it has in a log of segments.
#[derive(Clone)]
pub struct Batch {
    pub leadership: u64,
    pub number: u64,
    pub segment: u64,
    pub offset: u64,
    pub frame: Arc<[u8]>,
}

impl Batch {
    fn bytes(&self) -> Vec<u8> {
        let numbers = [self.leadership, self.number, self.segment, self.offset].map(u64::to_be_bytes);
        [numbers.as_flattened(), &self.frame].concat()
    }

    fn of(bytes: &[u8]) -> Option<Batch> {
        let (numbers, frame) = bytes.split_at_checked(32)?;
        let mut numbers = numbers.chunks_exact(8).map(|it| it.iter().fold(0, |all, byte| all << 8 | u64::from(*byte)));
        let [leadership, number, segment, offset] = std::array::from_fn(|_| numbers.next().unwrap_or(0));
        Some(Batch { leadership, number, segment, offset, frame: frame.into() })
    }
}

/// What a host has: a snapshot of all up to a number, the end of a segment, of which copies are to be had at an address.
pub struct Have {
    pub number: u64,
    pub segment: u64,
    pub copies: String,
}

impl Have {
    fn of(value: &[u8]) -> Option<Have> {
        let mut words = std::str::from_utf8(value).ok()?.split(' ');
        let (number, segment) = (words.next()?.parse().ok()?, words.next()?.parse().ok()?);
        Some(Have { number, segment, copies: words.next().unwrap_or_default().into() })
    }

    /// What is put under the key that says up to where the log is cut off.
    fn value(&self) -> String {
        format!("{:016} {:010}", self.number, self.segment)
    }
}

/// Tells what this host has. Hosts are told apart by what their folders have of their own: an older server's key, of its address, is gone then.
pub fn tell_have(members: &Members, keys: &Keys, host: &Identity, old: &str, have: &Have) -> io::Result<()> {
    let value = format!("{} {}", have.value(), have.copies);
    let (mine, old) = (keys.of(&format!("have/{}", text(host))), keys.of(&format!("have/{old}")));
    let behind = [&old[..], &[0]].concat();
    let request = transaction([], [put(&mine, value.as_bytes(), 0), delete(&old, &behind)], []);
    members.carry_out(&request, 0, PATIENCE).map(drop)
}

fn text(identity: &Identity) -> String {
    identity.0.iter().map(|byte| format!("{byte:02x}")).collect()
}

fn identity_of(text: &[u8]) -> Option<Identity> {
    let text = std::str::from_utf8(text).ok().filter(|text| text.len() == 32 && text.is_ascii())?;
    let mut bits = [0; 16];
    for (place, byte) in bits.iter_mut().enumerate() {
        *byte = u8::from_str_radix(&text[2 * place..2 * place + 2], 16).ok()?;
    }
    Some(Identity(bits))
}

/// What tells the store in the engine from all others: the first host makes it, where the folder has none of a store yet.
pub fn identity(members: &Members, keys: &Keys, may_make: bool) -> io::Result<Option<Identity>> {
    let key = keys.of("store");
    if may_make {
        let new = text(&Identity::new()?);
        members.carry_out(
            &transaction([is_made(&key, 0)], [put(&key, new.as_bytes(), 0)], [read(&key)]),
            1,
            PATIENCE,
        )?;
    }
    let found = members.read(&key, &[], 1, 0, PATIENCE)?;
    let Some(entry) = found.entries.first() else { return Ok(None) };
    let words = "something else writes the keys of the log";
    identity_of(&entry.value).map(Some).ok_or_else(|| io::Error::new(ErrorKind::InvalidData, words))
}

/// What the hosts have that told so, the most first.
pub fn have(members: &Members, keys: &Keys) -> io::Result<Vec<Have>> {
    let found = members.read(&keys.of("have/"), &keys.of("have0"), 0, 0, PATIENCE)?;
    let mut have: Vec<Have> = found.entries.iter().flat_map(|entry| Have::of(&entry.value)).collect();
    have.sort_unstable_by_key(|have| std::cmp::Reverse(have.number));
    Ok(have)
}

/// What the loop asked: to put a batch, or whether this host leads; which stands for a round.
pub struct Question {
    batch: Option<Batch>,
    round: u64,
    begun: Instant,
    request: Request,
}

/// What it is told: a word on what it asked for a round, so many microseconds ago.
pub struct Heard {
    pub word: Word,
    pub round: u64,
    pub micros: u64,
}

/// Names of keys.
#[derive(Clone)]
pub struct Keys(pub String);

impl Keys {
    fn of(&self, name: &str) -> Vec<u8> {
        format!("{}{name}", self.0).into()
    }

    fn log(&self, number: u64) -> Vec<u8> {
        self.of(&format!("log/{number:016}"))
    }

    /// Behind all numbers of the log.
    fn log_end(&self) -> Vec<u8> {
        self.of("log0")
    }
}

/// The front part of the log, up to its first gap.
pub struct ReadLog {
    pub batches: Vec<Batch>,
    pub gap: u64,
    /// Batches behind the gap, which are to be deleted.
    pub behind: usize,
    /// All up to this number was cut off, since snapshots stand for it; and the revision at which that was done.
    pub cut: u64,
    pub cut_at: u64,
}

/// The number that a value begins with which tells up to where snapshots stand for the log.
fn up_to(value: &[u8]) -> u64 {
    std::str::from_utf8(value).ok().and_then(|text| text.split(' ').next()?.parse().ok()).unwrap_or(0)
}

/// Reads the log from a number on, as of one moment. What is read up to the gap stays for ever: whoever leads then only adds to it.
pub fn read_log(members: &Members, keys: &Keys, first: u64) -> io::Result<ReadLog> {
    let snap = members.read(&keys.of("snap"), &[], 1, 0, PATIENCE)?;
    let (cut, cut_at) = snap.entries.first().map_or((0, 0), |entry| (up_to(&entry.value), entry.changed));
    let (mut batches, mut from, mut most, mut behind) = (Vec::<Batch>::new(), keys.log(first), 16, 0);
    loop {
        let page = members.read(&from, &keys.log_end(), most, snap.revision, MOST)?;
        let bytes: usize = page.entries.iter().map(|entry| entry.value.len()).sum();
        most = if bytes < PAGE { most * 2 } else { (most / 2).max(1) };
        for Entry { key, value, .. } in page.entries {
            from = [&key[..], &[0]].concat();
            let batch = Batch::of(&value).filter(|batch| key == keys.log(batch.number));
            let batch = batch
                .ok_or_else(|| io::Error::new(ErrorKind::InvalidData, "something else writes the keys of the log"))?;
            if behind == 0 && batch.number == first + batches.len() as u64 {
                batches.push(batch);
            } else {
                behind += 1;
            }
        }
        if !page.has_more {
            return Ok(ReadLog { gap: first + batches.len() as u64, batches, behind, cut, cut_at });
        }
    }
}

/// A leadership: the revision at which the key `leader` was made, the token that it has, and its lease.
pub struct Leadership {
    members: Arc<Members>,
    keys: Keys,
    pub revision: u64,
    token: [u8; 16],
    lease: u64,
    seconds: u64,
    begun: Instant,
    /// Until when the lease runs at least, in microseconds since it began, if this host's clock is no slower than the engine's by a fifth.
    runs_until: AtomicU64,
    /// Whether nobody wants it any more.
    is_over: AtomicBool,
    /// What the engine last said instead of an answer.
    said: Mutex<String>,
}

fn token() -> [u8; 16] {
    let words = [0, 1].map(|place: u32| RandomState::new().hash_one((std::process::id(), place)).to_be_bytes());
    std::array::from_fn(|place| words[place / 8][place % 8])
}

impl Leadership {
    /// Leads, if nobody does.
    fn begin(members: Arc<Members>, keys: &Keys, seconds: u64) -> io::Result<Option<Leadership>> {
        let (keys, leader) = (keys.clone(), keys.of("leader"));
        if !members.read(&leader, &[], 1, 0, PATIENCE)?.entries.is_empty() {
            return Ok(None);
        }
        let (token, begun) = (token(), Instant::now());
        let lease = members.grant(seconds, PATIENCE)?;
        let request = transaction([is_made(&leader, 0)], [put(&leader, &token, lease)], [read(&leader)]);
        // A try that was given up leads at most as long as its lease, which nobody has run anew.
        let did = members.carry_out(&request, 1, PATIENCE).or_else(|_| members.carry_out(&request, 1, PATIENCE))?;
        let held = did.found(0).filter(|entry| entry.value == token).map(|entry| entry.created);
        let Some(revision) = held.or(did.done.then_some(did.revision)) else {
            members.revoke(lease, PATIENCE)?;
            return Ok(None);
        };
        let (runs_until, is_over) = (AtomicU64::new(0), AtomicBool::new(false));
        let said = Mutex::default();
        Ok(Some(Leadership { members, keys, revision, token, lease, seconds, begun, runs_until, is_over, said }))
    }

    /// The leadership that the leader is of, if it has this host's token.
    fn of(&self, leader: Option<&Entry>) -> Option<u64> {
        leader.filter(|entry| entry.value == self.token).map(|entry| entry.created)
    }

    /// Reads the log from a number on as of one moment of this leadership.
    pub fn read_log(&self, first: u64) -> io::Result<ReadLog> {
        read_log(&self.members, &self.keys, first)
    }

    /// Whether a batch is in the log.
    pub fn has(&self, number: u64) -> io::Result<bool> {
        Ok(!self.members.read(&self.keys.log(number), &[], 1, 0, PATIENCE)?.entries.is_empty())
    }

    /// Cuts off all up to a number, for which a majority of hosts has snapshots: it is done once, since it wants what was cut off before to be
    /// as it was read. Then the engine may forget it, with what all others who share it had before, if it is to.
    pub fn cut(&self, most: &Have, cut: u64, cut_at: u64, compacts: bool) -> io::Result<()> {
        if most.number <= cut {
            return Ok(());
        }
        let (leader, snap) = (self.keys.of("leader"), self.keys.of("snap"));
        let request = transaction(
            [is_made(&leader, self.revision), has_value(&leader, &self.token), is_changed(&snap, cut_at)],
            [put(&snap, most.value().as_bytes(), 0), delete(&self.keys.log(0), &self.keys.log(most.number + 1))],
            [],
        );
        let did = self.members.carry_out(&request, 0, MOST)?;
        if did.done {
            say!("the log is cut off up to batch {}", most.number);
        }
        match did.done && compacts {
            true => self.members.compact(did.revision, MOST),
            false => Ok(()),
        }
    }

    /// Deletes all behind the gap of the log. It is done once in a leadership: a try that is carried out late would delete what has been
    /// written since. Whether this host led; where nothing is told it is to start anew.
    pub fn fence(&self, gap: u64) -> io::Result<bool> {
        let (leader, fence) = (self.keys.of("leader"), self.keys.of("fence"));
        let mine = self.revision.to_string();
        let request = transaction(
            [is_made(&leader, self.revision), has_value(&leader, &self.token), is_older(&fence, self.revision)],
            [put(&fence, mine.as_bytes(), 0), delete(&self.keys.log(gap), &self.keys.log_end())],
            [read(&leader), read(&fence)],
        );
        let did = self.members.carry_out(&request, 2, MOST)?;
        let fenced = did.found(1).map_or(0, |entry| up_to(&entry.value));
        let answer = did.answer(FenceSeen { leader: self.of(did.found(0)), fenced });
        Ok(engine::fence(self.revision, gap, answer) == Word::Serves)
    }

    /// Asks to put a batch into the log.
    pub fn to_put(&self, batch: Batch, round: u64) -> Question {
        let (leader, key, mine) = (self.keys.of("leader"), self.keys.log(batch.number), batch.bytes());
        let request = transaction(
            [is_made(&leader, self.revision), has_value(&leader, &self.token), is_made(&key, 0)],
            [put(&key, &mine, 0)],
            [read(&leader), read(&key), read(&self.keys.of("snap"))],
        );
        Question { batch: Some(batch), round, begun: Instant::now(), request }
    }

    /// Asks whether this host leads.
    fn round(&self, round: u64) -> Question {
        Question { batch: None, round, begun: Instant::now(), request: range(&self.keys.of("leader"), &[], 1, 0) }
    }

    /// The word that an answer has. An error tells nothing.
    fn word(&self, question: &Question, answer: &[u8]) -> io::Result<Heard> {
        let Question { round, ref batch, begun, .. } = *question;
        let word = match batch {
            None => engine::round(self.revision, round, Answer::Seen(self.of(found(answer)?.entries.first()))),
            Some(batch) => {
                let did = did(answer, 3)?;
                let is_mine = |entry: &Entry| entry.value == batch.bytes();
                let held = did.found(1).map_or(Held::Absent, |it| if is_mine(it) { Held::Mine } else { Held::Another });
                let snap = did.found(2).map_or(0, |entry| up_to(&entry.value));
                let answer = did.answer(BatchSeen { leader: self.of(did.found(0)), held, snap });
                engine::batch(self.revision, batch.number, answer)
            }
        };
        match word {
            Word::Again => Err(io::Error::other("nothing is known")),
            word => Ok(Heard { word, round, micros: begun.elapsed().as_micros() as u64 }),
        }
    }

    /// Asks once, and waits for the word.
    pub fn once(&self, question: &Question, patience: Duration) -> io::Result<Heard> {
        self.members.ask(&question.request, patience).and_then(|answer| self.word(question, &answer))
    }

    /// Says why the engine doesn't answer, where it didn't say the same before.
    fn say(&self, error: &io::Error) {
        let mut said = self.said.lock().expect("no thread ends that has it");
        if *said != error.to_string() {
            *said = error.to_string();
            say!("the engine: {said}, so it is asked again");
        }
    }

    /// Asks until there is a definite word.
    fn settled(&self, question: &Question) -> Heard {
        let mut patience = PATIENCE;
        loop {
            match self.once(question, patience) {
                Ok(heard) => return heard,
                Err(error) => {
                    self.say(&error);
                    thread::sleep(PAUSE);
                }
            }
            patience = MOST.min(patience * 3 / 2);
        }
    }

    /// Has the lease run on while this is wanted, and tells once that it is over. What is asked of a member that doesn't answer this is asked of
    /// the next.
    fn keep(&self, tell: &Tell<Heard>) {
        let (pause, mut is_told) = (Duration::from_secs(self.seconds) / 3, false);
        while !self.is_over.load(Ordering::Acquire) {
            let begun = self.begun.elapsed();
            let kept = self.members.keep(self.lease, pause);
            match kept {
                Ok(0) if !mem::replace(&mut is_told, true) => {
                    tell.tell(Heard { word: Word::Over, round: 0, micros: 0 })
                }
                Ok(0) | Err(_) => (),
                Ok(seconds) => {
                    let until = begun + Duration::from_secs(seconds) * 4 / 5;
                    self.runs_until.store(until.as_micros() as u64, Ordering::Release);
                }
            }
            thread::sleep(if kept.is_ok() { pause } else { PAUSE });
        }
    }

    /// Has that member asked that leads the others.
    fn prefer(&self) {
        while !self.is_over.load(Ordering::Acquire) {
            let _ = self.members.prefer();
            thread::sleep(Duration::from_secs(self.seconds) / 3);
        }
    }

    /// Whether the lease runs now, by this host's clock.
    pub fn runs(&self) -> bool {
        (self.begun.elapsed().as_micros() as u64) < self.runs_until.load(Ordering::Acquire)
    }
}

/// A leadership, of which the loop asks and is told.
pub struct Engine {
    pub leadership: Arc<Leadership>,
    tell: Tell<Heard>,
    words: Receiver<Heard>,
}

impl Engine {
    /// Leads, if nobody does.
    pub fn lead(members: Arc<Members>, keys: &Keys, seconds: u64, host: Host) -> io::Result<Option<Engine>> {
        let Some(leadership) = Leadership::begin(members, keys, seconds)?.map(Arc::new) else { return Ok(None) };
        let (tell, words) = Tell::new(host);
        let engine = Engine { leadership, tell, words };
        let (keeps, tells) = (engine.leadership.clone(), engine.tell.clone());
        thread::spawn(move || keeps.keep(&tells));
        Ok(Some(engine))
    }

    /// Has that member asked from now on that leads the others. What is under way then is asked again.
    pub fn prefer(&self) {
        let prefers = self.leadership.clone();
        thread::spawn(move || prefers.prefer());
    }

    /// Has a batch put, which stands for a round.
    pub fn send(&self, batch: Batch, round: u64) {
        self.ask(self.leadership.to_put(batch, round));
    }

    /// Has it asked whether this host leads behind a round.
    pub fn round(&self, round: u64) {
        self.ask(self.leadership.round(round));
    }

    /// Asks at once; where nothing is told that is told, and the same is asked by a thread of its own until something is.
    fn ask(&self, question: Question) {
        let (leadership, tell, question) = (self.leadership.clone(), self.tell.clone(), Arc::new(question));
        let asked = question.clone();
        let hears = move |answer: io::Result<Vec<u8>>| match answer.and_then(|it| leadership.word(&asked, &it)) {
            Ok(heard) => tell.tell(heard),
            Err(_) => {
                tell.tell(Heard { word: Word::Again, round: asked.round, micros: 0 });
                thread::spawn(move || tell.tell(leadership.settled(&asked)));
            }
        };
        self.leadership.members.begin(&question.request, Box::new(hears));
    }

    pub fn next_word(&self) -> Option<Heard> {
        self.words.try_recv().ok()
    }
}

/// Another may lead at once: what is under way has its own word.
impl Drop for Engine {
    fn drop(&mut self) {
        self.leadership.is_over.store(true, Ordering::Release);
        let _ = self.leadership.members.revoke(self.leadership.lease, PATIENCE);
    }
}
