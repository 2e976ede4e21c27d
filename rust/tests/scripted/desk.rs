//! What a desk has to do, over the record of its kernel (docs/WORLD.md), and what its server does.
use crate::record::{Guesses, Record, Status};
use crate::runs::lease;
use crate::scenarios::Declared;
use crate::state::{copy, process, Bytes, Content, Entity, Pid};
use crate::step::{is_due, Input, Instruction, Refusal, LAST_VERSION};
use hidewillow::desk::{Given, Turn};
use hidewillow::Lease;
use std::collections::{BTreeMap, BTreeSet, VecDeque};

/// What is asked of a file.
#[derive(Debug, Clone, PartialEq, Eq)]
pub enum Ask {
    Get,
    Check(u64),
    Store(u64, Bytes),
}

#[derive(Debug, Clone, PartialEq, Eq)]
pub struct Request {
    pub number: u64,
    pub pid: Pid,
    pub name: String,
    pub ask: Ask,
    pub guess: Option<u64>,
    pub rests: Guesses,
    /// Each guess below this number is decided.
    pub settled: u64,
}

#[derive(Debug, Clone, PartialEq, Eq)]
pub enum Answer {
    Yes,
    No(Content),
    Copy(Content),
    Dropped,
}

/// In so many runs each kind is met.
const MANY: u64 = 1_000;

/// Why a reply comes back.
#[derive(Debug, Clone, Copy, PartialEq, Eq)]
pub enum Back {
    OutOfTurn = 1,
    WrongKind = 2,
}

/// What may happen at a desk, each of which has to be met in many random runs.
pub const KINDS: [&str; 22] = [
    "a get is dropped",
    "a get brings the file",
    "a check says yes",
    "a check says no",
    "a check is dropped",
    "a store under a guess says yes",
    "a store under a guess says no",
    "a store under a guess is dropped",
    "a store that waits says yes",
    "a store that waits says no",
    "a store that waits is dropped",
    "the last version is asked",
    "a reply is out of turn",
    "a reply is of the wrong kind",
    "a reply to a struck guess",
    "a request is void",
    "a kept answer is used",
    "a kept answer is forgotten for a signal",
    "an epoch forgets a kept answer",
    "a place is kept for who waits",
    "two ask on one name",
    "who waits has no turn",
];

/// What a desk has to be.
pub struct Desk {
    pub record: Record,
    /// Those without a reply: first those that were taken.
    requests: VecDeque<Request>,
    taken: usize,
    next: u64,
    /// Answers that are kept for processes whose guess was refused.
    kept: BTreeMap<Pid, Input>,
    /// Those of `KINDS` that were met.
    pub met: BTreeSet<&'static str>,
}

/// What a turn does.
enum Rule {
    Steps(Input),
    Guesses(Ask),
    Asks(Ask),
}

impl Desk {
    pub fn new(declared: Declared) -> Desk {
        Desk {
            record: Record::new(declared),
            requests: VecDeque::new(),
            taken: 0,
            next: 1,
            kept: BTreeMap::new(),
            met: BTreeSet::new(),
        }
    }

    pub fn pending(&self) -> usize {
        self.requests.len()
    }

    fn asked(&self) -> impl Iterator<Item = &Request> {
        self.requests.iter().filter(|it| it.guess.is_none())
    }

    /// The places of the trace that are free: one is kept for the step of each process that waits.
    fn places(&self) -> usize {
        self.record.room().saturating_sub(self.asked().count())
    }

    fn waits(&self, pid: Pid) -> bool {
        self.asked().any(|it| it.pid == pid)
    }

    /// The rule for a fetch or a store of a name.
    fn rule_on(&self, pid: Pid, name: &str, rule: Rule) -> Result<Rule, Refusal> {
        match self.kept.get(&pid) {
            _ if self.asked().any(|it| it.name == name) => Err(Refusal::Blocked),
            Some(kept) => Ok(Rule::Steps(kept.clone())),
            None => Ok(rule),
        }
    }

    fn rule(&self, pid: Pid) -> Result<(String, Rule), Refusal> {
        let state = &self.record.state;
        let it = process(state, pid).ok_or(Refusal::NoProcess)?;
        let steps = Ok((String::new(), Rule::Steps(Input::None)));
        match self.record.next(pid) {
            _ if it.is_ended => Err(Refusal::Ended),
            _ if self.waits(pid) => Err(Refusal::Blocked),
            _ if is_due(state, pid) => steps,
            Some(Instruction::Fetch(name)) => {
                let rule = match copy(state, name) {
                    Some(copy) => Rule::Guesses(Ask::Check(copy.version)),
                    None => Rule::Asks(Ask::Get),
                };
                Ok((name.clone(), self.rule_on(pid, name, rule)?))
            }
            Some(Instruction::Store(name)) => {
                let rule = match copy(state, name).map(|it| it.version) {
                    Some(LAST_VERSION) => Rule::Asks(Ask::Store(LAST_VERSION, it.buffer.clone())),
                    Some(version) => Rule::Guesses(Ask::Store(version, it.buffer.clone())),
                    None => Rule::Asks(Ask::Store(0, it.buffer.clone())),
                };
                Ok((name.clone(), self.rule_on(pid, name, rule)?))
            }
            _ => steps,
        }
    }

    /// A request of a process more, which depends on what the process and the copy do.
    fn ask(&mut self, pid: Pid, name: String, ask: Ask, guess: Option<u64>, rests: Guesses, settled: u64) -> u64 {
        let number = self.next;
        self.requests.push_back(Request { number, pid, name, ask, guess, rests, settled });
        self.next += 1;
        number
    }

    /// Notes what a turn of a process meets, before it is taken.
    fn meet(&mut self, pid: Pid, rule: &Result<(String, Rule), Refusal>) {
        let has_kept = self.kept.contains_key(&pid);
        let is_short = self.places() < 1 && self.record.room() >= 1;
        self.met.extend(match rule {
            Err(Refusal::Blocked) if self.waits(pid) => Some("who waits has no turn"),
            Err(Refusal::Blocked) => Some("two ask on one name"),
            Ok((_, Rule::Steps(Input::None))) if has_kept => Some("a kept answer is forgotten for a signal"),
            Ok((_, Rule::Steps(_))) if has_kept => Some("a kept answer is used"),
            Ok((_, Rule::Asks(Ask::Store(LAST_VERSION, _)))) => Some("the last version is asked"),
            Ok(_) if is_short => Some("a place is kept for who waits"),
            _ => None,
        });
    }

    /// A turn of a process.
    pub fn turn(&mut self, pid: Pid) -> Result<Turn, Refusal> {
        let rule = self.rule(pid);
        self.meet(pid, &rule);
        let (name, rule) = rule?;
        let mut rests = self.record.tags(&Entity::Proc(pid));
        rests.extend(self.record.tags(&Entity::Copy(name.clone())));
        let settled = self.record.settled();
        match rule {
            Rule::Steps(input) => {
                let step = self.record.step_of(pid, &input, self.places())?;
                self.record.take(pid, input, step);
                self.kept.remove(&pid);
                Ok(Turn::Stepped)
            }
            Rule::Guesses(ask) => {
                let step = self.record.guess_of(pid, &Input::Good, self.places())?;
                let guess = self.record.draw(pid, Input::Good, step);
                self.ask(pid, name, ask, Some(guess), rests, settled);
                Ok(Turn::Guessed(guess))
            }
            Rule::Asks(_) if self.places() < 1 => Err(Refusal::TraceFull),
            Rule::Asks(ask) => Ok(Turn::Asked(self.ask(pid, name, ask, None, rests, settled))),
        }
    }

    /// A lease of a process for so many private instructions.
    pub fn lease(&mut self, pid: Pid, most: u32) -> Lease {
        let places = self.places();
        match process(&self.record.state, pid) {
            Some(it) if !it.is_ended && self.waits(pid) => Lease::Refused(Refusal::Blocked as u64),
            _ => lease(&mut self.record, pid, most, places),
        }
    }

    /// The next request is taken.
    pub fn take(&mut self) -> Option<&Request> {
        let request = self.requests.get(self.taken)?;
        self.taken += 1;
        Some(request)
    }

    /// The request whose reply is next.
    pub fn expected(&self) -> u64 {
        self.requests.front().map_or(self.next, |it| it.number)
    }

    /// Gives a reply.
    pub fn give(&mut self, number: u64, answer: &Answer) -> Result<Given, Back> {
        let request = match self.requests.front() {
            Some(request) if self.taken > 0 && request.number == number => request.clone(),
            _ => {
                self.met.insert("a reply is out of turn");
                return Err(Back::OutOfTurn);
            }
        };
        if !fits(&request.ask, answer) {
            self.met.insert("a reply is of the wrong kind");
            return Err(Back::WrongKind);
        }
        self.met.insert(kind(&request, answer));
        self.requests.pop_front();
        self.taken -= 1;
        let is_lost = |it: &u64| matches!(self.record.status(*it), Some(Status::Failed | Status::Struck));
        let is_void = request.rests.iter().any(is_lost);
        if request.guess.is_none() && *answer != Answer::Dropped && is_void {
            self.met.insert("a request is void");
        }
        Ok(match (request.guess, answer) {
            (Some(guess), answer) => self.decide(guess, &request, answer),
            (None, Answer::Dropped) => Given::Forgotten(number),
            (None, _) if is_void => Given::Forgotten(number),
            (None, Answer::Yes) => self.taken_with(&request, Input::Good),
            (None, Answer::No(content)) => self.taken_with(&request, Input::Stale(content.clone())),
            (None, Answer::Copy(content)) => self.taken_with(&request, Input::Fresh(content.clone())),
        })
    }

    fn decide(&mut self, guess: u64, request: &Request, answer: &Answer) -> Given {
        if self.record.status(guess) != Some(Status::Undecided) {
            self.met.insert("a reply to a struck guess");
            return Given::Gone(guess);
        }
        if *answer == Answer::Yes {
            self.record.commit(guess);
            return Given::Committed(guess);
        }
        self.record.fail(guess);
        if let Answer::No(content) = answer {
            let input = match request.ask {
                Ask::Store(..) => Input::Stale(content.clone()),
                _ => Input::Fresh(content.clone()),
            };
            self.kept.insert(request.pid, input);
        }
        Given::Failed(guess)
    }

    fn taken_with(&mut self, request: &Request, input: Input) -> Given {
        let step = self.record.plan(request.pid, &input).expect("a step that was asked for");
        self.record.take(request.pid, input, step);
        Given::Taken(request.number)
    }

    /// An epoch begins; how many events are let go of.
    pub fn begin_epoch(&mut self) -> usize {
        if !self.kept.is_empty() {
            self.met.insert("an epoch forgets a kept answer");
        }
        self.kept.clear();
        self.record.begin_epoch()
    }
}

/// What a reply to a request is.
fn kind(request: &Request, answer: &Answer) -> &'static str {
    match (&request.ask, request.guess, answer) {
        (Ask::Get, _, Answer::Dropped) => "a get is dropped",
        (Ask::Get, ..) => "a get brings the file",
        (Ask::Check(_), _, Answer::Yes) => "a check says yes",
        (Ask::Check(_), _, Answer::Dropped) => "a check is dropped",
        (Ask::Check(_), ..) => "a check says no",
        (Ask::Store(..), Some(_), Answer::Yes) => "a store under a guess says yes",
        (Ask::Store(..), Some(_), Answer::Dropped) => "a store under a guess is dropped",
        (Ask::Store(..), Some(_), _) => "a store under a guess says no",
        (Ask::Store(..), None, Answer::Yes) => "a store that waits says yes",
        (Ask::Store(..), None, Answer::Dropped) => "a store that waits is dropped",
        (Ask::Store(..), None, _) => "a store that waits says no",
    }
}

/// Of these kinds each was met, in so many runs that all are.
pub fn all_met(made: u64, met: &BTreeSet<&str>, kinds: impl Iterator<Item = &'static str>) {
    let missed: Vec<_> = kinds.filter(|it| !met.contains(it)).collect();
    assert!(made < MANY || missed.is_empty(), "in no run: {missed:?}");
}

/// Whether an answer can be one to what was asked.
fn fits(ask: &Ask, answer: &Answer) -> bool {
    match (ask, answer) {
        (Ask::Get, Answer::Copy(_) | Answer::Dropped) => true,
        (Ask::Get, _) | (_, Answer::Copy(_)) => false,
        (Ask::Store(version, _), Answer::Yes) => *version != LAST_VERSION,
        _ => true,
    }
}

/// The server.
pub struct Server {
    pub files: BTreeMap<String, Content>,
    refused: Guesses,
    /// What stores it accepted.
    pub accepted: Vec<(String, Content)>,
}

impl Server {
    pub fn new(files: BTreeMap<String, Content>) -> Server {
        Server { files, refused: Guesses::new(), accepted: Vec::new() }
    }

    fn file(&self, name: &str) -> Content {
        self.files.get(name).cloned().unwrap_or(Content { version: 0, bytes: Bytes::new() })
    }

    /// A file has these bytes from now on, in its next version.
    pub fn write(&mut self, name: &str, bytes: Bytes) -> Content {
        let content = Content { version: self.file(name).version + 1, bytes };
        self.files.insert(name.to_string(), content.clone());
        content
    }

    pub fn version(&self, name: &str) -> u64 {
        self.file(name).version
    }

    /// Whether a file may be written where it has this version, which is not the last.
    pub fn fits(&self, name: &str, version: u64) -> bool {
        version == self.version(name) && version != LAST_VERSION
    }

    /// The answer to a request.
    pub fn answer(&mut self, request: &Request) -> Answer {
        let answer = match &request.ask {
            _ if !request.rests.is_disjoint(&self.refused) => Answer::Dropped,
            Ask::Get => Answer::Copy(self.file(&request.name)),
            Ask::Check(version) if *version == self.version(&request.name) => Answer::Yes,
            Ask::Store(version, bytes) if self.fits(&request.name, *version) => {
                let content = self.write(&request.name, bytes.clone());
                self.accepted.push((request.name.clone(), content));
                Answer::Yes
            }
            _ => Answer::No(self.file(&request.name)),
        };
        if answer != Answer::Yes {
            self.refused.extend(request.guess);
        }
        answer
    }
}
