//! Epochs: what was guessed in a few milliseconds stands on one checkpoint, and is asked of the server as one.
use crate::name::Name;
use crate::run::checkpoint::Snapshot;
use crate::run::decides::Decides;
use crate::run::drafts::OldDrafts;
use crate::run::names::Known;
use crate::run::proved::Proved;
use crate::run::supervisor::{Done, Supervisor};
use crate::run::sys::Pid;
use crate::run::tree::{Hold, State};
use crate::run::undo::Undo;
use crate::wire::{Body, Content, Kind, Request, Step, Version};
use std::collections::{HashMap, VecDeque};
use std::time::{Duration, Instant};

pub struct Epoch {
    pub number: u64,
    pub snapshot: Snapshot,
    pub steps: Vec<Step>,
    pub born: Instant,
    /// Something was said in it.
    pub says: bool,
    /// How much of files' contents it has.
    bytes: usize,
    /// When it was asked for.
    pub asked: Instant,
}

impl Epoch {
    fn begin(number: u64, snapshot: Snapshot) -> Epoch {
        let born = Instant::now();
        Epoch { number, snapshot, steps: Vec::new(), born, says: false, bytes: 0, asked: born }
    }
}

/// A call, or a store, that waits for its own reply.
#[derive(Default)]
pub struct Alone {
    pub pid: Option<Pid>,
    pub steps: Vec<Step>,
    /// What it changed here.
    pub undo: Vec<Undo>,
    /// It was made already, and opened this descriptor if it opened one.
    pub made: Option<Option<i64>>,
    /// A name that was stored.
    pub store: Option<Name>,
    /// It falls with what was sent before it.
    pub falls: bool,
    /// The drafts of the files that it cut, as they were.
    pub drafts: OldDrafts,
}

/// So many epochs may wait for their replies at once.
const MOST_UNDECIDED: u16 = 4096;

pub struct Epochs {
    /// The proved core: nothing is decided beside it.
    pub decides: Box<dyn Decides>,
    pub current: Option<Epoch>,
    pub sent: VecDeque<Epoch>,
    pub alone: HashMap<u64, Alone>,
    /// Something waits until all is decided.
    pub settling: bool,
    /// Refusals in a row, and how many calls wait for their replies before the next guess.
    pub fails: u32,
    pub caution: u32,
    /// For tests: when attributes were last asked for.
    pub believed: HashMap<Name, Instant>,
    /// For a run that is to be gone on with: what the server calls the states that we have made.
    pub theirs: HashMap<Version, Version>,
    /// What a checkpoint has cost lately: an epoch is at least ten times as long.
    pub cost: Duration,
    /// How long an answer took lately: what shows little needn't be asked more often.
    pub way: Duration,
    /// Since when nothing was refused: the longer that is, the less is it worth to go back but a little.
    pub calm: Instant,
    next: u64,
    next_version: u64,
}

/// An epoch may take such a part of the time in which nothing was refused.
const CALM_EPOCHS: u32 = 8;
/// So much of files' contents is sent without waiting for more.
const LARGE: usize = 256 << 10;

/// What a call has to do before it may be made.
#[derive(Clone, Copy, PartialEq, Eq, Debug)]
pub enum Need {
    /// It may be made: it belongs to the current epoch.
    Go,
    /// It was copied, and comes once more.
    Again,
    /// It waits for its own reply.
    Wait,
    /// It waits until others are decided.
    Hold,
}

impl Epochs {
    pub fn new() -> Epochs {
        Epochs {
            decides: Box::new(Proved::open(MOST_UNDECIDED)),
            current: None,
            sent: VecDeque::new(),
            alone: HashMap::new(),
            settling: false,
            fails: 0,
            caution: 0,
            believed: HashMap::new(),
            theirs: HashMap::new(),
            cost: Duration::ZERO,
            way: Duration::ZERO,
            calm: Instant::now(),
            next: 0,
            next_version: 0,
        }
    }
    /// Nothing waits for a reply.
    pub fn is_quiet(&self) -> bool {
        self.current.is_none() && self.sent.is_empty() && self.alone.is_empty()
    }
    pub fn new_version(&mut self) -> Version {
        self.next_version += 1;
        Version::own(self.next_version)
    }
    pub fn new_number(&mut self) -> u64 {
        self.next += 1;
        self.next
    }
    /// The epoch that events belong to now.
    pub fn newest(&self) -> Option<u64> {
        self.current.as_ref().or(self.sent.back()).map(|e| e.number)
    }
    /// As many epochs wait for their replies as may.
    fn is_full(&mut self) -> bool {
        self.decides.undecided() >= usize::from(MOST_UNDECIDED)
    }
    /// A store waits for its reply.
    pub fn is_storing(&self) -> bool {
        self.alone.values().any(|a| a.store.is_some())
    }
    /// A change waits for its reply.
    pub fn is_changing(&self) -> bool {
        self.alone.values().any(|a| a.made.is_some() || a.store.is_some())
    }
    /// A call that waits for its reply has changed this name here already; what is known of it is of before.
    pub fn waits_with(&self, name: &Name) -> bool {
        let made = self.alone.values().filter(|a| a.made.is_some());
        made.flat_map(|a| &a.steps).flat_map(changed_by).any(|n| name.is_within(n))
    }
}

/// The names that a step changes.
fn changed_by(step: &Step) -> impl Iterator<Item = &Name> {
    let (one, other) = match step {
        Step::Look { .. } | Step::Names { .. } => (None, None),
        Step::Put { name, .. }
        | Step::MakeFolder { name, .. }
        | Step::MakeLink { name, .. }
        | Step::Remove { name, .. }
        | Step::RemoveFolder { name, .. }
        | Step::Attributes { name, .. } => (Some(name), None),
        Step::Link { to, .. } => (Some(to), None),
        Step::Rename { from, to, .. } => (Some(from), Some(to)),
    };
    one.into_iter().chain(other)
}

/// How much of a file's contents a step has.
fn length_of(step: &Step) -> usize {
    match step {
        Step::Put { content: Content::Whole(Body::Here(bytes)), .. } => bytes.0.len(),
        _ => 0,
    }
}

impl Supervisor {
    pub fn need(&mut self, pid: Option<Pid>) -> Done<Need> {
        if self.options.strict {
            return Ok(if self.epochs.is_changing() { Need::Hold } else { Need::Wait });
        }
        if !self.epochs.alone.is_empty() || (self.epochs.settling && self.epochs.current.is_none()) {
            return Ok(Need::Hold);
        }
        let full = self.epochs.is_full();
        if let Some(e) = &self.epochs.current {
            if full || e.born.elapsed() < self.epoch_length(e) {
                return Ok(Need::Go);
            }
            self.checkpoint(pid)?;
            return Ok(self.after_checkpoint(pid, Need::Go));
        }
        if self.epochs.caution > 0 {
            return Ok(Need::Wait);
        }
        if full {
            return Ok(Need::Hold);
        }
        // [17]
        let need = if self.checkpoint(pid)? { Need::Go } else { Need::Wait };
        Ok(self.after_checkpoint(pid, need))
    }
    /// A process that was copied isn't at its call any more, also where another could not be.
    fn after_checkpoint(&self, pid: Option<Pid>, need: Need) -> Need {
        match pid.and_then(|p| self.tree.get(p)) {
            Some(p) if p.state == State::Again => Need::Again,
            _ => need,
        }
    }
    fn epoch_length(&self, e: &Epoch) -> Duration {
        let most = match e {
            Epoch { says: true, .. } => 2,
            Epoch { bytes: LARGE.., .. } => 1,
            _ => 10,
        };
        let calm = self.epochs.way.max(self.epochs.calm.elapsed() / CALM_EPOCHS).min(self.options.epoch * most);
        self.options.epoch.max(self.epochs.cost * 10).max(calm).min(self.options.epoch * 20)
    }
    /// The tree stands at a checkpoint: a new epoch begins.
    pub fn begin_epoch(&mut self, snapshot: Snapshot) -> Done {
        self.close_epoch()?;
        let number = self.epochs.new_number();
        self.epochs.decides.begin(number);
        self.epochs.current = Some(Epoch::begin(number, snapshot));
        self.stats.epochs += 1;
        self.stats.most_undecided = self.stats.most_undecided.max(self.epochs.decides.undecided());
        self.trace.note("epoch", &[("number", number)]);
        Ok(())
    }
    /// Asks for the current epoch.
    pub fn close_epoch(&mut self) -> Done {
        let Some(mut e) = self.epochs.current.take() else { return Ok(()) };
        let steps = std::mem::take(&mut e.steps);
        self.stats.guesses += steps.len() as u64;
        self.trace.note("asked", &[("number", e.number), ("steps", steps.len() as u64)]);
        e.asked = Instant::now();
        self.link.send(Request::Epoch { number: e.number, falls_with_earlier: true, steps })?;
        self.epochs.sent.push_back(e);
        Ok(())
    }
    pub fn close_old_epoch(&mut self) -> Done {
        if self.epochs.current.as_ref().is_some_and(|e| e.born.elapsed() >= self.epoch_length(e)) {
            self.take_output()?;
            self.close_epoch()?;
        }
        Ok(())
    }
    /// Something waits until all is decided.
    pub fn settle(&mut self) -> Done {
        self.epochs.settling = true;
        self.close_epoch()
    }
    /// Asks for one call, or store, by itself.
    pub fn ask_alone(&mut self, mut a: Alone) -> Done {
        self.close_epoch()?;
        let number = self.epochs.new_number();
        a.falls = !self.epochs.sent.is_empty();
        self.stats.waits += 1;
        self.trace.note("waits", &[("number", number), ("process", a.pid.unwrap_or(0) as u64)]);
        let request = Request::Epoch { number, falls_with_earlier: a.falls, steps: a.steps.clone() };
        if let Some(pid) = a.pid {
            self.tree.hold(pid, Hold::Reply);
        }
        self.epochs.alone.insert(number, a);
        self.link.send(request)?;
        Ok(())
    }
    /// Adds steps to the current epoch, and to what is known.
    pub fn guess(&mut self, steps: Vec<Step>) {
        self.apply(&steps);
        if let Some(e) = &mut self.epochs.current {
            e.bytes += steps.iter().map(length_of).sum::<usize>();
            e.steps.extend(steps);
        }
    }
    /// What is known of names once these steps are done.
    pub fn apply(&mut self, steps: &[Step]) {
        let epoch = self.epochs.current.as_ref().map_or(0, |e| e.number);
        for s in steps {
            match s {
                Step::Look { name, .. } => self.names.looked(name, epoch),
                Step::Names { .. } => {}
                Step::Put { name, new, .. } => self.set_file(name, *new, epoch),
                Step::MakeFolder { name, new, .. } => {
                    let k =
                        Known { version: *new, kind: Kind::Folder, have: true, listed: true, file: 0, looked: epoch };
                    self.set_known(name, k);
                    self.stored.watch(&self.names, name);
                }
                Step::MakeLink { name, new, .. } => {
                    let k =
                        Known { version: *new, kind: Kind::Link, have: true, listed: false, file: 0, looked: epoch };
                    self.set_known(name, k);
                }
                Step::Link { from, to, .. } => self.set_link(from, to),
                Step::Remove { name, .. } | Step::RemoveFolder { name, .. } => {
                    self.stored.forget(name);
                    self.rename_draft(name);
                    self.set_known(name, Known { looked: epoch, ..Known::default() });
                }
                Step::Rename { from, to, .. } => self.set_moved(from, to),
                Step::Attributes { name, new, .. } => {
                    for n in self.names.names_of_file(name) {
                        let k = Known { version: *new, ..self.names.get(&n) };
                        self.set_known(&n, k);
                    }
                }
            }
        }
    }
    fn set_known(&mut self, name: &Name, known: Known) {
        let (number, value) = self.names.set(name, known);
        self.epochs.decides.changed(number, value);
    }
    /// The server told it. Where we have changed it, that was an answer of before.
    pub fn set_told(&mut self, name: &Name, known: Known) {
        if !self.is_changed(name) {
            let (number, value) = self.names.set(name, known);
            self.epochs.decides.told(number, value);
        }
    }
    /// Whether an epoch, or a call, without its reply has changed it.
    pub fn is_changed(&mut self, name: &Name) -> bool {
        let number = self.names.number(name);
        self.epochs.decides.has_changed(number) || self.epochs.waits_with(name)
    }
    fn set_file(&mut self, name: &Name, version: Version, looked: u64) {
        let file = self.names.get(name).file;
        for n in self.names.names_of_file(name) {
            self.set_known(&n, Known { version, kind: Kind::File, have: true, listed: false, file, looked });
        }
    }
    fn set_link(&mut self, from: &Name, to: &Name) {
        let mut k = self.names.get(from);
        if k.file == 0 {
            k.file = self.names.new_file_number();
            self.set_known(from, k);
        }
        self.set_known(to, k);
    }
    fn set_moved(&mut self, from: &Name, to: &Name) {
        self.rename_draft(to);
        self.move_drafts(from, to);
        self.stored.moved(&self.paths, from, to);
        for n in self.names.within(from) {
            let Some(m) = n.moved(from, to) else { continue };
            let k = self.names.get(&n);
            self.stored.forget(&n);
            self.set_known(&n, Known::default());
            self.set_known(&m, k);
            if k.kind == Kind::Folder {
                self.stored.watch(&self.names, &m);
            }
        }
    }
}

#[cfg(test)]
mod tests {
    use super::*;

    #[test]
    fn a_call_that_waits_has_changed_its_names() {
        let name = |text: &str| Name::new(text).unwrap();
        let (mut epochs, base, over) = (Epochs::new(), Version::own(1), Version::ABSENT);
        let steps = vec![
            Step::Look { name: name("seen"), version: base },
            Step::Rename { from: name("old"), base, to: name("new"), over },
        ];
        epochs.alone.insert(1, Alone { steps: steps.clone(), made: Some(None), ..Alone::default() });
        let (changed, others) = (["old", "new", "old/below"], ["seen", "older", "n"]);
        assert!(changed.iter().all(|n| epochs.waits_with(&name(n))));
        assert!(!others.iter().any(|n| epochs.waits_with(&name(n))));
        // one that is made only once it is granted has changed nothing yet
        epochs.alone.insert(1, Alone { steps, ..Alone::default() });
        assert!(!changed.iter().any(|n| epochs.waits_with(&name(n))));
    }
}
