//! What all that was done comes to: the steps that no failed guess takes back, done by the table one after another, and what each
//! depends on, followed from what it reads and writes.
use crate::scenarios::Declared;
use crate::state::{joined, literal, value_text, Bytes, Content, Entity, Pid, State, Value};
use crate::step::{step, Input, Instruction, Refusal, Step};
use hidewillow::Counts;
use std::collections::{BTreeMap, BTreeSet};
use std::fmt::Write;

pub type Guesses = BTreeSet<u64>;

/// As many guesses may be undecided.
pub const MOST_UNDECIDED: usize = 64;
/// A directory has as many names that no more may be linked.
const MOST_NAMES: usize = 64;

/// A step that stands.
#[derive(Clone)]
struct Taken {
    guess: Option<u64>,
    pid: Pid,
    input: Input,
    /// The undecided guesses that it depends on.
    rests: Guesses,
    said: Option<(u16, Bytes)>,
    /// What it left of a copy, where it was a store that holds.
    stored: Option<(String, Content)>,
    /// Whether it was taken in the epoch.
    is_new: bool,
}

/// What became of a guess.
#[derive(Debug, Clone, Copy, PartialEq, Eq)]
pub enum Status {
    Undecided,
    Committed,
    Failed,
    Struck,
}

/// What all that was done comes to.
pub struct Record {
    pub declared: Declared,
    taken: Vec<Taken>,
    pub state: State,
    /// What each entity depends on that has been written.
    tags: BTreeMap<Entity, Guesses>,
    /// What became of each guess, by its number less 1.
    statuses: Vec<Status>,
    /// The events of the epoch, and what is counted of it.
    events: usize,
    pub counts: Counts,
}

impl Record {
    pub fn new(declared: Declared) -> Record {
        let state = declared.start.clone();
        Record {
            declared,
            taken: Vec::new(),
            state,
            tags: BTreeMap::new(),
            statuses: Vec::new(),
            events: 0,
            counts: Counts::default(),
        }
    }

    pub fn drawn(&self) -> u64 {
        self.statuses.len() as u64
    }

    pub fn status(&self, guess: u64) -> Option<Status> {
        let place = guess.checked_sub(1)?;
        self.statuses.get(place as usize).copied()
    }

    pub fn undecided(&self) -> usize {
        self.statuses.iter().filter(|it| **it == Status::Undecided).count()
    }

    /// How many places the trace of the epoch has left.
    pub fn room(&self) -> usize {
        self.declared.limit.saturating_sub(self.events + self.undecided())
    }

    pub fn tags(&self, entity: &Entity) -> Guesses {
        self.tags.get(entity).cloned().unwrap_or_default()
    }

    /// What a step of a process comes to by the table.
    pub fn plan(&self, pid: Pid, input: &Input) -> Result<Step, Refusal> {
        step(&self.state, &self.declared.scripts, pid, input)
    }

    pub fn next(&self, pid: Pid) -> Option<&Instruction> {
        crate::step::next(&self.declared.scripts, crate::state::process(&self.state, pid)?)
    }

    /// The same of the kernel, which refuses a name too many, and where the trace has no such place.
    pub fn step_of(&self, pid: Pid, input: &Input, places: usize) -> Result<Step, Refusal> {
        let step = self.plan(pid, input)?;
        let adds = step.writes.iter().find_map(|it| match it {
            (Entity::Link(directory, _), Some(_)) => Some(*directory),
            _ => None,
        });
        if adds.is_some_and(|it| crate::state::names(&self.state, it).count() >= MOST_NAMES) {
            return Err(Refusal::NoRoom);
        }
        if places < 1 {
            return Err(Refusal::TraceFull);
        }
        Ok(step)
    }

    /// The same of a guess.
    pub fn guess_of(&self, pid: Pid, input: &Input, places: usize) -> Result<Step, Refusal> {
        match (input, self.plan(pid, input)) {
            (_, Err(refusal @ (Refusal::NoProcess | Refusal::Ended))) => Err(refusal),
            (Input::None, _) => Err(Refusal::Mismatch),
            (_, Err(refusal)) => Err(refusal),
            (_, Ok(_)) if self.undecided() >= MOST_UNDECIDED => Err(Refusal::TooMany),
            (_, Ok(_)) if places < 2 => Err(Refusal::TraceFull),
            (_, Ok(step)) => Ok(step),
        }
    }

    /// What a step depends on.
    pub fn rests(&self, step: &Step) -> Guesses {
        let touched = step.reads.iter().chain(step.writes.iter().map(|it| &it.0));
        touched.flat_map(|it| self.tags(it)).collect()
    }

    fn put(&mut self, guess: Option<u64>, pid: Pid, input: Input, step: Step, is_new: bool) {
        let mut rests = self.rests(&step);
        rests.extend(guess);
        let stored = step.writes.iter().find_map(|it| match it {
            (Entity::Copy(name), Some(Value::Copy(content))) if input == Input::Good => {
                Some((name.clone(), content.clone()))
            }
            _ => None,
        });
        for (entity, value) in step.writes {
            self.tags.insert(entity.clone(), rests.clone());
            match value {
                Some(value) => _ = self.state.insert(entity, value),
                None => _ = self.state.remove(&entity),
            }
        }
        self.taken.push(Taken { guess, pid, input, rests, said: step.said, stored, is_new });
    }

    /// A step was taken.
    pub fn take(&mut self, pid: Pid, input: Input, step: Step) {
        self.events += 1;
        self.counts.steps += 1;
        self.put(None, pid, input, step, true);
    }

    /// A guess was drawn; its number.
    pub fn draw(&mut self, pid: Pid, input: Input, step: Step) -> u64 {
        self.events += 1;
        self.counts.steps += 1;
        self.counts.guesses += 1;
        self.statuses.push(Status::Undecided);
        self.counts.most_open = self.counts.most_open.max(self.undecided());
        let guess = self.drawn();
        self.put(Some(guess), pid, input, step, true);
        guess
    }

    pub fn commit(&mut self, guess: u64) {
        self.events += 1;
        self.counts.committed += 1;
        self.statuses[guess as usize - 1] = Status::Committed;
        self.taken.iter_mut().for_each(|it| _ = it.rests.remove(&guess));
        self.tags.values_mut().for_each(|it| _ = it.remove(&guess));
    }

    /// A guess fails: the steps that depend on it never were, and those that are left are done again.
    pub fn fail(&mut self, guess: u64) {
        self.events += 1;
        self.counts.failed += 1;
        self.statuses[guess as usize - 1] = Status::Failed;
        let (gone, left): (Vec<_>, Vec<_>) =
            std::mem::take(&mut self.taken).into_iter().partition(|it| it.rests.contains(&guess));
        for struck in gone.iter().filter_map(|it| it.guess.filter(|own| *own != guess)) {
            let status = &mut self.statuses[struck as usize - 1];
            if *status == Status::Undecided {
                *status = Status::Struck;
                self.counts.struck += 1;
            }
        }
        self.counts.taken_back += gone.len();
        self.state = self.declared.start.clone();
        self.tags.clear();
        for Taken { guess, pid, input, is_new, .. } in left {
            let step = self.plan(pid, &input).expect("a step that rests on no failed guess");
            let undecided = guess.filter(|it| self.status(*it) == Some(Status::Undecided));
            self.put(undecided, pid, input, step, is_new);
        }
    }

    /// Lets go of what was done, but for the state; of how many events.
    pub fn begin_epoch(&mut self) -> usize {
        self.taken.iter_mut().for_each(|it| it.is_new = false);
        self.counts = Counts::default();
        std::mem::take(&mut self.events)
    }

    /// What stores left of which copy, in their order.
    pub fn stores(&self) -> Vec<(String, Content)> {
        self.taken.iter().filter_map(|it| it.stored.clone()).collect()
    }

    /// Each guess below this number is decided.
    pub fn settled(&self) -> u64 {
        let first = self.statuses.iter().position(|it| *it == Status::Undecided);
        first.map_or(self.drawn(), |it| it as u64) + 1
    }

    /// The texts that a terminal has released in the epoch, and how many wait.
    pub fn texts(&self, terminal: u16) -> (Vec<&Bytes>, usize) {
        let said = self.taken.iter().filter(|it| it.is_new).filter_map(|it| {
            let (to, text) = it.said.as_ref()?;
            (*to == terminal).then_some((it.rests.is_empty(), text))
        });
        let all: Vec<_> = said.collect();
        let released: Vec<_> = all.iter().take_while(|it| it.0).map(|it| it.1).collect();
        let waiting = all.len() - released.len();
        (released, waiting)
    }

    /// Whether nothing depends on an undecided guess.
    pub fn is_all_settled(&self) -> bool {
        self.tags.values().all(Guesses::is_empty)
    }

    /// The report of a kernel.
    pub fn report(&self) -> String {
        self.report_with("", "")
    }

    /// The report, with lines behind the entities, and words behind the last line.
    pub fn report_with(&self, lines: &str, words: &str) -> String {
        let mut text = String::new();
        let processes = self.state.values().filter_map(|it| match it {
            Value::Process(process) => Some(process.terminal),
            _ => None,
        });
        for terminal in processes.collect::<BTreeSet<_>>() {
            let (released, waiting) = self.texts(terminal);
            let _ = writeln!(text, "terminal {terminal} released {} waiting {waiting}", released.len());
            released.iter().for_each(|it| _ = writeln!(text, "{}", literal(it)));
        }
        for entity in self.state.keys() {
            let value = value_text(&self.state, entity).unwrap_or_default();
            let tags = joined(self.tags(entity), ",");
            let _ = writeln!(text, "{entity} {value} tags {tags}");
        }
        let _ = writeln!(text, "{lines}trace {} undecided {}{words}", self.events, self.undecided());
        text
    }
}
