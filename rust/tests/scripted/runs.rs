//! Random runs of a kernel.
use crate::dice::{runs, Dice, Named};
use crate::record::{Record, Status};
use crate::scenarios::{any_kernel, Declared, Manner};
use crate::state::{literal, process, Content, Entity, Path, Pid};
use crate::step::Refusal::{Blocked, Ended, Mismatch, NeedsReply, NoProcess, NoRoom, TooMany, TraceFull};
use crate::step::{is_due, is_private, Input, Refusal};
use hidewillow::{Epoch, Lease, Play};
use std::collections::BTreeSet;

/// How often a run decides its guesses: so many calls of 128.
#[derive(Clone, Copy)]
struct Habit {
    commits: usize,
    fails: usize,
}

/// How many runs there were of which something is wanted.
#[derive(Default)]
struct Tally {
    leases: usize,
    refused_leases: usize,
    epochs: usize,
    /// Why steps and guesses were refused.
    refusals: BTreeSet<u8>,
}

pub fn input_text(input: &Input) -> String {
    let of = |it: &Content| format!("{} {}", it.version, literal(&it.bytes));
    match input {
        Input::None => "none".to_string(),
        Input::Good => "good".to_string(),
        Input::Fresh(content) => format!("fresh {}", of(content)),
        Input::Stale(content) => format!("stale {}", of(content)),
    }
}

pub fn refused(refusal: Refusal) -> String {
    format!("refused {} {refusal:?}", refusal as u8)
}

/// A process among those that are present, mostly one that has not ended, or one that may be absent.
pub fn any_process(dice: &mut Dice, record: &Record) -> Pid {
    if dice.once_in(64) {
        return (1 + dice.roll(4) as Pid) * 65_536 + 1;
    }
    let all: Vec<_> = record
        .state
        .keys()
        .filter_map(|it| match it {
            Entity::Proc(pid) => Some(*pid),
            _ => None,
        })
        .collect();
    let (first, second) = (dice.pick(&all), dice.pick(&all));
    match process(&record.state, first) {
        Some(it) if !it.is_ended => first,
        _ => second,
    }
}

/// A reply that a process may have.
fn any_reply(dice: &mut Dice) -> Input {
    let version = dice.roll(9) as u64;
    let bytes: &[u8] = dice.pick(&[&b""[..], b"new", b"foreign", b"z"]);
    let content = Content { version, bytes: bytes.to_vec() };
    match dice.roll(8) {
        0 => Input::Stale(content),
        1 => Input::Fresh(content),
        _ => Input::Good,
    }
}

/// How many private instructions a process does next, at most so many.
pub fn private_count(record: &Record, pid: Pid, most: u32) -> u32 {
    let mut it = process(&record.state, pid).expect("a process").clone();
    let scripts = &record.declared.scripts;
    (0..most)
        .take_while(|_| {
            let next = crate::step::next(scripts, &it).cloned();
            next.is_some_and(|instruction| is_private(&instruction, &mut it, pid))
        })
        .count() as u32
}

/// What a lease of a process for so many private instructions comes to, where the trace has so many places, and the record then.
pub fn lease(record: &mut Record, pid: Pid, most: u32, places: usize) -> Lease {
    match process(&record.state, pid) {
        None => return Lease::Refused(1),
        Some(it) if it.is_ended => return Lease::Refused(2),
        Some(_) if is_due(&record.state, pid) => return Lease::Refused(10),
        Some(_) => {}
    }
    let count = private_count(record, pid, most);
    if (count as usize) > places {
        return Lease::Refused(7);
    }
    for _ in 0..count {
        let step = record.plan(pid, &Input::None).expect("a private step");
        record.take(pid, Input::None, step);
    }
    Lease::Ran(count.into())
}

/// A report is this.
pub fn same(told: &str, wanted: &str) {
    if let Some((told, wanted)) = told.lines().zip(wanted.lines()).find(|it| it.0 != it.1) {
        panic!("a report has the line\n{told}\nin place of\n{wanted}");
    }
    assert_eq!(told.len(), wanted.len(), "a report has lines more, or fewer");
}

struct Run {
    dice: Dice,
    play: Play,
    record: Record,
    /// The guesses whose tokens are not spent.
    held: Vec<u64>,
    tally: Tally,
}

impl Run {
    fn new(number: u64, manner: Manner) -> Run {
        let mut dice = Dice(number);
        let text = any_kernel(&mut dice, manner);
        Run {
            play: Play::open(&text).expect("a scenario"),
            record: Record::new(Declared::of(&text)),
            dice,
            held: Vec::new(),
            tally: Tally::default(),
        }
    }

    /// Makes a call, which is answered so.
    fn call(&mut self, line: &str, wanted: &str) {
        let answer = self.play.line(line).expect("a call").expect("no comment");
        assert_eq!(answer.text.as_deref(), Some(wanted), "what `{line}` is answered");
    }

    /// Makes a call, which is refused.
    fn refused(&mut self, line: &str, refusal: Refusal) {
        self.tally.refusals.insert(refusal as u8);
        self.call(line, &refused(refusal));
    }

    fn step(&mut self, pid: Pid, input: Input) {
        let line = format!("step {} {}", Path(pid), input_text(&input));
        match self.record.step_of(pid, &input, self.record.room()) {
            Err(refusal) => self.refused(&line, refusal),
            Ok(step) => {
                self.call(&line, "stepped");
                self.record.take(pid, input, step);
            }
        }
    }

    fn guess(&mut self, pid: Pid, input: Input) {
        let line = format!("guess {} {}", Path(pid), input_text(&input));
        match self.record.guess_of(pid, &input, self.record.room()) {
            Err(refusal) => self.refused(&line, refusal),
            Ok(step) => {
                self.call(&line, &format!("guess {}", self.record.drawn() + 1));
                let guess = self.record.draw(pid, input, step);
                self.held.push(guess);
            }
        }
    }

    /// A step or a guess of any process, mostly a guess where a random reply fits.
    fn goes_on(&mut self) {
        let pid = any_process(&mut self.dice, &self.record);
        let reply = any_reply(&mut self.dice);
        let fits = self.record.plan(pid, &reply).is_ok();
        match (fits, self.dice.roll(16)) {
            (true, 0) | (false, 1) => self.step(pid, reply),
            (true, 1) => self.step(pid, Input::None),
            (true, _) | (false, 0) => self.guess(pid, reply),
            (false, 3) => self.guess(pid, Input::None),
            (false, _) => self.step(pid, Input::None),
        }
    }

    fn decide(&mut self, guess: u64, fails: bool) {
        let line = format!("{} {guess}", if fails { "fail" } else { "commit" });
        let is_held = self.held.contains(&guess);
        self.held.retain(|it| *it != guess);
        match (is_held, self.record.status(guess)) {
            (true, Some(Status::Undecided)) => {
                self.call(&line, "done");
                match fails {
                    true => self.record.fail(guess),
                    false => self.record.commit(guess),
                }
            }
            (true, Some(Status::Struck)) => self.call(&line, "gone"),
            _ => self.call(&line, "no token"),
        }
    }

    /// Whether a guess is decided by this call, mostly one whose token is held.
    fn decides(&mut self, habit: Habit) -> bool {
        let roll = self.dice.roll(128);
        let guess = match self.dice.once_in(16) {
            true => 1 + self.dice.roll(16) as u64 % self.record.drawn().max(1),
            false if self.held.is_empty() => return false,
            false => self.dice.pick(&self.held),
        };
        if roll >= habit.commits + habit.fails {
            return false;
        }
        self.decide(guess, roll >= habit.commits);
        true
    }

    fn lends(&mut self) {
        let pid = any_process(&mut self.dice, &self.record);
        let most = self.dice.roll(6) as u32;
        let room = self.record.room();
        let wanted = lease(&mut self.record, pid, most, room);
        assert_eq!(self.play.lease(&Path(pid).to_string(), most), Ok(wanted));
        match wanted {
            Lease::Ran(count) => self.tally.leases += usize::from(count > 0),
            Lease::Refused(_) => self.tally.refused_leases += 1,
        }
    }

    fn epoch(&mut self) {
        let begun = self.play.new_epoch().expect("memory");
        if self.record.undecided() > 0 {
            assert_eq!(begun, Epoch::Refused(1));
            return;
        }
        assert_eq!(begun, Epoch::Begun(self.record.begin_epoch() as u64));
        self.held.clear();
        self.tally.epochs += 1;
    }

    fn turn(&mut self, habit: Habit) {
        match self.dice.roll(12) {
            0 | 1 => self.lends(),
            2 => self.epoch(),
            _ if self.decides(habit) => {}
            _ => self.goes_on(),
        }
    }

    /// The report is what the record comes to; and what is asked for alone is what the report says.
    fn judge(&mut self) {
        let record = &self.record;
        same(&self.play.report().expect("a report"), &record.report());
        let mut counts = self.play.counts().expect("memory");
        assert_eq!(counts.notes == 0, record.is_all_settled(), "notes are held just where something rests on a guess");
        counts.notes = 0;
        assert_eq!(counts, record.counts);
        let entities: Vec<_> = record.state.keys().collect();
        let entity = self.dice.pick(&entities);
        let value = crate::state::value_text(&record.state, entity);
        let name = entity.to_string();
        assert_eq!(self.play.value(&name), Ok(value), "what {name} has");
        let tags = crate::state::joined(record.tags(entity), ",");
        assert_eq!(self.play.tags(&name), Ok(Some(tags)), "what {name} rests on");
    }
}

/// Makes so many runs, in each of which the kernel is what its whole trace comes to after each call, as if no epoch had begun.
fn all(part: u64, count: u64, manner: Manner, habit: (usize, usize), calls: (usize, usize)) {
    let (habit, mut tally) = (Habit { commits: habit.0, fails: habit.1 }, Tally::default());
    let (least, more) = calls;
    let wanted = match manner {
        Manner::Any => &[NoProcess, Ended, Mismatch, NeedsReply, Blocked, TraceFull][..],
        Manner::Guessing if count == LONG_RUNS => &[NoProcess, NeedsReply, TooMany, TraceFull],
        Manner::Guessing => &[NoProcess, Mismatch, NeedsReply, TraceFull],
        Manner::Naming => &[Mismatch, NeedsReply, NoRoom],
        Manner::Changing => &[Mismatch, NeedsReply, Blocked],
    };
    let mut made = 0;
    for number in runs(part, count) {
        let _named = Named("run of a kernel", number);
        let mut run = Run::new(number, manner);
        for _ in 0..least + run.dice.roll(more) {
            run.turn(habit);
            run.judge();
        }
        made += 1;
        tally.leases += run.tally.leases;
        tally.refused_leases += run.tally.refused_leases;
        tally.epochs += run.tally.epochs;
        tally.refusals.extend(run.tally.refusals);
    }
    if made == count {
        assert!(tally.leases > 0 && tally.refused_leases > 0, "no lease, or none was refused");
        assert!(tally.epochs > 0, "no epoch began");
        let missed: Vec<_> = wanted.iter().filter(|it| !tally.refusals.contains(&(**it as u8))).collect();
        assert!(missed.is_empty(), "nothing was refused for {missed:?}");
    }
}

const RUNS: u64 = 1_250;
const LONG_RUNS: u64 = 25;
const SHORT: (usize, usize) = (10, 50);

#[test]
fn as_many_commits_as_failures() {
    all(0, RUNS, Manner::Any, (10, 10), SHORT);
}

#[test]
fn few_decisions() {
    all(1, RUNS, Manner::Any, (4, 4), SHORT);
}

#[test]
fn mostly_failures() {
    all(2, RUNS, Manner::Any, (4, 20), SHORT);
}

#[test]
fn mostly_commits() {
    all(3, RUNS, Manner::Any, (20, 4), SHORT);
}

#[test]
fn hardly_any_decisions() {
    all(4, RUNS, Manner::Any, (1, 1), SHORT);
}

#[test]
fn hardly_any_failures() {
    all(5, RUNS, Manner::Any, (12, 1), SHORT);
}

#[test]
fn hardly_any_commits() {
    all(6, RUNS, Manner::Any, (1, 12), SHORT);
}

#[test]
fn many_guesses() {
    all(7, RUNS, Manner::Guessing, (6, 6), SHORT);
}

#[test]
fn names_up_to_the_limit() {
    all(200, 60, Manner::Naming, (8, 4), (150, 100));
}

/// Files, pipes and queues come to their limits, and failures take it back.
#[test]
fn changes_up_to_the_limits() {
    all(300, 50, Manner::Changing, (4, 8), (150, 150));
}

#[test]
fn long_runs() {
    all(500, LONG_RUNS, Manner::Any, (6, 6), (200, 100));
}

#[test]
fn as_many_guesses_as_may_be() {
    all(501, LONG_RUNS, Manner::Guessing, (2, 1), (150, 100));
}
