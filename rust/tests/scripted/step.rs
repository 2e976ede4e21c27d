//! One step of a process, as the table of docs/FORMATS.md says it.
use crate::state::{copy, process, signals, Bytes, Content, Entity, Held, Object, Pid, Process, State, Value};
use std::collections::HashMap;

const TEXT_LIMIT: usize = 512;
const FILE_LIMIT: usize = 32_768;
const PIPE_LIMIT: usize = 4_096;
const KILL: u8 = 9;
const KILLED: u8 = 137;
pub const LAST_VERSION: u64 = i64::MAX as u64;

/// What a new object is.
#[derive(Debug, Clone, Copy)]
pub enum Kind {
    File,
    Dir,
    Pipe,
}

/// An instruction; a register by its number, a label by its place.
#[derive(Debug, Clone)]
pub enum Instruction {
    Set(usize, i64),
    Move(usize, usize),
    Add(usize, usize),
    Text(Bytes),
    Len(usize),
    Itself(usize),
    Boot(usize, u16),
    Jump(usize),
    Zero(usize, usize),
    Negative(usize, usize),
    Handler(usize),
    Return,
    Say,
    Make(usize, Kind),
    Look(usize, usize, String),
    Link(usize, String, usize),
    Unlink(usize, String),
    Size(usize),
    Write(usize, usize),
    Read(usize, usize),
    Cut(usize, usize),
    Put(usize),
    Take(usize, usize),
    Shut(usize),
    Fork(usize, usize),
    Wait(usize, usize),
    Kill(usize, usize),
    Exit(usize),
    Fetch(String),
    Store(String),
}

pub type Scripts = HashMap<String, Vec<Instruction>>;

/// The input of a step.
#[derive(Debug, Clone, PartialEq, Eq)]
pub enum Input {
    None,
    Good,
    Fresh(Content),
    Stale(Content),
}

/// Why a step is refused.
#[derive(Debug, Clone, Copy, PartialEq, Eq)]
pub enum Refusal {
    NoProcess = 1,
    Ended = 2,
    Mismatch = 3,
    NeedsReply = 4,
    Blocked = 5,
    TooMany = 6,
    TraceFull = 7,
    NoRoom = 9,
}

/// What a step reads, what it writes, `None` where an entity is absent then, and what it says.
#[derive(Debug, Clone)]
pub struct Step {
    pub reads: Vec<Entity>,
    pub writes: Vec<(Entity, Option<Value>)>,
    pub said: Option<(u16, Bytes)>,
}

/// An instruction that does not go on: an error for r0, or it waits.
enum Stop {
    Error(i64),
    Refused(Refusal),
}

use Stop::Error;

const NOT_LINKED: Stop = Error(2);
const NO_SUCH_PROCESS: Stop = Error(3);
const BAD_OBJECT: Stop = Error(9);
const NO_CHILD: Stop = Error(10);
const AGAIN: Stop = Error(11);
const EXISTS: Stop = Error(17);
const NO_DIRECTORY: Stop = Error(20);
const IS_DIRECTORY: Stop = Error(21);
const INVALID: Stop = Error(22);
const TOO_BIG: Stop = Error(27);
const BROKEN_PIPE: Stop = Error(32);
const STALE_COPY: i64 = 116;
const BLOCKED: Stop = Stop::Refused(Refusal::Blocked);

/// The next instruction of a process; past the last there is none.
pub fn next<'a>(scripts: &'a Scripts, process: &Process) -> Option<&'a Instruction> {
    scripts.get(&process.script)?.get(process.place)
}

/// Whether a signal is due to a process: its next step takes it.
pub fn is_due(state: &State, pid: Pid) -> bool {
    let queue = signals(state, pid);
    let handles = process(state, pid).is_some_and(|it| it.handler.is_some() && it.saved.is_none());
    queue.contains(&KILL) || handles && !queue.is_empty()
}

/// Does a private instruction; whether it is one.
pub fn is_private(instruction: &Instruction, it: &mut Process, pid: Pid) -> bool {
    let number = |held: Held| match held {
        Held::Number(number) => Some(number),
        _ => None,
    };
    let mut place = it.place + 1;
    match instruction {
        Instruction::Set(a, n) => it.registers[*a] = Held::Number(*n),
        Instruction::Move(a, b) => it.registers[*a] = it.registers[*b],
        Instruction::Add(a, b) => {
            let both = number(it.registers[*a]).zip(number(it.registers[*b]));
            match both.and_then(|(a, b)| a.checked_add(b)) {
                Some(sum) => it.registers[*a] = Held::Number(sum),
                None => it.registers[0] = Held::Number(-22),
            }
        }
        Instruction::Text(text) => it.buffer = text.clone(),
        Instruction::Len(a) => it.registers[*a] = Held::Number(it.buffer.len() as i64),
        Instruction::Itself(a) => it.registers[*a] = Held::Process(pid),
        Instruction::Boot(a, n) => it.registers[*a] = Held::Process((*n).into()),
        Instruction::Jump(to) => place = *to,
        Instruction::Zero(a, to) if it.registers[*a] == Held::Number(0) => place = *to,
        Instruction::Negative(a, to) if number(it.registers[*a]).is_some_and(|n| n < 0) => place = *to,
        Instruction::Zero(..) | Instruction::Negative(..) => {}
        _ => return false,
    }
    it.place = place;
    true
}

/// A step that is being taken.
struct Taking<'a> {
    state: &'a State,
    pid: Pid,
    it: Process,
    reads: Vec<Entity>,
    writes: Vec<(Entity, Option<Value>)>,
    said: Option<(u16, Bytes)>,
}

impl<'a> Taking<'a> {
    fn ask(&mut self, entity: Entity) -> Option<&'a Value> {
        let value = self.state.get(&entity);
        self.reads.push(entity);
        value
    }

    fn write(&mut self, entity: Entity, value: Value) {
        self.writes.push((entity, Some(value)));
    }

    /// The object in a register, and what is there.
    fn object(&mut self, register: usize) -> Result<(Object, &'a Value), Stop> {
        let Held::Object(object) = self.it.registers[register] else {
            return Err(BAD_OBJECT);
        };
        self.ask(Entity::Obj(object)).map(|it| (object, it)).ok_or(BAD_OBJECT)
    }

    fn file(&mut self, register: usize) -> Result<(Object, &'a Bytes), Stop> {
        match self.object(register)? {
            (object, Value::File(bytes)) => Ok((object, bytes)),
            (_, Value::Dir) => Err(IS_DIRECTORY),
            _ => Err(INVALID),
        }
    }

    fn pipe(&mut self, register: usize) -> Result<(Object, &'a Bytes, bool), Stop> {
        match self.object(register)? {
            (object, Value::Pipe { bytes, is_shut }) => Ok((object, bytes, *is_shut)),
            _ => Err(INVALID),
        }
    }

    /// A number in a register that is in a range.
    fn number(&self, register: usize, least: i64, most: i64) -> Result<usize, Stop> {
        match self.it.registers[register] {
            Held::Number(number) if (least..=most).contains(&number) => Ok(number as usize),
            _ => Err(INVALID),
        }
    }

    /// What a name of a directory is linked to.
    fn named(
        &mut self,
        directory: Result<(Object, &Value), Stop>,
        name: &str,
    ) -> Result<(Entity, Option<Object>), Stop> {
        let (directory, Value::Dir) = directory? else { return Err(NO_DIRECTORY) };
        let entity = Entity::Link(directory, name.to_string());
        match self.ask(entity.clone()) {
            Some(Value::Link(object)) => Ok((entity, Some(*object))),
            _ => Ok((entity, None)),
        }
    }

    /// The process goes on with this in r0.
    fn answer(&mut self, number: i64) {
        self.it.registers[0] = Held::Number(number);
        self.it.place += 1;
    }

    /// The process goes on with this in a register.
    fn give(&mut self, register: usize, held: Held) {
        self.it.registers[register] = held;
        self.it.place += 1;
    }

    fn fill(&mut self, bytes: Bytes, number: i64) {
        self.it.buffer = bytes;
        self.answer(number);
    }

    fn end(&mut self, status: u8) {
        self.write(Entity::Exit(self.pid), Value::Exit(Some(status)));
        self.it.is_ended = true;
    }

    fn write_file(&mut self, f: usize, at: usize) -> Result<(), Stop> {
        let (object, bytes) = self.file(f)?;
        let at = self.number(at, 0, i64::MAX)?;
        let more = self.it.buffer.clone();
        if at.saturating_add(more.len()) > FILE_LIMIT {
            return Err(TOO_BIG);
        }
        if !more.is_empty() {
            let mut bytes = bytes.clone();
            bytes.resize(bytes.len().max(at + more.len()), 0);
            bytes[at..at + more.len()].copy_from_slice(&more);
            self.write(Entity::Obj(object), Value::File(bytes));
        }
        self.answer(more.len() as i64);
        Ok(())
    }

    fn read_file(&mut self, f: usize, at: usize) -> Result<(), Stop> {
        let (_, bytes) = self.file(f)?;
        let at = self.number(at, 0, i64::MAX)?;
        let part: Bytes = bytes.iter().skip(at).take(TEXT_LIMIT).copied().collect();
        let count = part.len();
        self.fill(part, count as i64);
        Ok(())
    }

    fn cut_file(&mut self, f: usize, size: usize) -> Result<(), Stop> {
        let (object, bytes) = self.file(f)?;
        let size = self.number(size, 0, i64::MAX)?;
        if size > FILE_LIMIT {
            return Err(TOO_BIG);
        }
        if size != bytes.len() {
            let mut bytes = bytes.clone();
            bytes.resize(size, 0);
            self.write(Entity::Obj(object), Value::File(bytes));
        }
        self.answer(0);
        Ok(())
    }

    fn put(&mut self, p: usize) -> Result<(), Stop> {
        let (object, bytes, is_shut) = self.pipe(p)?;
        let more = self.it.buffer.clone();
        if is_shut {
            return Err(BROKEN_PIPE);
        }
        if bytes.len() + more.len() > PIPE_LIMIT && !more.is_empty() {
            return Err(BLOCKED);
        }
        if !more.is_empty() {
            let bytes = [&bytes[..], &more].concat();
            self.write(Entity::Obj(object), Value::Pipe { bytes, is_shut });
        }
        self.answer(more.len() as i64);
        Ok(())
    }

    fn take(&mut self, p: usize, n: usize) -> Result<(), Stop> {
        let (object, bytes, is_shut) = self.pipe(p)?;
        let most = self.number(n, 1, TEXT_LIMIT as i64)?;
        if bytes.is_empty() && !is_shut {
            return Err(BLOCKED);
        }
        let (front, back) = bytes.split_at(most.min(bytes.len()));
        if !front.is_empty() {
            self.write(Entity::Obj(object), Value::Pipe { bytes: back.to_vec(), is_shut });
        }
        self.fill(front.to_vec(), front.len() as i64);
        Ok(())
    }

    fn shut(&mut self, p: usize) -> Result<(), Stop> {
        let (object, bytes, is_shut) = self.pipe(p)?;
        if !is_shut {
            self.write(Entity::Obj(object), Value::Pipe { bytes: bytes.clone(), is_shut: true });
        }
        self.answer(0);
        Ok(())
    }

    fn fork(&mut self, a: usize, place: usize) -> Result<(), Stop> {
        if self.pid >= 1 << 48 || self.it.children == u16::MAX {
            return Err(AGAIN);
        }
        let child = self.pid * 65_536 + u64::from(self.it.children) + 1;
        let born = Process { place, children: 0, objects: 0, saved: None, is_ended: false, ..self.it.clone() };
        self.write(Entity::Proc(child), Value::Process(Box::new(born)));
        self.write(Entity::Sig(child), Value::Signals(Vec::new()));
        self.write(Entity::Exit(child), Value::Exit(None));
        self.it.children += 1;
        self.give(a, Held::Process(child));
        Ok(())
    }

    fn wait(&mut self, a: usize, b: usize) -> Result<(), Stop> {
        let Held::Process(who) = self.it.registers[b] else {
            return Err(INVALID);
        };
        if who / 65_536 != self.pid {
            return Err(NO_CHILD);
        }
        match self.ask(Entity::Exit(who)) {
            Some(Value::Exit(Some(status))) => self.give(a, Held::Number((*status).into())),
            Some(Value::Exit(None)) => return Err(BLOCKED),
            _ => return Err(NO_CHILD),
        }
        Ok(())
    }

    fn kill(&mut self, w: usize, n: usize) -> Result<(), Stop> {
        let Held::Process(who) = self.it.registers[w] else {
            return Err(INVALID);
        };
        let signal = self.number(n, 1, 31)? as u8;
        match self.ask(Entity::Sig(who)) {
            Some(Value::Signals(queue)) if queue.len() < 32 => {
                let queue = queue.iter().copied().chain([signal]).collect();
                self.write(Entity::Sig(who), Value::Signals(queue));
            }
            Some(_) => return Err(AGAIN),
            None => return Err(NO_SUCH_PROCESS),
        }
        self.answer(0);
        Ok(())
    }

    fn make(&mut self, a: usize, kind: Kind) {
        let object = Object(self.pid, self.it.objects + 1);
        let value = match kind {
            Kind::File => Value::File(Bytes::new()),
            Kind::Dir => Value::Dir,
            Kind::Pipe => Value::Pipe { bytes: Bytes::new(), is_shut: false },
        };
        self.write(Entity::Obj(object), value);
        self.it.objects += 1;
        self.give(a, Held::Object(object));
    }

    fn link(&mut self, d: usize, name: &str, a: usize) -> Result<(), Stop> {
        let directory = self.object(d);
        let directory = match (directory, self.it.registers[a]) {
            (Ok(it), Held::Object(_)) => Ok(it),
            _ => Err(BAD_OBJECT),
        };
        let (entity, None) = self.named(directory, name)? else {
            return Err(EXISTS);
        };
        let Held::Object(object) = self.it.registers[a] else {
            return Err(BAD_OBJECT);
        };
        self.write(entity, Value::Link(object));
        self.answer(0);
        Ok(())
    }

    /// An instruction that is not private, without input.
    fn row(&mut self, instruction: &Instruction) -> Result<(), Stop> {
        match instruction {
            Instruction::Handler(to) => {
                self.it.handler = Some(*to);
                self.it.place += 1;
            }
            Instruction::Return => self.it.place = self.it.saved.take().ok_or(INVALID)?,
            Instruction::Say => {
                self.said = Some((self.it.terminal, self.it.buffer.clone()));
                self.it.place += 1;
            }
            Instruction::Make(a, kind) => self.make(*a, *kind),
            Instruction::Look(a, d, name) => {
                let directory = self.object(*d);
                let (_, object) = self.named(directory, name)?;
                self.give(*a, Held::Object(object.ok_or(NOT_LINKED)?));
            }
            Instruction::Link(d, name, a) => self.link(*d, name, *a)?,
            Instruction::Unlink(d, name) => {
                let directory = self.object(*d);
                let (entity, Some(_)) = self.named(directory, name)? else {
                    return Err(NOT_LINKED);
                };
                self.writes.push((entity, None));
                self.answer(0);
            }
            Instruction::Size(f) => {
                let (_, bytes) = self.file(*f)?;
                self.answer(bytes.len() as i64);
            }
            Instruction::Write(f, at) => self.write_file(*f, *at)?,
            Instruction::Read(f, at) => self.read_file(*f, *at)?,
            Instruction::Cut(f, size) => self.cut_file(*f, *size)?,
            Instruction::Put(p) => self.put(*p)?,
            Instruction::Take(p, n) => self.take(*p, *n)?,
            Instruction::Shut(p) => self.shut(*p)?,
            Instruction::Fork(a, place) => self.fork(*a, *place)?,
            Instruction::Wait(a, b) => self.wait(*a, *b)?,
            Instruction::Kill(w, n) => self.kill(*w, *n)?,
            Instruction::Exit(a) => {
                let status = self.number(*a, 0, 255).map_or(255, |it| it as u8);
                self.end(status);
            }
            _ => return Err(Stop::Refused(Refusal::NeedsReply)),
        }
        Ok(())
    }

    /// Without input: a signal, or the next instruction.
    fn plain(&mut self, scripts: &Scripts) -> Result<(), Stop> {
        self.reads.push(Entity::Sig(self.pid));
        let queue = signals(self.state, self.pid);
        if queue.contains(&KILL) {
            self.end(KILLED);
            return Ok(());
        }
        if is_due(self.state, self.pid) {
            self.it.registers[6] = Held::Number(queue[0].into());
            self.it.saved = Some(self.it.place);
            self.it.place = self.it.handler.expect("a handler");
            self.write(Entity::Sig(self.pid), Value::Signals(queue[1..].to_vec()));
            return Ok(());
        }
        match next(scripts, &self.it) {
            None => self.end(0),
            Some(instruction) if is_private(instruction, &mut self.it, self.pid) => {}
            Some(instruction) => self.row(instruction)?,
        }
        Ok(())
    }

    /// With a reply.
    fn reply(&mut self, scripts: &Scripts, input: &Input) -> Result<(), Refusal> {
        let set = |taking: &mut Taking<'_>, name: &str, content: &Content| {
            taking.write(Entity::Copy(name.to_string()), Value::Copy(content.clone()));
        };
        match (next(scripts, &self.it), input) {
            (Some(Instruction::Fetch(name)), Input::Good) => {
                self.reads.push(Entity::Copy(name.to_string()));
                let content = copy(self.state, name).ok_or(Refusal::Mismatch)?;
                self.fill(content.bytes.clone(), content.version as i64);
            }
            (Some(Instruction::Fetch(name)), Input::Fresh(content)) => {
                set(self, name, content);
                self.fill(content.bytes.clone(), content.version as i64);
            }
            (Some(Instruction::Store(name)), Input::Good) => {
                self.reads.push(Entity::Copy(name.to_string()));
                let version = copy(self.state, name).map_or(0, |it| it.version);
                if version == LAST_VERSION {
                    return Err(Refusal::Mismatch);
                }
                set(self, name, &Content { version: version + 1, bytes: self.it.buffer.clone() });
                self.answer(version as i64 + 1);
            }
            (Some(Instruction::Store(name)), Input::Stale(content)) => {
                set(self, name, content);
                self.answer(-STALE_COPY);
            }
            _ => return Err(Refusal::Mismatch),
        }
        Ok(())
    }
}

/// A step of a process with an input.
pub fn step(state: &State, scripts: &Scripts, pid: Pid, input: &Input) -> Result<Step, Refusal> {
    let it = process(state, pid).ok_or(Refusal::NoProcess)?.clone();
    if it.is_ended {
        return Err(Refusal::Ended);
    }
    let (reads, before) = (vec![Entity::Proc(pid)], it.clone());
    let mut taking = Taking { state, pid, it, reads, writes: Vec::new(), said: None };
    match input {
        Input::None => match taking.plain(scripts) {
            Ok(()) => {}
            Err(Stop::Refused(refusal)) => return Err(refusal),
            Err(Stop::Error(error)) => {
                taking.it = before;
                taking.answer(-error);
            }
        },
        reply => taking.reply(scripts, reply)?,
    }
    let Taking { it, reads, mut writes, said, .. } = taking;
    writes.push((Entity::Proc(pid), Some(Value::Process(Box::new(it)))));
    Ok(Step { reads, writes, said })
}
