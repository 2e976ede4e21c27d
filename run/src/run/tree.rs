//! The processes of the command, and what of each is the supervisor's.
use crate::run::descriptors::Descriptor;
use crate::run::inside::Inside;
use crate::run::learned::Piece;
use crate::run::sys::{self, Pid, Regs, SigInfo};
use std::cell::Cell;
use std::collections::{HashMap, HashSet, VecDeque};
use std::rc::Rc;

#[derive(Clone, Copy, PartialEq, Eq, Debug)]
pub enum State {
    Running,
    /// At a stop of the filter: its call has not been made.
    Entry,
    /// Stopped where its registers have it make its call once more.
    Again,
    /// Stopped behind its call, which is asked about.
    Behind,
    /// Stopped by an interrupt.
    Stopped,
}

/// What a stopped process waits for.
#[derive(Clone, Copy, PartialEq, Eq, Debug)]
pub enum Hold {
    /// The end of a child.
    Child,
    /// What the server has of a name.
    Fetch,
    /// That nothing is undecided any more.
    Settled,
    /// The reply to its own call.
    Reply,
}

/// A child that has ended and was not waited for yet.
#[derive(Clone)]
pub struct Ended {
    pub pid: Pid,
    pub group: Pid,
    pub status: i32,
    pub usage: libc::rusage,
}

/// What has happened to a process, and no wait for that has told of yet.
#[derive(Clone, Copy, PartialEq, Eq, Debug)]
pub enum News {
    /// A signal has stopped it.
    Stopped(i32),
    /// It goes on again.
    GoesOn,
}

impl News {
    /// As a status of `wait`.
    pub fn status(self) -> i32 {
        match self {
            News::Stopped(signal) => signal << 8 | 0x7f,
            News::GoesOn => 0xffff,
        }
    }
}

/// Why a process can't be copied, as long as that lasts.
#[derive(Clone, Copy, PartialEq, Eq, Hash, Debug, PartialOrd, Ord)]
pub enum Bound {
    /// A timer that goes off once.
    Timer,
    /// Timers that may go off more than once.
    Timers,
    /// Locks of files: as long as it lives, since it may have several.
    Lock,
    SharedMemory,
    OwnFilter,
    Terminal,
    /// Its number is a session's, too, as long as any process is in that.
    Session,
}

impl Bound {
    pub fn words(self) -> &'static str {
        match self {
            Bound::Timer | Bound::Timers => "a timer",
            Bound::Lock => "a lock on a file",
            Bound::SharedMemory => "shared memory, or a queue of the system's",
            Bound::OwnFilter => "a filter of its own",
            Bound::Terminal => "a terminal being read",
            Bound::Session => "a session of its own",
        }
    }
}

/// What of a process is the supervisor's, since all processes are its children.
#[derive(Clone)]
pub struct Facts {
    pub parent: Pid,
    pub group: Pid,
    /// It has a handler for the end of children.
    pub hears_ends: bool,
    /// It doesn't want to know of the ends of children.
    pub ignores_ends: bool,
    pub ended: Vec<Ended>,
    /// Its handler for the end of children wants to know as well where they stop.
    pub hears_stops: bool,
    pub news: Option<News>,
    /// Where it has a `syscall` instruction; 0: not known yet.
    pub site: u64,
    /// The process that it is a thread of; itself.
    pub process: Pid,
    /// Of a thread: where its number is cleared at its end, and its stack for signals.
    pub clear_at: u64,
    pub signal_stack: Option<[u64; 3]>,
    pub bound: Vec<Bound>,
    pub inside: Inside,
    /// The pieces of code that are known in its program.
    pub pieces: Vec<Piece>,
}

impl Facts {
    pub fn of_first(pid: Pid, group: Pid) -> Facts {
        Facts {
            parent: 0,
            group,
            hears_ends: false,
            ignores_ends: false,
            ended: Vec::new(),
            hears_stops: false,
            news: None,
            site: 0,
            process: pid,
            clear_at: 0,
            signal_stack: None,
            bound: Vec::new(),
            inside: Inside::Not,
            pieces: Vec::new(),
        }
    }
    pub fn bind(&mut self, b: Bound, on: bool) {
        self.bound.retain(|x| *x != b);
        if on {
            self.bound.push(b);
        }
    }
}

/// A thread that is not its process's first one, as it was at a checkpoint: a fork has only one thread.
pub struct Thread {
    pub tid: Pid,
    pub facts: Facts,
    pub regs: Regs,
    pub float: Vec<u8>,
    pub mask: u64,
    pub rseq: [u64; 3],
    pub robust: (u64, u64),
    pub pending: Vec<SigInfo>,
}

/// A stopped fork of a process, without descriptors. It ends with its last user.
pub struct Copy {
    pub pid: Pid,
    pub regs: Regs,
    pub descriptors: Vec<Descriptor>,
    pub threads: Vec<Thread>,
    /// Signals that were pending: its first thread's own, its process's.
    pub pending: [Vec<SigInfo>; 2],
    /// Its first thread's list of locks that are given back at its end.
    pub robust: (u64, u64),
    /// It is at a stop of the filter still, behind which it was copied.
    pub at_filter: Cell<bool>,
}

impl Drop for Copy {
    fn drop(&mut self) {
        sys::kill(self.pid, libc::SIGKILL);
    }
}

pub struct Process {
    pub facts: Facts,
    pub state: State,
    pub regs: Regs,
    pub hold: Option<Hold>,
    /// It has this one's memory until it execs or ends, and that one waits until then, whatever happens.
    pub vforked: Option<Pid>,
    pub thread: bool,
    /// Its copy, where it has not run since.
    pub copy: Option<Rc<Copy>>,
    /// Signals that are due when it goes on.
    pub signals: Vec<i32>,
    /// The number of its call, and its first two arguments, as they were before fork or vfork was made into clone (the C library's vfork keeps its
    /// return address in one).
    pub fix: Option<(u64, u64, u64)>,
    /// It waited for a child, and lets a signal in.
    pub woken: Option<Regs>,
    /// Its looks were granted: it may make its call.
    pub granted: bool,
    /// It was stopped by a signal, until another.
    pub listens: bool,
    /// It is in a read of a terminal.
    pub reads_terminal: bool,
}

impl Process {
    pub fn new(facts: Facts, state: State, regs: Regs, thread: bool) -> Process {
        Process {
            facts,
            state,
            regs,
            hold: None,
            vforked: None,
            thread,
            copy: None,
            signals: Vec::new(),
            fix: None,
            woken: None,
            granted: false,
            listens: false,
            reads_terminal: false,
        }
    }
    /// The call that it is at, or makes once more.
    pub fn call_number(&self) -> i64 {
        if self.state == State::Entry {
            self.regs.orig_rax as i64
        } else {
            self.regs.rax as i64
        }
    }
}

#[derive(Default)]
pub struct Tree {
    pub all: HashMap<Pid, Process>,
    /// Newborn ones that were seen before their parents told of them.
    pub early: HashSet<Pid>,
    /// Those whose calls are to be looked at.
    pub queue: VecDeque<Pid>,
    pub root: Pid,
    /// The group in which the command began.
    pub group: Pid,
    pub root_status: Option<i32>,
}

impl Tree {
    pub fn get(&self, pid: Pid) -> Option<&Process> {
        self.all.get(&pid)
    }
    pub fn get_mut(&mut self, pid: Pid) -> Option<&mut Process> {
        self.all.get_mut(&pid)
    }
    /// A process that is known to be there.
    pub fn at(&mut self, pid: Pid) -> &mut Process {
        self.all.get_mut(&pid).expect("a process of the tree")
    }
    /// The processes, without further threads, in order.
    pub fn processes(&self) -> Vec<Pid> {
        let mut v: Vec<Pid> = self.all.iter().filter(|(_, p)| !p.thread).map(|(i, _)| *i).collect();
        v.sort_unstable();
        v
    }
    pub fn threads_of(&self, process: Pid) -> Vec<Pid> {
        let mut v: Vec<Pid> =
            self.all.iter().filter(|(i, p)| p.facts.process == process && **i != process).map(|(i, _)| *i).collect();
        v.sort_unstable();
        v
    }
    pub fn held(&self, by: Hold) -> Vec<Pid> {
        let mut v: Vec<Pid> = self.all.iter().filter(|(_, p)| p.hold == Some(by)).map(|(i, _)| *i).collect();
        v.sort_unstable();
        v
    }
    pub fn any_running(&self) -> bool {
        self.all.values().any(|p| p.state == State::Running)
    }
    /// It can't run, nor be stopped, since a child has its memory.
    pub fn lends_memory(&self, pid: Pid) -> bool {
        self.all.values().any(|p| p.vforked == Some(pid))
    }
    pub fn hold(&mut self, pid: Pid, by: Hold) {
        if let Some(p) = self.all.get_mut(&pid) {
            p.hold = Some(by);
        }
    }
    /// Those held so have their calls looked at once more.
    pub fn wake(&mut self, by: Hold) {
        for pid in self.held(by) {
            self.at(pid).hold = None;
            self.queue.push_back(pid);
        }
    }
    /// Its copy is no more what it is: it, or a thread of it, has run.
    pub fn forget_copy(&mut self, pid: Pid) {
        let process = match self.all.get_mut(&pid) {
            Some(p) => {
                p.copy = None;
                p.facts.process
            }
            None => return,
        };
        if let Some(p) = self.all.get_mut(&process) {
            p.copy = None;
        }
    }
    /// The leader of its group has ended, so that the group could not be made anew.
    pub fn has_lost_leader(&self, facts: &Facts) -> bool {
        facts.group != self.group && !self.all.contains_key(&facts.group)
    }
    /// What a process is bound by, of all.
    pub fn bounds(&self) -> Vec<Bound> {
        let mut v: Vec<Bound> = self.all.values().flat_map(|p| p.facts.bound.iter().copied()).collect();
        v.sort_unstable();
        v.dedup();
        v
    }
}
