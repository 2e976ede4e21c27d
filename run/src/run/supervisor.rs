//! The supervisor as a whole, and its loop.
use crate::client::Link;
use crate::name::Name;
use crate::run::descriptors::Handles;
use crate::run::drafts::{Drafts, FileId};
use crate::run::epochs::Epochs;
use crate::run::fetching::Fetching;
use crate::run::ground::Ground;
use crate::run::learned::Learned;
use crate::run::names::Names;
use crate::run::options::Options;
use crate::run::output::Streams;
use crate::run::paths::Paths;
use crate::run::stats::{Stats, Trace, Why};
use crate::run::stored::Stored;
use crate::run::sys::{self, Pid};
use crate::run::tree::{Process, State, Tree};
use crate::run::undo::UndoLog;
use crate::wire::Reply;
use std::collections::{HashSet, VecDeque};
use std::fmt;
use std::io;
use std::os::fd::RawFd;
use std::sync::atomic::{AtomicBool, AtomicI32, Ordering};
use std::time::{Duration, Instant};

/// Why the command can't go on.
#[derive(Debug)]
pub enum Failure {
    /// The connection ended, or the server can't go on.
    Lost(String),
    /// Something on this machine can't be had.
    Broken(String),
}

impl fmt::Display for Failure {
    fn fmt(&self, out: &mut fmt::Formatter<'_>) -> fmt::Result {
        match self {
            Failure::Lost(why) => write!(out, "the server is lost: {why}"),
            Failure::Broken(why) => out.write_str(why),
        }
    }
}

impl From<io::Error> for Failure {
    fn from(e: io::Error) -> Failure {
        Failure::Lost(e.to_string())
    }
}

impl From<crate::run::inject::Gone> for Failure {
    fn from(g: crate::run::inject::Gone) -> Failure {
        Failure::Broken(format!("process {} ended while it was stopped", g.0))
    }
}

pub type Done<T = ()> = Result<T, Failure>;

/// Something is there to be read.
pub static READY: AtomicBool = AtomicBool::new(false);
/// A signal that is for the command.
pub static FORWARD: AtomicI32 = AtomicI32::new(0);
/// The process that began this one was killed.
pub static ORPHANED: AtomicBool = AtomicBool::new(false);

pub struct Supervisor {
    pub options: Options,
    pub ground: Ground,
    pub link: Link,
    /// What the server keeps of this run has this name; empty where nobody goes on with it.
    pub session: Vec<u8>,
    pub fetching: Fetching,
    pub tree: Tree,
    pub names: Names,
    pub paths: Paths,
    pub learned: Learned,
    pub handles: Handles,
    pub undo: UndoLog,
    pub stored: Stored,
    pub drafts: Drafts,
    /// Those that others have changed, until what was written here is written over that.
    pub changed_drafts: Vec<Name>,
    /// Those that were opened once more.
    pub reopened: Vec<FileId>,
    /// Files that the server told anew under epochs without their replies: these may take their local copies back to before.
    pub retold: HashSet<Name>,
    /// Replies that came while another was waited for.
    pub later: VecDeque<Reply>,
    pub streams: Streams,
    pub epochs: Epochs,
    pub stats: Stats,
    pub why: Why,
    pub trace: Trace,
    /// Who has our descriptors for the tree's processes.
    pub keeper: Pid,
    /// All processes are just being stopped.
    pub stopping: bool,
}

/// Signals are looked for in those that wait for children this often.
const LOOK_FOR_SIGNALS: Duration = Duration::from_millis(20);

impl Supervisor {
    /// Until all processes have ended, and all is decided; the first one's status.
    pub fn run(&mut self) -> Done<i32> {
        let mut looked = Instant::now();
        loop {
            let look = self.wait_for_events()?;
            if look {
                if looked.elapsed() > LOOK_FOR_SIGNALS {
                    self.let_signals_in();
                    self.misses_none()?;
                    looked = Instant::now();
                }
                if ORPHANED.load(Ordering::Relaxed) {
                    return Err(Failure::Broken("it was killed".to_owned()));
                }
                self.forward_signal();
                self.take_output()?;
                match self.receive() {
                    Err(Failure::Lost(why)) if self.options.resume => self.resume(&why)?,
                    received => received?,
                }
                self.close_old_epoch()?;
            }
            while let Some(pid) = self.tree.queue.pop_front() {
                self.on_call(pid)?;
            }
            self.keeps_all()?;
            if self.tree.all.is_empty() && self.is_all_decided()? {
                return Ok(self.tree.root_status.unwrap_or(0));
            }
        }
    }
    /// Each process that is taken to run is there.
    fn misses_none(&self) -> Done {
        let gone = |(pid, p): &(&Pid, &Process)| p.state == State::Running && !sys::is_there(**pid);
        match self.tree.all.iter().find(gone) {
            Some((pid, _)) => Err(Failure::Broken(format!("process {pid} is gone without a word"))),
            None => Ok(()),
        }
    }
    /// Waits until a process stops, or something can be read; true where it should be looked for the latter. A signal
    /// tells of it while a process runs; a tick makes up for one that came just before the wait.
    fn wait_for_events(&mut self) -> Done<bool> {
        if self.tree.any_running() {
            let Some(w) = sys::wait_or_signal() else { return Ok(true) };
            self.on_event(w)?;
            return Ok(READY.swap(false, Ordering::Relaxed));
        }
        if self.tree.queue.is_empty() && !(self.tree.all.is_empty() && self.epochs.is_quiet()) {
            let time = if self.epochs.current.is_some() { 1 } else { 20 };
            self.poll(time);
            self.reap_ended()?;
        }
        Ok(true)
    }
    fn poll(&self, time: i32) {
        let (input, output) = self.link.handles();
        let mut of: Vec<(RawFd, i16)> = vec![(input, libc::POLLIN)];
        if self.link.has_waiting() {
            of.push((output, libc::POLLOUT));
        }
        of.extend(self.streams.readers().map(|fd| (fd, libc::POLLIN)));
        let mut fds: Vec<libc::pollfd> =
            of.into_iter().map(|(fd, events)| libc::pollfd { fd, events, revents: 0 }).collect();
        // SAFETY: `fds` is as long as is said.
        unsafe { libc::poll(fds.as_mut_ptr(), fds.len() as libc::nfds_t, time) };
    }
    /// A process that is held may be killed.
    fn reap_ended(&mut self) -> Done {
        while let Some(w) = sys::wait_if_any() {
            self.on_event(w)?;
        }
        Ok(())
    }
    fn forward_signal(&mut self) {
        let signal = FORWARD.swap(0, Ordering::Relaxed);
        if signal != 0 && self.tree.all.contains_key(&self.tree.root) {
            sys::kill(self.tree.root, signal);
        }
    }
    /// All processes have ended: what they wrote is stored, and the replies are there.
    fn is_all_decided(&mut self) -> Done<bool> {
        self.take_all_closed();
        self.store_closed(None)?;
        self.take_output()?;
        self.close_epoch()?;
        let decided = self.epochs.is_quiet() && self.stored.due.is_empty() && self.streams.pending.is_empty();
        Ok(decided && self.tree.all.is_empty())
    }
    /// Takes in what was said. What was closed before it was said is stored first, so that it is not shown before that.
    pub fn take_output(&mut self) -> Done {
        self.streams.read();
        self.take_closed();
        self.book_stores()?;
        if !self.streams.pending.is_empty() && !self.stored.due.is_empty() && !self.stopping {
            self.store_closed(None)?;
        }
        self.say_pending();
        Ok(())
    }
    fn say_pending(&mut self) {
        if self.stored.due.is_empty() && !self.epochs.is_changing() {
            if let Some(e) = self.epochs.current.as_mut().filter(|_| !self.streams.pending.is_empty()) {
                e.says = true;
            }
            self.streams.say(&mut *self.epochs.decides);
        }
        self.trace.output(self.streams.said, self.streams.shown);
    }
    /// Kills all processes, and takes back what isn't decided.
    pub fn abandon(&mut self) {
        self.kill_all();
        for (_, a) in self.epochs.alone.drain() {
            crate::run::undo::take_back(a.undo);
        }
        self.undo.take_back_all();
        self.undo.close();
    }

    /// Lets a stopped process go on.
    pub fn go(&mut self, pid: Pid) {
        let Some(p) = self.tree.get_mut(pid) else { return };
        p.state = State::Running;
        p.hold = None;
        let process = p.facts.process;
        let signals = std::mem::take(&mut p.signals);
        self.tree.forget_copy(pid);
        // a process that was killed meanwhile tells so itself
        let _ = sys::go_on(pid, 0);
        for s in signals {
            sys::kill_thread(process, pid, s);
        }
    }
    /// Its call has this result; the kernel doesn't see the call.
    pub fn finish(&mut self, pid: Pid, result: i64) {
        let Some(p) = self.tree.get_mut(pid) else { return };
        let mut r = p.regs;
        if p.state != State::Entry {
            r.rip += 2;
        }
        r.orig_rax = u64::MAX;
        r.rax = result as u64;
        let _ = sys::set_registers(pid, &r);
        self.go(pid);
    }
    /// Sets a process that is stopped behind its call to make it once more.
    pub fn make_again(&mut self, pid: Pid) {
        let Some(p) = self.tree.get_mut(pid) else { return };
        let mut r = p.regs;
        r.rip -= 2;
        r.rax = r.orig_rax;
        r.orig_rax = u64::MAX;
        p.regs = r;
        p.state = State::Again;
        let _ = sys::set_registers(pid, &r);
    }
}
