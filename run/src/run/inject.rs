//! Calls that a stopped process is made to make.
use crate::run::inside;
use crate::run::sys::{self, Pid, Regs, Stop, Told, Waited};
use std::collections::{HashMap, HashSet};

/// A process ended, or could not be made to make its call.
#[derive(Debug, Clone, Copy)]
pub struct Gone(pub Pid);

/// A call that a stopped process is to make. Afterwards it is stopped, and its registers are for the caller to set.
pub struct Call {
    pub pid: Pid,
    base: Regs,
    /// It is at a stop of the filter (so the call it is at is replaced), or within the call.
    inside: bool,
    site: u64,
    number: i64,
    args: [u64; 4],
    /// The child that it made.
    pub child: Pid,
    pub result: i64,
    /// Signals that came in the meantime: they are due when it goes on.
    pub signals: Vec<i32>,
    pub gone: bool,
}

/// Results by which the kernel tells that a call is made again behind a signal.
pub fn to_be_restarted(result: i64) -> bool {
    (-516..=-512).contains(&result)
}

impl Call {
    /// `site`: where the process has a `syscall` instruction.
    pub fn new(pid: Pid, base: Regs, at_filter: bool, site: u64, number: i64, args: [u64; 4]) -> Call {
        Call { pid, base, inside: at_filter, site, number, args, child: 0, result: 0, signals: Vec::new(), gone: false }
    }
    fn start(&self) -> bool {
        let mut r = self.base;
        [r.rdi, r.rsi, r.rdx, r.r10] = self.args;
        if self.inside {
            r.orig_rax = self.number as u64;
        } else {
            r.rip = self.site;
            r.rax = self.number as u64;
            r.orig_rax = u64::MAX;
        }
        sys::set_registers(self.pid, &r).is_ok() && sys::to_call(self.pid).is_ok()
    }
    /// Takes in what happened to the process; true where its call is made.
    fn on(&mut self, told: Told) -> bool {
        match told {
            Told::Ended(_) => {
                self.gone = true;
                return true;
            }
            Told::Stopped(Stop::Fork | Stop::Vfork | Stop::Clone) => self.child = sys::event_pid(self.pid),
            Told::Stopped(Stop::Call) if !self.inside => self.inside = true,
            Told::Stopped(Stop::Call) => {
                self.result = sys::registers(self.pid).map_or(-(libc::ESRCH as i64), |r| r.rax as i64);
                if !to_be_restarted(self.result) {
                    return true;
                }
                self.inside = false;
                self.gone = !self.start();
                return self.gone;
            }
            Told::Stopped(Stop::Signal(s)) => self.signals.push(s),
            Told::Stopped(_) => {}
        }
        self.gone = sys::to_call(self.pid).is_err();
        self.gone
    }
}

/// Has each of these make its call, all at once; a child that one makes is stopped then. Returns the ends of others,
/// which came in between.
pub fn make(calls: &mut [Call]) -> Vec<Waited> {
    if let [one] = calls {
        make_one(one);
        return Vec::new();
    }
    let mut ends = Vec::new();
    let mut at: HashMap<Pid, usize> = HashMap::new();
    for (k, c) in calls.iter_mut().enumerate() {
        c.gone = !c.start();
        if !c.gone {
            at.insert(c.pid, k);
        }
    }
    let mut born: HashSet<Pid> = HashSet::new();
    while !at.is_empty() {
        let Some(w) = sys::wait(-1) else { break };
        match at.get(&w.pid) {
            Some(k) if calls[*k].on(w.told) => {
                at.remove(&w.pid);
                ends.extend(matches!(w.told, Told::Ended(_)).then_some(w));
            }
            Some(_) => {}
            None if matches!(w.told, Told::Ended(_)) => ends.push(w),
            None => drop(born.insert(w.pid)),
        }
    }
    for c in calls.iter() {
        if c.child != 0 && !born.remove(&c.child) {
            sys::wait(c.child);
        }
    }
    ends
}

fn make_one(c: &mut Call) {
    c.gone = !c.start();
    while !c.gone {
        let Some(w) = sys::wait(c.pid) else {
            c.gone = true;
            return;
        };
        if c.on(w.told) {
            if matches!(w.told, Told::Ended(_)) {
                sys::put_back(w);
            }
            break;
        }
    }
    if c.child != 0 {
        sys::wait(c.child);
    }
}

/// Goes on with a process until the filter tells of the call by which it says that it is done; false where it has ended.
pub fn until_seen(pid: Pid, signals: &mut Vec<i32>) -> bool {
    while let Some(w) = sys::wait(pid) {
        match w.told {
            Told::Ended(_) => {
                sys::put_back(w);
                return false;
            }
            Told::Stopped(Stop::Filter) => return true,
            Told::Stopped(Stop::Signal(s)) => signals.push(s),
            Told::Stopped(_) => {}
        }
        // one that was killed meanwhile tells so itself
        let _ = sys::go_on(pid, 0);
    }
    false
}

/// A process that makes a copy of itself, by code that it has on its board.
pub struct Copying {
    pub pid: Pid,
    /// The copy, where there is one: stopped, and without descriptors.
    pub child: Option<Pid>,
    pub signals: Vec<i32>,
}

impl Copying {
    /// `own`: the registers with which it goes on then, for the caller to set again.
    pub fn begin(pid: Pid, own: &Regs) -> Copying {
        let flags = libc::CLONE_PARENT | libc::CLONE_PTRACE | libc::CLONE_UNTRACED | libc::SIGCHLD;
        let mut r = *own;
        (r.rip, r.orig_rax) = (inside::copies_place(), u64::MAX);
        (r.rdi, r.rsi, r.rdx, r.r10, r.r8) = (flags as u64, 0, 0, 0, 0);
        let _ = sys::set_registers(pid, &r).and_then(|()| sys::go_on(pid, 0));
        Copying { pid, child: None, signals: Vec::new() }
    }
    fn told(&mut self) {
        let done = until_seen(self.pid, &mut self.signals);
        let made = if done { sys::registers(self.pid).map_or(0, |r| r.r15 as i64) } else { 0 };
        self.child = (made > 0).then_some(made as Pid);
    }
    /// Lets the copy go on that has just been born.
    fn lets_go(&self) {
        if let Some(child) = self.child {
            match sys::wait(child) {
                Some(w) if matches!(w.told, Told::Ended(_)) => sys::put_back(w),
                _ => drop(sys::go_on(child, 0)),
            }
        }
    }
}

/// Waits until all that have begun have their copies; one that ended, or whose copy did, has none.
pub fn copied(all: &mut [Copying]) {
    all.iter_mut().for_each(Copying::told);
    all.iter().for_each(Copying::lets_go);
    for c in all {
        c.child = c.child.filter(|child| until_seen(*child, &mut Vec::new()));
    }
}

/// A process that is stopped outside of its calls, with where it has a `syscall` instruction.
pub struct Puppet {
    pub pid: Pid,
    pub regs: Regs,
    pub site: u64,
    pub signals: Vec<i32>,
}

impl Puppet {
    /// Has it make a call; the result is what the kernel gave.
    pub fn call(&mut self, number: i64, args: [u64; 4]) -> Result<i64, Gone> {
        self.run_at(false, number, args).map(|c| c.result)
    }
    /// The same at a stop of the filter, in the place of the call that it is at.
    pub fn call_here(&mut self, number: i64, args: [u64; 4]) -> Result<i64, Gone> {
        self.run_at(true, number, args).map(|c| c.result)
    }
    fn run_at(&mut self, at_filter: bool, number: i64, args: [u64; 4]) -> Result<Call, Gone> {
        let mut c = Call::new(self.pid, self.regs, at_filter, self.site, number, args);
        make_one(&mut c);
        self.signals.append(&mut c.signals);
        if c.gone {
            Err(Gone(self.pid))
        } else {
            Ok(c)
        }
    }
    /// Has it make a process or a thread, which is stopped then.
    pub fn clone(&mut self, args: [u64; 4]) -> Result<Pid, Gone> {
        self.clone_at(false, args)
    }
    /// The same, where it may be at a stop of the filter.
    pub fn clone_at(&mut self, at_filter: bool, args: [u64; 4]) -> Result<Pid, Gone> {
        let c = self.run_at(at_filter, libc::SYS_clone, args)?;
        if c.child == 0 || c.result <= 0 {
            Err(Gone(self.pid))
        } else {
            Ok(c.child)
        }
    }
    /// Memory that it does not use: below its stack, with room for what compilers keep there.
    pub fn spare(&self) -> u64 {
        (self.regs.rsp - 1024) & !15
    }
}
