//! Waiting for children: all processes are the supervisor's, so who waits for whom is kept here.
use crate::run::inject::to_be_restarted;
use crate::run::supervisor::Supervisor;
use crate::run::sys::{self, Pid, Regs, SigInfo};
use crate::run::tree::{Ended, Hold, News, State};

/// Which children a call waits for.
#[derive(Clone, Copy)]
enum Which {
    Any,
    One(Pid),
    Group(Pid),
}

impl Which {
    fn fits(self, pid: Pid, group: Pid) -> bool {
        match self {
            Which::Any => true,
            Which::One(p) => p == pid,
            Which::Group(g) => g == group,
        }
    }
}

/// A call that waits, as its registers say.
struct Waits {
    which: Which,
    options: i32,
    is_waitid: bool,
}

impl Waits {
    /// It tells only, and may tell again.
    fn keeps(&self) -> bool {
        self.is_waitid && self.options & libc::WNOWAIT != 0
    }
}

const NO_CHILD: i64 = -(libc::ECHILD as i64);

fn waits(r: &Regs, number: i64, own_group: Pid) -> Option<Waits> {
    let is_waitid = number == libc::SYS_waitid;
    let (which, options) = if is_waitid {
        let which = match (r.rdi, r.rsi as i32) {
            (0, _) => Which::Any,
            (1, p) => Which::One(p),
            (2, 0) => Which::Group(own_group),
            (2, g) => Which::Group(g),
            _ => return None,
        };
        (which, r.r10 as i32)
    } else {
        let which = match r.rdi as i32 {
            -1 => Which::Any,
            0 => Which::Group(own_group),
            p if p > 0 => Which::One(p),
            g => Which::Group(-g),
        };
        (which, r.rdx as i32)
    };
    Some(Waits { which, options, is_waitid })
}

/// What a signal of a child's end tells.
pub fn end_info(e: &Ended) -> SigInfo {
    let mut i: SigInfo = [0; 32];
    let exited = libc::WIFEXITED(e.status);
    i[0] = libc::SIGCHLD;
    i[2] = match () {
        () if exited => libc::CLD_EXITED,
        () if libc::WIFSTOPPED(e.status) => libc::CLD_STOPPED,
        () if libc::WIFCONTINUED(e.status) => libc::CLD_CONTINUED,
        () if libc::WCOREDUMP(e.status) => libc::CLD_DUMPED,
        () => libc::CLD_KILLED,
    };
    i[4] = e.pid;
    i[6] = match () {
        () if exited => libc::WEXITSTATUS(e.status),
        () if libc::WIFSTOPPED(e.status) => libc::WSTOPSIG(e.status),
        () if libc::WIFCONTINUED(e.status) => libc::SIGCONT,
        () => libc::WTERMSIG(e.status),
    };
    i
}

fn usage_bytes(u: &libc::rusage) -> &[u8] {
    // SAFETY: plain numbers, read as the bytes that they are.
    unsafe { std::slice::from_raw_parts(std::ptr::from_ref(u).cast(), size_of::<libc::rusage>()) }
}
fn info_bytes(i: &SigInfo) -> Vec<u8> {
    i.iter().flat_map(|n| n.to_le_bytes()).collect()
}

impl Supervisor {
    /// A process waits for a child, and is held until there is one.
    pub fn wait_call(&mut self, pid: Pid) {
        match self.try_wait(pid) {
            Some(result) => self.finish(pid, result),
            None => self.tree.hold(pid, Hold::Child),
        }
    }
    /// Those that wait are looked at once more.
    pub fn retry_waits(&mut self) {
        for pid in self.tree.held(Hold::Child) {
            if let Some(result) = self.try_wait(pid) {
                self.finish(pid, result);
            }
        }
    }
    fn try_wait(&mut self, pid: Pid) -> Option<i64> {
        if self.epochs.is_storing() {
            // what an ended process has written is stored first
            return None;
        }
        let p = self.tree.get(pid)?;
        let (r, number) = (p.regs, p.call_number());
        let Some(parent) = self.tree.get(p.facts.process) else { return Some(NO_CHILD) };
        let Some(w) = waits(&r, number, parent.facts.group) else { return Some(-i64::from(libc::EINVAL)) };
        let process = p.facts.process;
        let Some(e) = self.take_ended(process, &w).or_else(|| self.take_news(process, &w)) else {
            return self.none_has_ended(pid, process, &r, &w);
        };
        let (info, usage) = if w.is_waitid { (r.rdx, r.r8) } else { (0, r.r10) };
        if info != 0 {
            sys::write_memory(pid, info, &info_bytes(&end_info(&e)));
        }
        if !w.is_waitid && r.rsi != 0 {
            sys::write_memory(pid, r.rsi, &e.status.to_le_bytes());
        }
        if usage != 0 {
            sys::write_memory(pid, usage, usage_bytes(&e.usage));
        }
        Some(if w.is_waitid { 0 } else { i64::from(e.pid) })
    }
    fn take_ended(&mut self, process: Pid, w: &Waits) -> Option<Ended> {
        if w.is_waitid && w.options & libc::WEXITED == 0 {
            return None;
        }
        let ended = &mut self.tree.get_mut(process)?.facts.ended;
        let at = ended.iter().position(|e| w.which.fits(e.pid, e.group))?;
        Some(if w.keeps() { ended[at].clone() } else { ended.remove(at) })
    }
    /// A child that was stopped, or goes on again, where the call asks for that.
    fn take_news(&mut self, process: Pid, w: &Waits) -> Option<Ended> {
        let wanted = |n: News| match n {
            News::Stopped(_) => w.options & libc::WUNTRACED != 0,
            News::GoesOn => w.options & libc::WCONTINUED != 0,
        };
        let children = self.tree.all.iter_mut().filter(|(_, c)| c.facts.parent == process && !c.thread);
        let mut told = children.filter(|(i, c)| w.which.fits(**i, c.facts.group) && c.facts.news.is_some_and(wanted));
        let (pid, c) = told.next()?;
        let status = c.facts.news?.status();
        if !w.keeps() {
            c.facts.news = None;
        }
        // SAFETY: plain numbers.
        let usage = unsafe { std::mem::zeroed() };
        Some(Ended { pid: *pid, group: c.facts.group, status, usage })
    }
    fn none_has_ended(&self, pid: Pid, process: Pid, r: &Regs, w: &Waits) -> Option<i64> {
        let mut others = self.tree.all.iter();
        if !others.any(|(c, q)| q.facts.parent == process && !q.thread && w.which.fits(*c, q.facts.group)) {
            return Some(NO_CHILD);
        }
        if w.options & libc::WNOHANG == 0 {
            return None;
        }
        if w.is_waitid && r.rdx != 0 {
            sys::write_memory(pid, r.rdx, &info_bytes(&[0; 32]));
        }
        Some(0)
    }
    /// One that is held in a wait is stopped, so signals don't reach it: they are looked for.
    pub fn let_signals_in(&mut self) {
        for pid in self.tree.held(Hold::Child) {
            let blocked = sys::signal_mask(pid);
            let pending = [false, true].map(|of_process| sys::pending(pid, of_process));
            let mut signals = pending.iter().flatten().map(|i| i[0]);
            if signals.any(|s| s > 0 && blocked >> (s - 1) & 1 == 0) {
                self.let_signal_in(pid);
            }
        }
    }
    /// It goes on as from a call that a signal interrupts; where no handler wants otherwise, it waits once more.
    fn let_signal_in(&mut self, pid: Pid) {
        let p = self.tree.at(pid);
        let (mut again, mut skip) = (p.regs, p.regs);
        if p.state != State::Entry {
            again.rip += 2;
            again.orig_rax = again.rax;
            skip.rip += 2;
        }
        skip.orig_rax = u64::MAX;
        again.rax = -512i64 as u64;
        skip.rax = -512i64 as u64;
        debug_assert!(to_be_restarted(-512));
        p.woken = Some(again);
        let _ = sys::set_registers(pid, &skip);
        self.go(pid);
    }
}
