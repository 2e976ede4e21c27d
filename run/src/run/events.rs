//! What happens to processes: births, execs, ends, signals, and calls of which the filter tells.
use crate::run::inject::to_be_restarted;
use crate::run::inside::{self, Inside};
use crate::run::supervisor::{Done, Supervisor};
use crate::run::sys::{self, Pid, Regs, Stop, Told, Waited};
use crate::run::tree::{Bound, Ended, Facts, Hold, News, Process, State};
use crate::run::wrong;
use std::time::Instant;

impl Supervisor {
    pub fn on_event(&mut self, w: Waited) -> Done {
        let stop = match w.told {
            Told::Ended(status) => {
                self.tree.early.remove(&w.pid);
                return if self.tree.all.contains_key(&w.pid) { self.on_end(&w, status) } else { Ok(()) };
            }
            Told::Stopped(s) => s,
        };
        if !self.tree.all.contains_key(&w.pid) {
            self.tree.early.insert(w.pid);
            return Ok(());
        }
        match stop {
            Stop::Filter => self.on_filter(w.pid)?,
            Stop::Fork | Stop::Vfork | Stop::Clone => self.on_birth(w.pid, stop),
            Stop::Exec => self.on_exec(w.pid),
            Stop::Trap(libc::SIGTRAP) => {
                self.fix_registers(w.pid);
                if std::mem::take(&mut self.tree.at(w.pid).listens) {
                    self.tells_parent(w.pid, News::GoesOn);
                }
                self.go(w.pid);
            }
            Stop::Trap(signal) => {
                let _ = sys::listen(w.pid);
                self.on_group_stop(w.pid, signal);
            }
            Stop::Signal(s) => self.on_signal(w.pid, s),
            Stop::Call | Stop::Other => self.go(w.pid),
        }
        Ok(())
    }
    /// A signal has stopped it, until another.
    pub fn on_group_stop(&mut self, pid: Pid, signal: i32) {
        if !std::mem::replace(&mut self.tree.at(pid).listens, true) {
            self.tells_parent(pid, News::Stopped(signal));
        }
    }
    fn tells_parent(&mut self, pid: Pid, news: News) {
        let p = self.tree.at(pid);
        if p.thread {
            return;
        }
        p.facts.news = Some(news);
        let parent = p.facts.parent;
        if self.tree.get(parent).is_some_and(|q| q.facts.hears_ends && q.facts.hears_stops) {
            sys::kill(parent, libc::SIGCHLD);
        }
        self.retry_waits();
    }
    /// It is at a call: notes that, without looking at it.
    pub fn at_filter(&mut self, pid: Pid) -> bool {
        let Ok(r) = sys::registers(pid) else { return false };
        let p = self.tree.at(pid);
        p.regs = r;
        p.state = State::Entry;
        p.facts.site = r.rip - 2;
        p.listens = false;
        true
    }
    fn on_filter(&mut self, pid: Pid) -> Done {
        if self.at_filter(pid) {
            self.on_call(pid)?;
        }
        Ok(())
    }
    /// Its registers are as of its own call: the arguments of a fork that was made into a clone are what they were, and a wait that
    /// a signal is to end is one that is made again behind it, or not, as its handler wants it.
    pub fn fix_registers(&mut self, pid: Pid) {
        let Some(p) = self.tree.get_mut(pid) else { return };
        if let Some(r) = p.woken.take() {
            let _ = sys::set_registers(pid, &r);
        }
        let Some((number, a, b)) = p.fix.take() else { return };
        if let Ok(mut r) = sys::registers(pid) {
            r.rdi = a;
            r.rsi = b;
            if to_be_restarted(r.rax as i64) {
                // a stop came before it: it is made anew, as what it was
                r.orig_rax = number;
            }
            let _ = sys::set_registers(pid, &r);
        }
    }
    fn on_birth(&mut self, pid: Pid, stop: Stop) {
        let child = sys::event_pid(pid);
        let Ok(r) = sys::registers(pid) else { return };
        let thread = stop == Stop::Clone && r.rdi & libc::CLONE_THREAD as u64 != 0;
        let fix = self.tree.at(pid).fix;
        if stop != Stop::Vfork && !thread && r.rdi & libc::CLONE_VM as u64 != 0 {
            // two processes with one memory
            self.tree.at(pid).facts.inside = Inside::Never;
        }
        let mut p = Process::new(self.facts_of_child(pid, child, &r, thread), State::Running, r, thread);
        p.vforked = (stop == Stop::Vfork).then_some(pid);
        p.fix = fix;
        let early = self.tree.early.remove(&child);
        self.tree.all.insert(child, p);
        self.trace.note("birth", &[("process", child as u64), ("of", pid as u64), ("thread", u64::from(thread))]);
        self.fix_registers(pid);
        if early {
            self.fix_registers(child);
            let _ = sys::go_on(child, 0);
        }
        self.go(pid);
    }
    fn facts_of_child(&self, pid: Pid, child: Pid, r: &Regs, thread: bool) -> Facts {
        let of = self.tree.get(pid).map(|p| p.facts.clone()).unwrap_or_else(|| Facts::of_first(child, 0));
        let parent = self.tree.get(of.process);
        let bound = if thread { Vec::new() } else { inherited(&of.bound) };
        Facts {
            parent: if thread { of.parent } else { of.process },
            hears_ends: parent.is_some_and(|p| p.facts.hears_ends),
            ignores_ends: parent.is_some_and(|p| p.facts.ignores_ends),
            ended: Vec::new(),
            hears_stops: parent.is_some_and(|p| p.facts.hears_stops),
            news: None,
            process: if thread { of.process } else { child },
            clear_at: if r.rdi & libc::CLONE_CHILD_CLEARTID as u64 != 0 { r.r10 } else { 0 },
            signal_stack: if thread { None } else { of.signal_stack },
            bound,
            ..of
        }
    }
    fn on_exec(&mut self, pid: Pid) {
        let was = sys::event_pid(pid);
        self.tree.all.retain(|i, p| *i == pid || p.facts.process != pid);
        if was != pid {
            self.tree.all.remove(&was);
        }
        if self.trace.is_on() {
            let name = std::fs::read_to_string(format!("/proc/{pid}/comm")).unwrap_or_default();
            self.trace.note_named("program", &[("process", pid as u64)], Some(&name));
        }
        let p = self.tree.at(pid);
        p.vforked = None;
        p.thread = false;
        p.facts.hears_ends = false;
        p.facts.site = 0;
        p.facts.signal_stack = None;
        p.facts.inside = Inside::Not;
        p.facts.pieces.clear();
        p.facts.bound.retain(|b| !matches!(b, Bound::SharedMemory | Bound::Terminal));
        self.begins_inside(pid);
        self.go(pid);
    }
    fn on_signal(&mut self, pid: Pid, signal: i32) {
        self.tree.forget_copy(pid);
        // a fork that it ends is made anew behind its handler, and the handler's arguments are not the fork's
        let late = wrong::is(wrong::SIGNAL_IN_FORK).then(|| self.tree.at(pid).fix.take()).flatten();
        self.fix_registers(pid);
        self.tree.at(pid).fix = late;
        if let Some(r) = (signal == libc::SIGSEGV).then(|| inside::out_of_code(pid)).flatten() {
            let _ = sys::set_registers(pid, &r);
            let _ = sys::go_on(pid, 0);
            return;
        }
        let p = self.tree.at(pid);
        p.listens = false;
        let process = p.facts.process;
        if signal == libc::SIGCHLD {
            if let Some(e) = self.tree.get(process).and_then(|p| p.facts.ended.last()) {
                sys::set_signal_info(pid, &super::waiting::end_info(e));
            }
        }
        if signal == libc::SIGALRM {
            if let Some(p) = self.tree.get_mut(process) {
                p.facts.bind(Bound::Timer, false);
            }
        }
        self.tree.at(pid).state = State::Running;
        let _ = sys::go_on(pid, signal);
    }
    fn on_end(&mut self, w: &Waited, status: i32) -> Done {
        let pid = w.pid;
        let Some(p) = self.tree.all.remove(&pid) else { return Ok(()) };
        self.tree.queue.retain(|q| *q != pid);
        if pid == self.tree.root {
            self.tree.root_status = Some(status);
        }
        self.trace.note("end", &[("process", pid as u64), ("status", status as u64)]);
        if p.thread {
            self.tree.forget_copy(p.facts.process);
            return self.store_if_possible();
        }
        for c in self.tree.all.values_mut().filter(|c| c.facts.parent == pid) {
            c.facts.parent = 1;
        }
        let parent = p.facts.parent;
        self.tree.forget_copy(parent);
        if let Some(q) = self.tree.get_mut(parent).filter(|q| !q.facts.ignores_ends) {
            q.facts.ended.push(Ended { pid, group: p.facts.group, status, usage: w.usage });
        }
        // what it wrote is stored before its end is known
        self.store_if_possible()?;
        if self.tree.get(parent).is_some_and(|q| q.facts.hears_ends) {
            sys::kill(parent, libc::SIGCHLD);
        }
        self.retry_waits();
        Ok(())
    }
    fn store_if_possible(&mut self) -> Done {
        if self.stopping {
            self.take_closed();
            return Ok(());
        }
        self.store_closed(None).map(drop)
    }

    /// A process is about to make one of the calls that are looked at.
    pub fn on_call(&mut self, pid: Pid) -> Done {
        let begin = Instant::now();
        self.stats.stops += 1;
        let done = self.call(pid);
        self.stats.handling_time += begin.elapsed();
        done
    }
    fn call(&mut self, pid: Pid) -> Done {
        let Some(p) = self.tree.get(pid) else { return Ok(()) };
        match p.state {
            // it was copied while it was held
            State::Again => {
                self.go(pid);
                return Ok(());
            }
            State::Entry => {}
            _ => return Ok(()),
        }
        let (r, number) = (p.regs, p.regs.orig_rax as i64);
        match number {
            libc::SYS_clone | libc::SYS_fork | libc::SYS_vfork => self.fork_call(pid, number, r),
            libc::SYS_getppid => {
                let parent = self.tree.at(pid).facts.parent.max(1);
                self.finish(pid, i64::from(parent));
            }
            libc::SYS_wait4 | libc::SYS_waitid => {
                if self.store_closed(Some(pid))? {
                    self.wait_call(pid);
                }
            }
            libc::SYS_sigaltstack | libc::SYS_rt_sigaction => self.signal_call(pid, number, &r),
            libc::SYS_setpgid | libc::SYS_setsid => self.group_call(pid, number, &r)?,
            libc::SYS_read => self.terminal_read(pid)?,
            libc::SYS_fcntl if r.rsi as i32 == libc::F_SETFL => {
                if r.rdx as i32 & libc::O_APPEND != 0 {
                    self.appends_from_here(pid, r.rdi as i32);
                }
                self.go(pid);
            }
            _ if self.binding_call(pid, number, &r) => self.go(pid),
            _ => return self.file_call(pid, number, &r),
        }
        Ok(())
    }
    /// All processes are the supervisor's children, so that they keep their parents when they are made anew.
    fn fork_call(&mut self, pid: Pid, number: i64, r: Regs) {
        let mut n = r;
        n.orig_rax = libc::SYS_clone as u64;
        match number {
            libc::SYS_fork => (n.rdi, n.rsi) = (libc::SIGCHLD as u64, 0),
            libc::SYS_vfork => (n.rdi, n.rsi) = ((libc::CLONE_VFORK | libc::CLONE_VM | libc::SIGCHLD) as u64, 0),
            _ => {}
        }
        if n.rdi & libc::CLONE_THREAD as u64 == 0 {
            n.rdi |= libc::CLONE_PARENT as u64;
        }
        self.tree.at(pid).fix = Some((number as u64, r.rdi, r.rsi));
        let _ = sys::set_registers(pid, &n);
        self.go(pid);
    }
    fn signal_call(&mut self, pid: Pid, number: i64, r: &Regs) {
        let process = self.tree.at(pid).facts.process;
        if number == libc::SYS_sigaltstack && r.rdi != 0 {
            let word = |i: u64| sys::read_word(pid, r.rdi + i * 8).unwrap_or(0);
            self.tree.at(pid).facts.signal_stack = Some([word(0), word(1), word(2)]);
        } else if number == libc::SYS_rt_sigaction && r.rsi != 0 {
            let handler = sys::read_word(pid, r.rsi).unwrap_or(0);
            let flags = sys::read_word(pid, r.rsi + 8).unwrap_or(0);
            if let Some(p) = self.tree.get_mut(process) {
                p.facts.hears_ends = handler > 1;
                p.facts.hears_stops = flags & libc::SA_NOCLDSTOP as u64 == 0;
                p.facts.ignores_ends = handler == 1 || flags & libc::SA_NOCLDWAIT as u64 != 0;
            }
        }
        self.go(pid);
    }
    /// A process changes its group, or another's: who waits for a group has to know.
    fn group_call(&mut self, pid: Pid, number: i64, r: &Regs) -> Done {
        let own = self.tree.at(pid).facts.process;
        let whose = if number == libc::SYS_setsid || r.rdi == 0 { own } else { r.rdi as Pid };
        if whose != own {
            let result = self.group_of_child(own, whose, r.rsi as Pid);
            self.finish(pid, result);
        } else if self.run_call(pid, false)?.is_none() {
            // [11]
            return Ok(());
        }
        // SAFETY: a number only.
        let group = unsafe { libc::getpgid(whose) };
        if let Some(p) = self.tree.get_mut(whose).filter(|_| group >= 0) {
            p.facts.group = group;
            let sets = number == libc::SYS_setsid && p.regs.rax as i64 > 0;
            if sets {
                p.facts.bind(Bound::Session, true);
            }
        }
        self.tree.forget_copy(whose);
        if whose == own {
            self.go(pid);
        }
        Ok(())
    }
    /// The kernel has a parent alone do it, which is the supervisor.
    fn group_of_child(&self, parent: Pid, child: Pid, group: Pid) -> i64 {
        if self.tree.get(child).is_none_or(|c| c.thread || c.facts.parent != parent) {
            return -i64::from(libc::ESRCH);
        }
        match sys::set_group(child, group) {
            true => 0,
            false => -i64::from(std::io::Error::last_os_error().raw_os_error().unwrap_or(libc::EPERM)),
        }
    }
    /// What is read from a terminal can't be unread: all is decided before.
    fn terminal_read(&mut self, pid: Pid) -> Done {
        let path = std::fs::read_link(format!("/proc/{pid}/fd/0")).unwrap_or_default();
        if !path.starts_with("/dev") || path.ends_with("null") {
            self.go(pid);
            return Ok(());
        }
        // [16]
        if !self.epochs.decides.may_act() || !self.epochs.is_quiet() {
            self.settle()?;
            self.tree.hold(pid, Hold::Settled);
            return Ok(());
        }
        self.why.waits(Bound::Terminal.words());
        self.go(pid);
        self.tree.at(pid).reads_terminal = true;
        Ok(())
    }
    /// Calls after which a fork of the process has not all that it has; true where it is one.
    fn binding_call(&mut self, pid: Pid, number: i64, r: &Regs) -> bool {
        let (what, on) = match number {
            libc::SYS_setitimer => return self.set_timer(pid, r),
            libc::SYS_alarm => (Bound::Timer, r.rdi != 0),
            libc::SYS_timer_create => (Bound::Timers, true),
            libc::SYS_flock | libc::SYS_fcntl => (Bound::Lock, true),
            libc::SYS_shmat | libc::SYS_semget | libc::SYS_msgget | libc::SYS_mq_open => (Bound::SharedMemory, true),
            libc::SYS_mmap => (Bound::SharedMemory, true),
            libc::SYS_seccomp | libc::SYS_prctl => (Bound::OwnFilter, true),
            _ => return false,
        };
        if number != libc::SYS_mmap || is_written_through(pid, r) {
            self.bind(pid, what, on);
        }
        true
    }
    fn bind(&mut self, pid: Pid, what: Bound, on: bool) {
        let process = self.tree.at(pid).facts.process;
        if let Some(p) = self.tree.get_mut(process) {
            p.facts.bind(what, on);
        }
    }
    fn set_timer(&mut self, pid: Pid, r: &Regs) -> bool {
        // interval and first time, each in seconds and microseconds
        let word = |i: u64| sys::read_word(pid, r.rsi + i * 8).unwrap_or(0);
        let (repeats, goes_off) = (word(0) | word(1) != 0, word(2) | word(3) != 0);
        if r.rsi != 0 {
            let once = goes_off && !repeats && r.rdi == libc::ITIMER_REAL as u64;
            self.bind(pid, Bound::Timer, once);
            self.bind(pid, Bound::Timers, goes_off && !once);
        }
        true
    }
}

/// Whether memory that is shared is written: not where a file that can only be read is mapped.
fn is_written_through(pid: Pid, r: &Regs) -> bool {
    let anonymous = r.r10 & libc::MAP_ANONYMOUS as u64 != 0;
    let flags = if anonymous { None } else { super::descriptors::position(pid, r.r8 as i32).map(|(_, f)| f) };
    flags.is_none_or(|f| f & libc::O_ACCMODE != libc::O_RDONLY)
}

/// Bounds that a child has, too.
fn inherited(of: &[Bound]) -> Vec<Bound> {
    of.iter()
        .copied()
        .filter(|b| matches!(b, Bound::SharedMemory | Bound::OwnFilter | Bound::Lock | Bound::Session))
        .collect()
}
