//! A checkpoint of all processes at one moment: a stopped fork of each, and what a fork has not.
use crate::name::Name;
use crate::run::descriptors::{self, Descriptor, Kind};
use crate::run::drafts::Drafts;
use crate::run::folders::Reading;
use crate::run::inject::{self, to_be_restarted, Call, Copying};
use crate::run::paths::{bytes, Where};
use crate::run::supervisor::{Done, Supervisor};
use crate::run::sys::{self, Pid, Regs, Stop, Told};
use crate::run::tree::{Copy, Facts, State, Thread};
use std::cell::Cell;
use std::collections::HashMap;
use std::fs::File;
use std::io::{self, Read};
use std::os::fd::{AsRawFd, OwnedFd, RawFd};
use std::rc::Rc;
use std::time::Instant;

/// Descriptors of one description, by its number, and its offset.
type Shared = HashMap<(Pid, RawFd), (usize, u64)>;

/// A pipe, how much it holds, and what is in it.
pub struct Pipe {
    pub handle: Rc<OwnedFd>,
    pub capacity: libc::c_int,
    pub contents: Vec<u8>,
}

pub struct Snapshot {
    pub processes: Vec<(Pid, Facts, Rc<Copy>)>,
    /// Descriptors that are shared: the number of the description, and its offset.
    pub shared: Shared,
    /// Folders that are just being read.
    pub readings: Vec<Reading>,
    pub pipes: Vec<Pipe>,
    /// Files that had to be stored, and what was said after they were closed.
    pub due: Vec<Name>,
    pub said: Vec<(usize, Vec<u8>)>,
    pub root_status: Option<i32>,
    pub drafts: Drafts,
}

/// The registers with which a stopped process goes on, and with which its copy does.
fn registers_behind(state: State, r: &Regs) -> (Regs, Regs) {
    let mut a = *r;
    let number = a.orig_rax;
    let result = a.rax as i64;
    a.orig_rax = u64::MAX;
    match state {
        State::Entry => {
            a.rip -= 2;
            a.rax = number;
            (a, a)
        }
        State::Stopped if number as i64 >= 0 && to_be_restarted(result) => {
            a.rip -= 2;
            a.rax = number;
            let mut own = a;
            if result == -516 {
                own.rax = libc::SYS_restart_syscall as u64;
            }
            (own, a)
        }
        _ => (a, a),
    }
}

/// A process that is copied now.
struct Copied {
    pid: Pid,
    own: Regs,
    its: Regs,
    pending: [Vec<sys::SigInfo>; 2],
    child: Option<Pid>,
    /// The copy is at a stop of the filter.
    at_filter: bool,
    /// Signals that came in the meantime.
    signals: Vec<i32>,
}

impl Supervisor {
    /// Makes a checkpoint of all processes, which begins an epoch; false where one can't be copied now.
    pub fn checkpoint(&mut self, at: Option<Pid>) -> Done<bool> {
        if self.stopping {
            return Ok(false);
        }
        // [17]
        if let Some(why) = self.hinders() {
            self.why.waits(why);
            return Ok(false);
        }
        let begin = Instant::now();
        self.stop_all()?; // [13]
        let why = if self.tree.all.is_empty() { Some("all have ended") } else { self.hinders() };
        let why = match why {
            Some(w) => Some(w),
            None => self.copy_all()?,
        };
        if let Some(why) = why {
            self.why.waits(why);
            self.go_all(at)?;
            return Ok(false);
        }
        self.stats.checkpoints += 1;
        self.stats.checkpoint_times.push(begin.elapsed());
        self.epochs.cost = (self.epochs.cost * 3 + begin.elapsed()) / 4;
        self.go_all(at)?;
        Ok(true)
    }
    /// Why there can be no copy now of some process.
    fn hinders(&self) -> Option<&'static str> {
        let all = &self.tree.all;
        let has = |of: fn(&crate::run::tree::Process) -> bool| all.values().any(of);
        if let Some(b) = self.tree.bounds().first() {
            return Some(b.words());
        }
        match () {
            () if has(|p| p.vforked.is_some()) => Some("a child has its parent's memory until it runs a program"),
            () if has(|p| p.listens) => Some("a process is stopped by a signal"),
            () if has(|p| p.reads_terminal) => Some("a terminal being read"),
            () if all.values().any(|p| self.tree.has_lost_leader(&p.facts)) => Some("a group has lost its leader"),
            () if has(|p| p.facts.site == 0 && p.state != State::Running) => Some("a program has just begun"),
            () if all.values().any(|p| p.thread && !all.contains_key(&p.facts.process)) => {
                Some("a process has lost its first thread")
            }
            () => None,
        }
    }
    /// Stops every process. One whose memory a child has stands still as long as that does.
    pub fn stop_all(&mut self) -> Done {
        self.stopping = true;
        let done = self.stop_running();
        self.stopping = false;
        done
    }
    fn stop_running(&mut self) -> Done {
        loop {
            let mut running: Vec<Pid> =
                self.tree.all.iter().filter(|(_, p)| p.state == State::Running).map(|(i, _)| *i).collect();
            running.retain(|pid| !self.tree.lends_memory(*pid));
            if running.is_empty() {
                return Ok(());
            }
            running.sort_unstable();
            for pid in &running {
                let _ = sys::interrupt(*pid);
            }
            for pid in running {
                self.stop(pid)?;
            }
        }
    }
    /// Waits until a process that was interrupted has stopped.
    fn stop(&mut self, pid: Pid) -> Done {
        while self.tree.get(pid).is_some_and(|p| p.state == State::Running) && !self.tree.lends_memory(pid) {
            let Some(w) = sys::wait(pid) else { return Ok(()) };
            match w.told {
                Told::Stopped(Stop::Trap(signal)) => {
                    self.fix_registers(pid);
                    let Ok(r) = sys::registers(pid) else { continue };
                    let p = self.tree.at(pid);
                    p.regs = r;
                    p.state = State::Stopped;
                    p.reads_terminal = false;
                    if signal == libc::SIGTRAP {
                        p.listens = false;
                    } else {
                        self.on_group_stop(pid, signal);
                    }
                }
                Told::Stopped(Stop::Filter) => {
                    if self.at_filter(pid) {
                        self.tree.queue.push_back(pid);
                    }
                }
                Told::Stopped(_) => {
                    self.on_event(w)?;
                    let _ = sys::interrupt(pid);
                }
                Told::Ended(_) => self.on_event(w)?,
            }
        }
        Ok(())
    }
    /// Lets those go on that were stopped for others' sake.
    pub fn go_all(&mut self, but: Option<Pid>) -> Done {
        let stopped: Vec<Pid> = self
            .tree
            .all
            .iter()
            .filter(|(i, p)| Some(**i) != but && p.hold.is_none() && matches!(p.state, State::Again | State::Stopped))
            .map(|(i, _)| *i)
            .collect();
        self.go_each(&stopped);
        Ok(())
    }
    /// Lets those of them go on that were stopped and aren't held.
    pub fn go_each(&mut self, pids: &[Pid]) {
        for pid in pids {
            let Some(p) = self.tree.get(*pid).filter(|p| p.hold.is_none()) else { continue };
            if !matches!(p.state, State::Again | State::Stopped) {
                continue;
            }
            self.tree.queue.retain(|q| q != pid);
            if self.tree.at(*pid).listens {
                self.tree.at(*pid).state = State::Running;
                let _ = sys::listen(*pid);
            } else {
                self.go(*pid);
            }
        }
    }
    /// Copies all that have run since they were copied, and begins an epoch; or says why that can't be.
    fn copy_all(&mut self) -> Done<Option<&'static str>> {
        self.stopping = true;
        self.take_all_closed();
        let taken = self.take_output();
        self.stopping = false;
        taken?;
        let all = self.tree.processes();
        let due: Vec<Pid> =
            all.iter().copied().filter(|p| self.tree.get(*p).is_some_and(|p| p.copy.is_none())).collect();
        self.stats.kept_copies += (all.len() - due.len()) as u64;
        let mut tables = HashMap::new();
        for pid in &due {
            let t = descriptors::of(*pid, &self.streams, &mut self.handles);
            if let Some(why) = self.unkept(&t) {
                return Ok(Some(why));
            }
            tables.insert(*pid, t);
        }
        if !self.fork_all(&due, &mut tables)? {
            return Ok(Some("a process has ended"));
        }
        let snapshot = self.snapshot(&all);
        let writing = self.open_for_writing(&all);
        self.begin_epoch(snapshot)?;
        if let Some(epoch) = self.epochs.newest() {
            for handle in writing.values() {
                // [15]
                if let Some(u) = self.undo.keep_open(handle) {
                    self.undo.add(epoch, u);
                }
            }
        }
        self.keeps_all()?;
        Ok(None)
    }
    /// Why one of these descriptors can't be opened once more.
    fn unkept(&self, table: &[Descriptor]) -> Option<&'static str> {
        table.iter().find_map(|d| match d.kind {
            Kind::Other => Some("a socket, an event queue, a timer or another descriptor without a name is open"),
            Kind::Terminal if d.fd != 0 => Some("a terminal is open"),
            Kind::File { writing: true } if d.device != self.ground.device => {
                let path = d.path();
                let text = bytes(&path).strip_suffix(b" (deleted)").unwrap_or(bytes(&path));
                let scratch = matches!(self.paths.place(text), Where::Scratch(_));
                (!scratch).then_some("a file outside of the mount is open for writing")
            }
            _ => None,
        })
    }
    /// What has to be known of one that is about to be copied.
    fn about_to_copy(&self, pid: Pid) -> Option<Copied> {
        let p = self.tree.get(pid)?;
        let (own, its) = registers_behind(p.state, &p.regs);
        let mut pending = [sys::pending(pid, false), sys::pending(pid, true)];
        pending[0].extend(p.signals.iter().map(|s| signal_of_user(*s)));
        Some(Copied { pid, own, its, pending, child: None, at_filter: false, signals: Vec::new() })
    }
    /// Those that have the board make their copies by themselves, all at once.
    fn copy_inside(&self, mut all: Vec<Copied>) -> Vec<Copied> {
        let mut making: Vec<Copying> = all.iter().map(|c| Copying::begin(c.pid, &c.own)).collect();
        inject::copied(&mut making);
        for (c, made) in all.iter_mut().zip(making) {
            (c.child, c.signals, c.at_filter) = (made.child, made.signals, true);
        }
        all
    }
    /// All forks at once; then all copies close their descriptors at once. Also the ends of others that came in between.
    fn fork_others(&mut self, mut all: Vec<Copied>) -> (Vec<Copied>, Vec<sys::Waited>) {
        let mut forks: Vec<Call> = all.iter().map(|c| self.fork_of(c)).collect();
        let mut ends = inject::make(&mut forks);
        let mut closes = Vec::new();
        for (f, c) in forks.iter_mut().zip(&mut all) {
            c.child = (!f.gone && f.child > 0 && f.result > 0).then_some(f.child);
            c.signals.append(&mut f.signals);
            let table = [0, u64::from(u32::MAX), 0, 0];
            let site = self.tree.at(c.pid).facts.site;
            closes.extend(c.child.map(|child| Call::new(child, c.its, false, site, libc::SYS_close_range, table)));
        }
        ends.extend(inject::make(&mut closes));
        for gone in closes.iter().filter(|c| c.gone) {
            all.iter_mut().filter(|c| c.child == Some(gone.pid)).for_each(|c| c.child = None);
        }
        (all, ends)
    }
    fn fork_of(&self, c: &Copied) -> Call {
        let p = self.tree.get(c.pid);
        let at_filter = p.is_some_and(|p| p.state == State::Entry);
        let (base, site) = p.map_or((c.own, 0), |p| (if at_filter { p.regs } else { c.own }, p.facts.site));
        let args = [(libc::CLONE_PARENT | libc::SIGCHLD) as u64, 0, 0, 0];
        Call::new(c.pid, base, at_filter, site, libc::SYS_clone, args)
    }
    /// Makes copies of all these, which are stopped and have no descriptors.
    fn fork_all(&mut self, due: &[Pid], tables: &mut HashMap<Pid, Vec<Descriptor>>) -> Done<bool> {
        let all: Vec<Copied> = due.iter().filter_map(|pid| self.about_to_copy(*pid)).collect();
        let (inside, others): (Vec<_>, Vec<_>) = all.into_iter().partition(|c| self.has_board(c.pid));
        let mut all = self.copy_inside(inside);
        let (others, ends) = self.fork_others(others);
        all.extend(others);
        let whole = all.iter().all(|c| c.child.is_some());
        for c in all {
            let table = tables.remove(&c.pid).unwrap_or_default();
            self.keep_copy(c, table, whole);
        }
        self.ended_meanwhile(ends)?;
        Ok(whole)
    }
    /// Takes in what became of a process that was to be copied.
    fn keep_copy(&mut self, mut c: Copied, descriptors: Vec<Descriptor>, whole: bool) {
        let _ = sys::set_registers(c.pid, &c.own);
        let p = self.tree.at(c.pid);
        (p.state, p.regs) = (State::Again, c.own);
        p.signals.append(&mut c.signals);
        let Some(pid) = c.child else { return };
        let threads = self.copy_threads(c.pid);
        if self.tree.at(c.pid).facts.group != self.tree.group {
            // the group's number is the leader's, which is to be had again
            sys::set_group(pid, pid);
        }
        let robust = sys::robust_list(c.pid);
        let at_filter = Cell::new(c.at_filter);
        let copy = Rc::new(Copy { pid, regs: c.its, descriptors, threads, pending: c.pending, robust, at_filter });
        self.stats.copies += 1;
        self.tree.at(c.pid).copy = whole.then_some(copy);
    }
    fn ended_meanwhile(&mut self, ends: Vec<sys::Waited>) -> Done {
        self.stopping = true;
        for w in ends {
            self.on_event(w)?;
        }
        self.stopping = false;
        Ok(())
    }
    fn copy_threads(&mut self, process: Pid) -> Vec<Thread> {
        let mut v = Vec::new();
        for tid in self.tree.threads_of(process) {
            let p = self.tree.at(tid);
            let (_, its) = registers_behind(p.state, &p.regs);
            v.push(Thread {
                tid,
                facts: p.facts.clone(),
                regs: its,
                float: sys::float_state(tid),
                mask: sys::signal_mask(tid),
                rseq: sys::rseq(tid),
                robust: sys::robust_list(tid),
                pending: sys::pending(tid, false),
            });
        }
        v
    }
    fn snapshot(&self, all: &[Pid]) -> Snapshot {
        let processes: Vec<(Pid, Facts, Rc<Copy>)> = all
            .iter()
            .filter_map(|i| self.tree.get(*i).map(|p| (*i, p)))
            .filter_map(|(i, p)| p.copy.clone().map(|c| (i, p.facts.clone(), c)))
            .collect();
        let mut pipes: HashMap<u64, Rc<OwnedFd>> = HashMap::new();
        for d in processes.iter().flat_map(|(_, _, c)| &c.descriptors).filter(|d| d.kind == Kind::Pipe) {
            pipes.entry(d.inode).or_insert_with(|| d.handle.clone());
        }
        Snapshot {
            readings: self.readings(&processes),
            shared: shared_descriptions(&processes),
            pipes: pipes.into_values().filter_map(|handle| Pipe::of(handle).ok()).collect(),
            processes,
            due: self.stored.due.clone(),
            said: self.streams.pending.clone(),
            root_status: self.tree.root_status,
            drafts: self.drafts.clone(),
        }
    }
    /// Folders that are just being read, and that we may have to put names back into.
    fn readings(&self, processes: &[(Pid, Facts, Rc<Copy>)]) -> Vec<Reading> {
        let all = processes.iter().flat_map(|(pid, _, c)| c.descriptors.iter().map(|d| (*pid, d)));
        all.filter(|(_, d)| d.kind == Kind::Folder && self.undo.has_folder(d.device))
            .filter_map(|(pid, d)| Some((pid, d, descriptors::position(pid, d.fd)?.0)))
            .filter(|(_, _, position)| *position > 0)
            .filter_map(|(pid, d, position)| Reading::at(pid, d, position).ok())
            .collect()
    }
    /// Files that are open for writing, by their inodes.
    fn open_for_writing(&self, all: &[Pid]) -> HashMap<(u64, u64), Rc<OwnedFd>> {
        let copies = all.iter().filter_map(|p| self.tree.get(*p)?.copy.as_ref());
        let writing = copies.flat_map(|c| &c.descriptors).filter(|d| d.kind == Kind::File { writing: true });
        writing.map(|d| ((d.device, d.inode), d.handle.clone())).collect()
    }
}

fn signal_of_user(signal: i32) -> sys::SigInfo {
    let mut i = [0; 32];
    i[0] = signal;
    i
}

/// Which descriptors of files are one description, with its offset.
fn shared_descriptions(processes: &[(Pid, Facts, Rc<Copy>)]) -> Shared {
    let mut same_file: HashMap<(u64, u64, i32), Vec<(Pid, RawFd)>> = HashMap::new();
    for (pid, _, c) in processes {
        for d in c.descriptors.iter().filter(|d| matches!(d.kind, Kind::File { .. } | Kind::Folder)) {
            same_file.entry((d.device, d.inode, d.flags)).or_default().push((*pid, d.fd));
        }
    }
    let mut shared = HashMap::new();
    let mut groups = 0;
    for mut all in same_file.into_values().filter(|v| v.len() > 1) {
        all.sort_by(|a, b| sys::compare_descriptions(*a, *b));
        for same in all.chunk_by(|a, b| sys::compare_descriptions(*a, *b).is_eq()) {
            groups += 1;
            let offset = descriptors::position(same[0].0, same[0].1).map_or(0, |(o, _)| o);
            shared.extend(same.iter().map(|one| (*one, (groups, offset))));
        }
    }
    shared
}

impl Pipe {
    fn of(handle: Rc<OwnedFd>) -> io::Result<Pipe> {
        let from = sys::open(&sys::fd_path(handle.as_raw_fd()), libc::O_RDONLY | libc::O_NONBLOCK)?;
        // SAFETY: numbers only.
        let capacity = unsafe { libc::fcntl(from.as_raw_fd(), libc::F_GETPIPE_SZ) };
        let contents = peek(&from, capacity)?;
        Ok(Pipe { handle, capacity, contents })
    }
}

/// What is in a pipe, which stays there.
fn peek(from: &OwnedFd, capacity: libc::c_int) -> io::Result<Vec<u8>> {
    let (mut n, mut contents): (libc::c_int, Vec<u8>) = (0, Vec::new());
    // SAFETY: the number is ours.
    unsafe { libc::ioctl(from.as_raw_fd(), libc::FIONREAD, &raw mut n) };
    if n <= 0 {
        return Ok(contents);
    }
    let (read, write) = crate::run::output::pipe()?;
    // SAFETY: numbers only.
    unsafe {
        libc::fcntl(write.as_raw_fd(), libc::F_SETPIPE_SZ, capacity.max(n));
        libc::tee(from.as_raw_fd(), write.as_raw_fd(), n as usize, libc::SPLICE_F_NONBLOCK);
    }
    drop(write);
    File::from(read).read_to_end(&mut contents)?;
    Ok(contents)
}
