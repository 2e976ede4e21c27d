//! Going back to a checkpoint: each process is made anew from its copy, with its old number.
use crate::name::Name;
use crate::run::checkpoint::{Pipe, Snapshot};
use crate::run::decides::Back;
use crate::run::descriptors::{Descriptor, Kind};
use crate::run::folders::{self, Again};
use crate::run::inject::Puppet;
use crate::run::names::Known;
use crate::run::paths::{bytes, Where};
use crate::run::supervisor::{Done, Failure, Supervisor};
use crate::run::sys::{self, Pid, SigInfo, Told};
use crate::run::tree::{Copy, Facts, Process, State, Thread};
use crate::run::{undo, wrong};
use crate::wire::{Kind as FileKind, Version};
use std::collections::{HashMap, HashSet};
use std::fs::{self, File};
use std::io::{Read, Write};
use std::os::fd::{AsRawFd, OwnedFd, RawFd};
use std::rc::Rc;
use std::time::Instant;

const NR_RSEQ: i64 = 334;

/// A description, by its file, its number and its flags.
type Key = (u64, u64, usize, i32);
/// Descriptions that were opened once more.
type Opened = HashMap<Key, OwnedFd>;

impl Supervisor {
    /// All goes back to a checkpoint; `fresh` then takes in what the server has.
    pub fn roll_back(&mut self, snapshot: Snapshot, back: Back, fresh: impl FnOnce(&mut Supervisor) -> Done) -> Done {
        let begin = Instant::now();
        self.stats.rollbacks += 1;
        self.kill_all();
        self.reopened.clear();
        self.forget_undecided(snapshot.said.clone());
        self.undo.take_back_all();
        self.handles.forget_all();
        self.stored.discard(&self.paths, snapshot.due.clone());
        // [14]
        for (name, version) in back.names {
            self.names.go_back(name, version);
        }
        self.forget_retold();
        self.names.forget_looks();
        self.watch_all();
        self.tree.root_status = snapshot.root_status;
        self.drafts.clone_from(&snapshot.drafts);
        let pipes = refill(&snapshot.pipes)?;
        let mut opened = Opened::new();
        for (pid, facts, copy) in &snapshot.processes {
            self.make_anew(*pid, facts, copy, &snapshot, &mut opened)?;
        }
        set_groups(&snapshot.processes, self.tree.group)?;
        fresh(self)?;
        self.merge_drafts()?;
        self.read_on(&snapshot, &opened)?;
        drop((pipes, opened));
        self.reopen_drafts();
        self.stats.rollback_time += begin.elapsed();
        self.trace.note("rolled back", &[("processes", snapshot.processes.len() as u64)]);
        self.go_all(None)
    }
    /// None of them runs any more afterwards.
    pub fn kill_all(&mut self) {
        let mut left: HashSet<Pid> = self.tree.all.keys().copied().filter(|p| sys::is_there(*p)).collect();
        left.iter().for_each(|p| sys::kill(*p, libc::SIGKILL));
        // who waits for a child that has its memory can only end with it, so in any order
        while !left.is_empty() {
            let Some(w) = sys::wait(-1) else { break };
            match w.told {
                Told::Ended(_) => drop(left.remove(&w.pid)),
                // a child that was just being born
                Told::Stopped(_) if !left.contains(&w.pid) => sys::kill(w.pid, libc::SIGKILL),
                Told::Stopped(_) => {}
            }
        }
        self.tree.early.drain().for_each(|p| sys::kill(p, libc::SIGKILL));
        self.tree.all.clear();
        self.tree.queue.clear();
    }
    /// What was guessed since, and what waited, is of what never was.
    fn forget_undecided(&mut self, said: Vec<(usize, Vec<u8>)>) {
        let alone: Vec<_> = self.epochs.alone.drain().collect();
        for (_, a) in alone {
            undo::take_back(a.undo);
        }
        self.epochs.current = None;
        self.epochs.sent.clear();
        self.epochs.settling = false;
        self.epochs.fails += 1;
        self.epochs.calm = Instant::now();
        self.epochs.caution = 1 << (self.epochs.fails - 1).min(6);
        self.fetching.forget_all();
        self.streams.take_back(&mut *self.epochs.decides, said);
    }
    /// The local copies of these are as before the server told of them: whatever comes to rest on one is refused, and told anew.
    pub fn forget_retold(&mut self) {
        let retold = std::mem::take(&mut self.retold);
        let all: HashSet<Name> = retold.iter().flat_map(|n| self.names.names_of_file(n)).collect();
        for n in all {
            let k = self.names.get(&n);
            if k.kind == FileKind::File {
                self.set_told(&n, Known { version: Version::UNKNOWN, ..k });
            }
        }
    }
    fn watch_all(&mut self) {
        if self.stored.watches_folders() {
            for folder in self.names.folders() {
                self.stored.watch(&self.names, &folder);
            }
        }
    }
    fn make_anew(&mut self, pid: Pid, facts: &Facts, copy: &Rc<Copy>, of: &Snapshot, opened: &mut Opened) -> Done {
        let mut maker = Puppet { pid: copy.pid, regs: copy.regs, site: facts.site, signals: Vec::new() };
        next_number(pid)?;
        let flags = (libc::CLONE_PARENT | libc::SIGCHLD) as u64;
        let child = maker.clone_at(copy.at_filter.take(), [flags, 0, 0, 0])?;
        if child != pid {
            return Err(Failure::Broken(format!("a process has the number {child} instead of {pid}")));
        }
        let mut puppet = Puppet { pid, regs: copy.regs, site: facts.site, signals: Vec::new() };
        self.give_descriptors(&mut puppet, copy, of, opened)?;
        if copy.robust.0 != 0 {
            puppet.call(libc::SYS_set_robust_list, [copy.robust.0, copy.robust.1, 0, 0])?;
        }
        send_again(&mut puppet, pid, &copy.pending)?;
        for t in &copy.threads {
            self.make_thread(&mut puppet, t)?;
        }
        set_registers(pid, &copy.regs)?;
        let mut p = Process::new(facts.clone(), State::Again, copy.regs, false);
        p.copy = Some(copy.clone());
        p.signals = puppet.signals;
        if facts.hears_ends && !facts.ended.is_empty() {
            p.signals.push(libc::SIGCHLD);
        }
        self.tree.all.insert(pid, p);
        self.trace.note("restored", &[("process", pid as u64)]);
        Ok(())
    }
    fn give_descriptors(&mut self, p: &mut Puppet, copy: &Copy, of: &Snapshot, opened: &mut Opened) -> Done {
        // higher than any of its own
        let far = copy.descriptors.last().map_or(0, |d| d.fd as u64 + 1).max(1);
        let keeper = p.call(libc::SYS_pidfd_open, [self.keeper as u64, 0, 0, 0])?;
        p.call(libc::SYS_dup3, [keeper as u64, far, libc::O_CLOEXEC as u64, 0])?;
        p.call(libc::SYS_close, [keeper as u64, 0, 0, 0])?;
        for d in &copy.descriptors {
            let ours = self.description(p.pid, d, of, opened)?;
            let got = p.call(libc::SYS_pidfd_getfd, [far, ours as u64, 0, 0])?;
            if got < 0 {
                return Err(Failure::Broken(format!("a descriptor of {} can't be had again: {got}", p.pid)));
            }
            let flags = if d.closes_on_exec { libc::O_CLOEXEC as u64 } else { 0 };
            if got != i64::from(d.fd) {
                p.call(libc::SYS_dup3, [got as u64, d.fd as u64, flags, 0])?;
                p.call(libc::SYS_close, [got as u64, 0, 0, 0])?;
            } else if !d.closes_on_exec {
                p.call(libc::SYS_fcntl, [d.fd as u64, libc::F_SETFD as u64, 0, 0])?;
            }
        }
        p.call(libc::SYS_close, [far, 0, 0, 0])?;
        Ok(())
    }
    /// Folders that were being read give what was left of them.
    fn read_on(&mut self, of: &Snapshot, opened: &Opened) -> Done {
        let again = of.readings.iter().filter_map(|r| {
            let at = opened.get(&group_of(r.pid, &r.of, of).0)?.as_raw_fd();
            let folder = match self.paths.place(bytes(&r.of.path())) {
                Where::Remote(n) => self.names.local(&n),
                Where::Scratch(p) => p,
                Where::Local(_) => return None,
            };
            folder.is_dir().then_some(Again { of: r, at, folder })
        });
        let all: Vec<Again> = again.collect();
        folders::read_on(&all, &mut self.undo).map_err(|e| Failure::Broken(format!("a folder that is read: {e}")))
    }
    /// Opens what a descriptor was of, once for all that shared it.
    fn description(&self, pid: Pid, d: &Descriptor, of: &Snapshot, opened: &mut Opened) -> Done<RawFd> {
        if let Kind::Output(i) = d.kind {
            return Ok(self.streams.end_of(i));
        }
        let (key, offset) = group_of(pid, d, of);
        if let Some(fd) = opened.get(&key) {
            return Ok(fd.as_raw_fd());
        }
        let mut not = libc::O_CREAT | libc::O_EXCL | libc::O_TRUNC | libc::O_NOFOLLOW;
        if matches!(d.kind, Kind::File { .. }) {
            not |= libc::O_TMPFILE;
        }
        let path = d.way_back();
        let non_blocking = if d.kind == Kind::Pipe { d.flags | libc::O_NONBLOCK } else { d.flags };
        let fd = sys::open(&path, non_blocking & !not)
            .map_err(|e| Failure::Broken(format!("descriptor {} of {pid} can't be opened again: {e}", d.fd)))?;
        let raw = fd.as_raw_fd();
        let is_read_on = matches!(d.kind, Kind::File { .. } | Kind::Folder) && !wrong::is(wrong::OFFSETS);
        // SAFETY: numbers only; the descriptor is ours.
        unsafe {
            if is_read_on {
                libc::lseek(raw, offset as i64, libc::SEEK_SET);
            } else if d.kind == Kind::Pipe {
                libc::fcntl(raw, libc::F_SETFL, d.flags);
            }
        }
        opened.insert(key, fd);
        Ok(raw)
    }
    /// Makes a thread of a process that was made anew, as it was.
    fn make_thread(&mut self, maker: &mut Puppet, t: &Thread) -> Done {
        next_number(t.tid)?;
        let flags = libc::CLONE_VM
            | libc::CLONE_FS
            | libc::CLONE_FILES
            | libc::CLONE_SIGHAND
            | libc::CLONE_THREAD
            | libc::CLONE_SYSVSEM
            | libc::CLONE_CHILD_CLEARTID;
        let child = maker.clone([flags as u64, t.regs.rsp, 0, t.facts.clear_at])?;
        if child != t.tid {
            return Err(Failure::Broken(format!("a thread has the number {child} instead of {}", t.tid)));
        }
        let mut p = Puppet { pid: child, regs: t.regs, site: maker.site, signals: Vec::new() };
        if t.rseq[0] != 0 {
            p.call(NR_RSEQ, [t.rseq[0], t.rseq[1] & 0xffff_ffff, 0, t.rseq[1] >> 32])?;
        }
        if t.robust.0 != 0 {
            p.call(libc::SYS_set_robust_list, [t.robust.0, t.robust.1, 0, 0])?;
        }
        if let Some(stack) = t.facts.signal_stack {
            let bytes: Vec<u8> = stack.iter().flat_map(|x| x.to_le_bytes()).collect();
            sys::write_memory(child, p.spare(), &bytes);
            p.call(libc::SYS_sigaltstack, [p.spare(), 0, 0, 0])?;
        }
        send_again(&mut p, t.facts.process, &[t.pending.clone(), Vec::new()])?;
        sys::set_float_state(child, &t.float);
        sys::set_signal_mask(child, t.mask);
        set_registers(child, &t.regs)?;
        let mut thread = Process::new(t.facts.clone(), State::Again, t.regs, true);
        thread.signals = p.signals;
        self.tree.all.insert(child, thread);
        Ok(())
    }
}

/// Which description a descriptor was of, and its offset.
fn group_of(pid: Pid, d: &Descriptor, of: &Snapshot) -> (Key, u64) {
    let (group, offset) = match of.shared.get(&(pid, d.fd)) {
        Some((g, o)) => (*g, *o),
        None if d.kind == Kind::Pipe => (0, 0),
        None => (1_000_000 + pid as usize * 4096 + d.fd as usize, d.offset),
    };
    ((d.device, d.inode, group, d.flags), offset)
}

/// Signals that were pending are so again: the first are the thread's, the others its process's.
fn send_again(p: &mut Puppet, process: Pid, pending: &[Vec<SigInfo>; 2]) -> Done {
    if pending.iter().all(Vec::is_empty) {
        return Ok(());
    }
    let mask = sys::signal_mask(p.pid);
    sys::set_signal_mask(p.pid, u64::MAX);
    for (i, all) in pending.iter().enumerate() {
        for info in all {
            let bytes: Vec<u8> = info.iter().flat_map(|n| n.to_le_bytes()).collect();
            let (process, thread, signal) = (process as u64, p.pid as u64, info[0] as u64);
            sys::write_memory(p.pid, p.spare(), &bytes);
            if i == 0 {
                p.call(libc::SYS_rt_tgsigqueueinfo, [process, thread, signal, p.spare()])?;
            } else {
                p.call(libc::SYS_rt_sigqueueinfo, [process, signal, p.spare(), 0])?;
            }
        }
    }
    sys::set_signal_mask(p.pid, mask);
    Ok(())
}

/// Groups are as they were, those of leaders first.
fn set_groups(processes: &[(Pid, Facts, Rc<Copy>)], first: Pid) -> Done {
    let all = processes.iter().map(|(pid, facts, _)| (*pid, facts.group)).filter(|(_, group)| *group != first);
    let (leaders, others): (Vec<_>, Vec<_>) = all.partition(|(pid, group)| pid == group);
    for (pid, group) in leaders.into_iter().chain(others) {
        if !sys::set_group(pid, group) {
            return Err(Failure::Broken(format!("process {pid} can't be in the group {group} again")));
        }
    }
    Ok(())
}

fn set_registers(pid: Pid, r: &sys::Regs) -> Done {
    sys::set_registers(pid, r).map_err(|e| Failure::Broken(format!("registers of {pid}: {e}")))
}

/// The next process that is made has this number.
fn next_number(pid: Pid) -> Done {
    fs::write("/proc/sys/kernel/ns_last_pid", (pid - 1).to_string())
        .map_err(|e| Failure::Broken(format!("ns_last_pid: {e}")))
}

/// Pipes have again what was in them. As long as these are held, their ends don't close.
fn refill(pipes: &[Pipe]) -> Done<Vec<File>> {
    let mut held = Vec::new();
    let mut buf = vec![0u8; 65536];
    for Pipe { handle, capacity, contents } in pipes {
        let broken = |e: std::io::Error| Failure::Broken(format!("a pipe: {e}"));
        let fd = sys::open(&sys::fd_path(handle.as_raw_fd()), libc::O_RDWR | libc::O_NONBLOCK).map_err(broken)?;
        let mut pipe = File::from(fd);
        while matches!(pipe.read(&mut buf), Ok(1..)) {}
        // SAFETY: numbers only.
        unsafe { libc::fcntl(pipe.as_raw_fd(), libc::F_SETPIPE_SZ, *capacity) };
        if !wrong::is(wrong::PIPE_EMPTY) {
            pipe.write_all(contents).map_err(broken)?;
        }
        held.push(pipe);
    }
    Ok(held)
}
