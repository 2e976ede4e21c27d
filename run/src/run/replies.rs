//! What the server says.
use crate::run::epochs::{Alone, Epoch};
use crate::run::supervisor::{Done, Failure, Supervisor};
use crate::run::tree::{Hold, State};
use crate::run::{sys, undo, wrong};
use crate::wire::{Entry, Reply, Request, Step};
use std::time::Instant;

impl Supervisor {
    /// Takes in all replies that are there.
    pub fn receive(&mut self) -> Done {
        self.link.flush()?;
        while let Some(r) = self.next_reply()? {
            self.on_reply(r)?;
        }
        Ok(())
    }
    fn next_reply(&mut self) -> Done<Option<Reply>> {
        match self.later.pop_front() {
            Some(r) => Ok(Some(r)),
            None => Ok(self.link.receive()?),
        }
    }
    fn on_reply(&mut self, r: Reply) -> Done {
        match r {
            Reply::Welcome { .. } => Ok(()),
            Reply::Entries { id, entries, more } => self.on_entries(id, entries, more),
            Reply::Content { id, version, size, bytes } => self.on_content(id, version, size, bytes),
            Reply::Accepted { number, versions } => {
                if self.options.resume {
                    self.epochs.theirs.extend(versions);
                }
                match self.epochs.alone.remove(&number) {
                    Some(a) => self.on_alone_accepted(a),
                    None => self.on_accepted(number),
                }
            }
            Reply::Refused { number, stale, folders } => match self.epochs.alone.remove(&number) {
                Some(a) => self.on_alone_refused(number, a, &stale, &folders),
                None => self.on_refused(number, &stale, &folders),
            },
            Reply::Fault { why } => Err(Failure::Lost(String::from_utf8_lossy(&why.0).into_owned())),
        }
    }
    pub fn on_accepted(&mut self, number: u64) -> Done {
        let may_go = self.epochs.decides.accepted();
        if may_go != Some(number) || self.epochs.sent.front().map(|e| e.number) != Some(number) {
            return Err(Failure::Lost(format!("an answer to {number} where one to {may_go:?} is due")));
        }
        let way = self.epochs.sent.pop_front().map_or(self.epochs.way, |e| e.asked.elapsed());
        self.epochs.way = (self.epochs.way * 3 + way) / 4;
        self.epochs.fails = 0;
        self.trace.note("accepted", &[("number", number)]);
        self.streams.show(&mut *self.epochs.decides);
        self.trace.output(self.streams.said, self.streams.shown);
        self.undo.settle(number);
        self.settled()
    }
    /// Those that wait until all is decided go on, where it is.
    pub fn settled(&mut self) -> Done {
        if self.epochs.is_quiet() {
            self.epochs.settling = false;
            self.retold.clear();
        }
        if self.epochs.alone.is_empty() && !self.epochs.settling {
            self.tree.wake(Hold::Settled);
            self.retry_waits();
        }
        Ok(())
    }
    pub fn on_alone_accepted(&mut self, a: Alone) -> Done {
        self.epochs.caution = self.epochs.caution.saturating_sub(1);
        a.undo.into_iter().for_each(undo::forget);
        if !self.options.believe.is_zero() {
            let looked = a.steps.iter().filter_map(|s| if let Step::Look { name, .. } = s { Some(name) } else { None });
            self.epochs.believed.extend(looked.map(|n| (n.clone(), Instant::now())));
        }
        if a.made.is_some() {
            self.apply(&a.steps);
        }
        if a.store.is_some() {
            self.drafts_are_sent(&a.steps);
        }
        let alive = a.pid.filter(|p| self.tree.get(*p).is_some_and(|p| p.hold == Some(Hold::Reply)));
        if let Some(pid) = alive {
            self.tree.at(pid).hold = None;
            if a.made.is_some() {
                self.go(pid);
            } else {
                self.tree.at(pid).granted = true;
                self.tree.queue.push_back(pid);
            }
        }
        if a.made.is_some() {
            self.go_all(None)?;
        }
        self.settled()
    }
    /// A call that waited was refused: what it did here is undone, and it is made once more on what is there now.
    pub fn on_alone_refused(&mut self, number: u64, a: Alone, stale: &[Entry], folders: &[Vec<Entry>]) -> Done {
        self.stats.refused_waits += 1;
        self.trace.note("wait refused", &[("number", number)]);
        undo::take_back(a.undo);
        self.put_back_drafts(a.drafts);
        self.forget_retold();
        if a.falls {
            self.link.send(Request::Acknowledge { number })?;
        }
        if let Some(name) = &a.store {
            self.stored.forget(name);
            self.stored.is_due(name);
        }
        self.fresh(stale, folders);
        self.merge_drafts()?;
        let alive = a.pid.filter(|p| self.tree.get(*p).is_some_and(|p| p.hold == Some(Hold::Reply)));
        if let Some(pid) = alive {
            self.tree.at(pid).hold = None;
            match a.made {
                Some(opened) => self.unmake(pid, opened),
                None => self.tree.queue.push_back(pid),
            }
        }
        if a.made.is_some() {
            self.go_all(None)?;
        }
        self.settled()
    }
    /// A call that was made is made once more; the descriptor that it opened goes.
    fn unmake(&mut self, pid: sys::Pid, opened: Option<i64>) {
        if self.tree.get(pid).is_none_or(|p| p.state != State::Behind) {
            return;
        }
        self.make_again(pid);
        if let Some(fd) = opened {
            let p = self.tree.at(pid);
            let mut puppet = crate::run::inject::Puppet { pid, regs: p.regs, site: p.facts.site, signals: Vec::new() };
            let regs = p.regs;
            if puppet.call(libc::SYS_close, [fd as u64, 0, 0, 0]).is_ok() {
                let _ = sys::set_registers(pid, &regs);
            }
            self.tree.at(pid).signals.append(&mut puppet.signals);
        }
        self.go(pid);
    }
    fn on_refused(&mut self, number: u64, stale: &[Entry], folders: &[Vec<Entry>]) -> Done {
        self.trace.note("refused", &[("number", number)]);
        let Some(back) = self.epochs.decides.refused() else {
            return Err(Failure::Lost(format!("a refusal of {number} where none is due")));
        }; // [14]
        let at = self.epochs.sent.iter().position(|e| e.number == back.checkpoint);
        let Some(epoch) = at.and_then(|at| self.epochs.sent.remove(at)).filter(|e| e.number == number) else {
            return Err(Failure::Lost(format!("a refusal of {number} where one of {} is due", back.checkpoint)));
        };
        let Epoch { mut snapshot, .. } = epoch;
        if wrong::is(wrong::LATE_CHECKPOINT) {
            snapshot = self.epochs.sent.pop_front().or(self.epochs.current.take()).map_or(snapshot, |e| e.snapshot);
        }
        self.roll_back(snapshot, back, |s| {
            s.link.send(Request::Acknowledge { number })?;
            s.fresh(stale, folders);
            Ok(())
        })
    }
    /// What the server says that is there now.
    fn fresh(&mut self, stale: &[Entry], folders: &[Vec<Entry>]) {
        stale.iter().for_each(|e| self.fresh_entry(e));
        folders.iter().for_each(|f| self.fresh_folder(f));
    }
}
