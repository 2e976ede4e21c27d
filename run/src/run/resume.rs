//! The server was lost, and is back: what was decided stands, all else is undone here, and the command goes on.
use crate::client::Link;
use crate::name::Name;
use crate::run::epochs::Alone;
use crate::run::names::Known;
use crate::run::output;
use crate::run::start::all_names;
use crate::run::supervisor::{Done, Failure, Supervisor, FORWARD, ORPHANED};
use crate::wire::{Entry, Kind};
use std::collections::HashSet;
use std::sync::atomic::Ordering;
use std::time::Duration;

/// How long it is between two attempts.
const PAUSE: Duration = Duration::from_millis(300);

impl Supervisor {
    /// Waits until the server is there again. A signal to the command ends the wait, and with it the command.
    pub fn resume(&mut self, why: &str) -> Done {
        eprintln!("hidewillow-run: the server is lost: {why}; waits until it is back");
        self.trace.note("lost", &[]);
        self.stop_all()?;
        let (link, done, entries) = self.connect_again(why)?;
        self.link = link;
        self.later.clear();
        output::signal_when_ready(self.link.handles().0);
        self.take_as_done(done)?;
        self.undo_others(&entries)?;
        self.merge_drafts()?;
        eprintln!("hidewillow-run: the server is back");
        self.trace.note("back", &[("done", done)]);
        self.go_all(None)?;
        self.settled()
    }
    fn connect_again(&self, why: &str) -> Done<(Link, u64, Vec<Entry>)> {
        loop {
            std::thread::sleep(PAUSE);
            if FORWARD.load(Ordering::Relaxed) != 0 || ORPHANED.load(Ordering::Relaxed) {
                return Err(Failure::Lost(why.to_owned()));
            }
            let opened = self.ground.where_it_begins(|| Link::open_as(&self.options.at, &self.session));
            let Ok(Ok(mut link)) = opened else { continue };
            if let Ok((done, entries)) = all_names(&mut link, 0) {
                return Ok((link, done, entries));
            }
        }
    }
    /// The answers to these are lost; what the server notes of the last one says that all before it were accepted, too.
    fn take_as_done(&mut self, done: u64) -> Done {
        // [18]
        let sent = self.epochs.sent.iter().map(|e| e.number);
        let mut numbers: Vec<u64> = sent.chain(self.epochs.alone.keys().copied()).filter(|n| *n <= done).collect();
        numbers.sort_unstable();
        for number in numbers {
            match self.epochs.alone.remove(&number) {
                Some(a) => self.on_alone_accepted(a)?,
                None => self.on_accepted(number)?,
            }
        }
        Ok(())
    }
    /// All that the server has not done goes back to where it began, upon what the server has now.
    fn undo_others(&mut self, entries: &[Entry]) -> Done {
        if let Some(back) = self.epochs.decides.refused() {
            // [14]
            let oldest = self.epochs.sent.pop_front().or_else(|| self.epochs.current.take());
            let Some(epoch) = oldest.filter(|e| e.number == back.checkpoint) else {
                return Err(Failure::Broken(format!("no checkpoint {} to go back to", back.checkpoint)));
            };
            self.roll_back(epoch.snapshot, back, |s| {
                s.learn_again(entries);
                Ok(())
            })?;
            self.epochs.caution = 0;
            return Ok(());
        }
        self.fetching.forget_all();
        let alone: Vec<(u64, Alone)> = self.epochs.alone.drain().collect();
        self.learn_again(entries);
        for (number, a) in alone {
            self.on_alone_refused(number, Alone { falls: false, ..a }, &[], &[])?;
        }
        self.tree.wake(crate::run::tree::Hold::Fetch);
        Ok(())
    }
    /// Versions are good in the connection that told them: all are told anew. What is here stays where it is that still.
    fn learn_again(&mut self, entries: &[Entry]) {
        let there: HashSet<&Name> = entries.iter().map(|e| &e.name).collect();
        for name in self.names.within(&Name::root()) {
            let gone = !there.contains(&name) && self.names.get(&name).kind != Kind::Absent;
            if gone && !self.stored.due.contains(&name) {
                self.fresh_entry(&Entry { name, ..Entry::default() });
            }
        }
        for e in entries {
            let old = self.names.get(&e.name);
            if self.epochs.theirs.get(&old.version) == Some(&e.version) && old.kind == e.kind {
                self.set_told(&e.name, Known { version: e.version, ..old });
            } else {
                self.fresh_entry(e);
            }
            if e.kind == Kind::Folder {
                self.names.listed(&e.name);
            }
        }
        self.epochs.theirs.clear();
    }
}
