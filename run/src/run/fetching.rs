//! What is not here yet of the server's folder, and stores of what was written here.
use crate::codec::Bytes;
use crate::name::Name;
use crate::run::acts::put;
use crate::run::calls::Use;
use crate::run::epochs::{Alone, Need};
use crate::run::names::Known;
use crate::run::supervisor::{Done, Failure, Supervisor};
use crate::run::sys::{self, Pid};
use crate::run::tree::Hold;
use crate::wire::{Along, Entry, Kind, Request, Version, LONGEST_ALONG, LONGEST_PIECE};
use std::collections::HashMap;
use std::fs;
use std::os::unix::fs::MetadataExt;

/// How many names near one that is wanted are looked at, how long what comes along may be, and how much of it.
const MOST_NEAR: usize = 200;
pub const MOST_BESIDE: u64 = 256 << 10;

/// A file's contents as they come.
struct Contents {
    version: Version,
    bytes: Vec<u8>,
    left: usize,
    spoilt: bool,
}

impl Contents {
    fn of(version: Version, pieces: usize) -> Contents {
        Contents { version, bytes: Vec::new(), left: pieces, spoilt: false }
    }
}

#[derive(Default)]
pub struct Fetching {
    next: u64,
    contents: HashMap<Name, Contents>,
    /// Pieces that were asked for: of which name, and from where on.
    pieces: HashMap<u64, (Name, u64)>,
    /// Folders and single entries that were asked for.
    entries: HashMap<u64, Asked>,
}

struct Asked {
    name: Name,
    /// All names of a folder, not a single entry.
    listing: bool,
    entries: Vec<Entry>,
}

impl Asked {
    fn new(name: &Name, listing: bool) -> Asked {
        Asked { name: name.clone(), listing, entries: Vec::new() }
    }
}

impl Fetching {
    pub fn number(&mut self) -> u64 {
        self.next += 1;
        self.next
    }
    /// Contents that the server sends behind all names, unasked.
    pub fn comes_along(&mut self, entries: &[Entry]) {
        let mut along = Along::within(MOST_BESIDE);
        for e in entries {
            if let Some(id) = along.takes(e) {
                self.contents.insert(e.name.clone(), Contents::of(e.version, 1));
                self.pieces.insert(id, (e.name.clone(), 0));
            }
        }
    }
    /// Answers that are under way are of what is no more.
    pub fn forget_all(&mut self) {
        self.contents.clear();
        self.pieces.clear();
        self.entries.clear();
    }
}

impl Supervisor {
    /// Fetches what the uses need and what is not here; true where the process waits for it.
    pub fn fetch_missing(&mut self, pid: Pid, uses: &[Use]) -> Done<bool> {
        for u in uses {
            for n in u.names() {
                match self.names.lookup(n) {
                    Err(folder) => return self.fetch_folder(pid, &folder),
                    Ok(k) if k.kind == Kind::File && !k.have && needs_contents(u, n) => {
                        return self.fetch_contents(pid, n);
                    }
                    Ok(k) if k.kind == Kind::Folder && !k.listed && needs_names(u) => {
                        return self.fetch_folder(pid, n);
                    }
                    Ok(_) => {}
                }
            }
        }
        Ok(false)
    }
    fn fetch_folder(&mut self, pid: Pid, folder: &Name) -> Done<bool> {
        self.tree.hold(pid, Hold::Fetch);
        if self.fetching.entries.values().all(|a| a.name != *folder) {
            self.close_epoch()?;
            let id = self.fetching.number();
            self.stats.fetches += 1;
            self.fetching.entries.insert(id, Asked::new(folder, true));
            self.link.send(Request::Folder { id, name: folder.clone() })?;
        }
        Ok(true)
    }
    fn fetch_contents(&mut self, pid: Pid, name: &Name) -> Done<bool> {
        self.tree.hold(pid, Hold::Fetch);
        if self.fetching.contents.contains_key(name) {
            return Ok(true);
        }
        // what this epoch has done to the name has to be there before
        self.close_epoch()?;
        self.stats.fetches += 1;
        self.ask_contents(name, self.size_here(name))?;
        self.ask_beside(name)?;
        Ok(true)
    }
    fn size_here(&self, name: &Name) -> u64 {
        fs::symlink_metadata(self.names.local(name)).map_or(0, |m| m.size())
    }
    /// What is wanted next is mostly near: small files come along, without a further way there and back for each.
    fn ask_beside(&mut self, name: &Name) -> Done {
        let mut room = MOST_BESIDE;
        for n in self.names.near(name, MOST_NEAR) {
            let k = self.names.get(&n);
            if k.kind != Kind::File || k.have || k.version.is_own() || self.fetching.contents.contains_key(&n) {
                continue;
            }
            let size = self.size_here(&n);
            if size > LONGEST_ALONG.min(room) {
                continue;
            }
            room -= size;
            self.ask_contents(&n, size)?;
        }
        Ok(())
    }
    fn ask_contents(&mut self, name: &Name, size: u64) -> Done {
        let pieces = size.div_ceil(LONGEST_PIECE as u64).max(1);
        let version = self.names.get(name).version;
        self.fetching.contents.insert(name.clone(), Contents::of(version, pieces as usize));
        for i in 0..pieces {
            let (id, offset) = (self.fetching.number(), i * LONGEST_PIECE as u64);
            self.fetching.pieces.insert(id, (name.clone(), offset));
            self.link.send(Request::Read { id, name: name.clone(), offset, len: LONGEST_PIECE as u32 })?;
        }
        Ok(())
    }
    pub fn on_content(&mut self, id: u64, version: Version, size: u64, bytes: Bytes) -> Done {
        let Some((name, offset)) = self.fetching.pieces.remove(&id) else { return Ok(()) };
        let Some(c) = self.fetching.contents.get_mut(&name) else { return Ok(()) };
        c.left -= 1;
        c.spoilt |= version != c.version || offset != c.bytes.len() as u64;
        c.bytes.extend_from_slice(&bytes.0);
        if c.left > 0 {
            return Ok(());
        }
        let Some(c) = self.fetching.contents.remove(&name) else { return Ok(()) };
        let k = self.names.get(&name);
        // under a name that a call has changed there may be another file
        let is_it = k.version == c.version && !self.epochs.waits_with(&name);
        if is_it && !c.spoilt && size == c.bytes.len() as u64 {
            self.fill(&name, &c.bytes);
        }
        if k.version != c.version || self.names.get(&name).have {
            // it is here, or was changed here meanwhile
            self.tree.wake(Hold::Fetch);
            return Ok(());
        }
        // it has changed meanwhile: what it is now comes first
        let id = self.fetching.number();
        self.fetching.entries.insert(id, Asked::new(&name, false));
        self.link.send(Request::Entry { id, name })?;
        Ok(())
    }
    fn fill(&mut self, name: &Name, contents: &[u8]) {
        if self.names.fill(name, contents).is_err() {
            return;
        }
        self.stored.is_as_sent(&self.names, name);
        for n in self.names.names_of_file(name) {
            let k = self.names.get(&n);
            self.set_told(&n, Known { have: true, ..k });
        }
    }
    pub fn on_entries(&mut self, id: u64, entries: Vec<Entry>, more: bool) -> Done {
        let Some(asked) = self.fetching.entries.get_mut(&id) else { return Ok(()) };
        asked.entries.extend(entries);
        if more {
            return Ok(());
        }
        let Some(asked) = self.fetching.entries.remove(&id) else { return Ok(()) };
        if asked.listing {
            self.fresh_folder(&asked.entries);
        } else {
            asked.entries.iter().for_each(|e| self.fresh_entry(e));
        }
        self.merge_drafts()?;
        self.tree.wake(Hold::Fetch);
        Ok(())
    }
    /// A name is what the server says now; but where we have changed it, that is on top of it.
    pub fn fresh_entry(&mut self, e: &Entry) {
        if self.is_changed(&e.name) {
            // an answer of before
            return;
        }
        let old = self.names.get(&e.name);
        if old.version == e.version && old.kind == e.kind && old.kind != Kind::Absent {
            return;
        }
        if old.kind == Kind::File && !self.epochs.is_quiet() {
            self.retold.insert(e.name.clone());
        }
        if self.stays_the_file(e) {
            self.set_told(&e.name, Known { version: e.version, kind: e.kind, have: true, looked: 0, ..old });
            if e.kind == Kind::File {
                self.changed_drafts.push(e.name.clone());
            }
            return;
        }
        if e.kind == Kind::Absent {
            for n in self.names.within(&e.name).into_iter().filter(|n| *n != e.name) {
                self.set_told(&n, Known::default());
            }
        }
        self.stored.forget(&e.name);
        let others = self.names.others_of(e);
        let mut k = self.names.install(e);
        let same = others.iter().filter(|n| *n != &e.name).map(|n| self.names.get(n)).find(|o| o.version == e.version);
        k.have |= same.is_some_and(|o| o.have);
        self.set_told(&e.name, k);
        for n in others.iter().filter(|n| *n != &e.name) {
            // all names of a file are of what it is now
            if !self.is_changed(n) && self.names.link_again(&e.name, n).is_ok() {
                self.set_told(n, k);
            }
        }
        if e.kind == Kind::Folder {
            self.stored.watch(&self.names, &e.name);
        }
    }
    /// Whether what others have made of a file goes into the same local one, since it is or was written here.
    fn stays_the_file(&mut self, e: &Entry) -> bool {
        // What isn't open any more was closed before the next line takes that in.
        let is_open = self.is_open_for_writing(&e.name);
        self.take_closed();
        let is_ours = is_open || self.is_due(&e.name) || self.is_drafted(&e.name);
        match e.kind {
            Kind::Absent => is_ours,
            Kind::File => is_ours || self.may_be_drafted_again(&e.name),
            _ => false,
        }
    }
    /// A folder's own entry, then those of its names.
    pub fn fresh_folder(&mut self, entries: &[Entry]) {
        let Some((folder, inside)) = entries.split_first() else { return };
        self.fresh_entry(folder);
        if folder.kind != Kind::Folder {
            return;
        }
        for n in self.names.children(&folder.name) {
            if inside.iter().all(|e| e.name != n) && !self.stored.due.contains(&n) {
                self.fresh_entry(&Entry { name: n, ..Entry::default() });
            }
        }
        inside.iter().for_each(|e| self.fresh_entry(e));
        self.names.listed(&folder.name);
    }

    /// It isn't what was stored last. What isn't here wasn't written.
    fn has_to_be_stored(&self, name: &Name) -> bool {
        let k = self.names.get(name);
        (k.kind != Kind::File || k.have) && self.stored.changed(&self.names, name).is_some()
    }
    /// Stores what was closed; false: the process has to wait, or makes its call once more.
    pub fn store_closed(&mut self, pid: Option<Pid>) -> Done<bool> {
        self.take_closed();
        while let Some(name) = self.stored.due.first().cloned() {
            if !self.has_to_be_stored(&name) {
                self.stored.due.remove(0);
                self.end_draft(&name);
                continue;
            }
            let need = if self.epochs.is_storing() { Need::Hold } else { self.need(pid)? };
            if let (Need::Again, Some(pid)) = (need, pid) {
                // also where the checkpoint has stored it: the process isn't at its call any more
                self.go(pid);
                return Ok(false);
            }
            if self.stored.due.first() != Some(&name) {
                continue;
            }
            match (need, pid) {
                (Need::Go, _) => self.store(&name, false)?,
                (Need::Wait, _) => self.store(&name, true)?,
                (_, Some(pid)) => {
                    self.tree.hold(pid, Hold::Settled);
                    return Ok(false);
                }
                (_, None) => return Ok(false),
            }
        }
        match pid {
            Some(pid) if self.epochs.is_storing() => {
                self.tree.hold(pid, Hold::Settled);
                Ok(false)
            }
            _ => Ok(true),
        }
    }
    /// What was closed belongs to the current epoch, where there is one.
    pub fn book_stores(&mut self) -> Done {
        while self.epochs.current.is_some() && !self.epochs.is_storing() {
            let Some(name) = self.stored.due.first().cloned() else { break };
            if !self.has_to_be_stored(&name) {
                self.stored.due.remove(0);
                self.end_draft(&name);
                continue;
            }
            self.store(&name, false)?;
        }
        Ok(())
    }
    fn store(&mut self, name: &Name, alone: bool) -> Done {
        let Some((m, mark)) = self.stored.changed(&self.names, name) else { return Ok(()) };
        // What is closed from here on is due once more: it may be written while it is read.
        self.stored.stored(name, mark);
        let path = self.names.local(name);
        let contents = sys::read_quietly(&path).map_err(|e| Failure::Broken(format!("{}: {e}", path.display())))?;
        self.stats.stores += 1;
        self.stats.stored_bytes += contents.len() as u64;
        let base = self.names.get(name).version;
        if !alone {
            self.draft_is_sent(name, &contents);
        }
        let steps = vec![put(name, base, self.epochs.new_version(), &m, contents)];
        if !alone {
            self.guess(steps);
            return Ok(());
        }
        self.apply(&steps);
        self.ask_alone(Alone { steps, store: Some(name.clone()), ..Alone::default() })
    }
}

fn needs_contents(u: &Use, name: &Name) -> bool {
    match u {
        Use::Read(_) | Use::Truncate(_) => true,
        Use::Open { truncates, .. } => !truncates,
        Use::Link(from, _) => from.remote() == Some(name),
        _ => false,
    }
}
fn needs_names(u: &Use) -> bool {
    matches!(u, Use::List(_) | Use::Read(_) | Use::RemoveFolder(_))
}
