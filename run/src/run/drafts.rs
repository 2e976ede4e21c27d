//! Files that are open for writing, and what the server has of each. Where somebody else has changed one meanwhile, what was written here
//! since is written over what it is there now, before anybody goes on: as where both write to one file of one machine.
use crate::name::Name;
use crate::run::calls::Use;
use crate::run::names::{parts, Known};
use crate::run::supervisor::{Done, Failure, Supervisor};
use crate::run::sys::{self, Pid};
use crate::run::tree::State;
use crate::run::undo::{pieces, Pieces};
use crate::run::wrong;
use crate::wire::{Body, Content, Entry, Kind, Reply, Request, Step, Version, LONGEST_PIECE};
use std::collections::{HashMap, HashSet};
use std::fs::{self, Metadata, Permissions};
use std::io;
use std::os::fd::RawFd;
use std::os::unix::fs::{FileExt, MetadataExt, PermissionsExt};
use std::path::Path;
use std::rc::Rc;
use std::time::Duration;

/// The server has this long for a piece of contents.
const PATIENCE: Duration = Duration::from_secs(60);

/// A file that is or was open for writing, as long as there may be something in it that wasn't sent.
#[derive(Clone)]
pub struct Draft {
    /// One of its names.
    name: Name,
    /// What the server has of it, or was sent last.
    sent: Pieces,
    /// Somebody has it open so that all that is written goes to its end.
    appends: bool,
}

/// A file of this machine, whatever its names are: its device and its inode.
pub type FileId = (u64, u64);
pub type Drafts = HashMap<FileId, Rc<Draft>>;
/// Those of some files, which may have had none.
pub type OldDrafts = Vec<(FileId, Option<Rc<Draft>>)>;

fn file_of(m: &Metadata) -> FileId {
    (m.dev(), m.ino())
}

impl Draft {
    /// What was written here since it was sent, over what it is there now.
    fn over(&self, theirs: Vec<u8>, ours: &[u8]) -> Vec<u8> {
        let (sent, mut merged) = (self.sent.concat(), theirs);
        if ours.len() < sent.len() {
            merged.truncate(ours.len());
        }
        let (both, added) = ours.split_at(ours.len().min(sent.len()));
        let changed = both.iter().enumerate().filter(|(at, byte)| sent[*at] != **byte);
        let behind = added.iter().enumerate().map(|(at, byte)| (both.len() + at, byte));
        for (at, byte) in changed.chain(behind.filter(|_| !self.appends)) {
            merged.resize(merged.len().max(at + 1), 0);
            merged[at] = *byte;
        }
        if self.appends {
            merged.extend_from_slice(added);
        }
        merged
    }
}

impl Supervisor {
    fn file_at(&self, name: &Name) -> Option<FileId> {
        fs::symlink_metadata(self.names.local(name)).ok().filter(Metadata::is_file).as_ref().map(file_of)
    }
    fn draft_at(&self, name: &Name) -> Option<(FileId, Rc<Draft>)> {
        let file = self.file_at(name)?;
        Some((file, self.drafts.get(&file)?.clone()))
    }
    /// A process has opened it for writing; `is_empty`: the server is told that it is empty then.
    pub fn begin_draft(&mut self, name: &Name, m: &Metadata, is_empty: bool, appends: bool) {
        let old = self.drafts.get(&file_of(m)).cloned();
        let appends = appends || old.as_ref().is_some_and(|d| d.appends);
        let sent = match old {
            _ if is_empty => Pieces::new(),
            Some(d) => d.sent.clone(),
            None => self.undo.contents(&self.names.local(name)),
        };
        self.drafts.insert(file_of(m), Rc::new(Draft { name: name.clone(), sent, appends }));
    }
    /// A process has what it writes to a descriptor go to the end of its file.
    pub fn appends_from_here(&mut self, pid: Pid, fd: RawFd) {
        let m = fs::metadata(format!("/proc/{pid}/fd/{fd}")).ok();
        if let Some(draft) = m.and_then(|m| self.drafts.get_mut(&file_of(&m))) {
            *draft = Rc::new(Draft { appends: true, ..(**draft).clone() });
        }
    }
    /// A file whose length is about to be changed by its name.
    pub fn begin_draft_of(&mut self, name: &Name) {
        let m = fs::symlink_metadata(self.names.local(name)).ok().filter(Metadata::is_file);
        if let Some(m) = m.filter(|m| !self.drafts.contains_key(&file_of(m))) {
            self.begin_draft(name, &m, false, false);
        }
    }
    /// The drafts of files that these uses cut.
    pub fn drafts_to_be_cut(&self, uses: &[Use]) -> OldDrafts {
        let cut = uses.iter().filter_map(|u| match u {
            Use::Open { at, truncates: true, .. } | Use::Truncate(at) => self.file_at(at.remote()?),
            _ => None,
        });
        cut.map(|file| (file, self.drafts.get(&file).cloned())).collect()
    }
    /// They were not cut.
    pub fn put_back_drafts(&mut self, old: OldDrafts) {
        for (file, draft) in old {
            match draft {
                Some(d) => drop(self.drafts.insert(file, d)),
                None => drop(self.drafts.remove(&file)),
            }
        }
    }
    /// Whether something of it wasn't sent, or may be written still.
    pub fn is_drafted(&self, name: &Name) -> bool {
        self.draft_at(name).is_some()
    }
    /// Whether it is open for writing at a checkpoint that all may go back to: then it has to stay the same file.
    pub fn may_be_drafted_again(&self, name: &Name) -> bool {
        let mut epochs = self.epochs.sent.iter().chain(&self.epochs.current);
        self.file_at(name).is_some_and(|file| epochs.any(|e| e.snapshot.drafts.contains_key(&file)))
    }
    /// All went back, and what was open for writing was opened once more; or a close may have been missed.
    pub fn reopen_drafts(&mut self) {
        self.reopened = self.drafts.keys().copied().collect();
    }
    /// Takes in what was closed so far. What was opened once more is looked at, too.
    pub fn take_closed(&mut self) {
        self.stored.drain(&self.paths);
        if std::mem::take(&mut self.stored.missed) {
            self.reopen_drafts();
        }
        let reopened = std::mem::take(&mut self.reopened);
        self.reopened = self.still_open(reopened);
    }
    /// The same of all drafts, whatever the kernel has told. Those whose files have no names any more go.
    pub fn take_all_closed(&mut self) {
        let named = |file: &FileId, d: &Rc<Draft>| self.file_at(&d.name) == Some(*file);
        let nameless: Vec<FileId> = self.drafts.iter().filter(|(f, d)| !named(f, d)).map(|(f, _)| *f).collect();
        nameless.iter().for_each(|file| drop(self.drafts.remove(file)));
        self.stored.drain(&self.paths);
        self.still_open(self.drafts.keys().copied().collect());
    }
    /// Those of them that are open for writing still; others are due.
    fn still_open(&mut self, files: Vec<FileId>) -> Vec<FileId> {
        let mut open = Vec::new();
        for file in files {
            let Some(name) = self.drafts.get(&file).map(|d| d.name.clone()) else { continue };
            if self.file_at(&name) != Some(file) {
                // it has no name any more
                continue;
            }
            match sys::is_nowhere_written(&self.names.local(&name)) {
                Some(true) => self.stored.is_due(&name),
                _ => open.push(file),
            }
        }
        open
    }
    /// It was stored so.
    pub fn draft_is_sent(&mut self, name: &Name, contents: &[u8]) {
        if let Some((file, old)) = self.draft_at(name) {
            let sent = pieces(contents, &old.sent);
            self.drafts.insert(file, Rc::new(Draft { sent, ..(*old).clone() }));
            self.end_draft(name);
        }
    }
    /// There is nothing that wasn't sent where nobody has it open for writing, it is as it was stored, and no store of it waits for its
    /// reply.
    pub fn end_draft(&mut self, name: &Name) {
        let Some((file, _)) = self.draft_at(name) else { return };
        if sys::is_nowhere_written(&self.names.local(name)) != Some(true) {
            return;
        }
        self.stored.drain(&self.paths);
        if self.stored.changed(&self.names, name).is_some() {
            // it was written, and closed, since it was read
            self.stored.is_due(name);
        }
        let waits = self.epochs.alone.values().filter_map(|a| a.store.as_ref()).any(|n| self.file_at(n) == Some(file));
        if !waits && !self.is_due(name) {
            self.drafts.remove(&file);
        }
    }
    /// What was sent of it last.
    pub fn sent_of(&self, name: &Name) -> Vec<u8> {
        self.draft_at(name).map(|(_, d)| d.sent.concat()).unwrap_or_default()
    }
    /// The same of a store that waited for its reply.
    pub fn drafts_are_sent(&mut self, steps: &[Step]) {
        for s in steps {
            if let Step::Put { name, content: Content::Whole(Body::Here(bytes)), .. } = s {
                self.draft_is_sent(name, &bytes.0);
            }
        }
    }
    /// Whether this file has to be stored, by any of its names.
    pub fn is_due(&self, name: &Name) -> bool {
        self.names.names_of_file(name).iter().any(|n| self.stored.due.contains(n))
    }
    /// Files have other names: those that had one within `from` have it within `to`.
    pub fn move_drafts(&mut self, from: &Name, to: &Name) {
        for draft in self.drafts.values_mut() {
            if let Some(name) = draft.name.moved(from, to) {
                *draft = Rc::new(Draft { name, ..(**draft).clone() });
            }
        }
    }
    /// A name goes: a file that has another is called by that.
    pub fn rename_draft(&mut self, gone: &Name) {
        let others: Vec<Name> = self.names.names_of_file(gone).into_iter().filter(|n| n != gone).collect();
        let Some(name) = others.first() else { return };
        for draft in self.drafts.values_mut().filter(|d| d.name == *gone) {
            *draft = Rc::new(Draft { name: name.clone(), ..(**draft).clone() });
        }
    }
    /// Files that others have changed while they are written here are what both have made of them; nobody runs meanwhile.
    pub fn merge_drafts(&mut self) -> Done {
        if self.changed_drafts.is_empty() {
            return Ok(());
        }
        let those = |are: fn(State) -> bool| -> HashSet<Pid> {
            self.tree.all.iter().filter(|(_, p)| are(p.state)).map(|(pid, _)| *pid).collect()
        };
        let ran = those(|s| s == State::Running);
        let stood = those(|s| matches!(s, State::Again | State::Stopped));
        self.stop_all()?;
        // [20]
        while let Some(name) = self.changed_drafts.pop() {
            let (entry, theirs) = self.file_now(&name)?;
            if entry.kind == Kind::File {
                self.merge_draft(&entry, theirs)?;
            } else {
                self.fresh_entry(&entry);
            }
        }
        // also those that were born, or whose waits ended, while all were being stopped
        let forgets = wrong::is(wrong::BIRTHS_FORGOTTEN);
        let goes = |pid: &Pid| if forgets { ran.contains(pid) } else { !stood.contains(pid) };
        let others: Vec<Pid> = self.tree.all.keys().copied().filter(goes).collect();
        self.go_each(&others);
        Ok(())
    }
    fn merge_draft(&mut self, e: &Entry, theirs: Vec<u8>) -> Done {
        let path = self.names.local(&e.name);
        let broken = |error: io::Error| Failure::Broken(format!("{}: {error}", path.display()));
        let (m, ours) = (fs::symlink_metadata(&path).map_err(broken)?, sys::read_quietly(&path).map_err(broken)?);
        let merged = match self.drafts.get(&file_of(&m)).cloned() {
            Some(old) => {
                let appends = old.appends || self.is_open_to_append(&path, &m);
                let merged = Draft { appends, ..(*old).clone() }.over(theirs.clone(), &ours);
                let sent = pieces(theirs.as_slice(), &old.sent);
                self.drafts.insert(file_of(&m), Rc::new(Draft { name: e.name.clone(), sent, appends }));
                merged
            }
            // nothing was written here
            None => theirs.clone(),
        };
        if merged != ours {
            write_over(&path, &merged).map_err(broken)?;
        }
        fs::set_permissions(&path, Permissions::from_mode(e.mode)).map_err(broken)?;
        if merged == theirs {
            sys::set_times(&path, parts(e.modified));
            self.stored.is_as_sent(&self.names, &e.name);
        }
        self.stats.merged += 1;
        for n in self.names.names_of_file(&e.name) {
            let k = self.names.get(&n);
            self.set_told(&n, Known { version: e.version, kind: Kind::File, have: true, looked: 0, ..k });
        }
        Ok(())
    }
    /// A file and its contents as the server has them now; other replies that come meanwhile are for later.
    fn file_now(&mut self, name: &Name) -> Done<(Entry, Vec<u8>)> {
        loop {
            let id = self.fetching.number();
            self.link.send(Request::Entry { id, name: name.clone() })?;
            let (version, contents) = self.contents_now(name)?;
            let entry = self.entry_of(id)?;
            if entry.kind != Kind::File || entry.version == version {
                return Ok((entry, contents));
            }
        }
    }
    fn contents_now(&mut self, name: &Name) -> Done<(Version, Vec<u8>)> {
        let (mut contents, mut of) = (Vec::new(), None);
        loop {
            let (id, offset) = (self.fetching.number(), contents.len() as u64);
            self.link.send(Request::Read { id, name: name.clone(), offset, len: LONGEST_PIECE as u32 })?;
            let (version, size, bytes) = self.content_of(id)?;
            if of.is_some_and(|of| of != (version, size)) {
                // it was changed in between
                (contents, of) = (Vec::new(), None);
                continue;
            }
            of = Some((version, size));
            contents.extend_from_slice(&bytes);
            if contents.len() as u64 >= size || bytes.is_empty() {
                return Ok((version, contents));
            }
        }
    }
    fn content_of(&mut self, wanted: u64) -> Done<(Version, u64, Vec<u8>)> {
        loop {
            match self.link.receive_within(PATIENCE)? {
                Reply::Content { id, version, size, bytes } if id == wanted => return Ok((version, size, bytes.0)),
                other => self.later.push_back(other),
            }
        }
    }
    /// The entry that was asked for by this number: it has come already.
    fn entry_of(&mut self, wanted: u64) -> Done<Entry> {
        let is_it = |r: &Reply| matches!(r, Reply::Entries { id, .. } if *id == wanted);
        let found = self.later.iter().position(is_it).and_then(|at| self.later.remove(at));
        match found {
            Some(Reply::Entries { entries, .. }) if entries.len() == 1 => {
                Ok(entries.into_iter().next().unwrap_or_default())
            }
            _ => Err(Failure::Lost("an entry was not answered".to_owned())),
        }
    }
}

/// Changes a file in place: who has it open has the same one still.
fn write_over(path: &Path, contents: &[u8]) -> io::Result<()> {
    let m = fs::metadata(path)?;
    fs::set_permissions(path, Permissions::from_mode(m.mode() | 0o200))?;
    let f = fs::OpenOptions::new().write(true).open(path)?;
    f.write_all_at(contents, 0)?;
    f.set_len(contents.len() as u64)?;
    f.set_permissions(m.permissions())
}

#[cfg(test)]
mod tests {
    use super::*;

    #[test]
    fn both_have_written() {
        let over = |appends, sent: &str, ours: &str, theirs: &str| {
            let draft = Draft { name: Name::root(), sent: pieces(sent.as_bytes(), &[]), appends };
            String::from_utf8(draft.over(theirs.into(), ours.as_bytes())).unwrap()
        };
        assert_eq!(over(true, "1\n", "1\n2\n", "1\na\nb\n"), "1\na\nb\n2\n");
        assert_eq!(over(true, "1\n", "1\n", "1\na\n"), "1\na\n");
        assert_eq!(over(false, "abcdef", "abXdef", "ABCDEF"), "ABXDEF");
        assert_eq!(over(false, "abc", "abcde", "ABCDEF"), "ABCdeF");
        assert_eq!(over(false, "abc", "abcde", "A"), "A\0\0de");
        assert_eq!(over(false, "abcdef", "ab", "ABCDEF"), "AB");
        assert_eq!(over(true, "abc", "", "abcd"), "");
        assert_eq!(over(true, "abc", "Xbcd", "abcef"), "Xbcefd");
    }
}
