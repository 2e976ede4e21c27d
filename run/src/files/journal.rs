//! Does what an epoch is to do, whole or not at all, whatever ends in the middle.
//!
//! What the epoch needs (new files with their contents, further names) is made in a room in the hidden folder, with a list of deeds,
//! and synced. Then the list gets the name `decided`, which is synced, too: from here on the epoch is done, and an end in the middle is
//! made good by whoever holds the lock next. The deeds that change names are done in order, and between them the room's token is
//! renamed from `at-N` to `at-N+1`: of all deeds, only the one that it stands at may be done or not, and that one can tell. Since a
//! file system that keeps a journal keeps changes of names in order, this holds as well where the power goes. What is written in
//! place comes last, and may be written again. Then the list is `applied`; it goes, with its room, once all is on the disk: with the
//! next epoch's sync.
//!
//! On ext4 and XFS contents are written out as they are made, and the sync of the name `decided` is the only one of an epoch: it
//! takes all changes of names before it along. Elsewhere the whole file system is synced first.
use super::disk::{self, is_nothing, Folder, Found};
use super::plan::{Act, Plan};
use super::tree::{Contents, Id, Node};
use super::uploads::Uploads;
use crate::codec::{self, Bytes, Decode, Encode, Fields, Malformed};
use crate::name::Name;
use crate::wire::{coded, Body, Content, Kind};
use nix::fcntl::OFlag;
use std::collections::HashMap;
use std::fs::{self, File};
use std::io::{self, Read, Write};
use std::os::unix::fs::FileExt;
use std::time::{Duration, SystemTime, UNIX_EPOCH};

const DECIDED: &[u8] = b"decided";
const APPLIED: &[u8] = b"applied";
const LIST: &[u8] = b"list";

/// One thing to do on the disk.
#[derive(Clone, PartialEq, Eq, Debug)]
enum Deed {
    Bring { made: Bytes, to: Name },
    Take { inode: u64, from: Name },
    Move { inode: u64, from: Name, to: Name },
    Mode { inode: u64, name: Name, mode: u32 },
}

/// What is done once all names are as they are to be.
#[derive(Clone, PartialEq, Eq, Debug)]
enum Last {
    Fill { made: Bytes, inode: u64, name: Name, mode: u32, modified: i64 },
    Set { inode: u64, name: Name, mode: Option<u32>, modified: Option<i64> },
}

#[derive(Clone, PartialEq, Eq, Debug)]
struct List {
    boot: Bytes,
    room: Bytes,
    deeds: Vec<Deed>,
    last: Vec<Last>,
    /// A session, and its epoch that this is.
    notes: Vec<(Bytes, u64)>,
}

coded!(enum Deed {
    b'b' Bring { made, to }
    b't' Take { inode, from }
    b'm' Move { inode, from, to }
    b'o' Mode { inode, name, mode }
});
coded!(enum Last {
    b'f' Fill { made, inode, name, mode, modified }
    b's' Set { inode, name, mode, modified }
});
coded!(struct List { boot, room, deeds, last, notes });

/// Servers that are wrong on purpose, which tests must find.
#[derive(Clone, Copy, PartialEq, Eq, Debug)]
pub enum Wrong {
    /// Nothing is synced.
    NoSync,
    /// An epoch is done without a list.
    NoList,
    /// The first half of an epoch that is refused is done.
    Half,
}

pub struct Journal {
    hidden: Folder,
    /// Which run of this machine it is.
    boot: Vec<u8>,
    is_ordered: bool,
    rooms: u64,
    wrong: Option<Wrong>,
    has_applied: bool,
    /// What the epoch that is performed next is noted as.
    pub note: Option<(Bytes, u64)>,
}

/// How long a session that nobody goes on with is remembered.
const LONGEST_SESSION: Duration = Duration::from_secs(7 * 24 * 3600);

/// The name of a session's file; `None` where it can't be one.
fn session_file(session: &[u8]) -> Option<Vec<u8>> {
    let is_plain = (1..=64).contains(&session.len()) && session.iter().all(u8::is_ascii_hexdigit);
    is_plain.then(|| [b"session-", session].concat())
}

/// An epoch whose needs are made.
struct Staged {
    room: Folder,
    list: List,
}

fn token(at: usize) -> Vec<u8> {
    format!("at-{at}").into_bytes()
}

impl Journal {
    /// With the lock held: makes good what was left, and puts away what nobody needs where nobody else serves the folder.
    pub fn open(
        root: &Folder,
        hidden: Folder,
        is_alone: bool,
        boot: Option<Vec<u8>>,
        wrong: Option<Wrong>,
    ) -> io::Result<Journal> {
        let boot = boot.map_or_else(|| fs::read("/proc/sys/kernel/random/boot_id"), Ok)?;
        let is_ordered = hidden.is_ordered()?;
        let mut journal = Journal { hidden, boot, is_ordered, rooms: 0, wrong, has_applied: false, note: None };
        journal.make_good(root)?;
        if is_alone {
            journal.make_good_after_power(root)?;
            if journal.has_applied {
                journal.settle()?;
            }
            journal.sweep()?;
        }
        Ok(journal)
    }

    /// Syncs all that was made and done so far. Where the file system keeps changes in order, contents are written as they are made,
    /// and the next sync of names takes all before it along.
    fn sync(&self) -> io::Result<()> {
        match self.wrong {
            Some(Wrong::NoSync) => Ok(()),
            _ if self.is_ordered => Ok(()),
            _ => self.hidden.sync_all(),
        }
    }

    fn sync_names(&self) -> io::Result<()> {
        match self.wrong {
            Some(Wrong::NoSync) => Ok(()),
            _ => self.hidden.sync(),
        }
    }

    /// With the lock held: whether a server ended in the middle of an epoch that was decided.
    pub fn is_in_the_middle(&self) -> io::Result<bool> {
        Ok(self.hidden.look(DECIDED)?.is_some())
    }

    /// With the lock held alone: finishes what a server that ended has decided.
    pub fn make_good(&mut self, root: &Folder) -> io::Result<()> {
        let Some(list) = self.read(DECIDED)? else { return Ok(()) };
        eprintln!("hidewillow-files: goes on with an epoch that was decided");
        self.apply(root, &list, true)
    }

    /// What was done when the power went may be undone but for what is in the list.
    fn make_good_after_power(&mut self, root: &Folder) -> io::Result<()> {
        let Some(list) = self.read(APPLIED)? else { return Ok(()) };
        self.has_applied = true;
        if list.boot.0 != self.boot {
            self.apply(root, &list, true)?;
        }
        Ok(())
    }

    fn read(&self, part: &[u8]) -> io::Result<Option<List>> {
        match self.hidden.open_below(part, OFlag::O_RDONLY) {
            Ok(file) => {
                let mut bytes = Vec::new();
                File::from(file).read_to_end(&mut bytes)?;
                Ok(Some(codec::message(&bytes)?))
            }
            Err(error) if is_nothing(&error) => Ok(None),
            Err(error) => Err(error),
        }
    }

    /// With the lock held alone: does all of the plan; once it is back all of it is on the disk, or will be. `count` is told the inodes
    /// that change, before they do.
    pub fn perform(
        &mut self,
        plan: &mut Plan,
        uploads: &mut Uploads,
        count: impl FnOnce(&[u64]) -> io::Result<()>,
    ) -> io::Result<()> {
        let room = self.new_room()?;
        let part = room.0;
        let mut staged = match Stager::new(plan, uploads, room.1, &part, self.writes_out()).stage(&self.boot) {
            Ok(staged) => staged,
            Err(error) => {
                self.empty(&part)?;
                return Err(error);
            }
        };
        staged.list.notes.extend(self.note.take());
        let list = codec::frame(&staged.list);
        let mut file = staged.room.make(LIST)?;
        file.write_all(&list[4..])?;
        if self.writes_out() {
            disk::write_out(&file)?;
        }
        pass();
        count(&staged.inodes())?;
        if self.wrong == Some(Wrong::NoList) {
            return self.apply_wrongly(plan.tree.root(), &staged.list);
        }
        self.sync()?;
        pass();
        self.put_away()?;
        staged.room.rename(LIST, &self.hidden, DECIDED)?; // [3]
        pass();
        self.sync_names()?; // [3]
        pass();
        self.apply(plan.tree.root(), &staged.list, false)
    }

    fn apply_wrongly(&mut self, root: &Folder, list: &List) -> io::Result<()> {
        let room = self.hidden.folder(&list.room.0)?;
        for deed in &list.deeds {
            pass();
            deed.perform(root, &room)?;
        }
        list.last.iter().try_for_each(|last| last.perform(root, &room))?;
        self.empty(&list.room.0)
    }

    /// Whether contents are written out as they are made, since no sync of all comes behind.
    fn writes_out(&self) -> bool {
        self.is_ordered && self.wrong != Some(Wrong::NoSync)
    }

    fn new_room(&mut self) -> io::Result<(Vec<u8>, Folder)> {
        loop {
            self.rooms += 1;
            let part = format!("room-{}-{}", std::process::id(), self.rooms).into_bytes();
            match self.hidden.make_folder(&part) {
                Err(error) if error.kind() == io::ErrorKind::AlreadyExists => {}
                made => {
                    made?;
                    let room = self.hidden.folder(&part)?;
                    room.make(&token(0))?;
                    return Ok((part, room));
                }
            }
        }
    }

    /// Does what a list says, from where its token stands. What another program has made impossible meanwhile is left out by a start
    /// that makes good, with a word.
    fn apply(&mut self, root: &Folder, list: &List, makes_good: bool) -> io::Result<()> {
        let room = self.hidden.folder(&list.room.0)?;
        let begin = (0..=list.deeds.len()).rev().find(|at| matches!(room.look(&token(*at)), Ok(Some(_)))).unwrap_or(0);
        let done = |deed: &dyn std::fmt::Debug, done: io::Result<()>| match done {
            Err(error) if makes_good && can_be_left(&error) => {
                eprintln!("hidewillow-files: left out, since another program has changed it: {deed:?}: {error}");
                Ok(())
            }
            done => done,
        };
        for (at, deed) in list.deeds.iter().enumerate().skip(begin) {
            done(deed, deed.perform(root, &room))?;
            pass();
            room.rename(&token(at), &room, &token(at + 1))?; // [4]
            pass();
        }
        for last in &list.last {
            done(last, last.perform(root, &room))?;
            pass();
        }
        // [8]
        list.notes.iter().try_for_each(|(session, number)| self.noted(&session.0, *number))?;

        // Their own numbers and times are as they stay before versions are told.
        for held in list.last.iter().map(Last::name).filter(|name| name.parts().next() == Some(disk::HIDDEN)) {
            match room.remove(held.last()) {
                Err(error) if !is_nothing(&error) => return Err(error),
                _ => {}
            }
        }
        match self.hidden.rename(DECIDED, &self.hidden, APPLIED) {
            Err(error) if !is_nothing(&error) => return Err(error),
            _ => {}
        }
        self.has_applied = true;
        pass();
        Ok(())
    }

    fn noted(&self, session: &[u8], number: u64) -> io::Result<()> {
        let Some(part) = session_file(session) else { return Ok(()) };
        let file = match self.hidden.open_below(&part, OFlag::O_WRONLY | OFlag::O_NOFOLLOW) {
            Err(error) if is_nothing(&error) => self.hidden.make(&part)?,
            file => File::from(file?),
        };
        file.write_all_at(&number.to_le_bytes(), 0)?;
        if self.writes_out() {
            disk::write_out(&file)?;
        }
        Ok(())
    }

    /// The last epoch of a session that was done.
    pub fn done_of(&self, session: &[u8]) -> io::Result<u64> {
        let Some(part) = session_file(session) else { return Ok(0) };
        match self.hidden.open_below(&part, OFlag::O_RDONLY | OFlag::O_NOFOLLOW) {
            Err(error) if is_nothing(&error) => Ok(0),
            file => {
                let mut number = [0; 8];
                File::from(file?).read_exact_at(&mut number, 0)?;
                Ok(u64::from_le_bytes(number))
            }
        }
    }

    /// With the lock held alone, and all synced: what was applied needs no list any more.
    fn put_away(&mut self) -> io::Result<()> {
        if let Some(list) = self.read(APPLIED)? {
            self.hidden.remove(APPLIED)?;
            pass();
            self.empty(&list.room.0)?;
        }
        self.has_applied = false;
        Ok(())
    }

    /// Whether `settle` has something to do.
    pub fn is_unsettled(&self) -> bool {
        self.has_applied
    }

    /// With the lock held alone: syncs what was applied, and puts it away.
    pub fn settle(&mut self) -> io::Result<()> {
        self.sync()?;
        self.sync_names()?;
        self.put_away()
    }

    fn empty(&self, part: &[u8]) -> io::Result<()> {
        let room = match self.hidden.folder(part) {
            Err(error) if is_nothing(&error) => return Ok(()),
            room => room?,
        };
        for (made, kind) in room.parts()? {
            match kind {
                Kind::Folder => room.remove_folder(&made)?,
                _ => room.remove(&made)?,
            }
        }
        self.hidden.remove_folder(part)
    }

    fn is_old(&self, part: &[u8]) -> io::Result<bool> {
        let now = SystemTime::now().duration_since(UNIX_EPOCH).unwrap_or_default();
        let modified = self.hidden.look(part)?.map_or(0, |found| found.modified);
        Ok(now.saturating_sub(Duration::from_nanos(modified.max(0) as u64)) > LONGEST_SESSION)
    }

    /// Where nobody else serves the folder: rooms and pieces of those that ended.
    fn sweep(&self) -> io::Result<()> {
        for (part, kind) in self.hidden.parts()? {
            if kind == Kind::Folder {
                self.empty(&part)?;
            } else if part.starts_with(b"pieces-") || (part.starts_with(b"session-") && self.is_old(&part)?) {
                self.hidden.remove(&part)?;
            }
        }
        Ok(())
    }
}

/// Whether an error only says that names aren't as they were.
fn can_be_left(error: &io::Error) -> bool {
    const LEFT: [i32; 6] = [libc::EISDIR, libc::ENOTEMPTY, libc::EEXIST, libc::EACCES, libc::EPERM, libc::ETXTBSY];
    is_nothing(error) || error.raw_os_error().is_some_and(|number| LEFT.contains(&number))
}

impl Staged {
    fn inodes(&self) -> Vec<u64> {
        let of_deeds = self.list.deeds.iter().filter_map(|deed| match deed {
            Deed::Bring { made, .. } => self.room.look(&made.0).ok()?.map(|found| found.inode),
            Deed::Take { inode, .. } | Deed::Move { inode, .. } | Deed::Mode { inode, .. } => Some(*inode),
        });
        let of_last = self.list.last.iter().map(|last| match last {
            Last::Fill { inode, .. } | Last::Set { inode, .. } => *inode,
        });
        of_deeds.chain(of_last).collect()
    }
}

/// The part's folder where it is this inode there.
fn if_is<'a>(root: &Folder, name: &'a Name, inode: u64) -> io::Result<Option<(Folder, &'a [u8], Found)>> {
    let (folder, part) = match root.within(name) {
        Err(error) if is_nothing(&error) => return Ok(None),
        within => within?,
    };
    Ok(folder.look(part)?.filter(|found| found.inode == inode).map(|found| (folder, part, found)))
}

impl Deed {
    /// Does it, if it isn't done.
    fn perform(&self, root: &Folder, room: &Folder) -> io::Result<()> {
        match self {
            Deed::Bring { made, to } => {
                if room.look(&made.0)?.is_none() {
                    return Ok(());
                }
                let (folder, part) = root.within(to)?;
                room.rename(&made.0, &folder, part)
            }
            Deed::Take { inode, from } => match if_is(root, from, *inode)? {
                Some((folder, part, found)) if found.kind == Kind::Folder => folder.remove_folder(part),
                Some((folder, part, _)) => folder.remove(part),
                None => Ok(()),
            },
            Deed::Move { inode, from, to } => match if_is(root, from, *inode)? {
                Some((folder, part, _)) => {
                    let (to_folder, to_part) = root.within(to)?;
                    folder.rename(part, &to_folder, to_part)
                }
                None => Ok(()),
            },
            Deed::Mode { inode, name, mode } => match if_is(root, name, *inode)? {
                Some((folder, part, _)) => folder.set_mode(part, *mode),
                None => Ok(()),
            },
        }
    }
}

impl Last {
    fn name(&self) -> &Name {
        match self {
            Last::Fill { name, .. } | Last::Set { name, .. } => name,
        }
    }

    fn perform(&self, root: &Folder, room: &Folder) -> io::Result<()> {
        match self {
            Last::Fill { made, inode, name, mode, modified } => {
                let Some((folder, part, _)) = if_is(root, name, *inode)? else { return Ok(()) };
                let mut from = File::from(room.open_below(&made.0, OFlag::O_RDONLY)?);
                let mut to = File::from(folder.open_below(part, OFlag::O_WRONLY | OFlag::O_NOFOLLOW)?);
                let len = io::copy(&mut from, &mut to)?;
                to.set_len(len)?;
                disk::set_attributes(&to, *mode, *modified)?;
                to.sync_all()
            }
            Last::Set { inode, name, mode, modified } => {
                let Some((folder, part, found)) = if_is(root, name, *inode)? else { return Ok(()) };
                if let Some(mode) = mode.filter(|_| found.kind != Kind::Link) {
                    folder.set_mode(part, mode)?;
                }
                modified.map_or(Ok(()), |modified| folder.set_modified(part, modified))
            }
        }
    }
}

/// Makes what a plan needs.
struct Stager<'p, 't> {
    plan: &'p mut Plan<'t>,
    uploads: &'p mut Uploads,
    room: Folder,
    part: &'p [u8],
    /// Whether contents are written out as they are made.
    writes_out: bool,
    inodes: HashMap<Id, u64>,
}

fn made(id: Id) -> Vec<u8> {
    format!("made-{id}").into_bytes()
}

impl<'p, 't> Stager<'p, 't> {
    fn new(plan: &'p mut Plan<'t>, uploads: &'p mut Uploads, room: Folder, part: &'p [u8], writes_out: bool) -> Self {
        Stager { plan, uploads, room, part, writes_out, inodes: HashMap::new() }
    }

    fn stage(mut self, boot: &[u8]) -> io::Result<Staged> {
        let acts: Vec<Act> = self.plan.acts.iter().flatten().cloned().collect();
        let mut deeds = Vec::with_capacity(acts.len());
        // A name that goes is of what stands there when its turn comes.
        for (at, act) in acts.into_iter().enumerate() {
            deeds.push(self.deed(at, act)?);
        }
        let mut last = Vec::new();
        for id in 0..self.plan.tree.nodes.len() {
            last.extend(self.last(id)?);
        }
        let room = Bytes(self.part.to_vec());
        let list = List { boot: Bytes(boot.to_vec()), room, deeds, last, notes: Vec::new() };
        Ok(Staged { room: self.room, list })
    }

    fn deed(&mut self, at: usize, act: Act) -> io::Result<Deed> {
        Ok(match act {
            Act::Bring { id, to } => {
                self.make(id)?;
                Deed::Bring { made: Bytes(made(id)), to }
            }
            Act::Link { id, to } => {
                let part = format!("link-{at}").into_bytes();
                self.link(id, &part)?;
                Deed::Bring { made: Bytes(part), to }
            }
            Act::Take { id, from } => Deed::Take { inode: self.inode(id)?, from },
            Act::Move { id, from, to } => Deed::Move { inode: self.inode(id)?, from, to },
            Act::Mode { id, name, mode } => Deed::Mode { inode: self.inode(id)?, name, mode },
        })
    }

    /// The inode that it has when the deed comes.
    fn inode(&self, id: Id) -> io::Result<u64> {
        let on_disk = || self.plan.tree.nodes[id].found.map(|found| found.inode);
        self.inodes.get(&id).copied().or_else(on_disk).ok_or_else(|| io::ErrorKind::NotFound.into())
    }

    fn link(&mut self, id: Id, part: &[u8]) -> io::Result<()> {
        if self.inodes.contains_key(&id) {
            return self.room.link(&made(id), &self.room, part);
        }
        match self.plan.tree.origin(id)? {
            Some((folder, name)) => folder.link(&name, &self.room, part),
            None => Err(io::ErrorKind::NotFound.into()),
        }
    }

    /// Makes a new file, folder or link in the room.
    fn make(&mut self, id: Id) -> io::Result<()> {
        let part = made(id);
        match self.plan.tree.nodes[id].kind {
            Kind::Folder => self.room.make_folder(&part)?,
            Kind::Link => {
                let node = &self.plan.tree.nodes[id];
                self.room.make_link(&part, &node.target.0)?;
                node.modified.map_or(Ok(()), |modified| self.room.set_modified(&part, modified))?;
            }
            _ => self.make_file(id, &part)?,
        }
        if let Some(group) = self.group(id) {
            self.room.set_group(&part, group)?;
        }
        if let (Kind::File, Some(mode)) = (self.plan.tree.nodes[id].kind, self.plan.tree.nodes[id].mode) {
            self.room.set_mode(&part, mode)?;
        }
        let found = self.room.look(&part)?.ok_or(io::ErrorKind::NotFound)?;
        self.inodes.insert(id, found.inode);
        pass();
        Ok(())
    }

    /// The group that a folder gives to what is made in it.
    fn group(&self, id: Id) -> Option<u32> {
        let (folder, _) = self.plan.tree.nodes[id].at.first()?;
        let found = self.plan.tree.nodes[*folder].found?;
        (found.mode & libc::S_ISGID != 0).then_some(found.owner.1)
    }

    fn make_file(&mut self, id: Id, part: &[u8]) -> io::Result<()> {
        let node = &mut self.plan.tree.nodes[id];
        let (mode, modified) = (node.mode.unwrap_or(0o600), node.modified.unwrap_or(0));
        if let ([Content::Whole(Body::Sent(upload))], false) = (node.layers.as_slice(), node.begins_with_disk) {
            if let Some(file) = self.uploads.take_file(*upload, &self.room, part)? {
                return self.finish(&file, mode, modified);
            }
        }
        let file = self.room.make(part)?;
        if node.begins_with_disk {
            if let Some((folder, name)) = self.plan.tree.origin(id)? {
                let mut from = File::from(folder.open_below(&name, OFlag::O_RDONLY | OFlag::O_NOFOLLOW)?);
                io::copy(&mut from, &mut &file)?;
            }
        }
        for layer in std::mem::take(&mut self.plan.tree.nodes[id].layers) {
            self.write(&file, layer)?;
        }
        self.finish(&file, mode, modified)
    }

    fn finish(&self, file: &File, mode: u32, modified: i64) -> io::Result<()> {
        disk::set_attributes(file, mode, modified)?;
        if self.writes_out {
            disk::write_out(file)?;
        }
        Ok(())
    }

    fn write(&mut self, file: &File, layer: Content) -> io::Result<()> {
        match layer {
            Content::Whole(body) => {
                file.set_len(0)?;
                self.write_body(file, 0, u64::MAX, body)
            }
            Content::Changed { size, parts } => {
                file.set_len(size)?;
                parts.into_iter().try_for_each(|(offset, body)| self.write_body(file, offset, size, body))
            }
        }
    }

    fn write_body(&mut self, file: &File, offset: u64, end: u64, body: Body) -> io::Result<()> {
        let outside = || io::Error::new(io::ErrorKind::InvalidInput, "a part is behind a file's end");
        match body {
            Body::Here(Bytes(bytes)) => {
                offset.checked_add(bytes.len() as u64).filter(|at| *at <= end).ok_or_else(outside)?;
                file.write_all_at(&bytes, offset)
            }
            Body::Sent(upload) => {
                let len = self.uploads.write(upload, file, offset)?;
                offset.checked_add(len).filter(|at| *at <= end).ok_or_else(outside).map(drop)
            }
        }
    }

    /// What is to be done with it once names are as they are to be.
    fn last(&mut self, id: Id) -> io::Result<Option<Last>> {
        let node: &Node = &self.plan.tree.nodes[id];
        let fills = node.contents == Contents::InPlace;
        let sets = node.contents == Contents::Kept && (node.mode.is_some() || node.modified.is_some());
        if node.links == 0 || !(fills || sets) {
            return Ok(None);
        }
        let (mode, modified) = (node.mode, node.modified);
        let name = match self.plan.tree.name(id) {
            Some(name) => name,
            // It has names that the epoch didn't see.
            None if node.kind == Kind::File && node.found.is_some() => self.hold(id)?,
            None => return Ok(None),
        };
        let inode = self.inode(id)?;
        if !fills {
            return Ok(Some(Last::Set { inode, name, mode, modified }));
        }
        let part = format!("fill-{id}").into_bytes();
        self.make_file(id, &part)?;
        let (mode, modified) = (mode.unwrap_or(0o600), modified.unwrap_or(0));
        Ok(Some(Last::Fill { made: Bytes(part), inode, name, mode, modified }))
    }

    /// A name in the room for a file.
    fn hold(&mut self, id: Id) -> io::Result<Name> {
        let part = format!("held-{id}").into_bytes();
        self.link(id, &part)?;
        let name = [disk::HIDDEN, self.part, &part].join(&b'/');
        Name::new(name).ok_or_else(|| io::ErrorKind::InvalidInput.into())
    }
}

/// For tests: the process ends at a moment that they choose.
mod moments {
    use std::sync::atomic::{AtomicU64, Ordering};

    static LEFT: AtomicU64 = AtomicU64::new(u64::MAX);

    pub fn die_at(moment: u64) {
        LEFT.store(moment, Ordering::Relaxed);
    }

    pub fn pass() {
        if LEFT.load(Ordering::Relaxed) != u64::MAX && LEFT.fetch_sub(1, Ordering::Relaxed) == 0 {
            let _ = nix::sys::signal::raise(nix::sys::signal::Signal::SIGKILL);
        }
    }
}
pub use moments::die_at;
use moments::pass;
