//! Looks an epoch through: whether all of it holds, and what is to be done on the disk.
use super::disk::{has_more, HIDDEN};
use super::known::Known;
use super::tree::{Contents, Id, Node, Tree, ROOT};
use crate::name::Name;
use crate::wire::{Content, Kind, Step, Version, LONGEST_FILE};
use nix::fcntl::OFlag;
use nix::unistd;
use std::fs::File;
use std::io;

/// What is done on the disk, in order. Names are those of the moment.
#[derive(Clone, PartialEq, Eq, Debug)]
pub enum Act {
    /// What is new gets its name, over what has it.
    Bring {
        id: Id,
        to: Name,
    },
    /// A file or link gets one more name.
    Link {
        id: Id,
        to: Name,
    },
    /// A name goes.
    Take {
        id: Id,
        from: Name,
    },
    Move {
        id: Id,
        from: Name,
        to: Name,
    },
    /// A folder's mode, at once, since it says what can be done in it.
    Mode {
        id: Id,
        name: Name,
        mode: u32,
    },
}

/// What doesn't hold.
#[derive(Default, PartialEq, Eq, Debug)]
pub struct Stale {
    pub names: Vec<Name>,
    pub folders: Vec<Name>,
}

/// An epoch that holds.
pub struct Plan<'a> {
    pub tree: Tree<'a>,
    pub acts: Vec<Option<Act>>,
}

/// Why an epoch can't be taken at all.
fn impossible(why: &str) -> io::Error {
    io::Error::new(io::ErrorKind::InvalidInput, why)
}

/// Whether the epoch holds, and then what is to be done.
pub fn plan<'a>(tree: Tree<'a>, known: &Known, steps: Vec<Step>) -> io::Result<Result<Plan<'a>, Stale>> {
    let mut planner = Planner { tree, known, acts: Vec::new(), stale: Stale::default() };
    for step in steps {
        planner.step(step)?;
    }
    let Planner { tree, acts, mut stale, .. } = planner;
    for names in [&mut stale.names, &mut stale.folders] {
        names.sort();
        names.dedup();
    }
    Ok(if stale == Stale::default() { Ok(Plan { tree, acts }) } else { Err(stale) })
}

struct Planner<'a, 'k> {
    tree: Tree<'a>,
    known: &'k Known,
    acts: Vec<Option<Act>>,
    stale: Stale,
}

/// A free or taken name in a folder.
struct Spot {
    folder: Id,
    part: Vec<u8>,
    id: Option<Id>,
}

impl Planner<'_, '_> {
    fn step(&mut self, step: Step) -> io::Result<()> {
        match step {
            Step::Look { name, version } => self.look(&name, version),
            Step::Names { name, sum } => match self.tree.find_folder(&name)? {
                Some(id) if self.tree.sum(id)?.0 == sum => Ok(()),
                Some(_) => self.other_names(name),
                None => self.is_stale(name),
            },
            Step::Put { name, base, new, mode, modified, content } => {
                self.put(name, base, new, (mode, modified), content)
            }
            Step::MakeFolder { name, new, mode } => {
                self.make(name, Node { own: Some(new), mode: Some(mode), ..Node::new(Kind::Folder) })
            }
            Step::MakeLink { name, new, target } => {
                self.make(name, Node { own: Some(new), target, contents: Contents::Anew, ..Node::new(Kind::Link) })
            }
            Step::Link { from, base, to } => self.link(from, base, to),
            Step::Remove { name, base } => self.remove(name, base),
            Step::RemoveFolder { name, base } => self.remove_folder(name, base),
            Step::Rename { from, base, to, over } => self.rename(from, base, to, over),
            Step::Attributes { name, base, new, mode, modified } => self.attributes(name, base, new, mode, modified),
        }
    }

    fn is_stale(&mut self, name: Name) -> io::Result<()> {
        self.stale.names.push(name);
        Ok(())
    }

    fn other_names(&mut self, name: Name) -> io::Result<()> {
        self.stale.folders.push(name);
        Ok(())
    }

    /// Whether this has that version for the client.
    fn has(&self, id: Option<Id>, version: Version) -> bool {
        match id.map(|id| &self.tree.nodes[id]) {
            None => version.is_absent(),
            Some(Node { own: Some(own), .. }) => *own == version,
            Some(node) => self.known.current(version) == node.told, // [2]
        }
    }

    fn look(&mut self, name: &Name, version: Version) -> io::Result<()> {
        let id = if is_hidden(name) { None } else { self.tree.find(name)? };
        if self.has(id, version) {
            return Ok(());
        }
        self.is_stale(name.clone())
    }

    /// The spot of a name that a step changes; none where it is in no folder, which is noted.
    fn spot(&mut self, name: &Name) -> io::Result<Option<Spot>> {
        if name.is_root() || is_hidden(name) {
            return Err(impossible("the name is the server's own"));
        }
        let Some(folder) = self.tree.find_folder(&name.parent())? else {
            self.is_stale(name.parent())?;
            self.is_stale(name.clone())?;
            return Ok(None);
        };
        let id = self.tree.child(folder, name.last())?;
        Ok(Some(Spot { folder, part: name.last().to_vec(), id }))
    }

    /// The spot of a name where the version that it has is this one.
    fn spot_with(&mut self, name: &Name, version: Version) -> io::Result<Option<Spot>> {
        let spot = self.spot(name)?;
        match spot {
            Some(spot) if self.has(spot.id, version) => Ok(Some(spot)),
            Some(_) => self.is_stale(name.clone()).map(|()| None),
            None => Ok(None),
        }
    }

    /// The same, and what is there.
    fn taken_spot(&mut self, name: &Name, version: Version) -> io::Result<Option<(Spot, Id)>> {
        let spot = self.spot_with(name, version)?;
        match spot.and_then(|spot| Some((spot.id?, spot))) {
            Some((id, spot)) => Ok(Some((spot, id))),
            None => self.is_stale(name.clone()).map(|()| None),
        }
    }

    fn act(&mut self, act: Act) -> usize {
        self.acts.push(Some(act));
        self.acts.len() - 1
    }

    /// That names in this folder can be changed, which is to be known before anything is.
    fn may_change(&mut self, folder: Id) -> io::Result<()> {
        let is_changed = self.tree.nodes[folder].mode.is_some();
        match self.tree.folder(folder)? {
            Some(handle) if !is_changed && !handle.may_change() => Err(io::ErrorKind::PermissionDenied.into()),
            _ => Ok(()),
        }
    }

    fn make(&mut self, name: Name, node: Node) -> io::Result<()> {
        let Some(spot) = self.spot_with(&name, Version::ABSENT)? else { return Ok(()) };
        self.may_change(spot.folder)?;
        let is_folder = node.kind == Kind::Folder;
        let mode = node.mode;
        let id = self.tree.add(node, spot.folder, &spot.part);
        let act = self.act(Act::Bring { id, to: name.clone() });
        self.tree.nodes[id].brought_by = (!is_folder).then_some(act);
        if let (true, Some(mode)) = (is_folder, mode) {
            self.act(Act::Mode { id, name, mode: mode | 0o700 });
        }
        Ok(())
    }

    fn put(&mut self, name: Name, base: Version, new: Version, with: (u32, i64), content: Content) -> io::Result<()> {
        if matches!(&content, Content::Changed { size, .. } if *size > LONGEST_FILE) {
            return Err(io::ErrorKind::FileTooLarge.into());
        }
        let (mode, modified) = (Some(with.0), Some(with.1));
        if base.is_absent() {
            let layers = vec![content];
            let file =
                Node { own: Some(new), mode, modified, layers, contents: Contents::Anew, ..Node::new(Kind::File) };
            return self.make(name, file);
        }
        let Some((spot, id)) = self.taken_spot(&name, base)? else { return Ok(()) };
        if self.tree.nodes[id].kind != Kind::File {
            return self.is_stale(name);
        }
        let was_kept = self.tree.nodes[id].contents == Contents::Kept;
        if was_kept && self.is_replaceable(id)? {
            self.may_change(spot.folder)?;
            self.tree.nodes[id].contents = Contents::Anew;
            self.act(Act::Bring { id, to: name });
        } else if was_kept {
            self.tree.nodes[id].contents = Contents::InPlace;
        }
        let node = &mut self.tree.nodes[id];
        match content {
            Content::Whole(_) => {
                node.begins_with_disk = false;
                node.layers = vec![content];
            }
            Content::Changed { .. } => {
                node.begins_with_disk |= was_kept;
                node.layers.push(content);
            }
        }
        (node.own, node.mode, node.modified) = (Some(new), mode, modified);
        Ok(())
    }

    /// Whether a new file can come in a file's place with nothing lost. Where it can't, it must be one that can be written.
    fn is_replaceable(&mut self, id: Id) -> io::Result<bool> {
        let node = &self.tree.nodes[id];
        let Some(found) = node.found else { return Ok(true) };
        let is_single = node.links == 1;
        let owner = (unistd::geteuid().as_raw(), unistd::getegid().as_raw());
        let Some((folder, part)) = self.tree.origin(id)? else { return Ok(true) };
        let read = folder.open_below(&part, OFlag::O_RDONLY | OFlag::O_NOFOLLOW | OFlag::O_NONBLOCK);
        let has_more = read.map(File::from).and_then(|file| has_more(&file)).unwrap_or(true);
        if is_single && found.owner == owner && !has_more {
            return Ok(true);
        }
        folder.open_below(&part, OFlag::O_WRONLY | OFlag::O_NOFOLLOW | OFlag::O_NONBLOCK)?;
        Ok(false)
    }

    fn link(&mut self, from: Name, base: Version, to: Name) -> io::Result<()> {
        let Some((_, id)) = self.taken_spot(&from, base)? else { return Ok(()) };
        let Some(spot) = self.spot_with(&to, Version::ABSENT)? else { return Ok(()) };
        if self.tree.nodes[id].kind == Kind::Folder {
            return self.is_stale(from);
        }
        self.may_change(spot.folder)?;
        self.tree.give_name(id, spot.folder, &spot.part);
        let node = &mut self.tree.nodes[id];
        node.links += 1;
        node.touched = true;
        node.brought_by = None;
        self.act(Act::Link { id, to });
        Ok(())
    }

    /// One name less.
    fn unname(&mut self, id: Id, spot: &Spot) -> io::Result<()> {
        self.tree.take_name(id, spot.folder, &spot.part);
        let node = &mut self.tree.nodes[id];
        node.links = node.links.saturating_sub(1);
        node.touched = true;
        if node.links > 0 && node.at.is_empty() && node.kind != Kind::Folder {
            let held =
                self.tree.origin(id)?.map(|(folder, part)| folder.open_below(&part, OFlag::O_PATH | OFlag::O_NOFOLLOW));
            self.tree.nodes[id].held = held.transpose()?;
        }
        Ok(())
    }

    fn remove(&mut self, name: Name, base: Version) -> io::Result<()> {
        let Some((spot, id)) = self.taken_spot(&name, base)? else { return Ok(()) };
        if self.tree.nodes[id].kind == Kind::Folder {
            return self.is_stale(name);
        }
        self.may_change(spot.folder)?;
        self.unname(id, &spot)?;
        match self.tree.nodes[id].brought_by.take() {
            // Nobody else needs to see what came and went.
            Some(act) => self.acts[act] = None,
            None => drop(self.act(Act::Take { id, from: name })),
        }
        Ok(())
    }

    fn remove_folder(&mut self, name: Name, base: Version) -> io::Result<()> {
        let Some((spot, id)) = self.taken_spot(&name, base)? else { return Ok(()) };
        if self.tree.nodes[id].kind != Kind::Folder {
            return self.is_stale(name);
        }
        if self.tree.sum(id)?.1 > 0 {
            return self.other_names(name);
        }
        self.may_change(spot.folder)?;
        self.unname(id, &spot)?;
        self.act(Act::Take { id, from: name });
        Ok(())
    }

    fn rename(&mut self, from: Name, base: Version, to: Name, over: Version) -> io::Result<()> {
        let Some((old, id)) = self.taken_spot(&from, base)? else { return Ok(()) };
        let Some(new) = self.spot_with(&to, over)? else { return Ok(()) };
        if new.id == Some(id) {
            return Ok(());
        }
        let is_folder = self.tree.nodes[id].kind == Kind::Folder;
        if is_folder && to.is_within(&from) {
            return self.is_stale(from);
        }
        if let Some(there) = new.id {
            let there_is_folder = self.tree.nodes[there].kind == Kind::Folder;
            if is_folder != there_is_folder {
                return self.is_stale(to);
            }
            if there_is_folder && self.tree.sum(there)?.1 > 0 {
                return self.other_names(to);
            }
            self.unname(there, &new)?;
        }
        self.may_change(old.folder)?;
        self.may_change(new.folder)?;
        self.tree.take_name(id, old.folder, &old.part);
        self.tree.give_name(id, new.folder, &new.part);
        self.tree.nodes[id].touched = true;
        match self.tree.nodes[id].brought_by.take() {
            // It comes to its last name at once.
            Some(act) => {
                self.acts[act] = None;
                let act = self.act(Act::Bring { id, to });
                self.tree.nodes[id].brought_by = new.id.is_none().then_some(act);
            }
            None => drop(self.act(Act::Move { id, from, to })),
        }
        Ok(())
    }

    fn attributes(
        &mut self,
        name: Name,
        base: Version,
        new: Version,
        mode: Option<u32>,
        modified: Option<i64>,
    ) -> io::Result<()> {
        let id = if name.is_root() { Some(ROOT) } else { self.spot(&name)?.and_then(|spot| spot.id) };
        let Some(id) = id.filter(|_| self.has(id, base)) else { return self.is_stale(name) };
        let node = &mut self.tree.nodes[id];
        if node.kind == Kind::Other {
            return Err(impossible("it is no file, folder or link"));
        }
        node.own = Some(new);
        node.modified = modified.or(node.modified);
        if node.kind != Kind::Link {
            node.mode = mode.or(node.mode);
        }
        if let (Kind::Folder, Some(mode)) = (node.kind, mode) {
            self.act(Act::Mode { id, name, mode });
        }
        Ok(())
    }
}

/// Whether a name is the server's own.
pub fn is_hidden(name: &Name) -> bool {
    name.parts().next() == Some(HIDDEN)
}
