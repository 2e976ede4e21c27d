//! What an epoch sees while it is looked through: the folder as it is on the disk, and over it what the epoch's steps so far have made
//! of it. Nothing is changed on the disk.
use super::disk::{is_nothing, Folder, Found};
use super::shared::Shared;
use crate::codec::Bytes;
use crate::name::Name;
use crate::wire::{Content, Kind, NameSum, Version};
use std::collections::HashMap;
use std::io;
use std::os::fd::OwnedFd;

/// A file, folder or link, by its place among the nodes.
pub type Id = usize;
pub const ROOT: Id = 0;

/// What becomes of a file's contents.
#[derive(Clone, Copy, PartialEq, Eq, Debug)]
pub enum Contents {
    /// They are as they were.
    Kept,
    /// A new file comes in its place.
    Anew,
    /// They are written over, since it has other names, another owner or more than contents.
    InPlace,
}

pub struct Node {
    pub kind: Kind,
    /// On the disk, before the epoch.
    pub found: Option<Found>,
    pub told: Version,
    pub(super) origin: Option<(Id, Vec<u8>)>,
    pub(super) folder: Option<Folder>,
    /// The client's number of what the epoch made of it.
    pub own: Option<Version>,
    /// The names in it that were looked for or changed.
    pub(super) names: HashMap<Vec<u8>, Option<Id>>,
    pub(super) on_disk: Option<HashMap<Vec<u8>, Kind>>,
    /// The names that it is known to have, and how many it has.
    pub at: Vec<(Id, Vec<u8>)>,
    pub links: u32,
    /// The file itself, where it lost the names that are known, and has others.
    pub held: Option<OwnedFd>,
    /// Whether a step changes its times or counts by the way.
    pub touched: bool,
    /// What is written, one over the other; the first over what was on the disk, where it begins with that.
    pub layers: Vec<Content>,
    pub begins_with_disk: bool,
    pub contents: Contents,
    pub target: Bytes,
    pub mode: Option<u32>,
    pub modified: Option<i64>,
    /// The deed that brings it, where nothing else is known of it on the disk.
    pub brought_by: Option<usize>,
}

impl Node {
    pub fn new(kind: Kind) -> Node {
        Node {
            kind,
            found: None,
            told: Version::ABSENT,
            origin: None,
            folder: None,
            own: None,
            names: HashMap::new(),
            on_disk: None,
            at: Vec::new(),
            links: 1,
            held: None,
            touched: false,
            layers: Vec::new(),
            begins_with_disk: false,
            contents: Contents::Kept,
            target: Bytes::default(),
            mode: None,
            modified: None,
            brought_by: None,
        }
    }

    fn on_disk(found: Found, told: Version) -> Node {
        Node { found: Some(found), told, links: found.links, ..Node::new(found.kind) }
    }
}

pub struct Tree<'a> {
    root: &'a Folder,
    shared: &'a Shared,
    pub nodes: Vec<Node>,
    /// Files that have several names on the disk.
    linked: HashMap<u64, Id>,
}

impl<'a> Tree<'a> {
    pub fn new(root: &'a Folder, shared: &'a Shared) -> io::Result<Tree<'a>> {
        let found = root.look(b"")?.ok_or(io::ErrorKind::NotFound)?;
        let mut node = Node::on_disk(found, shared.version(&found));
        node.folder = Some(root.folder(b"")?);
        Ok(Tree { root, shared, nodes: vec![node], linked: HashMap::new() })
    }

    /// What has this name now.
    pub fn find(&mut self, name: &Name) -> io::Result<Option<Id>> {
        let mut at = ROOT;
        for part in name.parts() {
            if self.nodes[at].kind != Kind::Folder {
                return Ok(None);
            }
            match self.child(at, part)? {
                Some(id) => at = id,
                None => return Ok(None),
            }
        }
        Ok(Some(at))
    }

    /// The folder that a name is in, if it is one.
    pub fn find_folder(&mut self, name: &Name) -> io::Result<Option<Id>> {
        Ok(self.find(name)?.filter(|id| self.nodes[*id].kind == Kind::Folder))
    }

    /// What has this name in a folder.
    pub fn child(&mut self, folder: Id, part: &[u8]) -> io::Result<Option<Id>> {
        if let Some(known) = self.nodes[folder].names.get(part) {
            return Ok(*known);
        }
        let found = match self.folder(folder)? {
            Some(handle) => handle.look(part)?,
            None => None,
        };
        let id = found.map(|found| self.add_found(found, folder, part));
        self.nodes[folder].names.insert(part.to_vec(), id);
        Ok(id)
    }

    fn add_found(&mut self, found: Found, folder: Id, part: &[u8]) -> Id {
        let is_linked = found.kind != Kind::Folder && found.links > 1;
        if let Some(id) = self.linked.get(&found.inode).filter(|_| is_linked) {
            self.nodes[*id].at.push((folder, part.to_vec()));
            return *id;
        }
        let mut node = Node::on_disk(found, self.shared.version(&found));
        node.origin = Some((folder, part.to_vec()));
        node.at.push((folder, part.to_vec()));
        self.nodes.push(node);
        let id = self.nodes.len() - 1;
        if is_linked {
            self.linked.insert(found.inode, id);
        }
        id
    }

    /// A folder's handle, where it is on the disk.
    pub fn folder(&mut self, id: Id) -> io::Result<Option<&Folder>> {
        if self.nodes[id].folder.is_none() && self.nodes[id].kind == Kind::Folder {
            if let Some((parent, part)) = self.nodes[id].origin.clone() {
                let opened = self.folder(parent)?.map(|parent| parent.folder(&part)).transpose();
                match opened {
                    Ok(opened) => self.nodes[id].folder = opened,
                    // It has gone since it was looked at.
                    Err(error) if is_nothing(&error) => {}
                    Err(error) => return Err(error),
                }
            }
        }
        Ok(self.nodes[id].folder.as_ref())
    }

    /// Where a file or link was on the disk before the epoch.
    pub fn origin(&mut self, id: Id) -> io::Result<Option<(&Folder, Vec<u8>)>> {
        let Some((parent, part)) = self.nodes[id].origin.clone() else { return Ok(None) };
        Ok(self.folder(parent)?.map(|folder| (folder, part)))
    }

    pub fn add(&mut self, node: Node, folder: Id, part: &[u8]) -> Id {
        self.nodes.push(node);
        let id = self.nodes.len() - 1;
        self.give_name(id, folder, part);
        id
    }

    pub fn give_name(&mut self, id: Id, folder: Id, part: &[u8]) {
        self.nodes[folder].names.insert(part.to_vec(), Some(id));
        self.nodes[id].at.push((folder, part.to_vec()));
    }

    pub fn take_name(&mut self, id: Id, folder: Id, part: &[u8]) {
        self.nodes[folder].names.insert(part.to_vec(), None);
        self.nodes[id].at.retain(|at| (at.0, at.1.as_slice()) != (folder, part));
    }

    /// A name that it has now, if it is still there.
    pub fn name(&self, id: Id) -> Option<Name> {
        let mut parts = Vec::new();
        let mut at = id;
        while at != ROOT {
            let (folder, part) = self.nodes[at].at.first()?;
            parts.push(part.as_slice());
            at = *folder;
        }
        parts.reverse();
        Name::new(parts.join(&b'/'))
    }

    fn parts_on_disk(&mut self, id: Id) -> io::Result<&HashMap<Vec<u8>, Kind>> {
        if self.nodes[id].on_disk.is_none() {
            let parts = self.folder(id)?.map(Folder::parts).transpose()?.unwrap_or_default();
            self.nodes[id].on_disk = Some(parts.into_iter().collect());
        }
        Ok(self.nodes[id].on_disk.get_or_insert_with(HashMap::new))
    }

    /// The sum of a folder's names now, and how many they are.
    pub fn sum(&mut self, id: Id) -> io::Result<(NameSum, usize)> {
        let on_disk = self.parts_on_disk(id)?.clone();
        let node = &self.nodes[id];
        let kept = on_disk.iter().filter(|(part, _)| !node.names.contains_key(*part)).map(|(part, kind)| (part, *kind));
        let known = node.names.iter().filter_map(|(part, id)| Some((part, self.nodes[(*id)?].kind)));
        Ok(kept
            .chain(known)
            .fold((NameSum::default(), 0), |(sum, count), (part, kind)| (sum.with(part, kind), count + 1)))
    }

    /// Where the served folder is.
    pub fn root(&self) -> &'a Folder {
        self.root
    }
}
