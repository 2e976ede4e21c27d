//! What a client is told of names and contents.
use super::disk::{is_nothing, Folder};
use super::plan::is_hidden;
use super::shared::Shared;
use crate::codec::Bytes;
use crate::name::Name;
use crate::wire::{Entry, Kind, Version, LONGEST_PIECE};
use nix::fcntl::OFlag;
use std::fs::File;
use std::io;
use std::os::unix::fs::FileExt;

/// How many entries a reply has at most.
const MOST_ENTRIES: usize = 1000;

fn entry_in(folder: &Folder, part: &[u8], name: Name, shared: &Shared) -> io::Result<Entry> {
    let Some(found) = folder.look(part)? else { return Ok(Entry { name, ..Entry::default() }) };
    let target = match found.kind {
        Kind::Link => match folder.target(part) {
            // It went meanwhile, or became another: the version tells at the next look.
            Err(error) if is_nothing(&error) || error.raw_os_error() == Some(libc::EINVAL) => Vec::new(),
            target => target?,
        },
        _ => Vec::new(),
    };
    Ok(Entry {
        name,
        version: shared.version(&found),
        kind: found.kind,
        mode: found.mode,
        modified: found.modified,
        size: found.size,
        file: found.inode,
        links: found.links,
        target: Bytes(target),
    })
}

/// One name.
pub fn entry(root: &Folder, name: Name, shared: &Shared) -> io::Result<Entry> {
    let within = if is_hidden(&name) { Err(io::ErrorKind::NotFound.into()) } else { root.within(&name) };
    match within {
        Ok((folder, part)) => entry_in(&folder, part, name.clone(), shared),
        Err(error) if is_nothing(&error) || error.kind() == io::ErrorKind::NotFound => {
            Ok(Entry { name, ..Entry::default() })
        }
        Err(error) => Err(error),
    }
}

/// A folder's own entry and those of its names; just the one where it is no folder.
pub fn folder(root: &Folder, name: &Name, shared: &Shared) -> io::Result<Vec<Entry>> {
    let own = entry(root, name.clone(), shared)?;
    let mut entries = Vec::new();
    if own.kind == Kind::Folder {
        let handle = root.folder(name)?;
        for (part, _) in handle.parts()? {
            // No client can say a longer name.
            if let Some(name) = name.child(&part) {
                let entry = entry_in(&handle, &part, name, shared)?;
                if entry.kind != Kind::Absent {
                    entries.push(entry);
                }
            }
        }
    }
    entries.insert(0, own);
    Ok(entries)
}

/// All names from one downwards, parents first, some at a time, and whether more come.
pub fn tree(
    root: &Folder,
    from: Name,
    shared: &Shared,
    mut tell: impl FnMut(Vec<Entry>, bool) -> io::Result<()>,
) -> io::Result<()> {
    let mut ready = Vec::new();
    let mut folders = vec![from];
    let mut is_first = true;
    while let Some(name) = folders.pop() {
        let locked = shared.lock(false)?;
        let entries = match folder(root, &name, shared) {
            Err(error) if is_nothing(&error) => Vec::new(),
            entries => entries?,
        };
        drop(locked);
        folders
            .extend(entries.iter().skip(1).filter(|entry| entry.kind == Kind::Folder).map(|entry| entry.name.clone()));
        // A folder's own entry came with those of the folder that it is in.
        ready.extend(entries.into_iter().skip(usize::from(!is_first)));
        is_first = false;
        while ready.len() > MOST_ENTRIES {
            let rest = ready.split_off(MOST_ENTRIES);
            tell(std::mem::replace(&mut ready, rest), true)?;
        }
    }
    tell(ready, false)
}

/// A part of a file's contents, with the version and size of the file that it is of.
pub fn read(root: &Folder, name: &Name, at: (u64, u32), shared: &Shared) -> io::Result<(Version, u64, Vec<u8>)> {
    let flags = OFlag::O_RDONLY | OFlag::O_NOFOLLOW | OFlag::O_NONBLOCK;
    let nothing = (Version::ABSENT, 0, Vec::new());
    let file = match root.open_below(name, flags) {
        _ if is_hidden(name) => return Ok(nothing),
        Err(error) if is_nothing(&error) => return Ok(nothing),
        file => File::from(file?),
    };
    loop {
        let before = root.look_at(&file)?;
        if before.kind != Kind::File {
            return Ok(nothing);
        }
        let len = u64::from(at.1).min(LONGEST_PIECE as u64).min(before.size.saturating_sub(at.0));
        let mut bytes = vec![0; len as usize];
        let is_whole = file.read_exact_at(&mut bytes, at.0);
        // Where another program writes meanwhile it is read once more.
        match is_whole {
            Err(error) if error.kind() != io::ErrorKind::UnexpectedEof => return Err(error),
            done if done.is_ok() && root.look_at(&file)? == before => {
                return Ok((shared.version(&before), before.size, bytes))
            }
            _ => {}
        }
    }
}
