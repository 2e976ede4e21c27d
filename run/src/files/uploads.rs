//! Pieces of contents that were sent ahead: the first of them in memory, all in a file of the hidden folder where they become long.
use super::disk::Folder;
use crate::wire::{Body, Content, Step, LONGEST_FILE};
use std::collections::HashMap;
use std::fs::File;
use std::io::{self, Seek, SeekFrom, Write};
use std::os::unix::fs::FileExt;

/// Longer ones are in a file.
const LONGEST_IN_MEMORY: usize = 256 << 10;

enum Upload {
    Memory(Vec<u8>),
    File { file: File, part: Vec<u8>, len: u64 },
}

pub struct Uploads {
    hidden: Folder,
    uploads: HashMap<u64, Upload>,
    /// What tells this connection's files from others'.
    mark: String,
}

impl Uploads {
    pub fn new(hidden: Folder, mark: String) -> Uploads {
        Uploads { hidden, uploads: HashMap::new(), mark }
    }

    /// Adds the next piece of one.
    pub fn add(&mut self, upload: u64, bytes: Vec<u8>) -> io::Result<()> {
        let at = self.uploads.entry(upload).or_insert_with(|| Upload::Memory(Vec::new()));
        if let Upload::Memory(memory) = at {
            if memory.len() + bytes.len() <= LONGEST_IN_MEMORY {
                memory.extend_from_slice(&bytes);
                return Ok(());
            }
            let part = format!("pieces-{}-{upload}", self.mark).into_bytes();
            let mut file = self.hidden.make(&part)?;
            file.write_all(memory)?;
            let len = memory.len() as u64;
            *at = Upload::File { file, part, len };
        }
        if let Upload::File { file, len, .. } = at {
            *len += bytes.len() as u64;
            if *len > LONGEST_FILE {
                return Err(io::ErrorKind::FileTooLarge.into());
            }
            file.write_all(&bytes)?;
        }
        Ok(())
    }

    /// Makes it a file of another folder, where it is one.
    pub fn take_file(&mut self, upload: u64, to: &Folder, name: &[u8]) -> io::Result<Option<File>> {
        match self.uploads.remove(&upload) {
            Some(Upload::File { file, part, .. }) => {
                self.hidden.rename(&part, to, name)?;
                Ok(Some(file))
            }
            Some(memory) => {
                self.uploads.insert(upload, memory);
                Ok(None)
            }
            None => Ok(None),
        }
    }

    /// Writes it into a file; how long it is.
    pub fn write(&mut self, upload: u64, to: &File, offset: u64) -> io::Result<u64> {
        match self.uploads.get_mut(&upload) {
            Some(Upload::Memory(memory)) => {
                to.write_all_at(memory, offset)?;
                Ok(memory.len() as u64)
            }
            Some(Upload::File { file, .. }) => {
                file.seek(SeekFrom::Start(0))?;
                let mut to = to;
                to.seek(SeekFrom::Start(offset))?;
                io::copy(file, &mut to)
            }
            None => Err(io::Error::new(io::ErrorKind::InvalidInput, "contents that weren't sent")),
        }
    }

    /// An epoch is done with: its contents are needed no more.
    pub fn forget(&mut self, steps: &[u64]) {
        for upload in steps {
            if let Some(Upload::File { part, .. }) = self.uploads.remove(upload) {
                // A start sweeps what is left.
                let _ = self.hidden.remove(&part);
            }
        }
    }

    pub fn forget_all(&mut self) {
        let all: Vec<u64> = self.uploads.keys().copied().collect();
        self.forget(&all);
    }
}

/// The numbers of the contents that steps speak of.
pub fn of(steps: &[Step]) -> Vec<u64> {
    let sent = |body: &Body| match body {
        Body::Sent(upload) => Some(*upload),
        Body::Here(_) => None,
    };
    let mut uploads = Vec::new();
    for step in steps {
        match step {
            Step::Put { content: Content::Whole(body), .. } => uploads.extend(sent(body)),
            Step::Put { content: Content::Changed { parts, .. }, .. } => {
                uploads.extend(parts.iter().filter_map(|(_, body)| sent(body)));
            }
            _ => {}
        }
    }
    uploads
}
