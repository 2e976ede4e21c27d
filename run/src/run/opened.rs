//! Which files processes have open just now: what these see of a file can't be changed behind their backs.
use crate::name::Name;
use crate::run::calls::{Target, Use};
use crate::run::descriptors;
use crate::run::supervisor::Supervisor;
use crate::run::sys::{self, Pid};
use std::fs::{self, Metadata};
use std::os::fd::RawFd;
use std::os::unix::fs::MetadataExt;
use std::path::Path;

impl Supervisor {
    /// Whether these uses take the last name of a file that a process has open: that would see the name as long as it can be put back.
    pub fn take_name_of_open(&self, uses: &[Use]) -> bool {
        uses.iter().any(|u| match u {
            Use::Remove(at) => self.is_open_by_last_name(at),
            Use::Rename(from, over) => from != over && self.is_open_by_last_name(over),
            _ => false,
        })
    }
    fn is_open_by_last_name(&self, at: &Target) -> bool {
        let path = at.path(&self.names);
        let m = fs::symlink_metadata(&path).ok().filter(|m| !m.is_dir() && m.nlink() == 1);
        m.is_some_and(|m| self.is_open(&path, &m, |_, _| true))
    }
    /// Whether a process has this file open for writing, or mapped so.
    pub fn is_open_for_writing(&self, name: &Name) -> bool {
        let path = self.names.local(name);
        let Some(m) = fs::symlink_metadata(&path).ok().filter(Metadata::is_file) else { return false };
        let is_written =
            || self.is_open(&path, &m, |pid, fd| has_flags(pid, fd, |f| f & libc::O_ACCMODE != libc::O_RDONLY));
        sys::is_nowhere_written(&path).map_or_else(is_written, |nowhere| !nowhere)
    }
    /// Whether a process has it open so that all that it writes goes to its end.
    pub fn is_open_to_append(&self, path: &Path, m: &Metadata) -> bool {
        self.is_open(path, m, |pid, fd| has_flags(pid, fd, |f| f & libc::O_APPEND != 0))
    }
    /// Whether a process has a descriptor of this file, and it is such a one.
    fn is_open(&self, path: &Path, m: &Metadata, is_such: impl Fn(Pid, RawFd) -> bool) -> bool {
        if m.is_file() && sys::is_nowhere_open(path) {
            return false;
        }
        let (file, all) = ((m.dev(), m.ino()), self.tree.processes());
        all.iter().any(|pid| descriptors::at(*pid, file).into_iter().any(|fd| is_such(*pid, fd)))
    }
}

/// Whether a descriptor has such flags, or has gone meanwhile.
fn has_flags(pid: Pid, fd: RawFd, such: impl Fn(i32) -> bool) -> bool {
    descriptors::position(pid, fd).is_none_or(|(_, flags)| such(flags))
}
