//! What a client's versions are now.
use super::disk::Found;
use crate::wire::{Kind, Version};
use std::collections::HashMap;

/// The version of what was found, with the server's count of changes of it.
pub fn version(found: &Found, count: u64) -> Version {
    let of_kind = match found.kind {
        // What is in a folder is told by its names; that it is this folder, with this mode, is all that it has itself.
        Kind::Folder => [u64::from(found.mode), 0, 0],
        _ => [found.changed as u64, found.size, count],
    };
    let parts = [found.kind as u64, found.inode, of_kind[0], of_kind[1], of_kind[2]];
    Version::told(parts.into_iter().fold(0x243f6a8885a308d3, |sum, part| mixed(sum ^ mixed(part))))
}

/// A permutation of 64 bits in which each depends on all (the last steps of splitmix).
fn mixed(number: u64) -> u64 {
    let number = number.wrapping_add(0x9e3779b97f4a7c15);
    let number = (number ^ (number >> 30)).wrapping_mul(0xbf58476d1ce4e5b9);
    let number = (number ^ (number >> 27)).wrapping_mul(0x94d049bb133111eb);
    number ^ (number >> 31)
}

/// For the versions that a client knows, what the server's are now: of the client's own numbers, and of those that its own steps
/// changed but for contents and mode.
#[derive(Default)]
pub struct Known {
    now: HashMap<Version, Version>,
}

impl Known {
    /// The server's version, as of now, for one that the client says.
    pub fn current(&self, mut version: Version) -> Version {
        while let Some(next) = self.now.get(&version) {
            version = *next;
        }
        version
    }

    /// What had the one version has the other now.
    pub fn follow(&mut self, before: Version, after: Version) {
        if before != after {
            self.now.insert(before, after);
            // No way may come back to where it began.
            self.now.remove(&after);
        }
    }
}

#[cfg(test)]
mod tests {
    use super::*;

    #[test]
    fn own_numbers_are_followed() {
        let mut known = Known::default();
        known.follow(Version::own(1), Version(5));
        known.follow(Version(5), Version(6));
        assert_eq!(known.current(Version::own(1)), Version(6));
        assert_eq!(known.current(Version(5)), Version(6));
        known.follow(Version(6), Version(5));
        assert_eq!(known.current(Version::own(1)), Version(5));
        assert_eq!(known.current(Version(7)), Version(7));
    }
}
