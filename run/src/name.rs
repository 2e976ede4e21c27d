//! Names below a served folder: any bytes but NUL, parts between `/`, none of them empty, `.` or `..`; the folder itself has the empty
//! name.
use std::borrow::Borrow;
use std::ffi::OsStr;
use std::fmt;
use std::ops::Deref;
use std::os::unix::ffi::OsStrExt;
use std::path::Path;

/// The longest name that is taken, in bytes.
pub const LONGEST: usize = 4096;

/// A name below the served folder.
#[derive(Clone, PartialEq, Eq, PartialOrd, Ord, Hash, Default)]
pub struct Name(Vec<u8>);

impl Name {
    /// The folder itself.
    pub fn root() -> Name {
        Name(Vec::new())
    }

    /// The name of these bytes, where they are one.
    pub fn new(bytes: impl Into<Vec<u8>>) -> Option<Name> {
        let bytes = bytes.into();
        is_name(&bytes).then_some(Name(bytes))
    }

    pub fn is_root(&self) -> bool {
        self.0.is_empty()
    }

    pub fn bytes(&self) -> &[u8] {
        &self.0
    }

    pub fn path(&self) -> &Path {
        Path::new(OsStr::from_bytes(&self.0))
    }

    /// The parts, from the top.
    pub fn parts(&self) -> impl Iterator<Item = &[u8]> {
        self.0.split(|byte| *byte == b'/').filter(|part| !part.is_empty())
    }

    /// The name of the folder that it is in; the root's is the root.
    pub fn parent(&self) -> Name {
        match self.0.iter().rposition(|byte| *byte == b'/') {
            Some(at) => Name(self.0[..at].to_vec()),
            None => Name::root(),
        }
    }

    /// The last part.
    pub fn last(&self) -> &[u8] {
        match self.0.iter().rposition(|byte| *byte == b'/') {
            Some(at) => &self.0[at + 1..],
            None => &self.0,
        }
    }

    /// The name of a part in this folder, where it is one.
    pub fn child(&self, part: &[u8]) -> Option<Name> {
        if part.is_empty() || part.contains(&b'/') {
            return None;
        }
        let mut bytes = self.0.clone();
        if !bytes.is_empty() {
            bytes.push(b'/');
        }
        bytes.extend_from_slice(part);
        Name::new(bytes)
    }

    /// Whether it is a folder's name, or of what is somewhere below.
    pub fn is_within(&self, folder: &Name) -> bool {
        folder.is_root()
            || self.0 == folder.0
            || (self.0.starts_with(&folder.0) && self.0.get(folder.0.len()) == Some(&b'/'))
    }

    /// Its name once the folder `from` that it is in has the name `to`.
    pub fn moved(&self, from: &Name, to: &Name) -> Option<Name> {
        if !self.is_within(from) {
            return None;
        }
        let below = self.0[from.0.len()..].strip_prefix(b"/").unwrap_or(&self.0[from.0.len()..]);
        match (to.is_root(), below.is_empty()) {
            (_, true) => Some(to.clone()),
            (true, false) => Some(Name(below.to_vec())),
            (false, false) => Some(Name([&to.0, below].join(&b'/'))),
        }
    }
}

fn is_name(bytes: &[u8]) -> bool {
    let is_part = |part: &[u8]| !part.is_empty() && part.len() <= 255 && part != b"." && part != b"..";
    bytes.is_empty()
        || (bytes.len() <= LONGEST && !bytes.contains(&0) && bytes.split(|byte| *byte == b'/').all(is_part))
}

impl Deref for Name {
    type Target = [u8];
    fn deref(&self) -> &[u8] {
        &self.0
    }
}

impl Borrow<[u8]> for Name {
    fn borrow(&self) -> &[u8] {
        &self.0
    }
}

impl fmt::Debug for Name {
    fn fmt(&self, out: &mut fmt::Formatter<'_>) -> fmt::Result {
        write!(out, "{:?}", String::from_utf8_lossy(&self.0))
    }
}

impl fmt::Display for Name {
    fn fmt(&self, out: &mut fmt::Formatter<'_>) -> fmt::Result {
        out.write_str(&String::from_utf8_lossy(&self.0))
    }
}

#[cfg(test)]
mod tests {
    use super::*;

    fn name(text: &str) -> Name {
        Name::new(text).unwrap()
    }

    #[test]
    fn what_is_no_name() {
        for text in ["/", "a/", "/a", "a//b", ".", "..", "a/../b", "./a", "a\0b"] {
            assert_eq!(Name::new(text), None, "{text}");
        }
        assert!(Name::new(vec![0xff, b'/', 0x01]).is_some());
        assert_eq!(Name::new(vec![b'a'; 256]), None);
    }

    #[test]
    fn parts_of_names() {
        assert_eq!(name("a/b/c").parent(), name("a/b"));
        assert_eq!(name("a").parent(), Name::root());
        assert_eq!(name("a/b").last(), b"b");
        assert_eq!(Name::root().child(b"a"), Some(name("a")));
        assert_eq!(name("a").child(b".."), None);
        assert_eq!(name("a").child(b"b/c"), None);
        assert!(name("a/b").is_within(&name("a")) && !name("ab").is_within(&name("a")));
        assert_eq!(name("a/b/c").moved(&name("a"), &name("x/y")), Some(name("x/y/b/c")));
        assert_eq!(name("a").moved(&name("a"), &name("x")), Some(name("x")));
        assert_eq!(name("ab").moved(&name("a"), &name("x")), None);
    }
}
