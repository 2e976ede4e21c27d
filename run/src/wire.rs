//! The protocol between `hidewillow-run` and `hidewillow-files`: messages over a stream of bytes, as frames (`codec`).
//!
//! The first message each way is the greeting. A server takes messages in order and answers in order; a client needn't wait for an
//! answer before it sends more.
//!
//! **Versions.** A file, a link or a folder has a version, a number. The server's own are made of what the system says of it (inode,
//! change time, size) and of the server's count of changes, and are never zero; zero says that there is nothing of that name. A client
//! gives numbers of its own (`Version::own`, each once in a connection) to the states that its steps make, and says these numbers
//! in later looks, also before the answer is there. Versions are of files, not of names: a rename or a further link takes the version
//! along, and what the client's own renames, links and removals change of a file's times and counts leaves the version that the client
//! knows good. A folder's version is changed by its mode alone; what names it has is told by their `NameSum`. Versions are good in
//! the connection that told them.
//!
//! **Epochs.** An epoch is a list of steps, looks and changes, each of which is of the state that those before it made. The server
//! does all changes or none; it does none where a look, or the base of a change, doesn't hold. Once it refused one of which
//! `falls_with_earlier` was said, it drops all such epochs behind without an answer until the client has acknowledged. `Accepted` is said
//! when all of it is on the disk.
use crate::codec::{Bytes, Decode, Encode, Fields, Malformed};
use crate::name::Name;

/// The number of this protocol; both sides must have the same.
pub const PROTOCOL: u32 = 3;
/// What a greeting begins with.
pub const GREETING: [u8; 8] = *b"hwfiles\n";
/// Longer contents go ahead by pieces.
pub const LONGEST_HERE: usize = 16 << 10;
/// The longest piece of contents.
pub const LONGEST_PIECE: usize = 1 << 20;
/// The longest file.
pub const LONGEST_FILE: u64 = 4 << 30;
/// Files up to here come along unasked, where there is room.
pub const LONGEST_ALONG: u64 = 64 << 10;

/// What is known of a name: see above.
#[derive(Clone, Copy, PartialEq, Eq, PartialOrd, Ord, Hash, Debug, Default)]
pub struct Version(pub u64);

impl Version {
    /// There is nothing of this name.
    pub const ABSENT: Version = Version(0);
    const OWN: u64 = 1 << 63;

    /// Of what is not known any more: no name has it, so the server refuses what rests on it.
    pub const UNKNOWN: Version = Version(Version::OWN - 1);

    /// A client's own number for a state that one of its steps makes.
    pub fn own(number: u64) -> Version {
        Version(Version::OWN | number)
    }

    /// A server's, made of any number.
    pub fn told(number: u64) -> Version {
        Version((number & !Version::OWN).max(1))
    }

    pub fn is_own(self) -> bool {
        self.0 & Version::OWN != 0
    }

    pub fn is_absent(self) -> bool {
        self == Version::ABSENT
    }
}

/// What a name is of.
#[derive(Clone, Copy, PartialEq, Eq, Hash, Debug, Default)]
pub enum Kind {
    #[default]
    Absent,
    File,
    Folder,
    /// A symbolic link.
    Link,
    /// A device, a pipe or a socket, which can't be opened from here.
    Other,
}

/// The sum of a folder's names with their kinds, in any order.
#[derive(Clone, Copy, PartialEq, Eq, Debug, Default)]
pub struct NameSum(pub u128);

impl NameSum {
    /// The sum with one more.
    pub fn with(self, part: &[u8], kind: Kind) -> NameSum {
        NameSum(self.0.wrapping_add(of_name(part, kind)))
    }

    /// The sum without one that is in it.
    pub fn without(self, part: &[u8], kind: Kind) -> NameSum {
        NameSum(self.0.wrapping_sub(of_name(part, kind)))
    }
}

/// FNV-1a of 128 bits, mixed once more, since sums of what is not mixed well meet.
fn of_name(part: &[u8], kind: Kind) -> u128 {
    const PRIME: u128 = 0x0000000001000000000000000000013b;
    const ODD: u128 = 0x9e3779b97f4a7c15f39cc0605cedc835;
    let mut hash: u128 = 0x6c62272e07bb014262b821756295c58d ^ kind as u128;
    for byte in part {
        hash = (hash ^ u128::from(*byte)).wrapping_mul(PRIME);
    }
    hash = (hash ^ (hash >> 61)).wrapping_mul(ODD);
    hash = (hash ^ (hash >> 59)).wrapping_mul(PRIME);
    hash ^ (hash >> 64)
}

/// What a server says of a name.
#[derive(Clone, PartialEq, Eq, Debug, Default)]
pub struct Entry {
    pub name: Name,
    pub version: Version,
    pub kind: Kind,
    /// The permission bits, set-id and sticky bits.
    pub mode: u32,
    /// When the contents changed, in nanoseconds since 1970.
    pub modified: i64,
    pub size: u64,
    /// The same for all names of a file.
    pub file: u64,
    /// How many names it has.
    pub links: u32,
    /// Where a link points.
    pub target: Bytes,
}

/// A part of a file's contents, in a step.
#[derive(Clone, PartialEq, Eq, Debug)]
pub enum Body {
    Here(Bytes),
    /// The pieces that were sent ahead under this number.
    Sent(u64),
}

/// A file's contents after a step.
#[derive(Clone, PartialEq, Eq, Debug)]
pub enum Content {
    Whole(Body),
    /// What was there, cut or grown with zeros to this size, with parts written over it.
    Changed {
        size: u64,
        parts: Vec<(u64, Body)>,
    },
}

/// One look or change of an epoch.
#[derive(Clone, PartialEq, Eq, Debug)]
pub enum Step {
    /// The name has this version, which may be `ABSENT`.
    Look {
        name: Name,
        version: Version,
    },
    /// It is a folder with just these names.
    Names {
        name: Name,
        sum: NameSum,
    },
    /// A file's contents, and mode and time with it. Where there is none (`base` is `ABSENT`) it is made; else it stays the same file.
    Put {
        name: Name,
        base: Version,
        new: Version,
        mode: u32,
        modified: i64,
        content: Content,
    },
    MakeFolder {
        name: Name,
        new: Version,
        mode: u32,
    },
    MakeLink {
        name: Name,
        new: Version,
        target: Bytes,
    },
    /// Another name, which is free, of a file or link.
    Link {
        from: Name,
        base: Version,
        to: Name,
    },
    Remove {
        name: Name,
        base: Version,
    },
    /// An empty folder.
    RemoveFolder {
        name: Name,
        base: Version,
    },
    /// Takes a name's place; `over` is what is there (`ABSENT`: nothing).
    Rename {
        from: Name,
        base: Version,
        to: Name,
        over: Version,
    },
    /// Mode or time of what is there.
    Attributes {
        name: Name,
        base: Version,
        new: Version,
        mode: Option<u32>,
        modified: Option<i64>,
    },
}

/// What a client says.
#[derive(Clone, PartialEq, Eq, Debug)]
pub enum Request {
    /// The greeting; a server at a port wants its secret. Where a session is named, the server keeps on the disk which of its
    /// epochs was done last.
    Hello { protocol: u32, secret: Bytes, session: Bytes },
    /// All names from here on downwards, parents first; behind them the contents of some (`Along`), within so many bytes.
    Tree { id: u64, name: Name, along: u64 },
    /// A folder's own entry and those of its names.
    Folder { id: u64, name: Name },
    /// One name.
    Entry { id: u64, name: Name },
    /// A part of a file's contents, at most `LONGEST_PIECE` of it.
    Read { id: u64, name: Name, offset: u64, len: u32 },
    /// The next piece of contents of which an epoch speaks (`Body::Sent`).
    Piece { upload: u64, bytes: Bytes },
    /// Falls with an earlier one that was refused, unless said otherwise.
    Epoch { number: u64, falls_with_earlier: bool, steps: Vec<Step> },
    /// The client knows that this epoch was refused: what comes from here on depends on what it knows now.
    Acknowledge { number: u64 },
}

/// What a server says.
#[derive(Clone, PartialEq, Eq, Debug)]
pub enum Reply {
    /// The greeting, and the last epoch with changes that was done in the session (0: none).
    Welcome { protocol: u32, root: Entry, done: u64 },
    /// Entries that were asked for; more come where `more`.
    Entries { id: u64, entries: Vec<Entry>, more: bool },
    /// What is there of the part asked for, and the version of the file that it is of; `ABSENT` where there is no file.
    Content { id: u64, version: Version, size: u64, bytes: Bytes },
    /// All of it is done and on the disk. For the client's own numbers in it, the server's.
    Accepted { number: u64, versions: Vec<(Version, Version)> },
    /// None of it is done: what the names are whose looks or bases don't hold, and the folders whose sums don't (the folder's own entry
    /// first, then its names).
    Refused { number: u64, stale: Vec<Entry>, folders: Vec<Vec<Entry>> },
    /// It can't go on, and ends.
    Fault { why: Bytes },
}

/// Which files' contents come behind their names unasked: the first ones that are small, as long as there is room. Both sides find
/// them by the same entries.
pub struct Along {
    room: u64,
    count: u64,
}

impl Along {
    pub fn within(room: u64) -> Along {
        Along { room, count: 0 }
    }

    /// Under which number its contents come, if they do.
    pub fn takes(&mut self, entry: &Entry) -> Option<u64> {
        let fits = entry.kind == Kind::File && (1..=self.room.min(LONGEST_ALONG)).contains(&entry.size);
        fits.then(|| {
            self.room -= entry.size;
            self.count += 1;
            1 << 63 | self.count
        })
    }
}

/// Gives a struct or an enum its fields in order; a variant begins with its letter.
macro_rules! coded {
    (struct $type:ident { $($field:ident),* }) => {
        impl Encode for $type {
            fn encode(&self, out: &mut Vec<u8>) {
                $(self.$field.encode(out);)*
            }
        }
        impl Decode for $type {
            fn decode(from: &mut Fields<'_>) -> Result<$type, Malformed> {
                Ok($type { $($field: from.get()?),* })
            }
        }
    };
    (enum $type:ident { $($letter:literal $variant:ident { $($field:ident),* })* }) => {
        impl Encode for $type {
            fn encode(&self, out: &mut Vec<u8>) {
                match self {$(
                    $type::$variant { $($field),* } => {
                        out.push($letter);
                        $($field.encode(out);)*
                    }
                )*}
            }
        }
        impl Decode for $type {
            fn decode(from: &mut Fields<'_>) -> Result<$type, Malformed> {
                match from.letter()? {
                    $($letter => Ok($type::$variant { $($field: from.get()?),* }),)*
                    letter => Err(Malformed::Letter(letter)),
                }
            }
        }
    };
}

pub(crate) use coded;

coded!(struct Entry { name, version, kind, mode, modified, size, file, links, target });
coded!(enum Step {
    b'l' Look { name, version }
    b'n' Names { name, sum }
    b'p' Put { name, base, new, mode, modified, content }
    b'f' MakeFolder { name, new, mode }
    b's' MakeLink { name, new, target }
    b'h' Link { from, base, to }
    b'r' Remove { name, base }
    b'd' RemoveFolder { name, base }
    b'm' Rename { from, base, to, over }
    b'a' Attributes { name, base, new, mode, modified }
});
coded!(enum Request {
    b'H' Hello { protocol, secret, session }
    b'T' Tree { id, name, along }
    b'F' Folder { id, name }
    b'N' Entry { id, name }
    b'R' Read { id, name, offset, len }
    b'P' Piece { upload, bytes }
    b'E' Epoch { number, falls_with_earlier, steps }
    b'A' Acknowledge { number }
});
coded!(enum Reply {
    b'w' Welcome { protocol, root, done }
    b'e' Entries { id, entries, more }
    b'c' Content { id, version, size, bytes }
    b'a' Accepted { number, versions }
    b'r' Refused { number, stale, folders }
    b'!' Fault { why }
});

impl Encode for Version {
    fn encode(&self, out: &mut Vec<u8>) {
        self.0.encode(out);
    }
}

impl Decode for Version {
    fn decode(from: &mut Fields<'_>) -> Result<Version, Malformed> {
        from.get().map(Version)
    }
}

impl Encode for NameSum {
    fn encode(&self, out: &mut Vec<u8>) {
        self.0.encode(out);
    }
}

impl Decode for NameSum {
    fn decode(from: &mut Fields<'_>) -> Result<NameSum, Malformed> {
        from.get().map(NameSum)
    }
}

impl Encode for Kind {
    fn encode(&self, out: &mut Vec<u8>) {
        out.push(*self as u8);
    }
}

impl Decode for Kind {
    fn decode(from: &mut Fields<'_>) -> Result<Kind, Malformed> {
        const KINDS: [Kind; 5] = [Kind::Absent, Kind::File, Kind::Folder, Kind::Link, Kind::Other];
        let letter = from.letter()?;
        KINDS.get(usize::from(letter)).copied().ok_or(Malformed::Letter(letter))
    }
}

impl Encode for Body {
    fn encode(&self, out: &mut Vec<u8>) {
        match self {
            Body::Here(bytes) => {
                out.push(b'h');
                bytes.encode(out);
            }
            Body::Sent(upload) => {
                out.push(b's');
                upload.encode(out);
            }
        }
    }
}

impl Decode for Body {
    fn decode(from: &mut Fields<'_>) -> Result<Body, Malformed> {
        match from.letter()? {
            b'h' => from.get().map(Body::Here),
            b's' => from.get().map(Body::Sent),
            letter => Err(Malformed::Letter(letter)),
        }
    }
}

impl Encode for Content {
    fn encode(&self, out: &mut Vec<u8>) {
        match self {
            Content::Whole(body) => {
                out.push(b'w');
                body.encode(out);
            }
            Content::Changed { size, parts } => {
                out.push(b'c');
                size.encode(out);
                parts.encode(out);
            }
        }
    }
}

impl Decode for Content {
    fn decode(from: &mut Fields<'_>) -> Result<Content, Malformed> {
        match from.letter()? {
            b'w' => from.get().map(Content::Whole),
            b'c' => Ok(Content::Changed { size: from.get()?, parts: from.get()? }),
            letter => Err(Malformed::Letter(letter)),
        }
    }
}

#[cfg(test)]
mod tests {
    use super::*;
    use crate::codec::{frame, message, Frames};

    fn name(text: &str) -> Name {
        Name::new(text).unwrap()
    }

    fn some() -> Request {
        let body = Content::Changed { size: 9, parts: vec![(3, Body::Here(Bytes(vec![1, 2]))), (7, Body::Sent(4))] };
        Request::Epoch {
            number: 7,
            falls_with_earlier: true,
            steps: vec![
                Step::Look { name: Name::root(), version: Version::ABSENT },
                Step::Names { name: name("a"), sum: NameSum::default().with(b"x", Kind::File) },
                Step::Put {
                    name: name("a/b"),
                    base: Version(3),
                    new: Version::own(1),
                    mode: 0o644,
                    modified: -5,
                    content: body,
                },
                Step::Attributes {
                    name: name("c"),
                    base: Version(3),
                    new: Version::own(2),
                    mode: None,
                    modified: Some(1),
                },
            ],
        }
    }

    #[test]
    fn what_is_said_is_read() {
        let bytes = frame(&some());
        let mut frames = Frames::default();
        for byte in &bytes {
            assert_eq!(frames.next_frame(), Ok(None));
            frames.push(&[*byte]);
        }
        assert_eq!(message(frames.next_frame().unwrap().unwrap()), Ok(some()));
        assert!(!frames.is_within());
    }

    #[test]
    fn no_cut_is_read_as_another() {
        let bytes = frame(&some());
        for len in 4..bytes.len() {
            assert!(message::<Request>(&bytes[4..len]).is_err(), "{len}");
        }
        assert_eq!(message::<Request>(&[&bytes[4..], &[0]].concat()), Err(Malformed::Long));
    }

    #[test]
    fn small_files_come_along() {
        let file = |size| Entry { kind: Kind::File, size, ..Entry::default() };
        let mut along = Along::within(LONGEST_ALONG + 10);
        let taken: Vec<bool> =
            [0, 7, LONGEST_ALONG + 1, LONGEST_ALONG, 4, 3].map(|s| along.takes(&file(s)).is_some()).into();
        assert_eq!(taken, [false, true, false, true, false, true]);
        assert_eq!(along.takes(&Entry { kind: Kind::Folder, size: 1, ..Entry::default() }), None);
    }

    #[test]
    fn sums_are_of_names_with_kinds() {
        let one = NameSum::default().with(b"a", Kind::File);
        assert_eq!(one.with(b"b", Kind::Folder).without(b"a", Kind::File), NameSum::default().with(b"b", Kind::Folder));
        assert_ne!(one, NameSum::default().with(b"a", Kind::Folder));
        assert_ne!(
            one.with(b"bc", Kind::File).with(b"d", Kind::File),
            one.with(b"b", Kind::File).with(b"cd", Kind::File)
        );
    }
}
