//! Replies of the server itself, as each version of the protocol has them; and the store's, which are of version 2, for clients of version 3.
use std::mem;

/// The version of the protocol that a client speaks.
#[derive(Clone, Copy, Debug, Default, PartialEq)]
pub enum Version {
    #[default]
    Two,
    Three,
}

/// A reply of the server itself.
#[derive(Clone)]
pub enum Reply {
    Line(&'static str),
    Error(String),
    Number(i64),
    Bulk(Vec<u8>),
    /// What people read.
    Text(String),
    Null,
    List(Vec<Reply>),
    /// A list in which nothing is twice, and one of names with what each has.
    Set(Vec<Reply>),
    Map(Vec<(Reply, Reply)>),
}

pub const OK: Reply = Reply::Line("OK");

/// Words that one reads by their length.
pub fn bulk(word: impl Into<Vec<u8>>) -> Reply {
    Reply::Bulk(word.into())
}

/// A fault that clients know by this word in front.
pub fn error(words: impl Into<String>) -> Reply {
    Reply::Error(format!("ERR {}", words.into()))
}

/// That a command has more words, or fewer.
pub fn wrong_number(name: &str) -> Reply {
    error(format!("wrong number of arguments for '{name}' command"))
}

/// As much of a word as stands in a line.
pub fn plain(word: &[u8]) -> String {
    String::from_utf8_lossy(&word[..word.len().min(128)]).into_owned()
}

/// That a command has no part of this name.
fn unknown_part(of: &str, what: &[u8]) -> Reply {
    error(format!("unknown subcommand '{}'. Try {of} HELP.", plain(what)))
}

/// Whether so many words are as many as wanted, or as many or more where that is below 0.
pub fn are(words: usize, wanted: i64) -> bool {
    words as i64 == wanted || wanted < 0 && words as i64 >= -wanted
}

/// The part of a command that the first word behind its name says, of those that there are, each with how many words it takes.
pub fn part(of: &str, words: &[&[u8]], parts: &[(&'static str, i64)]) -> Result<&'static str, Reply> {
    let what = words.first().ok_or_else(|| wrong_number(&of.to_ascii_lowercase()))?;
    let part = parts.iter().find(|(name, _)| what.eq_ignore_ascii_case(name.as_bytes()));
    let (name, wanted) = part.ok_or_else(|| unknown_part(of, what))?;
    if are(words.len() + 1, *wanted) {
        return Ok(name);
    }
    Err(wrong_number(&format!("{of}|{name}").to_ascii_lowercase()))
}

impl Version {
    pub fn number(self) -> i64 {
        match self {
            Version::Two => 2,
            Version::Three => 3,
        }
    }
}

impl Reply {
    /// As a version has it.
    pub fn bytes(&self, version: Version) -> Vec<u8> {
        let mut bytes = Vec::new();
        self.put(version, &mut bytes);
        bytes
    }

    fn put(&self, version: Version, into: &mut Vec<u8>) {
        let is_new = version == Version::Three;
        let mut put_all = |head: String, of: &mut dyn Iterator<Item = &Reply>| {
            into.extend_from_slice(head.as_bytes());
            of.for_each(|it| it.put(version, into));
        };
        match self {
            Reply::List(of) => return put_all(format!("*{}\r\n", of.len()), &mut of.iter()),
            Reply::Set(of) if is_new => return put_all(format!("~{}\r\n", of.len()), &mut of.iter()),
            Reply::Set(of) => return put_all(format!("*{}\r\n", of.len()), &mut of.iter()),
            Reply::Map(of) => {
                let head = if is_new { format!("%{}\r\n", of.len()) } else { format!("*{}\r\n", 2 * of.len()) };
                return put_all(head, &mut of.iter().flat_map(|(name, it)| [name, it]));
            }
            _ => (),
        }
        let line = match self {
            Reply::Line(words) => format!("+{words}\r\n"),
            Reply::Error(words) => format!("-{}\r\n", words.replace(['\r', '\n'], " ")),
            Reply::Number(number) => format!(":{number}\r\n"),
            Reply::Bulk(word) => return put_bytes(format!("${}\r\n", word.len()), word, into),
            Reply::Text(text) if is_new => format!("={}\r\ntxt:{text}\r\n", text.len() + 4),
            Reply::Text(text) => format!("${}\r\n{text}\r\n", text.len()),
            Reply::Null if is_new => "_\r\n".into(),
            _ => "$-1\r\n".into(),
        };
        into.extend_from_slice(line.as_bytes());
    }
}

fn put_bytes(head: String, word: &[u8], into: &mut Vec<u8>) {
    for bytes in [head.as_bytes(), word, b"\r\n"] {
        into.extend_from_slice(bytes);
    }
}

/// What a client of version 3 is sent of replies one behind the other: those of version 2, but for each null that of its own version. Of the
/// other kinds those that are told are the same in both.
#[derive(Default)]
pub struct Nulls {
    /// What came of a line that isn't whole, and how many bytes of a text are to come, with its end.
    line: Vec<u8>,
    inside: usize,
}

impl Nulls {
    pub fn told(&mut self, mut rest: &[u8]) -> Vec<u8> {
        let mut sent = Vec::with_capacity(rest.len() + self.line.len());
        loop {
            let (text, behind) = rest.split_at(self.inside.min(rest.len()));
            sent.extend_from_slice(text);
            self.inside -= text.len();
            let Some(end) = behind.iter().position(|byte| *byte == b'\n') else {
                self.line.extend_from_slice(behind);
                return sent;
            };
            self.line.extend_from_slice(&behind[..=end]);
            rest = &behind[end + 1..];
            match mem::take(&mut self.line).as_slice() {
                b"$-1\r\n" | b"*-1\r\n" => sent.extend_from_slice(b"_\r\n"),
                line => {
                    sent.extend_from_slice(line);
                    self.inside = length(line).map_or(0, |len| len + 2);
                }
            }
        }
    }
}

/// How long the text is before which a line stands.
fn length(line: &[u8]) -> Option<usize> {
    let (mark, digits) = line.split_first()?;
    std::str::from_utf8(digits).ok()?.trim_end().parse().ok().filter(|_| b"$=".contains(mark))
}

#[cfg(test)]
mod tests {
    use super::{bulk, Nulls, Reply, Version};

    #[test]
    fn a_version_has_its_own_kinds() {
        let map = Reply::Map(vec![(bulk("a"), Reply::Null), (bulk("b"), Reply::Text("c".into()))]);
        assert_eq!(map.bytes(Version::Two), b"*4\r\n$1\r\na\r\n$-1\r\n$1\r\nb\r\n$1\r\nc\r\n");
        assert_eq!(map.bytes(Version::Three), b"%2\r\n$1\r\na\r\n_\r\n$1\r\nb\r\n=5\r\ntxt:c\r\n");
    }

    #[test]
    fn nulls_alone_are_told_otherwise_wherever_replies_are_cut() {
        let told = b"*3\r\n$-1\r\n$5\r\n$-1\r\n\r\n:-1\r\n+$-1\r\n*-1\r\n$0\r\n\r\n$-1\r\n-ERR $-1\r\n";
        let wanted = b"*3\r\n_\r\n$5\r\n$-1\r\n\r\n:-1\r\n+$-1\r\n_\r\n$0\r\n\r\n_\r\n-ERR $-1\r\n";
        for size in 1..=told.len() {
            let mut nulls = Nulls::default();
            let sent: Vec<u8> = told.chunks(size).flat_map(|bytes| nulls.told(bytes)).collect();
            assert_eq!(sent, wanted);
        }
    }
}
