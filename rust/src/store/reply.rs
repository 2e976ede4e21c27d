//! Requests and replies of a store, as its clients spell them (RESP).

/// What a command of a store is answered.
#[derive(Debug, Clone, PartialEq, Eq)]
pub enum Reply {
    /// A word, as `OK`.
    Word(String),
    /// Bytes, as of a key.
    Bytes(Vec<u8>),
    /// Nothing, as of a key that is absent.
    Nothing,
    /// A number.
    Number(i64),
    /// Several.
    List(Vec<Reply>),
    /// Nothing of it was done, and this is why.
    Error(String),
}

/// A request of these words.
pub(super) fn request(words: &[&[u8]]) -> Vec<u8> {
    let mut bytes = format!("*{}\r\n", words.len()).into_bytes();
    for word in words {
        bytes.extend_from_slice(format!("${}\r\n", word.len()).as_bytes());
        bytes.extend_from_slice(word);
        bytes.extend_from_slice(b"\r\n");
    }
    bytes
}

/// Takes a line off the front.
fn line<'a>(bytes: &mut &'a [u8]) -> Option<&'a str> {
    let end = bytes.windows(2).position(|two| two == b"\r\n")?;
    let (line, rest) = bytes.split_at(end);
    *bytes = &rest[2..];
    std::str::from_utf8(line).ok()
}

/// Takes a reply off the front, if it is whole.
pub(super) fn take(bytes: &mut &[u8]) -> Option<Reply> {
    let mut rest = *bytes;
    let (kind, text) = line(&mut rest)?.split_at_checked(1)?;
    let reply = match kind {
        "+" => Reply::Word(text.into()),
        "-" => Reply::Error(text.into()),
        ":" => Reply::Number(text.parse().ok()?),
        _ if text == "-1" => Reply::Nothing,
        "$" => {
            let (found, behind) = rest.split_at_checked(text.parse().ok()?)?;
            rest = behind.strip_prefix(b"\r\n")?;
            Reply::Bytes(found.into())
        }
        _ => {
            let count: usize = text.parse().ok()?;
            let all: Option<Vec<_>> = (0..count).map(|_| take(&mut rest)).collect();
            Reply::List(all?)
        }
    };
    *bytes = rest;
    Some(reply)
}

#[cfg(test)]
mod tests {
    use super::*;

    #[test]
    fn a_reply_is_taken_once_it_is_whole() {
        let all = b"*3\r\n$3\r\na\r\n\r\n*-1\r\n*1\r\n:-7\r\n+OK\r\n-ERR no\r\n$-1\r\n";
        for end in 0..26 {
            let mut part = &all[..end];
            assert_eq!(take(&mut part), None);
            assert_eq!(part.len(), end);
        }
        let mut rest = &all[..];
        let list = vec![Reply::Bytes(b"a\r\n".into()), Reply::Nothing, Reply::List(vec![Reply::Number(-7)])];
        let wanted = [Reply::List(list), Reply::Word("OK".into()), Reply::Error("ERR no".into()), Reply::Nothing];
        for reply in wanted {
            assert_eq!(take(&mut rest), Some(reply));
        }
        assert!(rest.is_empty());
        assert_eq!(request(&[b"GET", b""]), b"*2\r\n$3\r\nGET\r\n$0\r\n\r\n");
    }
}
