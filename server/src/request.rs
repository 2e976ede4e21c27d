//! The request that a client's bytes begin with: where it ends, and what it is by its name.
use hidewillow::store::may_write;

/// What the front of some bytes lacks to be a request: they are a part of one, or of none.
#[derive(Debug, PartialEq)]
pub enum Lack {
    Part,
    Fault,
}

/// How far the request at the front of what came was read: what stands there is looked at once.
#[derive(Default)]
pub struct Front {
    at: usize,
    left: usize,
    words: usize,
    name: (usize, usize),
}

/// A whole request: its name, how many words it has, and how many bytes.
pub struct Request<'a> {
    pub name: &'a [u8],
    pub words: usize,
    pub len: usize,
}

/// What a request may do.
#[derive(Clone, Copy, Debug, PartialEq)]
pub enum Does {
    /// It writes, or only takes away; it carries out what was queued.
    Adds,
    TakesAway,
    CarriesOut,
    /// It begins a queue, or drops it.
    Queues,
    Drops,
    /// It shows what keys have, or which there are; whatever else writes nothing.
    Shows,
    Lists,
    Else,
    /// No request is read there.
    Unknown,
    /// It is of a browser.
    Web,
}

/// Names by which the web asks, and none of which is a command.
const WEB: [&str; 8] = ["POST", "PUT", "HEAD", "OPTIONS", "PATCH", "DELETE", "CONNECT", "TRACE"];

fn is_one_of(name: &[u8], names: &[&str]) -> bool {
    names.iter().any(|it| name.eq_ignore_ascii_case(it.as_bytes()))
}

impl Request<'_> {
    /// What it may do, by its name, where its words stand on a line of their own or not.
    pub fn does(&self, line: Option<&[u8]>) -> Does {
        let is = |name: &str| self.name.eq_ignore_ascii_case(name.as_bytes());
        match line {
            Some(_) if is("Host:") || is_one_of(self.name, &WEB) => return Does::Web,
            Some(line) if is("GET") && self.words == 3 && line.windows(6).any(|it| it == b" HTTP/") => {
                return Does::Web
            }
            _ => (),
        }
        match self.name {
            _ if is("GET") || is("MGET") => Does::Shows,
            _ if is("DEL") || is("FLUSHALL") => Does::TakesAway,
            _ if is("KEYS") => Does::Lists,
            _ if is("EXEC") && self.words == 1 => Does::CarriesOut,
            _ if is("MULTI") && self.words == 1 => Does::Queues,
            _ if is("DISCARD") && self.words == 1 => Does::Drops,
            _ if !is("EXEC") && may_write(self.name) == Some(true) => Does::Adds,
            _ => Does::Else,
        }
    }
}

/// A line without its end, and how many bytes it has with it.
fn line(bytes: &[u8]) -> Result<(&[u8], usize), Lack> {
    let end = bytes.iter().position(|byte| *byte == b'\n').ok_or(Lack::Part)?;
    Ok((bytes[..end].strip_suffix(b"\r").unwrap_or(&bytes[..end]), end + 1))
}

fn number(line: &[u8], mark: u8) -> Result<usize, Lack> {
    let digits = line.strip_prefix(&[mark]).and_then(|digits| std::str::from_utf8(digits).ok());
    digits.and_then(|digits| digits.parse().ok()).filter(|number| *number < 1 << 29).ok_or(Lack::Fault)
}

impl Front {
    /// Reads on in bytes that begin as they did before.
    pub fn read<'a>(&mut self, bytes: &'a [u8]) -> Result<Request<'a>, Lack> {
        if bytes.first() != Some(&b'*') {
            return self.read_line(bytes);
        }
        if self.at == 0 {
            let (head, len) = line(bytes)?;
            (self.left, self.at) = (number(head, b'*')?, len);
            self.words = self.left;
        }
        while self.left > 0 {
            let (head, len) = line(&bytes[self.at..])?;
            let word = number(head, b'$')?;
            let begin = self.at + len;
            if bytes.len() < begin + word + 2 {
                return Err(Lack::Part);
            }
            if self.left == self.words {
                self.name = (begin, begin + word);
            }
            (self.left, self.at) = (self.left - 1, begin + word + 2);
        }
        Ok(Request { name: &bytes[self.name.0..self.name.1], words: self.words, len: self.at })
    }

    /// Words on a line.
    fn read_line<'a>(&mut self, bytes: &'a [u8]) -> Result<Request<'a>, Lack> {
        let (text, len) = line(&bytes[self.at..]).inspect_err(|_| self.at = bytes.len()).map(|(_, len)| {
            let len = self.at + len;
            (bytes[..len].trim_ascii_end(), len)
        })?;
        let mut words = text.split(|byte| *byte == b' ').filter(|word| !word.is_empty());
        let (name, words) = (words.next().unwrap_or_default(), words.count() + usize::from(!text.is_empty()));
        Ok(Request { name, words, len })
    }
}

/// The words of a whole request.
pub fn words(request: &[u8]) -> Vec<&[u8]> {
    let Some(mut rest) = request.strip_prefix(b"*").and_then(|rest| line(rest).ok().map(|(_, len)| &rest[len..]))
    else {
        let line = request.trim_ascii_end();
        return line.split(|byte| *byte == b' ').filter(|word| !word.is_empty()).collect();
    };
    let mut words = Vec::new();
    while let Ok((head, len)) = line(rest) {
        let Ok(word) = number(head, b'$') else { break };
        let Some(text) = rest.get(len..len + word) else { break };
        words.push(text);
        rest = rest.get(len + word + 2..).unwrap_or_default();
    }
    words
}

#[cfg(test)]
mod tests {
    use super::*;

    /// What is read of bytes that come one by one: where each request ends, and its name.
    fn read(bytes: &[u8]) -> Vec<(Vec<u8>, usize, usize)> {
        let (mut found, mut begin, mut front) = (Vec::new(), 0, Front::default());
        for end in 1..=bytes.len() {
            match front.read(&bytes[begin..end]) {
                Ok(Request { name, words, len }) => {
                    found.push((name.to_vec(), words, len));
                    (begin, front) = (begin + len, Front::default());
                }
                Err(lack) => assert_eq!(lack, Lack::Part),
            }
        }
        found
    }

    #[test]
    fn requests_end_where_they_do() {
        let found = read(b"*2\r\n$3\r\nGET\r\n$1\r\na\r\nSET a  b\r\n\r\n*1\r\n$4\r\nPING\r\n");
        let wanted: [(&[u8], usize, usize); 4] = [(b"GET", 2, 20), (b"SET", 3, 10), (b"", 0, 2), (b"PING", 1, 14)];
        assert_eq!(found, wanted.map(|(name, words, len)| (name.to_vec(), words, len)));
    }

    #[test]
    fn words_are_those_of_the_request() {
        assert_eq!(words(b"*2\r\n$3\r\nGET\r\n$0\r\n\r\n"), [&b"GET"[..], b""]);
        assert_eq!(words(b" GET  a\r\n"), [&b"GET"[..], b"a"]);
    }

    #[test]
    fn browsers_are_known() {
        let does = |text: &[u8]| Front::default().read(text).map(|it| it.does((text[0] != b'*').then_some(text)));
        for text in [&b"POST / HTTP/1.1\r\n"[..], b"get / HTTP/1.0\r\n", b"host: a\r\n"] {
            assert_eq!(does(text), Ok(Does::Web));
        }
        assert_eq!(does(b"*2\r\n$4\r\nPOST\r\n$1\r\na\r\n"), Ok(Does::Else));
        assert_eq!(does(b"GET HTTP/\r\n"), Ok(Does::Shows));
        assert_eq!(does(b"SET a HTTP/1.1\r\n"), Ok(Does::Adds));
    }
}
