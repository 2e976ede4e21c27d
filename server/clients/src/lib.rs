//! A client that goes on before the disk has what it was told.
//!
//! **The one rule**: what a command is answered here may still be undone. Hold all output of your own - a line on a screen, a
//! message, a file, a command to another server - until [`Client::wait_all`] has come back with `Ok(None)`. If it tells what was
//! [`Undone`], your output never happened: drop it, take back what you did because of these answers, and begin again from what the
//! store has now.
//!
//! ```no_run
//! # fn main() -> std::io::Result<()> {
//! # use hidewillow_client::{Answer, Client};
//! let mut store = Client::connect("127.0.0.1:7379", None)?;
//! for _ in 0..100 {
//!     // Answered at once: no command waits for the disk.
//!     let Answer::Number(number) = store.ask(&["INCR", "tickets"])? else { break };
//!     store.ask(&["SET", &format!("ticket:{number}"), "sold"])?;
//! }
//! // One wait for all of them, and output behind it.
//! match store.wait_all()? {
//!     None => println!("sold"),
//!     Some(undone) => eprintln!("nothing was sold from {:?} on", undone.commands[0]),
//! }
//! # Ok(())
//! # }
//! ```
//!
//! Commands that depend on one that was undone, by the keys that they look at, are undone too; others stand, also if you sent them
//! because of an answer that was undone.
use std::io::{self, BufRead, BufReader, ErrorKind, Read, Write};
use std::mem;
use std::net::{TcpStream, ToSocketAddrs};

/// What a command is answered.
#[derive(Clone, Debug, PartialEq, Eq)]
pub enum Answer {
    Text(String),
    Error(String),
    Number(i64),
    Bytes(Vec<u8>),
    Nothing,
    Many(Vec<Answer>),
}

/// The commands of which nothing was done, by rising number: from 1 on behind the last [`Client::wait_all`], and their words.
#[derive(Clone, Debug, PartialEq, Eq)]
pub struct Undone {
    pub commands: Vec<(usize, Vec<Vec<u8>>)>,
}

/// A connection whose commands are answered ahead.
pub struct Client {
    stream: BufReader<TcpStream>,
    /// What was sent since all was last waited for, and how much of it is answered.
    sent: Vec<Vec<Vec<u8>>>,
    answered: usize,
}

fn wrong(what: impl Into<String>) -> io::Error {
    io::Error::new(ErrorKind::InvalidData, what.into())
}

impl Client {
    /// Connects, says the password if there is one, and asks for answers ahead.
    pub fn connect(address: impl ToSocketAddrs, password: Option<&str>) -> io::Result<Client> {
        let stream = TcpStream::connect(address)?;
        stream.set_nodelay(true)?;
        let mut client = Client { stream: BufReader::new(stream), sent: Vec::new(), answered: 0 };
        for words in password.map(|word| vec!["AUTH", word]).into_iter().chain([vec!["SPEC"]]) {
            client.write(&words)?;
            if let Answer::Error(error) = client.read()? {
                return Err(wrong(error));
            }
        }
        Ok(client)
    }

    /// A command and its answer, which may still be undone.
    pub fn ask<W: AsRef<[u8]>>(&mut self, words: &[W]) -> io::Result<Answer> {
        self.send(words)?;
        self.answer()
    }

    /// A command whose answer is asked for later, by [`Client::answer`], in order.
    pub fn send<W: AsRef<[u8]>>(&mut self, words: &[W]) -> io::Result<()> {
        self.sent.push(words.iter().map(|word| word.as_ref().into()).collect());
        self.write(words)
    }

    /// The answer of the next command that was sent.
    pub fn answer(&mut self) -> io::Result<Answer> {
        let Answer::Many(of) = self.read()? else { return Err(wrong("an answer without its number")) };
        self.answered += 1;
        match <[Answer; 2]>::try_from(of) {
            Ok([Answer::Number(number), answer]) if number == self.answered as i64 => Ok(answer),
            _ => Err(wrong("answers come in order")),
        }
    }

    /// Waits until all that was answered is on the disk. Tells what was undone, if anything was.
    pub fn wait_all(&mut self) -> io::Result<Option<Undone>> {
        while self.answered < self.sent.len() {
            self.answer()?;
        }
        self.write(&["WAITALL"])?;
        let (told, mut sent) = (self.read()?, mem::take(&mut self.sent));
        self.answered = 0;
        let Answer::Error(error) = told else { return Ok(None) };
        let Some(numbers) = error.strip_prefix("UNDONE ") else { return Err(wrong(error)) };
        let numbers = numbers.split(' ').map(|number| number.parse().map_err(|_| wrong(number)));
        let command = |number: usize| sent.get_mut(number.wrapping_sub(1)).map(|words| (number, mem::take(words)));
        let commands = numbers.collect::<io::Result<Vec<usize>>>()?.into_iter().filter_map(command).collect();
        Ok(Some(Undone { commands }))
    }

    fn write<W: AsRef<[u8]>>(&mut self, words: &[W]) -> io::Result<()> {
        let mut text = format!("*{}\r\n", words.len()).into_bytes();
        for word in words.iter().map(AsRef::as_ref) {
            text.extend_from_slice(format!("${}\r\n", word.len()).as_bytes());
            text.extend_from_slice(word);
            text.extend_from_slice(b"\r\n");
        }
        self.stream.get_mut().write_all(&text)
    }

    fn read(&mut self) -> io::Result<Answer> {
        let mut line = String::new();
        self.stream.read_line(&mut line)?;
        let line = line.strip_suffix("\r\n").ok_or(io::Error::from(ErrorKind::UnexpectedEof))?;
        let (kind, rest) = line.split_at_checked(1).ok_or_else(|| wrong(line))?;
        match kind {
            "+" => return Ok(Answer::Text(rest.into())),
            "-" => return Ok(Answer::Error(rest.into())),
            ":" | "$" | "*" => (),
            _ => return Err(wrong(line)),
        }
        let number: i64 = rest.parse().map_err(|_| wrong(line))?;
        match (kind, usize::try_from(number)) {
            (":", _) => Ok(Answer::Number(number)),
            (_, Err(_)) => Ok(Answer::Nothing),
            ("*", Ok(count)) => (0..count).map(|_| self.read()).collect::<io::Result<_>>().map(Answer::Many),
            (_, Ok(count)) => {
                let mut bytes = vec![0; count + 2];
                self.stream.read_exact(&mut bytes)?;
                bytes.truncate(count);
                Ok(Answer::Bytes(bytes))
            }
        }
    }
}
