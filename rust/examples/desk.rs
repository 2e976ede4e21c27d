//! A desk whose server is another process, at the other end of a socket pair: the C example again.
//!
//!     cargo run --release --example desk
use hidewillow::desk::{Answer, Ask, Content, Desk, Refusal, Reply, Request, REPLY_HEAD, REQUEST_HEAD};
use std::collections::{HashMap, HashSet};
use std::io::{self, Read, Write};
use std::os::fd::{AsFd, OwnedFd};
use std::os::unix::net::UnixStream;
use std::process::{Child, Command, Stdio};

type Wrong = Box<dyn std::error::Error>;

const START: &str = "script seller\nfetch /stock\nsay\nfetch /price\nsay\nstore /log\nend\n\
    script reader\nfetch /news\nsay\nend\n\
    copy /stock 3 \"three left\"\ncopy /price 7 \"9 coins\"\nprocess 1 seller 1\nprocess 2 reader 2\nworld\n";

/// Reads a message whose first bytes tell how many stand behind them; `None` at the end of the stream.
fn receive(stream: &mut UnixStream, head: usize, left: impl Fn(&[u8]) -> Option<usize>) -> io::Result<Option<Vec<u8>>> {
    let mut bytes = vec![0; head];
    if let Err(why) = stream.read_exact(&mut bytes) {
        let is_end = why.kind() == io::ErrorKind::UnexpectedEof;
        return if is_end { Ok(None) } else { Err(why) };
    }
    let behind = left(&bytes).filter(|it| *it < 1 << 20);
    bytes.resize(head + behind.ok_or(io::ErrorKind::InvalidData)?, 0);
    stream.read_exact(&mut bytes[head..])?;
    Ok(Some(bytes))
}

// ---- the server, in a process of its own

#[derive(Default)]
struct Server {
    files: HashMap<Vec<u8>, Content>,
    /// The guesses that were refused, on which a later request may depend.
    refused: HashSet<u64>,
}

impl Server {
    fn new() -> Server {
        let files = [("/stock", 4, "two left"), ("/price", 7, "9 coins"), ("/news", 1, "open late")];
        let content = |version, bytes: &str| Content { version, bytes: bytes.into() };
        Server {
            files: files.map(|(name, version, bytes)| (name.into(), content(version, bytes))).into(),
            refused: HashSet::new(),
        }
    }

    fn answer_to(&mut self, request: &Request) -> Answer {
        if request.rests.iter().any(|it| self.refused.contains(it)) {
            return Answer::Dropped;
        }
        let file = self.files.entry(request.name.to_vec()).or_default();
        match request.ask {
            Ask::Get => Answer::Copy(file.clone()),
            Ask::Check(version) | Ask::Store(version, _) if version != file.version => Answer::No(file.clone()),
            Ask::Check(_) => Answer::Yes,
            Ask::Store(version, bytes) => {
                *file = Content { version: version + 1, bytes: bytes.to_vec() };
                Answer::Yes
            }
        }
    }

    fn reply_to(&mut self, request: &Request) -> Reply {
        self.refused.retain(|it| *it >= request.settled);
        let answer = self.answer_to(request);
        if answer != Answer::Yes {
            self.refused.extend(request.guess);
        }
        Reply { number: request.number, answer }
    }
}

/// Answers the requests that come on standard input, which is a socket.
fn serve() -> Result<(), Wrong> {
    let mut stream = UnixStream::from(io::stdin().as_fd().try_clone_to_owned()?);
    let mut server = Server::new();
    while let Some(bytes) = receive(&mut stream, REQUEST_HEAD, Request::left)? {
        let request = Request::of(&bytes).ok_or("no request")?;
        stream.write_all(&server.reply_to(&request).bytes())?;
    }
    Ok(())
}

fn start_server() -> Result<(UnixStream, Child), Wrong> {
    let (ours, theirs) = UnixStream::pair()?;
    let server =
        Command::new(std::env::current_exe()?).arg("server").stdin(Stdio::from(OwnedFd::from(theirs))).spawn()?;
    Ok((ours, server))
}

// ---- the client

/// Takes turns of a process as long as it can go on, without a wait for a reply.
fn turns(desk: &mut Desk, process: &str) -> Result<(), Refusal> {
    loop {
        match desk.turn(process) {
            Ok(turn) => println!("process {process}: {turn:?}"),
            Err(Refusal::Refused(_)) => return Ok(()),
            Err(why) => return Err(why),
        }
    }
}

fn send_requests(desk: &mut Desk, stream: &mut UnixStream) -> Result<(), Wrong> {
    while let Some(request) = desk.request()? {
        stream.write_all(&request)?;
    }
    Ok(())
}

/// Waits for the replies to all requests, and gives them.
fn give_replies(desk: &mut Desk, stream: &mut UnixStream) -> Result<(), Wrong> {
    while desk.pending() > 0 {
        let reply = receive(stream, REPLY_HEAD, Reply::left)?.ok_or("the server ended")?;
        println!("reply: {:?}", desk.reply(&reply)?);
    }
    Ok(())
}

fn show(desk: &mut Desk) -> Result<(), Wrong> {
    for number in [1, 2] {
        print!("{}", desk.terminal(number)?);
    }
    Ok(())
}

fn main() -> Result<(), Wrong> {
    if std::env::args().nth(1).as_deref() == Some("server") {
        return serve();
    }
    let (mut stream, mut server) = start_server()?;
    let mut desk = Desk::open(START)?;
    for _ in 0..2 {
        turns(&mut desk, "1")?;
        turns(&mut desk, "2")?;
        show(&mut desk)?;
        send_requests(&mut desk, &mut stream)?;
        give_replies(&mut desk, &mut stream)?;
    }
    turns(&mut desk, "1")?;
    turns(&mut desk, "2")?;
    show(&mut desk)?;
    desk.new_epoch()?;
    let mut place = 0;
    while let Some(text) = desk.left(1, place)? {
        println!("left: {text}");
        place += 1;
    }
    show(&mut desk)?;
    drop(stream);
    assert!(server.wait()?.success());
    Ok(())
}
