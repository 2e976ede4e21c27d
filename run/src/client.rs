//! The client's end of the wire: where the folder is, and a connection to its server that never blocks.
use crate::codec::{frame, message, Bytes, Frames};
use crate::wire::{Body, Content, Reply, Request, Step, LONGEST_HERE, LONGEST_PIECE, PROTOCOL};
use nix::fcntl::{fcntl, FcntlArg, OFlag};
use nix::poll::{poll, PollFd, PollFlags};
use std::ffi::OsString;
use std::fmt;
use std::fs::{self, File};
use std::io::{self, Read, Write};
use std::net::TcpStream;
use std::os::fd::{AsRawFd, OwnedFd, RawFd};
use std::os::unix::process::CommandExt;
use std::process::{Child, Command, Stdio};
use std::str::FromStr;
use std::time::{Duration, Instant};

/// Where a folder is.
#[derive(Clone, PartialEq, Eq, Debug)]
pub enum Place {
    /// `ssh:HOST:FOLDER`
    Ssh { host: String, folder: String },
    /// `tcp:PORT:SECRETFILE`, on this machine.
    Port { port: u16, secret_file: String },
    /// `local:FOLDER`
    Local { folder: String },
}

/// Why a text is no place.
#[derive(Clone, PartialEq, Eq, Debug)]
pub struct NoPlace(String);

impl fmt::Display for NoPlace {
    fn fmt(&self, out: &mut fmt::Formatter<'_>) -> fmt::Result {
        write!(out, "{:?} is none of ssh:HOST:FOLDER, tcp:PORT:SECRETFILE, local:FOLDER", self.0)
    }
}

impl std::error::Error for NoPlace {}

impl FromStr for Place {
    type Err = NoPlace;
    fn from_str(text: &str) -> Result<Place, NoPlace> {
        let no_place = || NoPlace(text.to_string());
        let (kind, rest) = text.split_once(':').ok_or_else(no_place)?;
        let two =
            || rest.split_once(':').filter(|(one, other)| !one.is_empty() && !other.is_empty()).ok_or_else(no_place);
        match kind {
            "ssh" => {
                let (host, folder) = two()?;
                if host.starts_with('-') {
                    return Err(no_place());
                }
                Ok(Place::Ssh { host: host.into(), folder: folder.into() })
            }
            "tcp" => {
                let (port, file) = two()?;
                Ok(Place::Port { port: port.parse().map_err(|_| no_place())?, secret_file: file.into() })
            }
            "local" if !rest.is_empty() => Ok(Place::Local { folder: rest.into() }),
            _ => Err(no_place()),
        }
    }
}

/// A connection to a server. Dropped, it ends, and a server that it started ends with it.
pub struct Link {
    input: File,
    output: File,
    server: Option<Child>,
    frames: Frames,
    /// Where it is read to.
    room: Box<[u8]>,
    waiting: Vec<u8>,
    written: usize,
    uploads: u64,
    /// Why it has ended: that shows where a reply is asked for.
    broken: Option<io::Error>,
    /// How many bytes went out and came in.
    pub sent: u64,
    pub received: u64,
}

impl Link {
    /// Connects, and says the greeting; the first reply is `Reply::Welcome`.
    pub fn open(place: &Place) -> io::Result<Link> {
        Link::open_as(place, &[])
    }

    /// The same in a session, which a later connection can go on with.
    pub fn open_as(place: &Place, session: &[u8]) -> io::Result<Link> {
        match place {
            Place::Ssh { host, folder } => Link::start_as(over_ssh(host, folder), session),
            Place::Local { folder } => Link::start_as(beside(folder), session),
            Place::Port { port, secret_file } => {
                let secret = fs::read(secret_file)?;
                let stream = TcpStream::connect(("127.0.0.1", *port))?;
                stream.set_nodelay(true)?;
                let input = File::from(OwnedFd::from(stream.try_clone()?));
                Link::greet(input, File::from(OwnedFd::from(stream)), None, (secret, session))
            }
        }
    }

    /// Starts a server, and speaks with it over its standard input and output.
    pub fn start(command: Command) -> io::Result<Link> {
        Link::start_as(command, &[])
    }

    fn start_as(mut command: Command, session: &[u8]) -> io::Result<Link> {
        command.stdin(Stdio::piped()).stdout(Stdio::piped());
        // SAFETY: between fork and exec only `signal` is called, which may be called there.
        unsafe {
            command.pre_exec(|| {
                // Signals to all are for the command that runs; this connection ends when that has.
                for signal in [libc::SIGINT, libc::SIGQUIT, libc::SIGTERM, libc::SIGHUP] {
                    libc::signal(signal, libc::SIG_IGN);
                }
                Ok(())
            });
        }
        let mut server = command.spawn()?;
        let (Some(output), Some(input)) = (server.stdin.take(), server.stdout.take()) else {
            return Err(io::Error::other("no pipes to the server"));
        };
        let (input, output) = (File::from(OwnedFd::from(input)), File::from(OwnedFd::from(output)));
        Link::greet(input, output, Some(server), (Vec::new(), session))
    }

    fn greet(input: File, output: File, server: Option<Child>, says: (Vec<u8>, &[u8])) -> io::Result<Link> {
        for file in [&input, &output] {
            let flags = OFlag::from_bits_truncate(fcntl(file.as_raw_fd(), FcntlArg::F_GETFL)?);
            fcntl(file.as_raw_fd(), FcntlArg::F_SETFL(flags | OFlag::O_NONBLOCK))?;
        }
        let (frames, room, waiting) = (Frames::default(), vec![0; 1 << 16].into(), Vec::new());
        let (sent, received) = (0, 0);
        let (written, uploads, broken) = (0, 0, None);
        let mut link = Link { input, output, server, frames, room, waiting, written, uploads, broken, sent, received };
        let (secret, session) = (Bytes(says.0), Bytes(says.1.to_vec()));
        link.send(Request::Hello { protocol: PROTOCOL, secret, session })?;
        Ok(link)
    }

    /// The handles to wait at: for what comes, and for room to write (where `has_waiting`).
    pub fn handles(&self) -> (RawFd, RawFd) {
        (self.input.as_raw_fd(), self.output.as_raw_fd())
    }

    /// The process that it started, if it did.
    pub fn server(&self) -> Option<u32> {
        self.server.as_ref().map(Child::id)
    }

    /// Whether something hasn't gone out yet.
    pub fn has_waiting(&self) -> bool {
        self.written < self.waiting.len()
    }

    /// Says it as soon as there is room; long contents in an epoch's steps go ahead in pieces. That the connection has ended is told
    /// by the next `receive`: so nothing is left half done where it does.
    pub fn send(&mut self, mut request: Request) -> io::Result<()> {
        if let Request::Epoch { steps, .. } = &mut request {
            for step in steps {
                self.send_ahead(step)?;
            }
        }
        self.queue(&request)
    }

    fn queue(&mut self, request: &Request) -> io::Result<()> {
        let bytes = frame(request);
        self.sent += bytes.len() as u64;
        if self.broken.is_none() {
            self.waiting.extend_from_slice(&bytes);
            if let Err(error) = self.flush() {
                self.ended(error);
            }
        }
        Ok(())
    }

    fn ended(&mut self, error: io::Error) {
        self.broken = Some(error);
        self.waiting.clear();
        self.written = 0;
    }

    fn send_ahead(&mut self, step: &mut Step) -> io::Result<()> {
        let Step::Put { content, .. } = step else { return Ok(()) };
        match content {
            Content::Whole(body) => self.send_body(body),
            Content::Changed { parts, .. } => parts.iter_mut().try_for_each(|(_, body)| self.send_body(body)),
        }
    }

    fn send_body(&mut self, body: &mut Body) -> io::Result<()> {
        if let Body::Here(Bytes(bytes)) = body {
            if bytes.len() > LONGEST_HERE {
                let bytes = std::mem::take(bytes);
                *body = self.send_from(&mut bytes.as_slice())?;
            }
        }
        Ok(())
    }

    /// Sends all that can be read ahead, for a step; waits for room meanwhile.
    pub fn send_from(&mut self, from: &mut impl Read) -> io::Result<Body> {
        self.uploads += 1;
        let upload = self.uploads;
        loop {
            let mut bytes = Vec::with_capacity(LONGEST_PIECE);
            from.by_ref().take(LONGEST_PIECE as u64).read_to_end(&mut bytes)?;
            let is_last = bytes.len() < LONGEST_PIECE;
            self.queue(&Request::Piece { upload, bytes: Bytes(bytes) })?;
            while self.waiting.len() - self.written > 8 * LONGEST_PIECE {
                self.wait(Duration::from_secs(3600))?;
                if let Err(error) = self.flush().and_then(|_| self.take_in()) {
                    self.ended(error);
                }
            }
            if is_last {
                return Ok(Body::Sent(upload));
            }
        }
    }

    /// Writes what there is room for; whether all has gone.
    pub fn flush(&mut self) -> io::Result<bool> {
        while self.has_waiting() {
            match self.output.write(&self.waiting[self.written..]) {
                Ok(0) => return Err(io::ErrorKind::WriteZero.into()),
                Ok(len) => self.written += len,
                Err(error) if error.kind() == io::ErrorKind::Interrupted => {}
                Err(error) if error.kind() == io::ErrorKind::WouldBlock => break,
                Err(error) => return Err(error),
            }
        }
        if self.written * 2 >= self.waiting.len() {
            self.waiting.drain(..self.written);
            self.written = 0;
        }
        Ok(self.waiting.is_empty())
    }

    /// Takes in what has come; whether more may come.
    fn take_in(&mut self) -> io::Result<bool> {
        loop {
            match self.input.read(&mut self.room) {
                Ok(0) => return Ok(false),
                Ok(len) => {
                    self.received += len as u64;
                    self.frames.push(&self.room[..len]);
                }
                Err(error) if error.kind() == io::ErrorKind::Interrupted => {}
                Err(error) if error.kind() == io::ErrorKind::WouldBlock => return Ok(true),
                Err(error) => return Err(error),
            }
        }
    }

    /// The next reply, if it is there. An error of the kind `UnexpectedEof`: the server has gone.
    pub fn receive(&mut self) -> io::Result<Option<Reply>> {
        if let Some(error) = self.broken.take() {
            return Err(error);
        }
        if let Some(frame) = self.frames.next_frame()? {
            return Ok(Some(message(frame)?));
        }
        let more = self.take_in()?;
        match self.frames.next_frame()? {
            Some(frame) => Ok(Some(message(frame)?)),
            None if more => Ok(None),
            None => Err(io::ErrorKind::UnexpectedEof.into()),
        }
    }

    /// Waits until something has come or can go; whether it has within the time.
    pub fn wait(&self, time: Duration) -> io::Result<bool> {
        let (input, output) = self.handles();
        let writes = if self.has_waiting() { PollFlags::POLLOUT } else { PollFlags::empty() };
        let mut handles = [PollFd::new(input, PollFlags::POLLIN), PollFd::new(output, writes)];
        let time = i32::try_from(time.as_millis()).unwrap_or(i32::MAX);
        match poll(&mut handles, time) {
            Ok(count) => Ok(count > 0),
            Err(nix::Error::EINTR) => Ok(false),
            Err(error) => Err(error.into()),
        }
    }

    /// Waits for the next reply; an error of the kind `TimedOut` where none came within the time.
    pub fn receive_within(&mut self, time: Duration) -> io::Result<Reply> {
        let begin = Instant::now();
        loop {
            self.flush()?;
            if let Some(reply) = self.receive()? {
                return Ok(reply);
            }
            let left = time.checked_sub(begin.elapsed()).ok_or(io::ErrorKind::TimedOut)?;
            self.wait(left)?;
        }
    }
}

impl Drop for Link {
    fn drop(&mut self) {
        if let Some(mut server) = self.server.take() {
            // It ends by itself once nothing more can come or go.
            if let (Ok(input), Ok(output)) = (File::open("/dev/null"), File::open("/dev/null")) {
                (self.input, self.output) = (input, output);
            }
            let _ = server.wait();
        }
    }
}

/// `ssh HOST hidewillow-files FOLDER`; HIDEWILLOW_SSH and HIDEWILLOW_FILES name other commands.
fn over_ssh(host: &str, folder: &str) -> Command {
    let words = words_of("HIDEWILLOW_SSH").unwrap_or_else(|| vec!["ssh".into(), "-T".into()]);
    let files = std::env::var("HIDEWILLOW_FILES").unwrap_or_else(|_| "hidewillow-files".into());
    let mut command = Command::new(&words[0]);
    let quoted = folder.replace('\'', "'\\''");
    command.args(&words[1..]).arg(host).arg(format!("{files} '{quoted}'"));
    command
}

/// The server that is installed with this program, or one in the path.
fn beside(folder: &str) -> Command {
    let words = words_of("HIDEWILLOW_FILES").unwrap_or_else(|| {
        let own = std::env::current_exe().ok().map(|path| path.with_file_name("hidewillow-files"));
        vec![own.filter(|path| path.exists()).map_or_else(|| "hidewillow-files".into(), OsString::from)]
    });
    let mut command = Command::new(&words[0]);
    command.args(&words[1..]).arg(folder);
    command
}

fn words_of(variable: &str) -> Option<Vec<OsString>> {
    let text = std::env::var(variable).ok()?;
    let words: Vec<OsString> = text.split_whitespace().map(OsString::from).collect();
    (!words.is_empty()).then_some(words)
}

#[cfg(test)]
mod tests {
    use super::*;

    #[test]
    fn places() {
        assert_eq!("local:/a:b".parse(), Ok(Place::Local { folder: "/a:b".into() }));
        assert_eq!("ssh:me@there:a:b".parse(), Ok(Place::Ssh { host: "me@there".into(), folder: "a:b".into() }));
        assert_eq!("tcp:77:/s".parse(), Ok(Place::Port { port: 77, secret_file: "/s".into() }));
        for text in ["", "a", "local:", "ssh:a", "ssh::b", "ssh:-oProxyCommand=x:b", "tcp:x:/s", "tcp:99999:/s"] {
            assert!(text.parse::<Place>().is_err(), "{text}");
        }
    }
}
