//! What a host has of the log, whether it leads or not: it reads along, makes snapshots in files of its own folder, and says up to where it has
//! one; whoever leads cuts off what a majority of hosts has. A host that lacks what was cut off copies the file of another.
use super::engine::{have, read_log, tell_have, Batch, Have, Keys, Leadership, ReadLog};
use super::leader::recovered;
use super::requests::Members;
use crate::door::is_password;
use crate::options::Options;
use hidewillow::store::folder::{named, Folder};
use hidewillow::store::mark::Said;
use hidewillow::store::recovery::{read_back, Begun};
use hidewillow::store::Recovery;
use std::fs::File;
use std::io::{self, BufRead, BufReader, Read, Write};
use std::net::{SocketAddr, TcpListener, TcpStream, ToSocketAddrs};
use std::sync::{Arc, Mutex, MutexGuard, Weak};
use std::thread;
use std::time::Duration;

/// How often it is looked what is new, and how long a copy waits for the next bytes.
const PAUSE: Duration = Duration::from_millis(300);
const SLOW: Duration = Duration::from_secs(10);
/// So many copies are handed out at once.
const COPIES: usize = 8;

/// What was read of the log.
#[derive(Default)]
pub struct Along {
    /// Batches behind the newest snapshot: the number of the first, and all up to now.
    pub first: u64,
    pub batches: Vec<Batch>,
    /// Whether all is there: nothing was cut off behind the snapshot, as far as was read.
    pub is_whole: bool,
    /// The leadership of this host, while it has one.
    pub leads: Weak<Leadership>,
}

/// What a host has of the log, read by a thread.
#[derive(Clone, Default)]
pub struct Follower(Arc<Mutex<Along>>);

/// The thread that reads along.
struct Reader {
    follower: Follower,
    options: Options,
    folder: Folder,
    said: Said,
    members: Members,
    keys: Keys,
    /// Where copies of the snapshot are to be had, and the number behind the one that others were told of.
    copies: String,
    told: u64,
}

impl Follower {
    /// Begins to read along, and to hand out copies of the newest snapshot.
    pub fn start(options: &Options, said: Said, members: Members) -> io::Result<Follower> {
        let listener = named(options.copies.as_ref(), TcpListener::bind(&options.copies))?;
        let (follower, copies) = (Follower::default(), announced(options, listener.local_addr()?)?);
        let folder = Folder(options.folder.clone().into());
        let (options, keys) = (options.clone(), Keys(options.prefix.clone()));
        let hands_out = options.clone();
        thread::spawn(move || hand_all_out(&listener, &hands_out));
        let mut reader = Reader { follower: follower.clone(), options, folder, said, members, keys, copies, told: 0 };
        thread::spawn(move || {
            let mut told = String::new();
            loop {
                if let Some(error) = reader.go_on().err().map(|error| error.to_string()).filter(|error| *error != told)
                {
                    say!("snapshots: {error}");
                    told = error;
                }
                thread::sleep(PAUSE);
            }
        });
        Ok(follower)
    }

    pub fn along(&self) -> MutexGuard<'_, Along> {
        self.0.lock().expect("no thread ends that has it")
    }
}

/// The address by which other hosts reach this one. Where the engine is on other machines nobody there reaches a loopback, or a wildcard.
fn announced(options: &Options, listens: SocketAddr) -> io::Result<String> {
    let text = match &options.announce {
        None => listens.to_string(),
        Some(host) if host.contains(':') => host.clone(),
        Some(host) => format!("{host}:{}", listens.port()),
    };
    let is_near = |text: &str| text.to_socket_addrs().is_ok_and(|mut all| all.all(|at| at.ip().is_loopback()));
    let is_none = text.to_socket_addrs().is_ok_and(|mut all| all.any(|at| at.ip().is_unspecified()));
    if is_none || is_near(&text) && !options.engine.iter().all(|member| is_near(member)) {
        let words = format!("no other host reaches {text}, where they are to copy snapshots: name the address that they reach by --announce, or by --copies");
        return Err(io::Error::other(words));
    }
    Ok(text)
}

/// Hands copies out to a few at once; the next waits until one of them is done.
fn hand_all_out(listener: &TcpListener, options: &Options) {
    let places = Arc::new(());
    for socket in listener.incoming() {
        while Arc::strong_count(&places) > COPIES {
            thread::sleep(PAUSE);
        }
        let (place, options) = (places.clone(), options.clone());
        let work = move |socket| hand_out(socket, &options).map(|()| drop(place));
        // Where there is no handle, or no thread, the other host tries again.
        match socket.map(|socket| thread::Builder::new().spawn(move || work(socket))) {
            Ok(Ok(_)) => (),
            _ => thread::sleep(PAUSE),
        }
    }
}

/// Sends the newest snapshot to who says the password, behind a line of its segment, its number and its bytes.
fn hand_out(mut socket: TcpStream, options: &Options) -> io::Result<()> {
    socket.set_read_timeout(Some(SLOW))?;
    socket.set_write_timeout(Some(SLOW))?;
    let mut word = Vec::new();
    BufReader::new(Read::take(&socket, 1 << 14)).read_until(b'\n', &mut word)?;
    if !is_password(options, word.strip_suffix(b"\n").unwrap_or(&word)) {
        thread::sleep(PAUSE);
        return Ok(());
    }
    let (segment, next, path) = Folder(options.folder.clone().into()).newest()?;
    let mut file = File::open(path.ok_or(io::ErrorKind::NotFound)?)?;
    writeln!(socket, "{segment} {next} {}", file.metadata()?.len())?;
    io::copy(&mut file, &mut socket).map(drop)
}

/// Connects to one of the addresses of a text, none of which is waited for longer than a while.
fn connected(text: &str) -> io::Result<TcpStream> {
    let mut did = Err(io::ErrorKind::AddrNotAvailable.into());
    for address in text.to_socket_addrs()? {
        did = TcpStream::connect_timeout(&address, SLOW);
        if did.is_ok() {
            break;
        }
    }
    did
}

impl Reader {
    /// Reads what is new, makes a snapshot where one is due, and has cut off what may be.
    fn go_on(&mut self) -> io::Result<()> {
        let (segment, first, _) = self.folder.newest()?;
        let next = {
            let mut along = self.follower.along();
            let behind = first.saturating_sub(along.first).min(along.batches.len() as u64) as usize;
            along.batches.drain(..behind);
            along.first = first;
            first + along.batches.len() as u64
        };
        let ReadLog { batches, cut, cut_at, .. } = read_log(&self.members, &self.keys, next)?;
        let due = {
            let mut along = self.follower.along();
            along.is_whole = cut < next;
            along.batches.extend(batches.into_iter().filter(|_| cut < next));
            let bytes: u64 = along.batches.iter().map(|batch| batch.frame.len() as u64).sum();
            if bytes >= self.options.snapshot {
                along.batches.clone()
            } else {
                Vec::new()
            }
        };
        let have = have(&self.members, &self.keys)?;
        if cut >= next {
            let mut others = have.iter().filter(|have| have.number >= cut);
            return others.find_map(|have| self.copy(have).ok()).ok_or_else(|| {
                io::Error::other(format!("no snapshot up to batch {cut} is in the folder, and no host hands one out"))
            });
        }
        self.make(&due)?;
        if self.told != first {
            let (number, copies) = (first - 1, self.copies.clone());
            let have = Have { number, segment, copies };
            tell_have(&self.members, &self.keys, &self.said.owner.host, &self.options.address, &have)?;
            self.told = first;
        }
        let leads = self.follower.along().leads.upgrade();
        let Some(leadership) = leads else { return Ok(()) };
        have.get(have.len() / 2).map_or(Ok(()), |most| leadership.cut(most, cut, cut_at, self.options.compacts))
    }

    /// Makes a snapshot of all up to the last end of a segment that was read.
    fn make(&self, batches: &[Batch]) -> io::Result<()> {
        let Some(last) = batches.iter().skip(1).rposition(|batch| batch.offset == 0) else { return Ok(()) };
        let mut recovery = self.folder.begin(Some(&self.said))?.log;
        let (segment, next) = (batches[last].segment, batches[last].number + 1);
        let keys = recovered(&mut recovery, &batches[..=last], next)?.keys;
        let bytes = self.folder.write_of(&mut recovery, &self.said.owner.identity, (segment, next, keys))?;
        self.folder.remove()?;
        say!("a snapshot up to batch {} has {bytes} bytes", next - 1);
        Ok(())
    }

    /// Copies the snapshot of another host.
    fn copy(&self, have: &Have) -> io::Result<()> {
        let socket = connected(&have.copies)?;
        socket.set_read_timeout(Some(SLOW))?;
        (&socket).write_all(&[&self.options.password[..], b"\n"].concat())?;
        let (mut socket, mut line) = (BufReader::new(socket), String::new());
        socket.read_line(&mut line)?;
        let numbers: Vec<u64> = line.split_whitespace().flat_map(str::parse).collect();
        let &[segment, next, bytes] = &numbers[..] else { return Err(io::Error::other("no copy is handed out")) };
        let path = self.folder.snapshot_of(segment, next);
        let copy = |file: &mut File| match io::copy(&mut socket.take(bytes), file)? {
            copied if copied == bytes => Ok(()),
            _ => Err(io::ErrorKind::UnexpectedEof.into()),
        };
        self.folder.place(&path, copy, |new| read_back(new, &self.said.owner.identity, (segment, next)))?;
        self.folder.remove()?;
        say!("a snapshot up to batch {} is copied from {}", next - 1, have.copies);
        Ok(())
    }
}

/// A log that has the newest snapshot, and the number behind that.
pub fn warmed(options: &Options, said: &Said) -> io::Result<(Recovery, u64)> {
    let Begun { log, first, .. } = Folder(options.folder.clone().into()).begin(Some(said))?;
    Ok((log, first))
}
