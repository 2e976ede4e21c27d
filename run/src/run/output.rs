//! What the command says goes to pipes of the supervisor, and out once it is decided.
use crate::run::decides::Decides;
use crate::run::{sys, wrong};
use std::collections::HashMap;
use std::fs::File;
use std::io::{self, Read, Write};
use std::os::fd::{AsRawFd, FromRawFd, IntoRawFd, OwnedFd, RawFd};

/// No more than this is held of what was said.
const MOST_HELD: usize = 64 << 20;

/// One of the two output pipes.
struct Stream {
    /// Gone where nobody reads the command's output any more.
    from: Option<File>,
    to: OwnedFd,
    inode: u64,
    out: RawFd,
}

/// Standard output and error; one pipe where both are one file.
pub struct Streams {
    all: Vec<Stream>,
    chunks: HashMap<u64, Vec<u8>>,
    /// What was read and belongs to no epoch yet, in order: of which stream, and what.
    pub pending: Vec<(usize, Vec<u8>)>,
    next: u64,
    held: usize,
    pub said: u64,
    pub shown: u64,
    /// Where it is read to.
    room: Box<[u8]>,
}

/// A pipe: the end that is read, and the end that is written.
pub fn pipe() -> io::Result<(OwnedFd, OwnedFd)> {
    let mut p = [0; 2];
    // SAFETY: the kernel gives two new descriptors, which are ours alone.
    unsafe {
        if libc::pipe2(p.as_mut_ptr(), libc::O_CLOEXEC) != 0 {
            return Err(io::Error::last_os_error());
        }
        Ok((OwnedFd::from_raw_fd(p[0]), OwnedFd::from_raw_fd(p[1])))
    }
}
pub fn set_flags(fd: RawFd, add: i32) {
    // SAFETY: numbers only.
    unsafe {
        let f = libc::fcntl(fd, libc::F_GETFL);
        libc::fcntl(fd, libc::F_SETFL, f | add);
    }
}
/// Has a signal sent to us where there is something to read.
pub fn signal_when_ready(fd: RawFd) {
    // SAFETY: numbers only.
    unsafe { libc::fcntl(fd, libc::F_SETOWN, libc::getpid()) };
    set_flags(fd, libc::O_ASYNC | libc::O_NONBLOCK);
}

impl Streams {
    pub fn open() -> io::Result<Streams> {
        // SAFETY: numbers only.
        let me = unsafe { libc::getpid() };
        let one = sys::compare_descriptions((me, 1), (me, 2)).is_eq() || same_terminal();
        let (mut all, room) = (Vec::new(), vec![0; 65536].into());
        for out in if one { vec![1] } else { vec![1, 2] } {
            let (from, to) = pipe()?;
            let inode = sys::stat(from.as_raw_fd())?.st_ino;
            // SAFETY: the descriptor was `from`'s and is the file's from here on.
            let from = unsafe { File::from_raw_fd(from.into_raw_fd()) };
            all.push(Stream { from: Some(from), to, inode, out });
        }
        Ok(Streams { all, chunks: HashMap::new(), pending: Vec::new(), next: 0, held: 0, said: 0, shown: 0, room })
    }
    pub fn signal_when_ready(&self) {
        self.readers().for_each(signal_when_ready);
    }
    pub fn readers(&self) -> impl Iterator<Item = RawFd> + '_ {
        self.all.iter().filter_map(|s| s.from.as_ref().map(AsRawFd::as_raw_fd))
    }
    /// The descriptor that the command has as its standard output (0) or error (1).
    pub fn end_of(&self, place: usize) -> RawFd {
        self.all[place.min(self.all.len() - 1)].to.as_raw_fd()
    }
    pub fn output_of(&self, inode: u64) -> Option<usize> {
        self.all.iter().position(|s| s.inode == inode)
    }
    /// Takes in what was said so far.
    pub fn read(&mut self) {
        for i in 0..self.all.len() {
            while self.held < MOST_HELD {
                let Some(from) = &mut self.all[i].from else { break };
                let Ok(n @ 1..) = from.read(&mut self.room) else { break };
                self.said += n as u64;
                let said = self.room[..n].to_vec();
                if wrong::is(wrong::OUTPUT_AT_ONCE) {
                    self.write(i, &said);
                    continue;
                }
                self.held += n;
                self.pending.push((i, said));
            }
        }
    }
    /// What was taken in belongs to the newest epoch.
    pub fn say(&mut self, decides: &mut dyn Decides) {
        for (i, bytes) in std::mem::take(&mut self.pending) {
            self.next += 1;
            self.chunks.insert(self.next, bytes);
            decides.said(self.all[i].out as u16, self.next);
        }
        self.show(decides);
    }
    pub fn show(&mut self, decides: &mut dyn Decides) {
        for i in 0..self.all.len() {
            // [12]
            while let Some(number) = decides.shown(self.all[i].out as u16) {
                let Some(bytes) = self.chunks.remove(&number) else { continue };
                self.held -= bytes.len();
                self.write(i, &bytes);
            }
        }
    }
    fn write(&mut self, i: usize, mut bytes: &[u8]) {
        while !bytes.is_empty() {
            // SAFETY: the bytes are ours; the descriptor is standard output or error.
            let n = unsafe { libc::write(self.all[i].out, bytes.as_ptr().cast(), bytes.len()) };
            if n > 0 {
                self.shown += n as u64;
                bytes = &bytes[n as usize..];
                continue;
            }
            match io::Error::last_os_error().kind() {
                io::ErrorKind::Interrupted => {}
                io::ErrorKind::WouldBlock => std::thread::sleep(std::time::Duration::from_millis(1)),
                _ => {
                    // nobody reads it: who says more gets the signal for that
                    self.all[i].from = None;
                    return;
                }
            }
        }
    }
    /// What was said after the checkpoint was never said; this was pending at it.
    pub fn take_back(&mut self, decides: &mut dyn Decides, pending: Vec<(usize, Vec<u8>)>) {
        for s in &mut self.all {
            if let Some(from) = &mut s.from {
                while matches!(from.read(&mut self.room), Ok(1..)) {}
            }
        }
        self.show(decides);
        self.chunks.clear();
        self.held = pending.iter().map(|(_, b)| b.len()).sum();
        self.pending = pending;
    }
}

/// Whether output and error are one terminal.
fn same_terminal() -> bool {
    let (Ok(a), Ok(b)) = (sys::stat(1), sys::stat(2)) else { return false };
    io::stdout().flush().is_ok() && a.st_mode & libc::S_IFMT == libc::S_IFCHR && a.st_rdev == b.st_rdev
}
