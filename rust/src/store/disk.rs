//! Threads that write frames and sync them, and make segments.
use super::envelope::ROOM_BEFORE;
use super::folder::Folder;
use super::mark::Marker;
use super::room::{Growth, Zeros};
use super::system::is_of_handles;
use super::tell::{Host, Tell};
use super::{FramePlace, HEAD};
use std::fs::{File, OpenOptions};
use std::io;
use std::os::unix::fs::FileExt;
use std::sync::mpsc::{channel, Receiver, Sender};
use std::sync::Arc;
use std::time::{Duration, Instant};
use std::{mem, thread};

/// A longer room for a frame isn't kept.
const ROOM: usize = 1 << 20;
/// How long it is waited where there are no handles.
const NO_HANDLES: Duration = Duration::from_millis(50);

/// A frame that is to be written, or the head of a cut, with what stands before it, and the place of the thread that does it.
pub struct Job {
    place: usize,
    pub at: FramePlace,
    pub is_head: bool,
    /// Where it is written in the file of its segment, and from where on it stands in the room.
    pub from: u64,
    room_from: usize,
    bytes: Vec<u8>,
    pub begun: Instant,
}

impl Job {
    /// Where it ends in the file.
    pub fn end(&self) -> u64 {
        self.from + (ROOM_BEFORE - self.room_from + self.at.len) as u64
    }
}

/// What came of something that went on beside the loop.
pub enum Word {
    Written(Job, io::Result<()>),
    /// A segment of so many zeros is made.
    Segment(io::Result<u64>),
    /// A segment has more zeros.
    Grown(Growth, io::Result<()>),
}

/// The head of a start, with what stands before it, which is written as soon as its segment is made.
pub type Head = (FramePlace, [u8; ROOM_BEFORE + HEAD]);

/// Whether there is no room for something.
pub fn is_full(error: &io::Error) -> bool {
    matches!(error.kind(), io::ErrorKind::StorageFull | io::ErrorKind::QuotaExceeded)
}

/// Opens something; where there are no handles left, once there are. Nothing waits for that but who called.
pub fn opened(mut open: impl FnMut() -> io::Result<File>) -> io::Result<File> {
    loop {
        match open() {
            Err(error) if is_of_handles(&error) => thread::sleep(NO_HANDLES),
            did => return did,
        }
    }
}

/// Writes bytes where they are to be, and syncs them, through a handle that its caller alone writes by. It has one for the next time
/// only where all went well.
pub fn write(folder: &Folder, own: &mut Option<(u64, File)>, segment: u64, place: u64, bytes: &[u8]) -> io::Result<()> {
    let file = match own.take_if(|(of, _)| *of == segment) {
        Some((_, file)) => file,
        None => opened(|| OpenOptions::new().write(true).open(folder.segment(segment)))?,
    };
    file.write_all_at(bytes, place)?; // [1]
    file.sync_data()?; // [2]
    *own = Some((segment, file)); // [4]
    Ok(())
}

pub struct Disk {
    folder: Arc<Folder>,
    marker: Arc<Marker>,
    /// Threads that write, and of those that are idle the places, each with a room for the next frame.
    threads: Vec<Sender<Job>>,
    idle: Vec<(usize, Vec<u8>)>,
    words: Receiver<Word>,
    tell: Tell<Word>,
    host: Host,
}

impl Disk {
    pub fn start(folder: Folder, marker: Arc<Marker>, threads: u16, host: Host) -> Disk {
        let ((tell, words), folder) = (Tell::new(host.clone()), Arc::new(folder));
        let start = |_| {
            let ((jobs, taken), folder, tell) = (channel::<Job>(), folder.clone(), tell.clone());
            thread::spawn(move || {
                let mut own = None;
                for job in taken {
                    let bytes = &job.bytes[job.room_from..ROOM_BEFORE + job.at.len];
                    let did = write(&folder, &mut own, job.at.segment, job.from, bytes);
                    tell.tell(Word::Written(job, did));
                }
            });
            jobs
        };
        let threads: Vec<_> = (0..threads.into()).map(start).collect();
        let idle = (0..threads.len()).map(|place| (place, Vec::new())).collect();
        Disk { folder, marker, threads, idle, words, tell, host }
    }

    /// Does something with the folder on a thread of its own, after a while, and tells what came of it.
    fn beside(&self, wait: Duration, does: impl FnOnce(&Folder) -> Word + Send + 'static) {
        let (folder, tell) = (self.folder.clone(), self.tell.clone());
        let work = move || {
            thread::sleep(wait);
            tell.tell(does(&folder));
        };
        // Where no thread can be had, nothing else goes on either.
        thread::Builder::new().spawn(work).expect("a thread for the folder");
    }

    /// Has a segment made, with the head of a start in it where there is one, which on a full disk is written over zeros that were kept for
    /// it; then what is known of the log is on the disk too.
    pub fn make_segment(&self, segment: u64, zeros: &Zeros, head: Option<Head>, wait: Duration) {
        let (marker, host) = (self.marker.clone(), self.host.clone());
        let (bytes, spare) = (zeros.first(), zeros.kept_back());
        self.beside(wait, move |folder| {
            let begin = |(at, bytes): Head| {
                write(folder, &mut None, at.segment, 0, &bytes)?;
                marker.sync(|mark| (mark.known, mark.segment, mark.place) = (at.frame, at.segment, bytes.len() as u64))
            };
            let mark = || {
                if let Err(error) = marker.sync(|_| ()) {
                    host.say(format_args!("what is known of the log is not on the disk: {error}"));
                }
                Ok(())
            };
            let made = match folder.make_segment(segment, bytes) {
                // Where there is none either, that there is no room is told.
                Err(error) if head.is_some() && is_full(&error) => folder.use_spare(segment).map_err(|_| error),
                did => did.map(|()| bytes),
            };
            // It is made again with the next, where there is no room now.
            let _ = folder.keep_spare(spare);
            Word::Segment(made.and_then(|made| head.map_or_else(mark, begin).map(|()| made)))
        });
    }

    /// Has a segment made longer.
    pub fn grow(&self, growth: Growth, wait: Duration) {
        self.beside(wait, move |folder| {
            let did = folder.grow(&growth);
            Word::Grown(growth, did)
        });
    }

    /// The folder, and the next word, where it comes within a while.
    pub fn folder(&self) -> &Folder {
        &self.folder
    }

    pub fn last_word(&mut self, wait: Duration) -> Option<Word> {
        self.words.recv_timeout(wait).ok()
    }

    /// A room for the next frame, where a thread is idle.
    pub fn room(&mut self) -> Option<&mut Vec<u8>> {
        self.idle.last_mut().map(|(_, room)| room)
    }

    /// Has that thread write what the room has from a place of it on, to a place in its file: where it ends there.
    pub fn send(&mut self, at: FramePlace, is_head: bool, room_from: usize, from: u64) -> u64 {
        let (place, bytes) = self.idle.pop().expect("a thread is idle");
        let job = Job { place, at, is_head, from, room_from, bytes, begun: Instant::now() };
        let end = job.end();
        self.threads[place].send(job).expect("disk threads don't end");
        end
    }

    pub fn next_word(&mut self) -> Option<Word> {
        let mut word = self.words.try_recv().ok()?;
        if let Word::Written(Job { place, bytes, .. }, _) = &mut word {
            bytes.truncate(ROOM);
            bytes.shrink_to(ROOM);
            self.idle.push((*place, mem::take(bytes)));
        }
        Some(word)
    }
}
