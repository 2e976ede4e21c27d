//! The stream's two ends: frames with the time when each may be taken, and replies, at a pace that tests choose.
use crate::codec::Frames;
use std::io::{self, Read, Write};
use std::sync::mpsc::{self, Receiver, RecvTimeoutError, Sender, SyncSender};
use std::sync::{Arc, Condvar, Mutex, PoisonError};
use std::thread;
use std::time::{Duration, Instant};

/// How slow the way is.
#[derive(Clone, Copy, Debug, Default)]
pub struct Pace {
    pub delay: Duration,
    /// Bytes a second.
    pub bandwidth: Option<u64>,
}

impl Pace {
    fn time_of(&self, bytes: usize) -> Duration {
        match self.bandwidth {
            Some(bandwidth) => Duration::from_secs_f64(bytes as f64 / bandwidth as f64),
            None => Duration::ZERO,
        }
    }
}

/// How many frames, and bytes of them, may wait to be taken: a client that sends more waits.
const MOST_WAITING: usize = 4096;
const MOST_BYTES: usize = 64 << 20;

/// How many bytes wait to be taken.
#[derive(Default)]
struct Room {
    waiting: Mutex<usize>,
    taken: Condvar,
}

impl Room {
    fn add(&self, bytes: usize) {
        let waiting = self.waiting.lock().unwrap_or_else(PoisonError::into_inner);
        let more = self.taken.wait_while(waiting, |waiting| *waiting > MOST_BYTES);
        *more.unwrap_or_else(PoisonError::into_inner) += bytes;
    }

    fn take(&self, bytes: usize) {
        *self.waiting.lock().unwrap_or_else(PoisonError::into_inner) -= bytes;
        self.taken.notify_one();
    }
}

/// A frame and the time from which on it counts as there; the last is how the stream ended.
type Frame = (Instant, io::Result<Vec<u8>>);

/// Frames that came.
pub struct Incoming(Receiver<Frame>, Arc<Room>);

impl Incoming {
    /// The next one; an error of the kind `UnexpectedEof` where the stream has ended.
    pub fn next_frame(&self) -> io::Result<Vec<u8>> {
        self.0.recv().map_or_else(|_| Err(io::ErrorKind::UnexpectedEof.into()), |frame| self.taken(frame))
    }

    /// The next one, if it comes within the time.
    pub fn next_frame_within(&self, time: Duration) -> io::Result<Option<Vec<u8>>> {
        match self.0.recv_timeout(time) {
            Ok(frame) => self.taken(frame).map(Some),
            Err(RecvTimeoutError::Timeout) => Ok(None),
            Err(RecvTimeoutError::Disconnected) => Err(io::ErrorKind::UnexpectedEof.into()),
        }
    }

    fn taken(&self, (time, frame): Frame) -> io::Result<Vec<u8>> {
        self.1.take(frame.as_ref().map_or(0, Vec::len));
        if let Some(left) = time.checked_duration_since(Instant::now()) {
            thread::sleep(left);
        }
        frame
    }
}

/// Frames as they come, at a pace.
pub fn incoming(mut from: impl Read + Send + 'static, pace: Pace) -> Incoming {
    let (sender, receiver) = mpsc::sync_channel(MOST_WAITING);
    let room = Arc::new(Room::default());
    let of_reader = room.clone();
    thread::spawn(move || {
        let end = read_frames(&mut from, pace, &sender, &of_reader);
        let error = end.err().unwrap_or_else(|| io::ErrorKind::UnexpectedEof.into());
        // The other end may have gone.
        let _ = sender.send((Instant::now(), Err(error)));
    });
    Incoming(receiver, room)
}

fn read_frames(from: &mut impl Read, pace: Pace, to: &SyncSender<Frame>, room: &Room) -> io::Result<()> {
    let mut frames = Frames::default();
    let mut bytes = vec![0; 1 << 16];
    let mut free = Instant::now();
    loop {
        let len = match from.read(&mut bytes) {
            Ok(0) => return Ok(()),
            Err(error) if error.kind() == io::ErrorKind::Interrupted => continue,
            len => len?,
        };
        free = free.max(Instant::now()) + pace.time_of(len);
        frames.push(&bytes[..len]);
        while let Some(frame) = frames.next_frame()? {
            room.add(frame.len());
            if to.send((free + pace.delay, Ok(frame.to_vec()))).is_err() {
                return Ok(());
            }
        }
    }
}

/// Takes frames to be written, in order.
pub struct Outgoing(Option<Sender<Vec<u8>>>, Option<thread::JoinHandle<()>>);

impl Outgoing {
    pub fn new(mut to: impl Write + Send + 'static, pace: Pace) -> Outgoing {
        let (sender, receiver) = mpsc::channel::<Vec<u8>>();
        let writer = thread::spawn(move || {
            for frame in receiver {
                thread::sleep(pace.time_of(frame.len()));
                if to.write_all(&frame).and_then(|()| to.flush()).is_err() {
                    return;
                }
            }
        });
        Outgoing(Some(sender), Some(writer))
    }

    /// An error: the other end has gone.
    pub fn send(&self, frame: Vec<u8>) -> io::Result<()> {
        let sender = self.0.as_ref().ok_or(io::ErrorKind::BrokenPipe)?;
        sender.send(frame).map_err(|_| io::ErrorKind::BrokenPipe.into())
    }
}

impl Drop for Outgoing {
    /// What was said goes out.
    fn drop(&mut self) {
        self.0 = None;
        if let Some(writer) = self.1.take() {
            let _ = writer.join();
        }
    }
}
