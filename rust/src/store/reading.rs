//! Files of a log, read and stripped of what stands around their frames: the library is given just the frames up to the first whose envelope
//! or checksum doesn't hold. What stands behind is searched for what it says of frames that were synced.
use super::envelope::{is_of_heads, Ending, Envelope, FileHead, Identity, ENVELOPE, FILE_HEAD};
use super::mark::GaveUp;
use std::fs::{File, OpenOptions};
use std::io;
use std::os::unix::fs::FileExt;
use std::path::Path;
use std::sync::mpsc::{self, Receiver, SyncSender};
use std::thread::{self, JoinHandle};

/// Files are read by pieces of so many bytes, up to so many pieces ahead.
const PIECE: usize = 1 << 20;
const PIECES: usize = 8;

pub fn is_zeros(bytes: &[u8]) -> bool {
    bytes.chunks(4096).all(|bytes| bytes.iter().fold(0, |all, byte| all | byte) == 0)
}

/// Reads a file ahead of who takes its pieces, on a thread of its own: what isn't zeros is written again where it stands, if asked to, and
/// is on the disk once the file was read to its end.
struct Ahead {
    pieces: Option<Receiver<Vec<u8>>>,
    thread: Option<JoinHandle<io::Result<()>>>,
}

impl Ahead {
    fn of(file: File, again: bool) -> Ahead {
        let (tell, pieces) = mpsc::sync_channel(PIECES);
        let thread = thread::spawn(move || read_ahead(&file, again, &tell));
        Ahead { pieces: Some(pieces), thread: Some(thread) }
    }

    /// The next piece, and nothing at the end.
    fn next(&mut self) -> io::Result<Vec<u8>> {
        match self.pieces.as_ref().map(Receiver::recv) {
            Some(Ok(piece)) => Ok(piece),
            _ => self.end().map(|()| Vec::new()),
        }
    }

    /// Nothing more is taken: what came of the thread.
    fn end(&mut self) -> io::Result<()> {
        self.pieces = None;
        let did = self.thread.take().map(JoinHandle::join);
        did.unwrap_or(Ok(Ok(()))).unwrap_or_else(|_| refused("it could not be read"))
    }
}

impl Drop for Ahead {
    fn drop(&mut self) {
        let _ = self.end();
    }
}

/// Tells the pieces of a file, the last of which is empty.
fn read_ahead(file: &File, again: bool, tell: &SyncSender<Vec<u8>>) -> io::Result<()> {
    let mut at = 0;
    loop {
        let mut piece = vec![0; PIECE];
        let count = file.read_at(&mut piece, at)?;
        piece.truncate(count);
        if again && !is_zeros(&piece) {
            file.write_all_at(&piece, at)?; // [8]
        }
        at += count as u64;
        if tell.send(piece).is_err() {
            return Ok(());
        }
        if count == 0 {
            // Nobody waits for that before all is read.
            return if again { file.sync_data() } else { Ok(()) }; // [8]
        }
    }
}

/// What is yet to come of a file that was read to its end: that what was written again is on the disk.
pub struct Again(Option<Ahead>);

impl Again {
    pub fn end(self) -> io::Result<()> {
        self.0.map_or(Ok(()), |mut ahead| ahead.end())
    }
}

enum Source {
    Here(File),
    Ahead(Ahead),
}

/// A file that is read from its front to its end, piece by piece.
pub struct Reader {
    source: Source,
    room: Vec<u8>,
    from: u64,
    is_end: bool,
}

impl Reader {
    /// Of which the front is read.
    pub fn open(path: &Path) -> io::Result<Reader> {
        Ok(Reader::of(Source::Here(File::open(path)?)))
    }

    /// Of which all is read, by a thread ahead of what is asked for; and written again, if asked to.
    pub fn ahead(path: &Path, again: bool) -> io::Result<Reader> {
        let file = OpenOptions::new().read(true).write(again).open(path)?;
        Ok(Reader::of(Source::Ahead(Ahead::of(file, again))))
    }

    fn of(source: Source) -> Reader {
        Reader { source, room: Vec::new(), from: 0, is_end: false }
    }

    /// So many bytes from a place on, or fewer at the end of the file. Places don't fall, and lie in what was read or next to it.
    pub fn at(&mut self, place: u64, count: usize) -> io::Result<&[u8]> {
        if place - self.from > PIECE as u64 {
            self.room.drain(..(place - self.from) as usize);
            self.from = place;
        }
        let skip = (place - self.from) as usize;
        while !self.is_end && self.room.len() < skip + count {
            self.fill()?;
        }
        Ok(&self.room[skip..self.room.len().min(skip + count)])
    }

    fn fill(&mut self) -> io::Result<()> {
        let (len, at) = (self.room.len(), self.from + self.room.len() as u64);
        match &mut self.source {
            Source::Here(file) => {
                self.room.resize(len + PIECE, 0);
                let count = file.read_at(&mut self.room[len..], at)?;
                self.room.truncate(len + count);
            }
            Source::Ahead(ahead) => self.room.extend_from_slice(&ahead.next()?),
        }
        self.is_end = self.room.len() == len;
        Ok(())
    }

    /// The file was read to its end.
    pub fn end(self) -> Again {
        match self.source {
            Source::Here(_) => Again(None),
            Source::Ahead(ahead) => Again(Some(ahead)),
        }
    }
}

/// Gives all of a file that is of an older server, as it stands.
pub fn whole(mut reader: Reader, mut take: impl FnMut(&[u8]) -> io::Result<()>) -> io::Result<Again> {
    let mut at = 0;
    loop {
        let piece = reader.at(at, PIECE)?;
        if piece.is_empty() {
            return Ok(reader.end());
        }
        take(piece)?;
        at += piece.len() as u64;
    }
}

/// Whether a segment was made and nothing was written in it.
pub fn is_unused(path: &Path) -> bool {
    let no = |piece: &[u8]| is_zeros(piece).then_some(()).ok_or(io::ErrorKind::Other.into());
    Reader::open(path).and_then(|reader| whole(reader, no)).is_ok()
}

/// Whether a file is of a server that gives its files heads.
pub fn has_head(path: &Path) -> io::Result<bool> {
    Ok(is_of_heads(Reader::open(path)?.at(0, FILE_HEAD)?))
}

fn refused<T>(what: impl Into<String>) -> io::Result<T> {
    Err(io::Error::other(what.into()))
}

/// In words what stands where something else was expected.
fn words(bytes: &[u8]) -> String {
    match bytes {
        [] => "the end of the file".into(),
        _ if is_zeros(bytes) => "zeros".into(),
        _ => format!("{} bytes of something else, or damaged ones", bytes.len()),
    }
}

/// What was read of a segment.
#[derive(Default)]
pub struct Walked {
    pub segment: u64,
    /// The number of its first frame, which is whole, and of the next behind those that are.
    pub first: Option<u64>,
    pub next: u64,
    /// Where that would stand, what is found there, and how many bytes up to the last that isn't 0 there are from there on.
    pub place: u64,
    pub found: String,
    pub rest: u64,
    /// How many whole frames stand behind, and up to which number anything in it says that all frames were synced.
    pub later: u64,
    pub known: u64,
}

impl Walked {
    /// Whether a frame of this number was whole.
    pub fn has(&self, number: u64) -> bool {
        self.first.is_some_and(|first| first <= number && number < self.next)
    }
}

/// The frames of a segment, one after the other.
pub struct Walk<'a> {
    reader: Reader,
    identity: &'a Identity,
    gave_up: GaveUp,
    at: Walked,
}

impl<'a> Walk<'a> {
    /// Begins to read a segment. A head of another store or segment is refused by name.
    pub fn begin(mut reader: Reader, identity: &'a Identity, segment: u64, gave_up: GaveUp) -> io::Result<Walk<'a>> {
        let mut at = Walked { segment, place: FILE_HEAD as u64, ..Walked::default() };
        let front = reader.at(0, FILE_HEAD)?;
        match FileHead::of(front) {
            Some(head) if head.of_snapshot => return refused("it is a snapshot, and no segment of the log"),
            Some(head) if head.identity != *identity => return refused("it is of another store"),
            Some(head) if head.segment != segment => {
                return refused(format!(
                    "it is segment {} of the log by what it begins with, and not what its name says",
                    head.segment
                ))
            }
            Some(head) => (at.next, at.known) = (head.frame, gave_up.known(segment, head.known)),
            None => (at.place, at.found) = (0, format!("in the place of the segment's head {}", words(front))),
        }
        Ok(Walk { reader, identity, gave_up, at })
    }

    /// The next frame, if it is whole.
    #[allow(clippy::should_implement_trait)] // what it lends is of its room
    pub fn next(&mut self) -> io::Result<Option<&[u8]>> {
        let Walk { reader, identity, gave_up, at } = self;
        if !at.found.is_empty() {
            return Ok(None);
        }
        let front = reader.at(at.place, ENVELOPE)?;
        let envelope = Envelope::of(identity, front).filter(|it| it.segment == at.segment && it.number == at.next);
        let Some(envelope) = envelope else {
            at.found = words(front);
            return Ok(None);
        };
        at.known = at.known.max(gave_up.known(at.segment, envelope.known));
        let frame = reader.at(at.place + ENVELOPE as u64, envelope.len)?;
        if !envelope.holds(frame) {
            at.found = format!("a frame of {} bytes whose checksum doesn't hold", envelope.len);
            return Ok(None);
        }
        at.first = at.first.or(Some(at.next));
        at.place += (ENVELOPE + envelope.len) as u64;
        at.next += 1;
        Ok(Some(frame))
    }

    /// Reads what stands behind the frames that are whole, to the end.
    pub fn end(mut self) -> io::Result<(Walked, Again)> {
        let (tag, mut place, mut last) = (self.identity.tag(), self.at.place, self.at.place);
        loop {
            let piece = self.reader.at(place, PIECE)?;
            if piece.is_empty() {
                break;
            }
            let used = piece.iter().rposition(|byte| *byte != 0);
            let Some(used) = used else {
                place += piece.len() as u64;
                continue;
            };
            last = last.max(place + used as u64 + 1);
            let Some(found) = piece.windows(tag.len()).position(|bytes| bytes == tag) else {
                let kept = if piece.len() < PIECE { 0 } else { tag.len() - 1 };
                place += (piece.len() - kept) as u64;
                continue;
            };
            place += found as u64;
            place += self.look(place)?;
            last = last.max(place);
        }
        self.at.rest = last - self.at.place;
        Ok((self.at, self.reader.end()))
    }

    /// Looks at what may be an envelope, behind frames that aren't whole: how many bytes it is, with its frame.
    fn look(&mut self, place: u64) -> io::Result<u64> {
        let Walk { reader, identity, gave_up, at } = self;
        let Some(envelope) = Envelope::of(identity, reader.at(place, ENVELOPE)?) else { return Ok(1) };
        at.known = at.known.max(gave_up.known(envelope.segment, envelope.known));
        if !envelope.holds(reader.at(place + ENVELOPE as u64, envelope.len)?) {
            return Ok(ENVELOPE as u64);
        }
        at.later += 1;
        Ok((ENVELOPE + envelope.len) as u64)
    }
}

/// Whether a file begins as a snapshot of this store does that stands for all up to a segment, with the next frame; an error says what it is.
fn begins(front: &[u8], identity: &Identity, (segment, frame): (u64, u64)) -> io::Result<()> {
    match FileHead::of(front) {
        None => refused(format!("at byte 0 the head of a snapshot was expected, and found is {}", words(front))),
        Some(head) if !head.of_snapshot => refused("it is a segment of the log, and no snapshot"),
        Some(head) if head.identity != *identity => refused("it is a snapshot of another store"),
        Some(head) if (head.segment, head.frame) != (segment, frame) => {
            let (segment, frame) = (head.segment, head.frame);
            refused(format!(
                "it stands for all up to segment {segment}, before frame {frame}, and not for what its name says"
            ))
        }
        Some(_) => Ok(()),
    }
}

/// Gives the pieces of a snapshot that stands for all up to a segment, with the next frame, or of what stands there in their place; what it
/// ends with.
pub fn snapshot(
    path: &Path,
    identity: &Identity,
    of: (u64, u64),
    mut take: impl FnMut(&[u8]) -> io::Result<()>,
) -> io::Result<Ending> {
    let mut reader = Reader::ahead(path, false)?;
    begins(reader.at(0, FILE_HEAD)?, identity, of)?;
    let (mut so_far, mut place) = (Ending::default(), FILE_HEAD as u64);
    loop {
        let front = reader.at(place, ENVELOPE)?;
        let found = words(front);
        if let Some(ending) = Ending::of(identity, front) {
            let is_all = reader.at(place + ENVELOPE as u64, 1)?.is_empty();
            so_far.entries = ending.entries;
            return if is_all && ending == so_far {
                Ok(ending)
            } else {
                refused(format!("at byte {place} it ends otherwise than it says"))
            };
        }
        let number = so_far.pieces + 1;
        let Some(envelope) = Envelope::of(identity, front).filter(|it| it.segment == 0 && it.number == number) else {
            return refused(format!(
                "at byte {place} its piece {number}, or its end, was expected, and found is {found}"
            ));
        };
        let piece = reader.at(place + ENVELOPE as u64, envelope.len)?;
        if !envelope.holds(piece) {
            return refused(format!("at byte {place} its piece {number} has another checksum than was written"));
        }
        take(piece)?;
        so_far = so_far.with(piece);
        place += (ENVELOPE + envelope.len) as u64;
    }
}
