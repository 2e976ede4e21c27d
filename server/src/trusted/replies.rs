//! What a socket is to have: pieces, of which each is let go of once it is sent.
use super::frames::Log;
use std::cell::Cell;
use std::collections::VecDeque;
use std::io::{self, Write};
use std::rc::Rc;

/// Short replies go together into a piece, up to so many bytes.
const PIECE: usize = 1 << 14;
/// So much room is kept where nothing waits.
const KEPT: usize = 1 << 12;

/// How many bytes wait for all clients together.
pub type Waiting = Rc<Cell<usize>>;

/// So many bytes that may be sent, and those behind, so many each until what has a mark may be told.
pub struct Replies {
    pieces: VecDeque<Vec<u8>>,
    /// How much of the first piece is sent, how many bytes wait, and how many of them may be sent.
    sent: usize,
    bytes: usize,
    free: usize,
    held: VecDeque<(u64, usize)>,
    all: Waiting,
}

impl Replies {
    pub fn new(all: Waiting) -> Replies {
        Replies { pieces: VecDeque::new(), sent: 0, bytes: 0, free: 0, held: VecDeque::new(), all }
    }

    /// How many bytes wait to be sent, and how many of them may be now.
    pub fn waits(&self) -> (usize, usize) {
        (self.bytes, self.free)
    }

    /// The mark of the last that waits until it may be told.
    pub fn mark(&self) -> Option<u64> {
        self.held.back().map(|(mark, _)| *mark)
    }

    /// Takes bytes that may be sent once all before may, and what has this mark may be told, as it may now or not.
    pub fn put(&mut self, bytes: &[u8], mark: u64, may_tell: bool) {
        if bytes.is_empty() {
            return;
        }
        match self.pieces.back_mut().filter(|last| last.len() + bytes.len() <= PIECE) {
            Some(last) => last.extend_from_slice(bytes), // [7]
            None => self.pieces.push_back(bytes.into()),
        }
        self.bytes += bytes.len();
        self.all.update(|all| all + bytes.len());
        match self.held.back_mut() {
            None if may_tell => self.free += bytes.len(),
            Some((last, count)) if mark <= *last => *count += bytes.len(),
            _ => self.held.push_back((mark, bytes.len())),
        }
    }

    /// Lets go of what may be told. Whether that is any.
    pub fn let_go(&mut self, log: &dyn Log) -> bool {
        let free = self.free;
        while let Some((_, count)) = self.held.pop_front_if(|(mark, _)| log.may_tell(*mark)) {
            self.free += count;
        }
        self.free > free
    }

    /// Sends what may be sent, as much as is taken.
    pub fn write(&mut self, mut to: impl Write) -> io::Result<()> {
        while let Some(piece) = self.pieces.front().filter(|_| self.free > 0) {
            let rest = &piece[self.sent..];
            let count = match to.write(&rest[..rest.len().min(self.free)]) {
                Err(error) if error.kind() == io::ErrorKind::WouldBlock => break,
                did => did?,
            };
            self.has_sent(count);
        }
        Ok(())
    }

    /// So many bytes of the first piece are sent.
    fn has_sent(&mut self, count: usize) {
        (self.sent, self.bytes, self.free) = (self.sent + count, self.bytes - count, self.free - count);
        self.all.update(|all| all - count);
        if let Some(mut piece) = self.pieces.pop_front_if(|piece| piece.len() == self.sent) {
            self.sent = 0;
            if self.pieces.is_empty() && piece.capacity() <= KEPT {
                piece.clear();
                self.pieces.push_back(piece);
            }
        }
    }
}

impl Drop for Replies {
    fn drop(&mut self) {
        self.all.update(|all| all - self.bytes);
    }
}
