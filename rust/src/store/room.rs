//! How far zeros reach in the last segments, which grow by steps: a frame is written only where there are zeros on the disk.
use super::envelope::ROOM_BEFORE;
use super::HEAD;

/// A segment is made so long, and grows by as much at the least.
pub const STEP: u64 = 1 << 19;
/// No more zeros are made ahead.
const MOST: u64 = 32 << 20;
/// What stands before a frame has no more bytes.
const BEFORE: u64 = ROOM_BEFORE as u64;
/// A record in the log is longer than its request by so much at the most, but for its words that are named anew.
const RECORD: u64 = 64;

/// Whether there is room in the log for something more: there is, or will be in a while, or can't be made now.
#[derive(Clone, Copy, PartialEq)]
pub enum Room {
    /// There is.
    Is,
    /// There will be in a while.
    Comes,
    /// It can't be made now.
    Lacks,
}

/// Zeros that a segment is to have: up to where it has them, and is to.
#[derive(Clone, Copy, Debug, PartialEq)]
pub struct Growth {
    pub segment: u64,
    pub from: u64,
    pub to: u64,
}

/// The segment that is written: bytes that it may have, where what is written in it ends, and zeros; and those of the next, where there is one.
#[derive(Default)]
pub struct Zeros {
    pub segment: u64,
    pub end: u64,
    pub here: u64,
    pub next: Option<u64>,
    /// As many bytes are to be written as soon as may be.
    wanted: u64,
}

impl Zeros {
    pub fn new(segment: u64) -> Zeros {
        Zeros { segment, ..Zeros::default() }
    }

    /// How long a segment is made.
    pub fn first(&self) -> u64 {
        self.segment.min(STEP)
    }

    /// What is kept back for what takes away.
    pub fn kept_back(&self) -> u64 {
        (self.segment / 16).min(STEP / 8)
    }

    /// The log goes on in the next segment.
    pub fn turn(&mut self) {
        (self.end, self.here, self.next) = (0, self.next.unwrap_or(0), None);
    }

    /// How many bytes a frame may have that is written here, behind what stands before it.
    pub fn most(&self) -> u64 {
        self.segment.saturating_sub(self.end + BEFORE)
    }

    /// Whether a frame of so many bytes can be written: where it is put, zeros are on the disk.
    pub fn takes(&mut self, bytes: u64) -> bool {
        let bytes = BEFORE + bytes;
        let has = if self.end + bytes <= self.segment {
            self.end + bytes <= self.here
        } else {
            self.next.is_some_and(|next| bytes <= next)
        };
        self.wanted = if has { self.wanted } else { self.wanted.max(bytes) };
        has
    }

    /// Whether a request of so many bytes can be written too, behind so many that are to be.
    pub fn takes_too(&mut self, unwritten: usize, request: usize, kept_back: u64) -> bool {
        self.takes(unwritten.max(HEAD) as u64 + request as u64 + RECORD + HEAD as u64 + BEFORE + kept_back)
    }

    /// What is to grow, if anything is: as much again as is written, and what is wanted.
    pub fn growth(&self, written: u64) -> Option<Growth> {
        let more = self.wanted.max(self.end.min(MOST)).max(self.first());
        let to = (self.end + more).next_multiple_of(STEP).min(self.segment).min(self.here + MOST / 4);
        if self.here < to && self.here < self.end + self.wanted.max(more / 2) {
            return Some(Growth { segment: written, from: self.here, to });
        }
        let (next, to) = (self.next?, self.wanted.next_multiple_of(STEP).min(self.segment));
        let is_for_next = self.end + self.wanted > self.segment && next < to;
        is_for_next.then_some(Growth { segment: written + 1, from: next, to })
    }

    /// A segment has grown. Who wants more says so again.
    pub fn has_grown(&mut self, written: u64, Growth { segment, to, .. }: Growth) {
        self.wanted = 0;
        if segment == written {
            self.here = to;
        } else if segment == written + 1 && self.next.is_some() {
            self.next = Some(to);
        }
    }
}
