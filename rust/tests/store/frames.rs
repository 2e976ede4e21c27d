//! What the disk said of frames, and which batch lies in which.
use std::collections::BTreeSet;

/// Frames of a life of a store.
#[derive(Default)]
pub struct Frames {
    first: u64,
    /// Those that are on the disk.
    synced: BTreeSet<u64>,
    /// Batches with the frames that they were sent in.
    sent: Vec<(u64, u64)>,
    /// Batches that are to be sent again.
    kept: Vec<u64>,
}

impl Frames {
    /// None was sent, and the first has this number.
    pub fn new(first: u64) -> Frames {
        Frames { first, ..Frames::default() }
    }

    /// A frame is sent, with the open batch and those that are to be sent again.
    pub fn send(&mut self, frame: u64, open: u64) {
        self.kept.push(open);
        self.sent.extend(self.kept.drain(..).map(|batch| (batch, frame)));
    }

    pub fn sync(&mut self, frame: u64) {
        self.synced.insert(frame);
    }

    /// A cut takes the place of a frame, of these batches, and of all behind it: what else was in those is to be sent again.
    pub fn cut(&mut self, frame: u64, first: u64, last: u64) {
        let (sent, cut): (Vec<_>, Vec<_>) = self.sent.drain(..).partition(|(_, at)| *at < frame);
        self.sent = sent;
        let others = cut.into_iter().map(|(batch, _)| batch).filter(|it| !(first..=last).contains(it));
        self.kept.extend(others);
        self.synced.retain(|at| *at < frame);
        self.sync(frame);
    }

    /// The last frame up to which all are on the disk; the one before the first where none is.
    pub fn known(&self) -> u64 {
        (self.first..).take_while(|it| self.synced.contains(it)).last().unwrap_or(self.first.saturating_sub(1))
    }

    /// Whether the frame of a batch and all before it are.
    pub fn is_synced(&self, batch: u64) -> bool {
        let at = self.sent.iter().find(|(sent, _)| *sent == batch);
        at.is_some_and(|(_, at)| *at <= self.known())
    }
}
