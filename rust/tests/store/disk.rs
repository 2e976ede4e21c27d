//! A disk: segments of zeros, and writes of which no word came, or a failure, which a crash may leave any bytes of.
use crate::calls::Frame;
use crate::dice::Dice;
use std::collections::BTreeMap;

/// A write that is not on the disk for sure.
struct Write {
    frame: Frame,
    /// Whether the disk said that it failed.
    is_failed: bool,
}

/// Which bytes of a write a crash leaves.
#[derive(Clone, Copy)]
enum Left {
    None,
    All,
    Front(usize),
    Any,
}

impl Left {
    fn any(dice: &mut Dice, len: usize) -> Left {
        match dice.roll(4) {
            0 => Left::None,
            1 => Left::All,
            2 => Left::Front(dice.roll(len)),
            _ => Left::Any,
        }
    }

    fn has(self, dice: &mut Dice, place: usize) -> bool {
        match self {
            Left::None => false,
            Left::All => true,
            Left::Front(len) => place < len,
            Left::Any => dice.once_in(2),
        }
    }
}

/// A disk.
pub struct Disk {
    /// How long a segment is.
    len: usize,
    pub segments: BTreeMap<u64, Vec<u8>>,
    writes: Vec<Write>,
}

impl Disk {
    pub fn new(len: usize) -> Disk {
        Disk { len, segments: BTreeMap::new(), writes: Vec::new() }
    }

    /// The number of the last segment, 0 where there is none.
    pub fn last(&self) -> u64 {
        self.segments.keys().last().copied().unwrap_or(0)
    }

    fn segment(&mut self, number: u64) -> &mut Vec<u8> {
        self.segments.entry(number).or_insert_with(|| vec![0; self.len])
    }

    /// Writes what is left of a write.
    fn leave(&mut self, dice: &mut Dice, frame: &Frame, left: Left) {
        let at = frame.place.offset as usize;
        let over = &mut self.segment(frame.place.segment)[at..at + frame.bytes.len()];
        for (place, (old, new)) in over.iter_mut().zip(&frame.bytes).enumerate() {
            if left.has(dice, place) {
                *old = *new;
            }
        }
    }

    /// A write is begun. Its segment is made.
    pub fn begin(&mut self, frame: Frame) {
        self.segment(frame.place.segment);
        self.writes.push(Write { frame, is_failed: false });
    }

    fn under_way(&self) -> impl Iterator<Item = usize> + '_ {
        (0..self.writes.len()).filter(|it| !self.writes[*it].is_failed)
    }

    /// Any write that is under way.
    pub fn any(&self, dice: &mut Dice) -> Option<usize> {
        let all: Vec<_> = self.under_way().collect();
        (!all.is_empty()).then(|| dice.pick(&all))
    }

    /// The oldest that is.
    pub fn first(&self) -> usize {
        self.under_way().next().expect("a write is under way")
    }

    /// A write is on the disk: its frame.
    pub fn sync(&mut self, dice: &mut Dice, at: usize) -> u64 {
        let Write { frame, .. } = self.writes.remove(at);
        self.leave(dice, &frame, Left::All);
        frame.place.frame
    }

    /// A write fails: its frame. What of it is on the disk stays open until a crash.
    pub fn fail(&mut self, at: usize) -> u64 {
        self.writes[at].is_failed = true;
        self.writes[at].frame.place.frame
    }

    /// A crash: of each write that is not on the disk for sure any bytes are.
    pub fn crash(&mut self, dice: &mut Dice) {
        for Write { frame, .. } in std::mem::take(&mut self.writes) {
            let left = Left::any(dice, frame.bytes.len());
            self.leave(dice, &frame, left);
        }
    }
}
