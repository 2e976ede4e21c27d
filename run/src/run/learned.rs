//! What was replaced of which code (`inside`): programs have mostly the same pieces of code, a loader and a library.
use crate::run::sys::Pid;
use std::collections::{HashMap, HashSet};
use std::fs;
use std::ops::Range;

/// A piece of code as a program has it, and where its origin is.
#[derive(Clone, Copy, PartialEq, Eq, Debug)]
pub struct Piece {
    number: usize,
    origin: u64,
}

#[derive(Default)]
pub struct Learned {
    /// Of each piece: how far from its origin the places are that were replaced.
    pieces: Vec<Vec<u64>>,
    /// Which piece a place is of, and how far from its origin, by the code around it.
    known: HashMap<u64, (usize, u64)>,
    /// Pieces that turned out to be parts of others, and how far from their origins their own are.
    part_of: HashMap<usize, (usize, u64)>,
    /// Pieces that are not parts of one.
    apart: HashSet<(usize, usize)>,
}

impl Learned {
    /// The piece that a place is of; `pieces`: those that are known in this program.
    pub fn piece_of(&mut self, pid: Pid, site: u64, code: u64, pieces: &[Piece]) -> Piece {
        let known =
            self.known.get(&code).map(|(number, far)| Piece { number: *number, origin: site.wrapping_sub(*far) });
        let known = known.map(|piece| self.whole(piece));
        let others: Vec<Piece> = pieces.iter().map(|p| self.whole(*p)).collect();
        let is_new = |p: &&Piece| known.is_none_or(|k| k != **p && !self.apart.contains(&(k.number, p.number)));
        let mut new = others.iter().filter(is_new).peekable();
        let within = new.peek().and_then(|_| mapping_of(pid, site)).unwrap_or(site..site + 1);
        let (same, apart): (Vec<Piece>, Vec<Piece>) = new.copied().partition(|p| within.contains(&p.origin));
        let piece = match (known, same.first()) {
            (Some(piece), Some(whole)) if piece.number != whole.number => self.join(piece, *whole),
            (Some(piece), _) => piece,
            (None, Some(whole)) => *whole,
            (None, None) => self.add(site),
        };
        self.apart.extend(apart.iter().map(|p| (piece.number, p.number)));
        self.known.insert(code, (piece.number, site.wrapping_sub(piece.origin)));
        piece
    }
    fn add(&mut self, origin: u64) -> Piece {
        self.pieces.push(Vec::new());
        Piece { number: self.pieces.len() - 1, origin }
    }
    /// The piece that it is part of.
    fn whole(&self, mut piece: Piece) -> Piece {
        while let Some((number, far)) = self.part_of.get(&piece.number) {
            piece = Piece { number: *number, origin: piece.origin.wrapping_sub(*far) };
        }
        piece
    }
    fn join(&mut self, part: Piece, whole: Piece) -> Piece {
        let far = part.origin.wrapping_sub(whole.origin);
        for place in std::mem::take(&mut self.pieces[part.number]) {
            self.is_replaced(whole, whole.origin.wrapping_add(far).wrapping_add(place));
        }
        self.part_of.insert(part.number, (whole.number, far));
        whole
    }
    /// Where the places are that were replaced in it.
    pub fn places(&self, piece: Piece) -> Vec<u64> {
        self.pieces[piece.number].iter().map(|far| piece.origin.wrapping_add(*far)).collect()
    }
    pub fn is_replaced(&mut self, piece: Piece, site: u64) {
        let (far, places) = (site.wrapping_sub(piece.origin), &mut self.pieces[piece.number]);
        if !places.contains(&far) {
            places.push(far);
        }
    }
}

/// The mapping that an address is in.
fn mapping_of(pid: Pid, at: u64) -> Option<Range<u64>> {
    let maps = fs::read_to_string(format!("/proc/{pid}/maps")).ok()?;
    let ranges = maps.lines().filter_map(|l| {
        let (from, to) = l.split_once(' ')?.0.split_once('-')?;
        Some(u64::from_str_radix(from, 16).ok()?..u64::from_str_radix(to, 16).ok()?)
    });
    ranges.into_iter().find(|r| r.contains(&at))
}

#[cfg(test)]
mod tests {
    use super::*;

    #[test]
    fn the_same_code_elsewhere() {
        let me = std::process::id() as Pid;
        let here = the_same_code_elsewhere as *const () as u64;
        let mut l = Learned::default();
        let piece = l.piece_of(me, here, 1, &[]);
        let other = l.piece_of(me, here + 64, 2, &[piece]);
        assert_eq!(piece, other);
        l.is_replaced(piece, here + 64);
        l.is_replaced(piece, here + 64);
        let moved = l.piece_of(0, here + 0x10000, 1, &[]);
        assert_eq!(l.places(moved), [here + 0x10000 + 64]);
        assert_ne!(l.piece_of(0, here + 32, 3, &[piece]), piece);
        // it was seen alone before, and is a part of the other
        let alone = l.piece_of(me, here + 128, 4, &[]);
        l.is_replaced(alone, here + 128);
        assert_eq!(l.piece_of(me, here + 128, 4, &[piece]), piece);
        assert_eq!(l.places(piece), [here + 64, here + 128]);
        assert_eq!(l.piece_of(0, here + 128, 4, &[piece]), piece);
    }
}
