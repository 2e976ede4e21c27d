//! What the host puts around the frames of the log, and the pieces of a snapshot: heads of files, and before each frame an envelope. They
//! say whose it is, which it is, what its bytes come to, and up to where all was known to be synced. The library never sees them.
use super::checksum::checksum;
use std::fs::File;
use std::io::{self, Read};
use std::mem;

/// How long the head of a file is, and an envelope.
pub const FILE_HEAD: usize = 64;
pub const ENVELOPE: usize = 48;

const OF_SEGMENT: &[u8; 8] = b"hidelog1";
const OF_SNAPSHOT: &[u8; 8] = b"hidesnp1";

/// What tells a store from all others: random bits, made with it. Nobody is told them, so that no client can spell an envelope.
#[derive(Clone, Copy, PartialEq, Eq)]
pub struct Identity(pub [u8; 16]);

impl Identity {
    pub fn new() -> io::Result<Identity> {
        let mut bits = [0; 16];
        File::open("/dev/urandom")?.read_exact(&mut bits)?;
        Ok(Identity(bits))
    }

    /// What the envelopes of this store begin with.
    pub fn tag(&self) -> [u8; 8] {
        std::array::from_fn(|place| self.0[place] ^ self.0[place + 8].rotate_left(3) ^ 0xa5)
    }

    /// What the end of a snapshot begins with.
    fn end_tag(&self) -> [u8; 8] {
        self.tag().map(|byte| !byte)
    }
}

/// Numbers, one behind the other.
pub fn numbers<const N: usize>(numbers: [u64; N]) -> Vec<u8> {
    numbers.map(u64::to_le_bytes).concat()
}

/// The number at a place.
pub fn number(bytes: &[u8], place: usize) -> u64 {
    let word = bytes.get(place..).and_then(|bytes| bytes.first_chunk());
    u64::from_le_bytes(*word.unwrap_or(&[0; 8]))
}

/// Bytes, zeros up to a length, and the checksum of all, behind that of a key.
pub fn sealed(key: &[u8], mut bytes: Vec<u8>, len: usize) -> Vec<u8> {
    bytes.resize(len - 4, 0);
    let sum = checksum(checksum(0, key), &bytes);
    bytes.extend_from_slice(&sum.to_le_bytes());
    bytes
}

/// Whether bytes were sealed so.
pub fn is_sealed(key: &[u8], bytes: &[u8]) -> bool {
    bytes.split_last_chunk().is_some_and(|(all, sum)| checksum(checksum(0, key), all) == u32::from_le_bytes(*sum))
}

/// The head of a file: of a segment with the number of its first frame, or of a snapshot of all segments up to one with the number of the
/// next; and the number up to which all frames were known to be synced.
#[derive(Clone, Copy)]
pub struct FileHead {
    pub of_snapshot: bool,
    pub identity: Identity,
    pub segment: u64,
    pub frame: u64,
    pub known: u64,
}

impl FileHead {
    pub fn bytes(&self) -> Vec<u8> {
        let magic = if self.of_snapshot { OF_SNAPSHOT } else { OF_SEGMENT };
        let rest = numbers([self.segment, self.frame, self.known]);
        sealed(&[], [&magic[..], &self.identity.0, &rest].concat(), FILE_HEAD)
    }

    /// What stands at the front of a file, if that is a head.
    pub fn of(bytes: &[u8]) -> Option<FileHead> {
        let bytes = bytes.get(..FILE_HEAD).filter(|bytes| is_sealed(&[], bytes))?;
        let of_snapshot = bytes.starts_with(OF_SNAPSHOT);
        if !of_snapshot && !bytes.starts_with(OF_SEGMENT) {
            return None;
        }
        let identity = Identity(*bytes[8..].first_chunk()?);
        let (segment, frame, known) = (number(bytes, 24), number(bytes, 32), number(bytes, 40));
        Some(FileHead { of_snapshot, identity, segment, frame, known })
    }
}

/// Whether a file begins as those with a head do, whole or not.
pub fn is_of_heads(bytes: &[u8]) -> bool {
    bytes.starts_with(OF_SEGMENT) || bytes.starts_with(OF_SNAPSHOT)
}

/// What stands before a frame: its segment, or 0 for a piece of a snapshot; its number, up to which number all frames were known to be
/// synced when it was made, its bytes, and their checksum.
#[derive(Clone, Copy, PartialEq, Eq)]
pub struct Envelope {
    pub segment: u64,
    pub number: u64,
    pub known: u64,
    pub len: usize,
    pub sum: u32,
}

impl Envelope {
    /// That of a frame.
    pub fn around(segment: u64, number: u64, known: u64, frame: &[u8]) -> Envelope {
        Envelope { segment, number, known, len: frame.len(), sum: checksum(0, frame) }
    }

    pub fn bytes(&self, identity: &Identity) -> Vec<u8> {
        let rest = numbers([self.segment, self.number, self.known, (self.len as u64) << 32 | u64::from(self.sum)]);
        sealed(&identity.0, [&identity.tag()[..], &rest].concat(), ENVELOPE)
    }

    /// What stands at the front of these bytes, if that is an envelope of this store.
    pub fn of(identity: &Identity, bytes: &[u8]) -> Option<Envelope> {
        let bytes = bytes.get(..ENVELOPE).filter(|bytes| bytes.starts_with(&identity.tag()))?;
        let (segment, number_, known, both) =
            (number(bytes, 8), number(bytes, 16), number(bytes, 24), number(bytes, 32));
        let (len, sum) = ((both >> 32) as usize, both as u32);
        is_sealed(&identity.0, bytes).then_some(Envelope { segment, number: number_, known, len, sum })
    }

    /// Whether these bytes are its frame.
    pub fn holds(&self, frame: &[u8]) -> bool {
        frame.len() == self.len && checksum(0, frame) == self.sum
    }
}

/// The end of a snapshot: how many pieces it has, how many entries these have, their bytes, and the checksum of all.
#[derive(Clone, Copy, Default, PartialEq, Eq)]
pub struct Ending {
    pub pieces: u64,
    pub entries: u64,
    pub bytes: u64,
    pub sum: u32,
}

impl Ending {
    /// A piece more.
    #[must_use]
    pub fn with(self, piece: &[u8]) -> Ending {
        let (pieces, bytes, sum) = (self.pieces + 1, self.bytes + piece.len() as u64, checksum(self.sum, piece));
        Ending { pieces, bytes, sum, ..self }
    }

    pub fn bytes(&self, identity: &Identity) -> Vec<u8> {
        let rest = numbers([self.pieces, self.entries, self.bytes, self.sum.into()]);
        sealed(&identity.0, [&identity.end_tag()[..], &rest].concat(), ENVELOPE)
    }

    pub fn of(identity: &Identity, bytes: &[u8]) -> Option<Ending> {
        let bytes = bytes.get(..ENVELOPE).filter(|bytes| bytes.starts_with(&identity.end_tag()))?;
        let (pieces, entries, all, sum) =
            (number(bytes, 8), number(bytes, 16), number(bytes, 24), number(bytes, 32) as u32);
        is_sealed(&identity.0, bytes).then_some(Ending { pieces, entries, bytes: all, sum })
    }
}

/// Puts what stands around a frame before it, in a room in which `ROOM_BEFORE` bytes are free: from which place on.
pub const ROOM_BEFORE: usize = FILE_HEAD + ENVELOPE;

pub fn wrap(room: &mut [u8], head: Option<FileHead>, envelope: &Envelope, identity: &Identity) -> usize {
    let bytes = [head.map(|head| head.bytes()).unwrap_or_default(), envelope.bytes(identity)].concat();
    let from = ROOM_BEFORE - bytes.len();
    room[from..ROOM_BEFORE].copy_from_slice(&bytes);
    from
}

const _: () = assert!(mem::size_of::<usize>() == 8);

#[cfg(test)]
mod tests {
    use super::*;

    #[test]
    fn what_is_put_around_is_read_again_and_no_bit_of_it_may_change() {
        let identity = Identity(std::array::from_fn(|place| place as u8 * 7));
        let head = FileHead { of_snapshot: false, identity, segment: 3, frame: 9, known: 8 };
        let envelope = Envelope::around(3, 9, 8, b"frame");
        let ending = Ending { entries: 4, ..Ending::default() }.with(b"piece");
        let all = [head.bytes(), envelope.bytes(&identity), ending.bytes(&identity)];
        assert!(
            Envelope::of(&identity, &all[1]) == Some(envelope) && envelope.holds(b"frame") && !envelope.holds(b"farme")
        );
        assert!(Ending::of(&identity, &all[2]) == Some(ending));
        assert!(FileHead::of(&all[0]).is_some_and(|it| it.frame == 9 && it.identity == identity));
        for (bytes, bit) in all.iter().flat_map(|bytes| (0..bytes.len() * 8).map(move |bit| (bytes, bit))) {
            let mut bytes = bytes.clone();
            bytes[bit / 8] ^= 1 << (bit % 8);
            assert!(FileHead::of(&bytes).is_none() && Envelope::of(&identity, &bytes).is_none());
            assert!(Ending::of(&identity, &bytes).is_none());
        }
    }
}
