//! Fields and frames: numbers of fixed length, little end first; bytes behind their length. A frame is its length (four bytes, of what
//! follows), a kind (one byte) and the fields.
use crate::name::Name;
use std::fmt;
use std::io;

/// The longest frame that is taken.
pub const LONGEST_FRAME: usize = 64 << 20;

/// Why bytes are no message.
#[derive(Debug, Clone, Copy, PartialEq, Eq)]
pub enum Malformed {
    /// A field is cut off.
    Short,
    /// Bytes are left behind the last field.
    Long,
    /// No message, or field, has this letter.
    Letter(u8),
    /// A name that none can have.
    Name,
    /// The frame would be longer than any.
    Frame(usize),
}

impl fmt::Display for Malformed {
    fn fmt(&self, out: &mut fmt::Formatter<'_>) -> fmt::Result {
        match self {
            Malformed::Short => out.write_str("a message is cut off"),
            Malformed::Long => out.write_str("a message is too long"),
            Malformed::Letter(letter) => write!(out, "no message has the letter {letter}"),
            Malformed::Name => out.write_str("a name that none can have"),
            Malformed::Frame(len) => write!(out, "a frame of {len} bytes"),
        }
    }
}

impl std::error::Error for Malformed {}

impl From<Malformed> for io::Error {
    fn from(error: Malformed) -> io::Error {
        io::Error::new(io::ErrorKind::InvalidData, error)
    }
}

/// What is written field by field.
pub trait Encode {
    fn encode(&self, out: &mut Vec<u8>);
}

/// What is read field by field.
pub trait Decode: Sized {
    fn decode(from: &mut Fields<'_>) -> Result<Self, Malformed>;
}

/// What is left of a frame's fields.
pub struct Fields<'a>(&'a [u8]);

impl<'a> Fields<'a> {
    pub fn new(bytes: &'a [u8]) -> Fields<'a> {
        Fields(bytes)
    }

    pub fn take(&mut self, len: usize) -> Result<&'a [u8], Malformed> {
        if len > self.0.len() {
            return Err(Malformed::Short);
        }
        let (taken, rest) = self.0.split_at(len);
        self.0 = rest;
        Ok(taken)
    }

    pub fn letter(&mut self) -> Result<u8, Malformed> {
        Ok(self.take(1)?[0])
    }

    pub fn get<T: Decode>(&mut self) -> Result<T, Malformed> {
        T::decode(self)
    }

    /// Says that nothing may be left.
    pub fn end(self) -> Result<(), Malformed> {
        self.0.is_empty().then_some(()).ok_or(Malformed::Long)
    }
}

macro_rules! number {
    ($($number:ty),*) => {$(
        impl Encode for $number {
            fn encode(&self, out: &mut Vec<u8>) {
                out.extend_from_slice(&self.to_le_bytes());
            }
        }
        impl Decode for $number {
            fn decode(from: &mut Fields<'_>) -> Result<$number, Malformed> {
                const LEN: usize = std::mem::size_of::<$number>();
                let mut bytes = [0; LEN];
                bytes.copy_from_slice(from.take(LEN)?);
                Ok(<$number>::from_le_bytes(bytes))
            }
        }
    )*};
}
number!(u8, u32, u64, u128, i64);

impl Encode for bool {
    fn encode(&self, out: &mut Vec<u8>) {
        out.push(u8::from(*self));
    }
}

impl Decode for bool {
    fn decode(from: &mut Fields<'_>) -> Result<bool, Malformed> {
        match from.letter()? {
            0 => Ok(false),
            1 => Ok(true),
            letter => Err(Malformed::Letter(letter)),
        }
    }
}

impl Encode for [u8] {
    fn encode(&self, out: &mut Vec<u8>) {
        length(self.len(), out);
        out.extend_from_slice(self);
    }
}

/// Bytes behind their length.
#[derive(Clone, PartialEq, Eq, Default)]
pub struct Bytes(pub Vec<u8>);

impl fmt::Debug for Bytes {
    fn fmt(&self, out: &mut fmt::Formatter<'_>) -> fmt::Result {
        write!(out, "{} bytes", self.0.len())
    }
}

impl Encode for Bytes {
    fn encode(&self, out: &mut Vec<u8>) {
        self.0.as_slice().encode(out);
    }
}

impl Decode for Bytes {
    fn decode(from: &mut Fields<'_>) -> Result<Bytes, Malformed> {
        let len: u32 = from.get()?;
        Ok(Bytes(from.take(len as usize)?.to_vec()))
    }
}

impl Encode for Name {
    fn encode(&self, out: &mut Vec<u8>) {
        self.bytes().encode(out);
    }
}

impl Decode for Name {
    fn decode(from: &mut Fields<'_>) -> Result<Name, Malformed> {
        Name::new(from.get::<Bytes>()?.0).ok_or(Malformed::Name)
    }
}

impl<T: Encode> Encode for Vec<T> {
    fn encode(&self, out: &mut Vec<u8>) {
        length(self.len(), out);
        self.iter().for_each(|one| one.encode(out));
    }
}

impl<T: Decode> Decode for Vec<T> {
    fn decode(from: &mut Fields<'_>) -> Result<Vec<T>, Malformed> {
        let len: u32 = from.get()?;
        (0..len).map(|_| from.get()).collect()
    }
}

impl<T: Encode> Encode for Option<T> {
    fn encode(&self, out: &mut Vec<u8>) {
        self.is_some().encode(out);
        self.iter().for_each(|one| one.encode(out));
    }
}

impl<T: Decode> Decode for Option<T> {
    fn decode(from: &mut Fields<'_>) -> Result<Option<T>, Malformed> {
        Ok(if from.get::<bool>()? { Some(from.get()?) } else { None })
    }
}

impl<A: Encode, B: Encode> Encode for (A, B) {
    fn encode(&self, out: &mut Vec<u8>) {
        self.0.encode(out);
        self.1.encode(out);
    }
}

impl<A: Decode, B: Decode> Decode for (A, B) {
    fn decode(from: &mut Fields<'_>) -> Result<(A, B), Malformed> {
        Ok((from.get()?, from.get()?))
    }
}

/// Lengths are of frames, which are shorter than four bytes can say.
fn length(len: usize, out: &mut Vec<u8>) {
    u32::try_from(len).expect("shorter than a frame").encode(out);
}

/// A message as one frame.
pub fn frame(message: &impl Encode) -> Vec<u8> {
    let mut out = vec![0; 4];
    message.encode(&mut out);
    let len = u32::try_from(out.len() - 4).expect("shorter than a frame");
    out[..4].copy_from_slice(&len.to_le_bytes());
    out
}

/// The message that a frame (without its length) is.
pub fn message<T: Decode>(frame: &[u8]) -> Result<T, Malformed> {
    let mut fields = Fields::new(frame);
    let message = fields.get()?;
    fields.end()?;
    Ok(message)
}

/// Takes bytes as they come, and gives whole frames.
#[derive(Default)]
pub struct Frames {
    bytes: Vec<u8>,
    begin: usize,
}

impl Frames {
    pub fn push(&mut self, bytes: &[u8]) {
        if self.begin > 0 && self.begin * 2 >= self.bytes.len() {
            self.bytes.drain(..self.begin);
            self.begin = 0;
        }
        self.bytes.extend_from_slice(bytes);
    }

    /// The next whole frame, without its length.
    pub fn next_frame(&mut self) -> Result<Option<&[u8]>, Malformed> {
        let rest = &self.bytes[self.begin..];
        let Some(head) = rest.get(..4) else { return Ok(None) };
        let len = u32::from_le_bytes([head[0], head[1], head[2], head[3]]) as usize;
        if len > LONGEST_FRAME {
            return Err(Malformed::Frame(len));
        }
        if rest.len() < 4 + len {
            return Ok(None);
        }
        let begin = self.begin + 4;
        self.begin = begin + len;
        Ok(Some(&self.bytes[begin..begin + len]))
    }

    /// Whether a frame has begun that isn't whole.
    pub fn is_within(&self) -> bool {
        self.begin < self.bytes.len()
    }
}
