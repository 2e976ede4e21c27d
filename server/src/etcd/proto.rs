//! Messages of protocol buffers: fields with a number each, whose values are numbers or bytes.
use std::io;

#[derive(Default)]
pub struct Message(pub Vec<u8>);

impl Message {
    fn put(&mut self, mut number: u64) {
        while number > 127 {
            self.0.push(number as u8 | 128);
            number >>= 7;
        }
        self.0.push(number as u8);
    }

    pub fn number(mut self, field: u64, value: u64) -> Message {
        self.put(field << 3);
        self.put(value);
        self
    }

    pub fn bytes(mut self, field: u64, value: &[u8]) -> Message {
        self.put(field << 3 | 2);
        self.put(value.len() as u64);
        self.0.extend_from_slice(value);
        self
    }

    /// A message within, for each of these.
    pub fn each(self, field: u64, messages: impl IntoIterator<Item = Message>) -> Message {
        messages.into_iter().fold(self, |all, message| all.bytes(field, &message.0))
    }
}

/// What a field has.
#[derive(Clone, Copy)]
pub enum Value<'a> {
    Number(u64),
    Bytes(&'a [u8]),
}

impl<'a> Value<'a> {
    pub fn number(self) -> u64 {
        match self {
            Value::Number(number) => number,
            Value::Bytes(_) => 0,
        }
    }

    pub fn bytes(self) -> &'a [u8] {
        match self {
            Value::Number(_) => &[],
            Value::Bytes(bytes) => bytes,
        }
    }
}

fn take_number(bytes: &mut &[u8]) -> Option<u64> {
    let mut number = 0;
    for shift in (0..64).step_by(7) {
        let (byte, rest) = bytes.split_first()?;
        *bytes = rest;
        number |= u64::from(byte & 127) << shift;
        if byte & 128 == 0 {
            return Some(number);
        }
    }
    None
}

fn take_field<'a>(bytes: &mut &'a [u8]) -> Option<(u64, Value<'a>)> {
    let tag = take_number(bytes)?;
    let count = match tag & 7 {
        0 => return Some((tag >> 3, Value::Number(take_number(bytes)?))),
        1 => 8,
        2 => usize::try_from(take_number(bytes)?).ok()?,
        5 => 4,
        _ => return None,
    };
    let (value, rest) = bytes.split_at_checked(count)?;
    *bytes = rest;
    Some((tag >> 3, Value::Bytes(value)))
}

/// The fields of a message, if it is whole.
pub fn fields(mut bytes: &[u8]) -> io::Result<Vec<(u64, Value<'_>)>> {
    let mut fields = Vec::new();
    while !bytes.is_empty() {
        let field = take_field(&mut bytes).ok_or_else(|| io::Error::other("a message is not whole"))?;
        fields.push(field);
    }
    Ok(fields)
}
