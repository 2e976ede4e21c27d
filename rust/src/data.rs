//! Keys and values as the bytes that a kernel keeps.
use std::borrow::Cow;

/// What can be a key or a value of a [`Speculator`](crate::speculator::Speculator): it has bytes, and is read of them again.
///
/// It is there for `[u8]`, `str`, arrays of bytes, integers (little-endian) and `bool`. Two keys are one exactly where their
/// bytes are the same.
pub trait Data {
    /// What is read of bytes.
    type Owned;

    /// The bytes.
    fn bytes(&self) -> Cow<'_, [u8]>;

    /// What has these bytes; `None` where nothing has.
    fn read(bytes: &[u8]) -> Option<Self::Owned>;
}

impl Data for [u8] {
    type Owned = Vec<u8>;

    fn bytes(&self) -> Cow<'_, [u8]> {
        Cow::Borrowed(self)
    }

    fn read(bytes: &[u8]) -> Option<Vec<u8>> {
        Some(bytes.to_vec())
    }
}

impl Data for str {
    type Owned = String;

    fn bytes(&self) -> Cow<'_, [u8]> {
        Cow::Borrowed(self.as_bytes())
    }

    fn read(bytes: &[u8]) -> Option<String> {
        std::str::from_utf8(bytes).ok().map(str::to_owned)
    }
}

impl<const N: usize> Data for [u8; N] {
    type Owned = [u8; N];

    fn bytes(&self) -> Cow<'_, [u8]> {
        Cow::Borrowed(self)
    }

    fn read(bytes: &[u8]) -> Option<[u8; N]> {
        bytes.try_into().ok()
    }
}

impl Data for bool {
    type Owned = bool;

    fn bytes(&self) -> Cow<'_, [u8]> {
        Cow::Owned(vec![u8::from(*self)])
    }

    fn read(bytes: &[u8]) -> Option<bool> {
        match bytes {
            [0] => Some(false),
            [1] => Some(true),
            _ => None,
        }
    }
}

macro_rules! numbers {
    ($($number:ty)*) => {$(
        impl Data for $number {
            type Owned = $number;

            fn bytes(&self) -> Cow<'_, [u8]> {
                Cow::Owned(self.to_le_bytes().to_vec())
            }

            fn read(bytes: &[u8]) -> Option<$number> {
                bytes.try_into().ok().map(<$number>::from_le_bytes)
            }
        }
    )*};
}

numbers!(u8 u16 u32 u64 u128 i8 i16 i32 i64 i128);

/// What a call takes where a `T` is wanted: a `T`, a reference to one, or, for bytes and texts, what holds them.
pub trait Like<T: ?Sized> {
    /// It as a `T`.
    fn like(&self) -> &T;
}

impl<T: ?Sized> Like<T> for &T {
    fn like(&self) -> &T {
        self
    }
}

impl<T> Like<T> for T {
    fn like(&self) -> &T {
        self
    }
}

macro_rules! like_bytes {
    ($($(#[$of:tt])? [$($generics:tt)*] $holder:ty => $data:ty, $as:ident;)*) => {$(
        impl<$($generics)*> Like<$data> for $holder {
            fn like(&self) -> &$data {
                self.$as()
            }
        }
    )*};
}

like_bytes! {
    [] Vec<u8> => [u8], as_slice;
    [] &Vec<u8> => [u8], as_slice;
    [] String => [u8], as_bytes;
    [] &String => [u8], as_bytes;
    [] &str => [u8], as_bytes;
    [const N: usize] [u8; N] => [u8], as_slice;
    [const N: usize] &[u8; N] => [u8], as_slice;
    [] String => str, as_str;
    [] &String => str, as_str;
}
