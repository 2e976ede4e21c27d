//! What a call of gRPC ends with where it isn't answered: a number and a text among the headers behind it. Of headers nothing else is unpacked.

/// How many bits a byte has in the code of texts, which is the canonical one of these lengths.
#[rustfmt::skip]
const BITS: [u8; 256] = [
    13, 23, 28, 28, 28, 28, 28, 28, 28, 24, 30, 28, 28, 30, 28, 28, 28, 28, 28, 28, 28, 28, 30, 28, 28, 28, 28, 28, 28, 28, 28, 28,
    6, 10, 10, 12, 13, 6, 8, 11, 10, 10, 8, 11, 8, 6, 6, 6, 5, 5, 5, 6, 6, 6, 6, 6, 6, 6, 7, 8, 15, 6, 12, 10,
    13, 6, 7, 7, 7, 7, 7, 7, 7, 7, 7, 7, 7, 7, 7, 7, 7, 7, 7, 7, 7, 7, 7, 7, 8, 7, 8, 13, 19, 13, 14, 6,
    15, 5, 6, 5, 6, 5, 6, 6, 6, 5, 7, 7, 6, 6, 6, 5, 6, 7, 6, 5, 5, 6, 7, 7, 7, 7, 7, 15, 11, 14, 13, 28,
    20, 22, 20, 20, 22, 22, 22, 23, 22, 23, 23, 23, 23, 23, 24, 23, 24, 24, 22, 23, 24, 23, 23, 23, 23, 21, 22, 23, 22, 23, 23, 24,
    22, 21, 20, 22, 22, 23, 23, 21, 23, 22, 22, 24, 21, 22, 23, 23, 21, 21, 22, 21, 23, 22, 23, 23, 20, 22, 22, 22, 23, 22, 22, 23,
    26, 26, 20, 19, 22, 23, 22, 25, 26, 26, 26, 27, 27, 26, 24, 25, 19, 21, 26, 27, 27, 26, 27, 24, 21, 21, 26, 26, 28, 27, 27, 27,
    20, 24, 20, 21, 22, 21, 21, 23, 22, 22, 25, 25, 24, 24, 26, 23, 26, 27, 26, 26, 27, 27, 27, 27, 27, 28, 27, 27, 27, 27, 27, 26,
];

/// The text that packed bytes are. Their end is filled up by ones.
fn unpacked(bytes: &[u8]) -> String {
    let mut symbols: Vec<(u8, usize)> = BITS.iter().enumerate().map(|(symbol, bits)| (*bits, symbol)).collect();
    symbols.sort_unstable();
    let (mut text, mut code, mut len) = (String::new(), 0u64, 0u8);
    for bit in bytes.iter().flat_map(|byte| (0..8).rev().map(move |place| byte >> place & 1)) {
        (code, len) = (code << 1 | u64::from(bit), len + 1);
        let (mut first, mut last) = (0u64, 0);
        let found = symbols.iter().find(|(bits, _)| {
            first <<= bits - last;
            last = *bits;
            first += 1;
            *bits == len && first - 1 == code
        });
        if let Some((_, symbol)) = found {
            text.push(char::from(*symbol as u8));
            (code, len) = (0, 0);
        }
    }
    text
}

/// A number whose first byte has so many bits of it.
fn number(bytes: &mut &[u8], bits: u32) -> Option<usize> {
    let (first, rest) = bytes.split_first()?;
    *bytes = rest;
    let most = (1usize << bits) - 1;
    let mut number = usize::from(*first) & most;
    if number < most {
        return Some(number);
    }
    for shift in (0..28).step_by(7) {
        let (byte, rest) = bytes.split_first()?;
        *bytes = rest;
        number += (usize::from(*byte) & 127) << shift;
        if byte & 128 == 0 {
            return Some(number);
        }
    }
    None
}

fn text(bytes: &mut &[u8]) -> Option<String> {
    let is_packed = bytes.first()? & 128 != 0;
    let count = number(bytes, 7)?;
    let (text, rest) = bytes.split_at_checked(count)?;
    *bytes = rest;
    Some(if is_packed { unpacked(text) } else { String::from_utf8_lossy(text).into() })
}

/// The headers of a block that say their names.
fn named(mut bytes: &[u8]) -> Vec<(String, String)> {
    let mut all = Vec::new();
    let mut next = |bytes: &mut &[u8]| {
        let bits = match *bytes.first()? {
            128.. => 7,
            64.. => 6,
            32.. => 5,
            _ => 4,
        };
        match (bits, number(bytes, bits)?) {
            (7 | 5, _) => (),
            (_, 0) => all.push((text(bytes)?, text(bytes)?)),
            _ => drop(text(bytes)?),
        }
        Some(())
    };
    while next(&mut bytes).is_some() {}
    all
}

/// In words why a call isn't answered, as the headers behind it say; nothing where they say that all is well, or nothing.
pub fn refusal(block: &[u8]) -> Option<String> {
    let headers = named(block);
    let of = |wanted: &str| headers.iter().find(|(name, _)| name == wanted).map(|(_, value)| value.as_str());
    let (status, message) =
        (of("grpc-status").filter(|status| *status != "0")?, of("grpc-message").unwrap_or_default());
    Some(format!("{message} (status {status})"))
}

#[cfg(test)]
mod tests {
    use super::{refusal, unpacked};

    #[test]
    fn texts_are_unpacked() {
        let packed = [0xf1, 0xe3, 0xc2, 0xe5, 0xf2, 0x3a, 0x6b, 0xa0, 0xab, 0x90, 0xf4, 0xff];
        assert_eq!(unpacked(&packed), "www.example.com");
        let block = [b"\x00\x0bgrpc-status\x018".as_slice(), b"\x40\x0cgrpc-message\x04full"].concat();
        assert_eq!(refusal(&block).as_deref(), Some("full (status 8)"));
    }
}
