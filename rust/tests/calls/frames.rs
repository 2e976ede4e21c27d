//! The bytes of frames, as `docs/FORMATS.md` tells of them.

/// A number in so many bytes of seven bits, the lowest first, each of which has the highest bit set.
fn digits(number: u64, count: usize) -> impl Iterator<Item = u8> {
    (0..count).map(move |place| 0x80 | (number >> (7 * place)) as u8)
}

fn sum(bytes: &[u8]) -> u64 {
    bytes.iter().map(|it| u64::from(*it)).sum()
}

/// The frame of a payload, with its number, in a segment.
pub fn frame(segment: u64, number: u64, payload: &[u8]) -> Vec<u8> {
    let mut bytes: Vec<u8> = digits(segment, 4)
        .chain(digits(number, 8))
        .chain(digits(payload.len() as u64, 4))
        .chain(digits(sum(payload), 6))
        .collect();
    bytes.extend(digits(22 * 256 - sum(&bytes), 2));
    bytes.extend_from_slice(payload);
    bytes
}

/// The one of segment 3 with the number 129 and the payload `hi`, reckoned by hand.
#[test]
fn frame_is_the_one_reckoned_by_hand() {
    let mut hi = vec![131, 128, 128, 128, 129, 129, 128, 128, 128, 128, 128, 128, 130, 128, 128, 128];
    hi.extend_from_slice(&[209, 129, 128, 128, 128, 128, 167, 149, b'h', b'i']);
    assert_eq!(frame(3, 129, b"hi"), hi);
}
