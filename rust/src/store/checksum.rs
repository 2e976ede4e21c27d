//! CRC32C, by the processor where it has it: it tells bytes that changed places, which a sum doesn't.

/// The polynomial, its lowest term first.
const POLYNOMIAL: u32 = 0x82f6_3b78;

const TABLE: [u32; 256] = table();

const fn table() -> [u32; 256] {
    let (mut table, mut byte) = ([0; 256], 0);
    while byte < 256 {
        let (mut rest, mut bit) = (byte as u32, 0);
        while bit < 8 {
            rest = if rest & 1 == 1 { rest >> 1 ^ POLYNOMIAL } else { rest >> 1 };
            bit += 1;
        }
        table[byte] = rest;
        byte += 1;
    }
    table
}

/// The checksum of some bytes, behind those of which this is it; of none it is 0.
pub fn checksum(before: u32, bytes: &[u8]) -> u32 {
    #[cfg(target_arch = "x86_64")]
    if std::arch::is_x86_feature_detected!("sse4.2") {
        // Safety: the processor has what the function wants of it.
        return unsafe { by_processor(before, bytes) };
    }
    by_table(before, bytes)
}

fn by_table(before: u32, bytes: &[u8]) -> u32 {
    !bytes.iter().fold(!before, |rest, byte| rest >> 8 ^ TABLE[(rest as u8 ^ byte) as usize])
}

#[cfg(target_arch = "x86_64")]
#[target_feature(enable = "sse4.2")]
unsafe fn by_processor(before: u32, bytes: &[u8]) -> u32 {
    use std::arch::x86_64::{_mm_crc32_u64, _mm_crc32_u8};
    let mut rest = u64::from(!before);
    let mut words = bytes.chunks_exact(8);
    for word in &mut words {
        rest = _mm_crc32_u64(rest, u64::from_le_bytes(word.try_into().unwrap_or_default()));
    }
    !words.remainder().iter().fold(rest as u32, |rest, byte| _mm_crc32_u8(rest, *byte))
}

#[cfg(test)]
mod tests {
    use super::{by_table, checksum};

    #[test]
    fn both_ways_tell_the_same() {
        let bytes: Vec<u8> = (0..1000u32).map(|place| ((place * place) >> 3) as u8).collect();
        for end in 0..bytes.len() {
            assert_eq!(by_table(7, &bytes[..end]), checksum(7, &bytes[..end]));
        }
        assert_eq!(checksum(0, b"123456789"), 0xe306_9283);
        assert_eq!(checksum(checksum(0, b"1234"), b"56789"), 0xe306_9283);
    }
}
