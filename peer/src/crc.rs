//! CRC-32C, the check of the journal's blocks, by division bit by bit.

/// The polynomial of CRC-32C without its highest term; the coefficient of x^31 is the top bit.
const POLYNOMIAL: u32 = 0x1EDC_6F41;

/// Gives the CRC-32C of bytes, as the number that is published as e3069283 hex for `123456789`.
///
/// The bits of a byte are taken from the lowest on. The remainder is all ones at first; at the end it is
/// mirrored and complemented.
pub fn crc32c(bytes: &[u8]) -> u32 {
    let mut remainder = u32::MAX;
    for byte in bytes {
        for place in 0..8 {
            let bit = u32::from((byte >> place) & 1);
            let leaving = (remainder >> 31) ^ bit;
            remainder <<= 1;
            if leaving == 1 {
                remainder ^= POLYNOMIAL;
            }
        }
    }
    !remainder.reverse_bits()
}

#[cfg(test)]
mod tests {
    use super::*;

    #[test]
    fn published_values() {
        let up: Vec<u8> = (0..32).collect();
        let down: Vec<u8> = (0..32).rev().collect();
        assert_eq!(crc32c(b"123456789"), 0xE306_9283);
        assert_eq!(crc32c(&[0; 32]), 0x8A91_36AA);
        assert_eq!(crc32c(&[0xFF; 32]), 0x62A8_AB43);
        assert_eq!(crc32c(&up), 0x46DD_794E);
        assert_eq!(crc32c(&down), 0x113F_DB5C);
        assert_eq!(crc32c(&[]), 0);
    }
}
