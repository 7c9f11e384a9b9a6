//! A sum that finds damage: CRC-64 as in the xz format. It tells every flipped bit and every run of up to 64 damaged bits; it keeps out no forger, and need not.

const POLYNOMIAL: u64 = 0xc96c_5795_d787_0f42;

const TABLE: [u64; 256] = table();

const fn table() -> [u64; 256] {
    let mut table = [0; 256];
    let mut byte = 0;
    while byte < 256 {
        let mut rest = byte as u64;
        let mut bit = 0;
        while bit < 8 {
            rest = if rest & 1 == 1 { rest >> 1 ^ POLYNOMIAL } else { rest >> 1 };
            bit += 1;
        }
        table[byte] = rest;
        byte += 1;
    }
    table
}

/// The sum of bytes.
pub fn crc64(bytes: &[u8]) -> u64 {
    !bytes.iter().fold(!0, |rest: u64, byte| TABLE[usize::from(rest as u8 ^ byte)] ^ rest >> 8)
}

#[cfg(test)]
mod tests {
    use super::*;

    /// The check value of the format's own description, and the empty text.
    #[test]
    fn the_sum_is_that_of_the_format() {
        assert_eq!(crc64(b"123456789"), 0x995d_c9bb_df19_39fa);
        assert_eq!(crc64(b""), 0);
    }

    #[test]
    fn each_flipped_bit_changes_it() {
        let bytes: Vec<u8> = (0..=255).collect();
        let sum = crc64(&bytes);
        for bit in 0..bytes.len() * 8 {
            let mut other = bytes.clone();
            other[bit / 8] ^= 1 << (bit % 8);
            assert_ne!(crc64(&other), sum, "bit {bit}");
        }
    }
}
