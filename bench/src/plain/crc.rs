//! The two checks of a byte string, and the safety code made of them.

/// The divisors without their x^32.
const FIRST: u32 = 0x100D_4E63;
const SECOND: u32 = 0x8CE5_6011;

const FIRST_TABLE: [u32; 256] = table(FIRST);
const SECOND_TABLE: [u32; 256] = table(SECOND);

/// The safety code of the bytes under the word, by a look into each table a byte.
pub fn safety_code(word: u64, bytes: &[u8]) -> u64 {
    let (mut first, mut second) = (0, 0);
    for &byte in bytes {
        first = next(&FIRST_TABLE, first, byte);
        second = next(&SECOND_TABLE, second, byte);
    }
    joined(first, second) ^ word
}

/// The same, a bit at a time.
pub fn safety_code_by_bits(word: u64, bytes: &[u8]) -> u64 {
    joined(check_by_bits(FIRST, bytes), check_by_bits(SECOND, bytes)) ^ word
}

fn check_by_bits(divisor: u32, bytes: &[u8]) -> u32 {
    bytes.iter().fold(0, |rest, &byte| shifted(divisor, rest ^ u32::from(byte) << 24))
}

fn next(table: &[u32; 256], rest: u32, byte: u8) -> u32 {
    rest << 8 ^ table[usize::from((rest >> 24) as u8 ^ byte)]
}

fn joined(first: u32, second: u32) -> u64 {
    u64::from(first) << 32 | u64::from(second)
}

const fn table(divisor: u32) -> [u32; 256] {
    let mut table = [0; 256];
    let mut byte = 0;
    while byte < 256 {
        table[byte] = shifted(divisor, (byte as u32) << 24);
        byte += 1;
    }
    table
}

/// What is left of the rest times x^8.
const fn shifted(divisor: u32, mut rest: u32) -> u32 {
    let mut bit = 0;
    while bit < 8 {
        let carry = rest >> 31;
        rest = rest << 1 ^ carry * divisor;
        bit += 1;
    }
    rest
}

#[cfg(test)]
mod tests {
    use super::*;

    #[test]
    fn documented_codes() {
        assert_eq!(safety_code(0, &[1]), 0x100D_4E63_8CE5_6011);
        assert_eq!(safety_code(0, &[0]), 0);
        assert_eq!(safety_code(7, &[]), 7);
    }

    #[test]
    fn tables_and_bits_agree() {
        let bytes: Vec<u8> = (0..=255).collect();
        assert_eq!(safety_code(9, &bytes), safety_code_by_bits(9, &bytes));
    }
}
