//! Fields of more than one byte: big endian, without exception.

/// The number that the bytes are, at most eight of them.
pub fn big_endian(bytes: &[u8]) -> u64 {
    bytes.iter().fold(0, |number, &byte| number << 8 | u64::from(byte))
}
