//! Numbers in bytes, with the low byte first.

/// The two-byte number that stands at `at`.
pub fn number2(bytes: &[u8], at: usize) -> u16 {
    u16::from_le_bytes([bytes[at], bytes[at + 1]])
}

/// The four-byte number that stands at `at`.
pub fn number4(bytes: &[u8], at: usize) -> u32 {
    u32::from(number2(bytes, at)) | u32::from(number2(bytes, at + 2)) << 16
}

/// Writes a two-byte number at `at`.
pub fn put2(bytes: &mut [u8], at: usize, number: u16) {
    bytes[at..at + 2].copy_from_slice(&number.to_le_bytes());
}

/// Writes a four-byte number at `at`.
pub fn put4(bytes: &mut [u8], at: usize, number: u32) {
    bytes[at..at + 4].copy_from_slice(&number.to_le_bytes());
}

/// The two-byte numbers that these bytes begin with.
pub fn numbers<const COUNT: usize>(bytes: &[u8]) -> [u16; COUNT] {
    std::array::from_fn(|place| number2(bytes, 2 * place))
}
