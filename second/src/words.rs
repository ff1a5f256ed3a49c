//! Numbers of 16 bits in bytes, low byte first.

/// The number held by the two bytes from `at` on.
pub fn word(bytes: &[u8], at: usize) -> usize {
    usize::from(u16::from_le_bytes([bytes[at], bytes[at + 1]]))
}

/// Adds a number of at most 16 bits at the end.
pub fn push_word(bytes: &mut Vec<u8>, value: usize) {
    let value = u16::try_from(value).expect("a number of 16 bits");
    bytes.extend_from_slice(&value.to_le_bytes());
}

/// Puts a number of at most 16 bits in the place of the two bytes from `at` on.
pub fn set_word(bytes: &mut [u8], at: usize, value: usize) {
    let value = u16::try_from(value).expect("a number of 16 bits");
    bytes[at..at + 2].copy_from_slice(&value.to_le_bytes());
}
