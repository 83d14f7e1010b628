//! Stands in for noblit's module of the same name: words in bytes, as `memory_store` uses them.

/// The first eight bytes of a slice.
pub fn slice_8(bytes: &[u8]) -> [u8; 8] {
    let mut first = [0; 8];
    first.copy_from_slice(&bytes[..8]);
    first
}

pub fn u64_from_le_bytes(bytes: [u8; 8]) -> u64 {
    u64::from_le_bytes(bytes)
}

pub fn u64_to_le_bytes(word: u64) -> [u8; 8] {
    word.to_le_bytes()
}
