//! Tables as bytes, eight to an entry, least first.

pub fn as_bytes(table: &[u64]) -> Vec<u8> {
    table.iter().flat_map(|entry| entry.to_le_bytes()).collect()
}

pub fn as_words(bytes: &[u8]) -> Vec<u64> {
    let entry = |eight: &[u8]| u64::from_le_bytes(eight.try_into().expect("eight bytes"));
    bytes.chunks_exact(8).map(entry).collect()
}
