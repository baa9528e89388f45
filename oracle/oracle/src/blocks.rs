//! Byte strings behind one another, each with its length in front, four bytes, low byte first.

#[must_use]
pub fn block(bytes: &[u8]) -> Vec<u8> {
    let length = u32::try_from(bytes.len()).expect("a length of four bytes");
    [&length.to_le_bytes(), bytes].concat()
}

/// # Panics
/// At the end, if the last block is cut short.
pub fn blocks(mut bytes: &[u8]) -> impl Iterator<Item = &[u8]> {
    std::iter::from_fn(move || {
        if bytes.is_empty() {
            return None;
        }
        let (length, rest) = bytes.split_first_chunk().expect("a whole length");
        let (one, rest) = rest.split_at(u32::from_le_bytes(*length) as usize);
        bytes = rest;
        Some(one)
    })
}
