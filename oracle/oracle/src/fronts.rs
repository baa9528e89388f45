//! Fronts of an entry's body, and whether some body that begins so is free of cause 6: by completing them.

use crate::records::{ENTRY, Entry};

/// Whether some body that begins with `front` is free of cause 6.
///
/// Once the length is there, each other byte is good or bad by itself. So if some completion is good, the one with `m` up to the length and zeros
/// behind it is, and for each length that one is tried.
#[must_use]
pub fn possible(front: &[u8]) -> bool {
    front.len() <= ENTRY && (0..=255).any(|length| completed(front, length).is_name())
}

/// The front, of 33 bytes at most, with its own length, or this one where it has none.
fn completed(front: &[u8], length: u8) -> Entry {
    let length = front.first().copied().unwrap_or(length);
    let mut body = [0; ENTRY];
    body[0] = length;
    body[1..]
        .iter_mut()
        .take(length.into())
        .for_each(|b| *b = b'm');
    body[..front.len()].copy_from_slice(front);
    Entry::from_body(&body)
}
