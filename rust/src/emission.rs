//! The text of a key, a variant and an entry.

use crate::{Entry, Key, Refusal, StageMask, Variant, Warnings, WideKey, raw, values::ascii};

/// A text and what is known of it.
#[derive(Clone, Copy, Debug, PartialEq, Eq)]
pub struct Emission<'a> {
    /// The Metal function, in ASCII, at the front of the buffer that it was written to.
    pub text: &'a [u8],
    /// The active stages that have a texture.
    pub mask: StageMask,
    /// The number of rows that the buffer `ps_c` must have: 0 to 9.
    pub rows: u64,
    /// The number of texture lookups in the text: 0 to 8.
    pub lookups: u64,
    /// What was asked for that there is not, and at which stages.
    pub warnings: Warnings,
}

impl<'a> Emission<'a> {
    pub(crate) fn of(emitted: &raw::Emitted, buffer: &'a [u8]) -> Self {
        Self {
            text: buffer.get(..emitted.length as usize).unwrap_or_default(),
            mask: StageMask::of_reported(emitted.mask),
            rows: emitted.rows,
            lookups: emitted.lookups,
            warnings: Warnings::of(emitted),
        }
    }

    /// The text as a string. This goes through all its bytes once more.
    #[must_use]
    pub fn as_str(&self) -> &'a str {
        ascii(self.text)
    }
}

/// Writes the Metal function of a key, a variant and an entry to the front of a buffer. Does not modify the bytes after the text.
///
/// # Errors
/// [`Refusal::NoRoom`] if the text is longer than the buffer, which [`TEXT_LENGTH`](crate::TEXT_LENGTH) bytes rule out.
pub fn emit<'a>(
    key: &Key,
    variant: &Variant,
    entry: &Entry,
    buffer: &'a mut [u8],
) -> Result<Emission<'a>, Refusal> {
    let mut emitted = raw::Emitted::default();
    Refusal::check(raw::emit(
        key.as_bytes(),
        variant.as_bytes(),
        entry.as_bytes(),
        buffer,
        &mut emitted,
    ))?;
    Ok(Emission::of(&emitted, buffer))
}

/// Writes the Metal function of a wide key, a variant and an entry, as [`emit`] does of a key.
///
/// # Errors
/// As [`emit`].
pub fn emit_wide<'a>(
    key: &WideKey,
    variant: &Variant,
    entry: &Entry,
    buffer: &'a mut [u8],
) -> Result<Emission<'a>, Refusal> {
    let mut emitted = raw::Emitted::default();
    Refusal::check(raw::emit_wide(
        key.as_bytes(),
        variant.as_bytes(),
        entry.as_bytes(),
        buffer,
        &mut emitted,
    ))?;
    Ok(Emission::of(&emitted, buffer))
}
