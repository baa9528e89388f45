//! An entry looked over a byte at a time.

use crate::raw;

/// An entry looked over a byte at a time, so that a form can tell whether a name is still possible while someone types it.
///
/// The bytes are those of [`Entry::as_bytes`](crate::Entry::as_bytes) in their order: the length, then the 32 bytes of the name. A form that does not
/// know the length yet takes 32:
///
/// ```
/// use yuzuknoll::EntryPass;
///
/// let mut pass = EntryPass::new();
/// pass.step(32);
/// let possible = b"wind screen".map(|byte| {
///     pass.step(byte);
///     pass.possible()
/// });
/// assert_eq!(possible.iter().position(|possible| !possible), Some(4));
/// ```
#[derive(Clone, Copy, Debug, PartialEq, Eq, Hash)]
pub struct EntryPass {
    state: raw::EntryState,
}

impl EntryPass {
    /// No byte is taken.
    #[must_use]
    pub fn new() -> Self {
        let mut state = [0; 3];
        raw::entry_start(&mut state);
        Self { state }
    }

    /// Takes the next byte.
    pub fn step(&mut self, byte: u8) {
        raw::entry_step(&mut self.state, byte);
    }

    /// Whether some entry that begins with the bytes taken is a name. Behind all 33 bytes this is whether the entry is one; behind more it is no. That a
    /// word is reserved does not count here.
    #[must_use]
    pub fn possible(&self) -> bool {
        raw::entry_possible(&self.state) != 0
    }
}

impl Default for EntryPass {
    fn default() -> Self {
        Self::new()
    }
}
