//! A lent buffer with a pattern in it, in front of it and behind it, and what must stand there after a call.

/// Bytes of the pattern in front of the buffer and behind it.
const MARGIN: usize = 64;

#[derive(Default)]
pub struct Lent {
    bytes: Vec<u8>,
    expected: Vec<u8>,
    length: usize,
}

impl Lent {
    #[must_use]
    pub fn new() -> Self {
        Self::default()
    }

    /// A buffer of a length, with the pattern that begins with a byte.
    pub fn fill(&mut self, length: usize, start: u8) {
        self.length = length;
        self.bytes.clear();
        self.bytes.extend(
            (0..length + 2 * MARGIN).map(|n| (n as u8).wrapping_mul(31).wrapping_add(start)),
        );
        self.expected.clone_from(&self.bytes);
    }

    /// A buffer that holds these bytes.
    pub fn load(&mut self, bytes: &[u8], start: u8) {
        self.fill(bytes.len(), start);
        self.bytes[MARGIN..][..bytes.len()].copy_from_slice(bytes);
        self.expected.clone_from(&self.bytes);
    }

    #[must_use]
    pub const fn length(&self) -> usize {
        self.length
    }

    #[must_use]
    pub fn buffer(&mut self) -> &mut [u8] {
        &mut self.bytes[MARGIN..][..self.length]
    }

    /// The call must write these bytes at a place, and no other.
    pub fn expect(&mut self, at: usize, bytes: &[u8]) {
        self.expected[MARGIN + at..][..bytes.len()].copy_from_slice(bytes);
    }

    #[must_use]
    pub fn as_expected(&self) -> bool {
        self.bytes == self.expected
    }

    /// Where and how the bytes differ from what must stand there.
    #[must_use]
    pub fn difference(&self) -> String {
        let at = self
            .bytes
            .iter()
            .zip(&self.expected)
            .position(|(a, b)| a != b);
        match at {
            None => "is as expected".to_owned(),
            Some(at) if at < MARGIN => "was written in front of".to_owned(),
            Some(at) => {
                let shown = |bytes: &[u8]| {
                    let end = (at + 60).min(bytes.len());
                    String::from_utf8_lossy(&bytes[at..end])
                        .escape_debug()
                        .to_string()
                };
                format!(
                    "differs first at {}\n  expected: {}\n  got: {}",
                    at - MARGIN,
                    shown(&self.expected),
                    shown(&self.bytes)
                )
            }
        }
    }
}
