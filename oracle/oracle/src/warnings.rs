//! 02's warnings by stage.

use std::fmt;

/// For 01's causes 1, 2 and 4 a mask of stages, bit i for stage i; for cause 8 whether it is there.
#[derive(Clone, Copy, Debug, Default, PartialEq, Eq)]
pub struct Warnings {
    pub op: u8,
    pub selector: u8,
    pub modifier: u8,
    pub alpha: bool,
}

impl Warnings {
    /// The four numbers of the `emit` line.
    #[must_use]
    pub fn numbers(self) -> [u8; 4] {
        [self.op, self.selector, self.modifier, self.alpha.into()]
    }
}

/// As the `emit` line has them.
impl fmt::Display for Warnings {
    fn fmt(&self, f: &mut fmt::Formatter) -> fmt::Result {
        let [op, selector, modifier, alpha] = self.numbers();
        write!(f, "{op} {selector} {modifier} {alpha}")
    }
}
