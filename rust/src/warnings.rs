//! What a key and a variant ask for that there is not, and at which stages.

use std::{fmt, ops::BitOr};

use crate::{STAGES, raw};

/// A set of stages.
#[derive(Clone, Copy, Debug, Default, PartialEq, Eq, Hash)]
pub struct StageMask(u8);

impl StageMask {
    pub const NONE: Self = Self(0);

    /// Bit i is for stage i.
    #[must_use]
    pub const fn from_bits(bits: u8) -> Self {
        Self(bits)
    }

    /// A mask that the archive reports. It is proved that these have no bit above the eighth.
    pub(crate) const fn of_reported(mask: u64) -> Self {
        Self(mask as u8)
    }

    #[must_use]
    pub const fn bits(self) -> u8 {
        self.0
    }

    #[must_use]
    pub const fn is_empty(self) -> bool {
        self.0 == 0
    }

    #[must_use]
    pub const fn contains(self, stage: usize) -> bool {
        stage < STAGES && self.0 >> stage & 1 != 0
    }

    /// The stages in rising order.
    pub fn iter(self) -> impl Iterator<Item = usize> {
        (0..STAGES).filter(move |&stage| self.contains(stage))
    }
}

impl BitOr for StageMask {
    type Output = Self;

    fn bitor(self, other: Self) -> Self {
        Self(self.0 | other.0)
    }
}

/// What a key and a variant ask for that there is not. A warning is no refusal: there is a text.
///
/// The op and both arguments of a stage warn in colour and in alpha, even if their result is not used. They do not warn in a stage that is not active or
/// that displaces the next one's lookup, where an unbound texture makes the op give [`Argument::CURRENT`](crate::Argument::CURRENT), nor in alpha that is
/// kept or that the colour op sets.
///
/// ```
/// use yuzuknoll::{Argument, Combiner, Entry, Key, Op, Stage, TEXT_LENGTH, Variant, Warning, emit};
///
/// let plain = Stage { colour: Combiner::select(Argument::DIFFUSE), ..Stage::DISABLED };
/// let unknown = Stage { colour: Combiner::new(Op(17), Argument(9), Argument::CURRENT), ..Stage::DISABLED };
/// let key = Key::of([plain, plain, unknown]);
/// let mut buffer = [0; TEXT_LENGTH];
/// let warnings = emit(&key, &Variant::default(), &Entry::new("m")?, &mut buffer)?.warnings;
///
/// assert!(warnings.op.contains(2));
/// assert!(warnings.iter().eq([Warning::Op { stage: 2 }, Warning::Selector { stage: 2 }]));
/// assert_eq!(warnings.to_string(), "stage 2: unsupported op; stage 2: unsupported argument");
/// # Ok::<(), yuzuknoll::Refusal>(())
/// ```
#[derive(Clone, Copy, Debug, Default, PartialEq, Eq, Hash)]
pub struct Warnings {
    /// The stages with an op that has no formula. Argument 1 was used.
    pub op: StageMask,
    /// The stages with an argument whose selector is from 7 to 15. White was used.
    pub selector: StageMask,
    /// The stages with an argument that has the bit 0x40 or 0x80. It was ignored.
    pub modifier: StageMask,
    /// Whether the alpha function is above 8. Every pixel is kept.
    pub alpha: bool,
}

impl Warnings {
    pub const NONE: Self = Self {
        op: StageMask::NONE,
        selector: StageMask::NONE,
        modifier: StageMask::NONE,
        alpha: false,
    };

    pub(crate) const fn of(emitted: &raw::Emitted) -> Self {
        Self {
            op: StageMask::of_reported(emitted.op_warnings),
            selector: StageMask::of_reported(emitted.selector_warnings),
            modifier: StageMask::of_reported(emitted.modifier_warnings),
            alpha: emitted.alpha_warning != 0,
        }
    }

    #[must_use]
    pub fn is_empty(self) -> bool {
        self == Self::NONE
    }

    /// The stages that warn of anything.
    #[must_use]
    pub fn stages(self) -> StageMask {
        self.op | self.selector | self.modifier
    }

    /// The warnings one by one: those of a stage together, in rising order of the stages, and that of the alpha function last.
    pub fn iter(self) -> impl Iterator<Item = Warning> {
        let of_stage = move |stage| {
            [
                (self.op, Warning::Op { stage }),
                (self.selector, Warning::Selector { stage }),
                (self.modifier, Warning::Modifier { stage }),
            ]
            .into_iter()
            .filter_map(move |(mask, warning)| mask.contains(stage).then_some(warning))
        };
        let alpha = self.alpha.then_some(Warning::AlphaFunction);
        (0..STAGES).flat_map(of_stage).chain(alpha)
    }
}

/// One of [`Warnings`].
#[derive(Clone, Copy, Debug, PartialEq, Eq, Hash)]
pub enum Warning {
    /// The stage has an op without a formula. Argument 1 was used.
    Op { stage: usize },
    /// The stage has an argument whose selector is from 7 to 15. White was used.
    Selector { stage: usize },
    /// The stage has an argument with the bit 0x40 or 0x80. It was ignored.
    Modifier { stage: usize },
    /// The alpha function is above 8. Every pixel is kept.
    AlphaFunction,
}

impl fmt::Display for Warning {
    fn fmt(&self, f: &mut fmt::Formatter) -> fmt::Result {
        match self {
            Self::Op { stage } => write!(f, "stage {stage}: unsupported op"),
            Self::Selector { stage } => write!(f, "stage {stage}: unsupported argument"),
            Self::Modifier { stage } => write!(f, "stage {stage}: unsupported modifier"),
            Self::AlphaFunction => f.write_str("unsupported alpha function"),
        }
    }
}

/// The warnings one by one, separated by semicolons, or `no warnings`.
impl fmt::Display for Warnings {
    fn fmt(&self, f: &mut fmt::Formatter) -> fmt::Result {
        if self.is_empty() {
            return f.write_str("no warnings");
        }
        for (n, warning) in self.iter().enumerate() {
            let separator = if n == 0 { "" } else { "; " };
            write!(f, "{separator}{warning}")?;
        }
        Ok(())
    }
}
