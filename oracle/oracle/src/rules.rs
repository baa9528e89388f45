//! 01's rules about mask, rows, lookups and warnings, read on key and variant alone; warnings by stage and stages of three operands, as 02 has them.
//!
//! Nothing here looks at the Rust or at a text, so that each can be compared with the other.

use crate::{
    records::{Combiner, Key, Stage, Variant},
    warnings::Warnings,
};

const CURRENT: u8 = 1;
pub(crate) const TEXTURE: u8 = 2;
const FACTOR: u8 = 3;
pub(crate) const TEMP: u8 = 5;
pub(crate) const CONSTANT: u8 = 6;

/// MULTIPLYADD and LERP.
pub const THREE_OPERANDS: [u8; 2] = [25, 26];

#[must_use]
pub const fn selector(argument: u8) -> u8 {
    argument & 0x0f
}

const fn is_bump_op(op: u8) -> bool {
    matches!(op, 22 | 23)
}

/// The stages before the first with colour op 1.
#[must_use]
pub fn active(key: &Key) -> &[Stage] {
    let count = key.stages.iter().take_while(|s| s.color.op != 1).count();
    &key.stages[..count]
}

/// Whether a stage of the key, active or not, has an op of three operands and an argument 0.
#[must_use]
pub fn has_three_operands(key: &Key) -> bool {
    let mut stages = key.stages.iter();
    stages.any(|s| s.color.third().is_some() || s.alpha.third().is_some())
}

impl Combiner {
    /// Argument 0 where it counts: of ops 25 and 26 in a key of kind 6.
    fn third(self) -> Option<u8> {
        self.arg0.filter(|_| THREE_OPERANDS.contains(&self.op))
    }

    /// Whether the op has a text of its own.
    pub(crate) fn has_text(self) -> bool {
        matches!(self.op, 2..=16 | 18..=21 | 24) || self.third().is_some()
    }

    /// Arguments 1 and 2, and argument 0 where it counts, whether the op reads them or not.
    fn arguments(self) -> impl Iterator<Item = u8> {
        [self.arg1, self.arg2].into_iter().chain(self.third())
    }

    /// Whether the op reads an argument with this selector.
    fn reads(self, wanted: u8) -> bool {
        let first = self.op != 3 && selector(self.arg1) == wanted;
        let second = self.op != 2 && selector(self.arg2) == wanted;
        let third = self.third().is_some_and(|a| selector(a) == wanted);
        self.op != 1 && (first || second || third)
    }

    pub(crate) fn falls_back(self, textured: bool) -> bool {
        !textured && self.reads(TEXTURE)
    }

    /// The arguments that the text of the op keeps.
    fn kept(self, textured: bool) -> Vec<u8> {
        match self.op {
            3 => vec![self.arg2],
            13 if !textured => vec![self.arg2],
            2 => vec![self.arg1],
            _ if !self.has_text() => vec![self.arg1],
            _ => self.arguments().collect(),
        }
    }

    /// Whether the expression reads the local that this selector names.
    fn expression_reads(self, textured: bool, wanted: u8) -> bool {
        if self.falls_back(textured) {
            return wanted == CURRENT;
        }
        let own = textured && matches!(self.op, 13 | 15) && wanted == TEXTURE;
        own || self
            .kept(textured)
            .into_iter()
            .any(|a| selector(a) == wanted)
    }

    fn selects(self, wanted: u8) -> bool {
        self.arguments().any(|a| selector(a) == wanted)
    }

    fn has_unknown_selector(self) -> bool {
        self.arguments().any(|a| selector(a) > CONSTANT)
    }

    fn has_unknown_modifier(self) -> bool {
        self.arguments().any(|a| a & 0xc0 != 0)
    }
}

impl Stage {
    pub(crate) fn is_bump(self) -> bool {
        is_bump_op(self.color.op) && !self.color.falls_back(self.textured())
    }

    pub(crate) fn alpha_from_color(self) -> bool {
        self.color.op == 24 && !self.color.falls_back(self.textured())
    }

    fn alpha_kept(self) -> bool {
        let fallback = self.alpha.falls_back(self.textured());
        self.alpha.op == 1 || (is_bump_op(self.alpha.op) && !fallback)
    }

    /// The combiners of colour and of alpha, where these have an expression.
    pub(crate) fn expressions(self) -> (Option<Combiner>, Option<Combiner>) {
        if self.is_bump() {
            return (None, None);
        }
        let alpha = !self.alpha_from_color() && !self.alpha_kept();
        (Some(self.color), alpha.then_some(self.alpha))
    }

    pub(crate) fn expressions_read(self, wanted: u8) -> bool {
        let reads = |c: Combiner| c.expression_reads(self.textured(), wanted);
        let (color, alpha) = self.expressions();
        color.is_some_and(reads) || alpha.is_some_and(reads)
    }

    /// The combiners whose arguments are resolved and whose op is applied, also where their result is dropped: those outside a fallback.
    fn resolved(self) -> impl Iterator<Item = Combiner> {
        let (color, alpha) = self.expressions();
        let expressions = color.into_iter().chain(alpha);
        expressions.filter(move |c| !c.falls_back(self.textured()))
    }

    fn has_line(self, temp_live: bool) -> bool {
        !self.is_bump() && (temp_live || !self.to_temp())
    }

    fn reads_constant(self) -> bool {
        let read = |c: Combiner| !c.falls_back(self.textured()) && c.reads(CONSTANT);
        read(self.color) || (!self.alpha_from_color() && read(self.alpha))
    }

    fn selects_factor(self) -> bool {
        self.color.op == 14
            || self.alpha.op == 14
            || self.color.selects(FACTOR)
            || (self.alpha.op != 1 && self.alpha.selects(FACTOR))
    }
}

/// Bit i for each active stage i with a texture.
#[must_use]
pub fn mask(key: &Key) -> u16 {
    let textured = active(key).iter().enumerate().filter(|(_, s)| s.textured());
    textured.fold(0, |mask, (i, _)| mask | 1 << i)
}

/// # Panics
/// Never: a key has eight stages.
#[must_use]
pub fn rows(key: &Key) -> u8 {
    let active = active(key);
    match active.iter().rposition(|s| s.reads_constant()) {
        Some(stage) => u8::try_from(stage + 2).expect("eight stages"),
        None => u8::from(active.iter().any(|s| s.selects_factor())),
    }
}

/// Bit i for each active stage i with a lookup.
#[must_use]
pub fn marks(key: &Key) -> u16 {
    let active = active(key);
    let temp_live = active.iter().any(|s| s.expressions_read(TEMP));
    let mut marks = 0;
    for (i, stage) in active.iter().enumerate().rev() {
        let marked = if stage.is_bump() {
            stage.textured() && marks & (1 << (i + 1)) != 0
        } else {
            stage.has_line(temp_live) && stage.expressions_read(TEXTURE)
        };
        marks |= u16::from(marked) << i;
    }
    marks
}

#[must_use]
pub fn warnings(key: &Key, variant: &Variant) -> Warnings {
    let mut warnings = Warnings {
        alpha: variant.alpha_func > 8,
        ..Warnings::default()
    };
    for (i, stage) in active(key).iter().enumerate() {
        for combiner in stage.resolved() {
            warnings.op |= u8::from(!combiner.has_text()) << i;
            warnings.selector |= u8::from(combiner.has_unknown_selector()) << i;
            warnings.modifier |= u8::from(combiner.has_unknown_modifier()) << i;
        }
    }
    warnings
}
