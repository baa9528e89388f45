//! Keys whose stages have a third operand, argument 0, which [`Op::MULTIPLYADD`] and [`Op::LERP`] take. Each has the bytes of its struct in
//! include/yuzuknoll.h.

use crate::{Argument, Combiner, Key, Op, Record, STAGES, Stage, StageFlags, raw};

/// One texture stage with an argument 0 for colour and one for alpha. By default it is disabled.
#[derive(Clone, Copy, Debug, PartialEq, Eq, Hash)]
#[repr(C)]
pub struct WideStage {
    pub colour: Combiner,
    pub alpha: Combiner,
    /// The third operand of the colour op. Ops other than [`Op::MULTIPLYADD`] and [`Op::LERP`] ignore it.
    pub colour_arg0: Argument,
    /// The third operand of the alpha op, likewise.
    pub alpha_arg0: Argument,
    pub flags: StageFlags,
}

impl WideStage {
    pub const DISABLED: Self = Self::of(Stage::DISABLED);

    /// The stage with [`Argument::CURRENT`], which is Direct3D's default, as its arguments 0.
    #[must_use]
    pub const fn of(stage: Stage) -> Self {
        Self {
            colour: stage.colour,
            alpha: stage.alpha,
            colour_arg0: Argument::CURRENT,
            alpha_arg0: Argument::CURRENT,
            flags: stage.flags,
        }
    }
}

impl Default for WideStage {
    fn default() -> Self {
        Self::DISABLED
    }
}

impl From<Stage> for WideStage {
    fn from(stage: Stage) -> Self {
        Self::of(stage)
    }
}

/// What the pixel stages compute, as a [`Key`] says it, with a third operand for each op. By default all stages are disabled.
///
/// ```
/// use yuzuknoll::{Argument, Combiner, Entry, Op, StageFlags, TEXT_LENGTH, Variant, WideKey, WideStage, emit_wide};
///
/// let key = WideKey::of([WideStage {
///     colour: Combiner::new(Op::LERP, Argument::TEXTURE, Argument::DIFFUSE),
///     colour_arg0: Argument::TFACTOR,
///     flags: StageFlags::TEXTURED,
///     ..WideStage::DISABLED
/// }]);
/// let mut buffer = [0; TEXT_LENGTH];
/// let emission = emit_wide(&key, &Variant::default(), &Entry::new("my_shader")?, &mut buffer)?;
/// assert!(emission.as_str().contains("(ps_c[0] * t0 + (1.0 - ps_c[0]) * in.color0)"));
/// # Ok::<(), yuzuknoll::Refusal>(())
/// ```
#[derive(Clone, Copy, Debug, Default, PartialEq, Eq, Hash)]
#[repr(C)]
pub struct WideKey {
    pub stages: [WideStage; STAGES],
    /// Whether the specular colour is added behind the last stage.
    pub specular: bool,
    /// Bit i divides the texture coordinate of stage i by its w, and makes it 0 where w is 0.
    pub projected: u8,
}

impl WideKey {
    /// A key of these stages, at most eight, with disabled ones behind them.
    ///
    /// ```compile_fail
    /// yuzuknoll::WideKey::of([yuzuknoll::WideStage::DISABLED; 9]);
    /// ```
    #[must_use]
    pub fn of<const N: usize>(front: [WideStage; N]) -> Self {
        const { assert!(N <= STAGES, "a key has eight stages") };
        let mut key = Self::default();
        for (stage, given) in key.stages.iter_mut().zip(front) {
            *stage = given;
        }
        key
    }

    /// The key of bytes that the archive accepts.
    pub(crate) fn of_accepted(bytes: &[u8; raw::WIDE_KEY_LENGTH]) -> Self {
        let (stages, rest) = bytes.as_chunks();
        let mut key = Self::default();
        for (stage, &[c, c1, c2, a, a1, a2, c0, a0, flags]) in key.stages.iter_mut().zip(stages) {
            *stage = WideStage {
                colour: Combiner::new(Op(c), Argument(c1), Argument(c2)),
                alpha: Combiner::new(Op(a), Argument(a1), Argument(a2)),
                colour_arg0: Argument(c0),
                alpha_arg0: Argument(a0),
                flags: StageFlags::from_bits(flags).unwrap_or_default(),
            };
        }
        if let &[specular, projected] = rest {
            key.specular = specular == 1;
            key.projected = projected;
        }
        key
    }
}

/// The key with [`Argument::CURRENT`] as every argument 0. It gives the same text, unless an op is [`Op::MULTIPLYADD`] or [`Op::LERP`], which a
/// [`Key`] does not have.
impl From<Key> for WideKey {
    fn from(key: Key) -> Self {
        Self {
            stages: key.stages.map(WideStage::of),
            specular: key.specular,
            projected: key.projected,
        }
    }
}

/// The key that a [`Session`](crate::Session) holds.
#[derive(Clone, Copy, Debug, PartialEq, Eq, Hash)]
pub enum HeldKey {
    Key(Key),
    WideKey(WideKey),
}

impl HeldKey {
    /// The key, if it has no arguments 0.
    #[must_use]
    pub const fn narrow(self) -> Option<Key> {
        match self {
            Self::Key(key) => Some(key),
            Self::WideKey(_) => None,
        }
    }

    /// The wide key, if it is one.
    #[must_use]
    pub const fn wide(self) -> Option<WideKey> {
        match self {
            Self::Key(_) => None,
            Self::WideKey(key) => Some(key),
        }
    }
}

impl From<Key> for HeldKey {
    fn from(key: Key) -> Self {
        Self::Key(key)
    }
}

impl From<WideKey> for HeldKey {
    fn from(key: WideKey) -> Self {
        Self::WideKey(key)
    }
}

impl From<HeldKey> for Record {
    fn from(key: HeldKey) -> Self {
        match key {
            HeldKey::Key(key) => key.into(),
            HeldKey::WideKey(key) => key.into(),
        }
    }
}
