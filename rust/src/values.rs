//! Keys, variants and entries. Each has the bytes of its struct in include/yuzuknoll.h, so that it is handed to the archive as it is.

use std::{fmt, str::FromStr};

use crate::{
    Argument, Comparison, FogMode, Kind, Mask, Op, Refusal, StageFlags, VariantFlags, WideKey, raw,
};

/// How many stages a key has.
pub const STAGES: usize = 8;

const NAME_LENGTH: usize = 32;

/// An op and its two arguments.
#[derive(Clone, Copy, Debug, PartialEq, Eq, Hash)]
#[repr(C)]
pub struct Combiner {
    pub op: Op,
    pub arg1: Argument,
    pub arg2: Argument,
}

impl Combiner {
    /// Disabled, with arguments of zeros.
    pub const DISABLED: Self = Self::new(Op::DISABLE, Argument(0), Argument(0));

    #[must_use]
    pub const fn new(op: Op, arg1: Argument, arg2: Argument) -> Self {
        Self { op, arg1, arg2 }
    }

    /// The argument as it is.
    #[must_use]
    pub const fn select(argument: Argument) -> Self {
        Self::new(Op::SELECTARG1, argument, Argument(0))
    }
}

/// One texture stage. By default it is disabled.
#[derive(Clone, Copy, Debug, PartialEq, Eq, Hash)]
#[repr(C)]
pub struct Stage {
    pub colour: Combiner,
    pub alpha: Combiner,
    pub flags: StageFlags,
}

impl Stage {
    pub const DISABLED: Self = Self {
        colour: Combiner::DISABLED,
        alpha: Combiner::DISABLED,
        flags: StageFlags::NONE,
    };

    /// A stage of which no state was written, with the ops that Direct3D gives it.
    const fn unwritten(colour: Op, alpha: Op) -> Self {
        Self {
            colour: Combiner::new(colour, Argument::TEXTURE, Argument::CURRENT),
            alpha: Combiner::new(alpha, Argument::TEXTURE, Argument::CURRENT),
            flags: StageFlags::NONE,
        }
    }
}

impl Default for Stage {
    fn default() -> Self {
        Self::DISABLED
    }
}

/// What the pixel stages compute. The stages before the first one with colour op [`Op::DISABLE`] are active. By default all are disabled.
#[derive(Clone, Copy, Debug, Default, PartialEq, Eq, Hash)]
#[repr(C)]
pub struct Key {
    pub stages: [Stage; STAGES],
    /// Whether the specular colour is added behind the last stage.
    pub specular: bool,
    /// Bit i divides the texture coordinate of stage i by its w, and makes it 0 where w is 0.
    pub projected: u8,
}

impl Key {
    /// The key that state writes begin from if none is held: Direct3D's defaults.
    pub const BEFORE_WRITES: Self = {
        let mut stages = [Stage::unwritten(Op::DISABLE, Op::DISABLE); STAGES];
        stages[0] = Stage::unwritten(Op::MODULATE, Op::SELECTARG1);
        Self {
            stages,
            specular: false,
            projected: 0,
        }
    };

    /// A key of these stages, at most eight, with disabled ones behind them.
    ///
    /// ```compile_fail
    /// yuzuknoll::Key::of([yuzuknoll::Stage::DISABLED; 9]);
    /// ```
    #[must_use]
    pub fn of<const N: usize>(front: [Stage; N]) -> Self {
        const { assert!(N <= STAGES, "a key has eight stages") };
        let mut key = Self::default();
        for (stage, given) in key.stages.iter_mut().zip(front) {
            *stage = given;
        }
        key
    }

    /// The key of bytes that the archive accepts.
    pub(crate) fn of_accepted(bytes: &[u8; raw::KEY_LENGTH]) -> Self {
        let (stages, rest) = bytes.as_chunks();
        let mut key = Self::default();
        for (stage, &[c, c1, c2, a, a1, a2, flags]) in key.stages.iter_mut().zip(stages) {
            *stage = Stage {
                colour: Combiner::new(Op(c), Argument(c1), Argument(c2)),
                alpha: Combiner::new(Op(a), Argument(a1), Argument(a2)),
                flags: StageFlags::from_bits(flags).unwrap_or_default(),
            };
        }
        if let &[specular, projected] = rest {
            key.specular = specular == 1;
            key.projected = projected;
        }
        key
    }
}

/// The render states beside the key that shape the function.
///
/// By default there is no alpha test, no fog, and textures are plain two-dimensional ones.
#[derive(Clone, Copy, Debug, Default, PartialEq, Eq, Hash)]
#[repr(C)]
pub struct Variant {
    pub alpha_function: Comparison,
    /// Unless it is [`FogMode::NONE`], fog is blended in by the factor of the vertices.
    pub fog_mode: FogMode,
    /// Unless it is [`FogMode::NONE`], fog is computed for each pixel, whatever `fog_mode` is.
    pub fog_table_mode: FogMode,
    /// The texture has a depth format. The lookup compares depths.
    pub depth_sampler: Mask,
    /// The lookup reads the stored depth and compares nothing.
    pub depth_fetch: Mask,
    /// The lookup gathers four texels, whatever the two masks above say.
    pub fetch4: Mask,
    /// The four texels are read from alpha, unless the format is one of depth.
    pub fetch4_alpha: Mask,
    /// The stored depth goes to red alone; green and blue are 0, alpha is 1.
    pub raw_depth_red: Mask,
    /// The texture is a volume.
    pub volume: Mask,
    /// The texture is a cube.
    pub cube: Mask,
    /// Only used with [`VariantFlags::SAMPLE_MASK`].
    pub sample_mask: u8,
    pub flags: VariantFlags,
}

impl Variant {
    /// The variant of bytes that the archive accepts.
    pub(crate) fn of_accepted(bytes: &[u8; raw::VARIANT_LENGTH]) -> Self {
        let mask = |low, high| Mask::from_bits(u16::from_le_bytes([low, high]));
        let &[
            alpha,
            fog,
            table,
            m0,
            n0,
            m1,
            n1,
            m2,
            n2,
            m3,
            n3,
            m4,
            n4,
            m5,
            n5,
            m6,
            n6,
            sample,
            flags,
        ] = bytes;
        Self {
            alpha_function: Comparison(alpha),
            fog_mode: FogMode(fog),
            fog_table_mode: FogMode(table),
            depth_sampler: mask(m0, n0),
            depth_fetch: mask(m1, n1),
            fetch4: mask(m2, n2),
            fetch4_alpha: mask(m3, n3),
            raw_depth_red: mask(m4, n4),
            volume: mask(m5, n5),
            cube: mask(m6, n6),
            sample_mask: sample,
            flags: VariantFlags::from_bits(flags).unwrap_or_default(),
        }
    }
}

/// The name of the function: 1 to 32 ASCII letters, digits and underscores, of which the first is no digit.
///
/// 83 words that the texts or Metal use are reserved, `t0`, `main` and `float4` among them; include/yuzuknoll.h lists them. No name may be one of them.
#[derive(Clone, Copy, Debug, PartialEq, Eq, Hash)]
#[repr(C)]
pub struct Entry {
    length: u8,
    name: [u8; NAME_LENGTH],
}

impl Entry {
    /// # Errors
    /// [`Refusal::EntryName`] if it is no such name, [`Refusal::ReservedWord`] if it is a reserved word.
    pub fn new(name: &str) -> Result<Self, Refusal> {
        let mut entry = Self {
            length: u8::try_from(name.len()).map_err(|_| Refusal::EntryName)?,
            name: [0; NAME_LENGTH],
        };
        for (place, byte) in entry.name.iter_mut().zip(name.bytes()) {
            *place = byte;
        }
        // The archive decides what a name is, its length included, and which words are reserved.
        let mut record = [0; Kind::Entry.record_length()];
        let [kind, body @ ..] = &mut record;
        *kind = Kind::Entry.number();
        *body = *entry.as_bytes();
        Refusal::check(raw::read(&record, &mut raw::Record::default()))?;
        Ok(entry)
    }

    #[must_use]
    pub fn as_str(&self) -> &str {
        let name = self.name.get(..self.length.into());
        ascii(name.unwrap_or_default())
    }

    /// The entry of bytes that the archive accepts.
    pub(crate) const fn of_accepted(bytes: &[u8; raw::ENTRY_LENGTH]) -> Self {
        let &[length, ref name @ ..] = bytes;
        Self {
            length,
            name: *name,
        }
    }
}

impl fmt::Display for Entry {
    fn fmt(&self, f: &mut fmt::Formatter) -> fmt::Result {
        f.write_str(self.as_str())
    }
}

impl FromStr for Entry {
    type Err = Refusal;

    fn from_str(name: &str) -> Result<Self, Refusal> {
        Self::new(name)
    }
}

/// Bytes that the archive wrote or accepted as a name or a text. It is proved that they are ASCII, so the default is never used.
pub(crate) fn ascii(bytes: &[u8]) -> &str {
    str::from_utf8(bytes).unwrap_or_default()
}

macro_rules! as_bytes {
    ($($type:ty: $length:expr;)*) => {$(
        const _: () = assert!(size_of::<$type>() == $length && align_of::<$type>() == 1);

        impl $type {
            /// The bytes of the struct, which are those of its record behind the kind.
            #[allow(unsafe_code)]
            #[must_use]
            pub const fn as_bytes(&self) -> &[u8; $length] {
                // Safety: the type is `repr(C)` and made of bytes alone, so it has no padding; it has this length and needs no alignment.
                unsafe { &*std::ptr::from_ref(self).cast() }
            }
        }
    )*};
}

as_bytes! {
    Key: raw::KEY_LENGTH;
    Variant: raw::VARIANT_LENGTH;
    Entry: raw::ENTRY_LENGTH;
    WideKey: raw::WIDE_KEY_LENGTH;
}
