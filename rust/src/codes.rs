//! Names for the bytes of keys and variants. The numbers are Direct3D's where it has them, and those of include/yuzuknoll.h.

use std::ops::BitOr;

use crate::Refusal;

/// What a stage computes of its arguments A (argument 1) and B (argument 2), and in a [`WideKey`](crate::WideKey) of Z (argument 0), by Direct3D's number
/// (`D3DTOP_..`).
///
/// A number without a name here gives A, and a warning.
#[derive(Clone, Copy, Debug, PartialEq, Eq, Hash)]
#[repr(transparent)]
pub struct Op(pub u8);

impl Op {
    /// As colour op it ends the stages. As alpha op it keeps alpha.
    pub const DISABLE: Self = Self(1);
    pub const SELECTARG1: Self = Self(2);
    pub const SELECTARG2: Self = Self(3);
    pub const MODULATE: Self = Self(4);
    pub const MODULATE2X: Self = Self(5);
    pub const MODULATE4X: Self = Self(6);
    pub const ADD: Self = Self(7);
    pub const ADDSIGNED: Self = Self(8);
    pub const ADDSIGNED2X: Self = Self(9);
    pub const SUBTRACT: Self = Self(10);
    pub const ADDSMOOTH: Self = Self(11);
    pub const BLENDDIFFUSEALPHA: Self = Self(12);
    pub const BLENDTEXTUREALPHA: Self = Self(13);
    pub const BLENDFACTORALPHA: Self = Self(14);
    pub const BLENDTEXTUREALPHAPM: Self = Self(15);
    pub const BLENDCURRENTALPHA: Self = Self(16);
    pub const MODULATEALPHA_ADDCOLOR: Self = Self(18);
    pub const MODULATECOLOR_ADDALPHA: Self = Self(19);
    pub const MODULATEINVALPHA_ADDCOLOR: Self = Self(20);
    pub const MODULATEINVCOLOR_ADDALPHA: Self = Self(21);
    /// The texel displaces the lookup of the next stage.
    pub const BUMPENVMAP: Self = Self(22);
    /// The texel displaces the lookup of the next stage and scales what is read there.
    pub const BUMPENVMAPLUMINANCE: Self = Self(23);
    pub const DOTPRODUCT3: Self = Self(24);
    /// Z + A * B, clamped to the range from 0 to 1. In a [`Key`](crate::Key), which has no Z, it gives A, and a warning.
    pub const MULTIPLYADD: Self = Self(25);
    /// Z * A + (1 - Z) * B. In a [`Key`](crate::Key), which has no Z, it gives A, and a warning.
    pub const LERP: Self = Self(26);
}

/// An argument of an op, by Direct3D's number (`D3DTA_..`).
///
/// A number without a name here means white, or has bits without effect; both give a warning.
#[derive(Clone, Copy, Debug, PartialEq, Eq, Hash)]
#[repr(transparent)]
pub struct Argument(pub u8);

impl Argument {
    /// The interpolated diffuse colour.
    pub const DIFFUSE: Self = Self(0);
    /// The result of the stages before; at first the diffuse colour.
    pub const CURRENT: Self = Self(1);
    /// The texel of this stage.
    pub const TEXTURE: Self = Self(2);
    /// The texture factor, `ps_c[0]`.
    pub const TFACTOR: Self = Self(3);
    /// The interpolated specular colour.
    pub const SPECULAR: Self = Self(4);
    /// The register TEMP; at first zero.
    pub const TEMP: Self = Self(5);
    /// The constant of this stage, `ps_c[stage + 1]`.
    pub const CONSTANT: Self = Self(6);

    const COMPLEMENT: u8 = 0x10;
    const ALPHAREPLICATE: u8 = 0x20;

    /// One minus the argument.
    #[must_use]
    pub const fn complement(self) -> Self {
        Self(self.0 | Self::COMPLEMENT)
    }

    /// The argument's alpha in all four channels.
    #[must_use]
    pub const fn alpha_replicate(self) -> Self {
        Self(self.0 | Self::ALPHAREPLICATE)
    }
}

/// A comparison of the alpha test, by Direct3D's number (`D3DCMP_..`): a pixel is kept if its alpha compares so with the reference value.
///
/// A number above 8 keeps every pixel, and gives a warning.
#[derive(Clone, Copy, Debug, Default, PartialEq, Eq, Hash)]
#[repr(transparent)]
pub struct Comparison(pub u8);

impl Comparison {
    /// Nothing is tested.
    pub const NONE: Self = Self(0);
    pub const NEVER: Self = Self(1);
    pub const LESS: Self = Self(2);
    pub const EQUAL: Self = Self(3);
    pub const LESSEQUAL: Self = Self(4);
    pub const GREATER: Self = Self(5);
    pub const NOTEQUAL: Self = Self(6);
    pub const GREATEREQUAL: Self = Self(7);
    pub const ALWAYS: Self = Self(8);
}

/// How fog grows with the distance, by Direct3D's number (`D3DFOG_..`).
///
/// As `fog_table_mode` of a [`Variant`](crate::Variant), a number above 3 means [`FogMode::LINEAR`]. As `fog_mode`, all numbers but 0 mean the same, since
/// the factor of the vertices is computed elsewhere.
#[derive(Clone, Copy, Debug, Default, PartialEq, Eq, Hash)]
#[repr(transparent)]
pub struct FogMode(pub u8);

impl FogMode {
    pub const NONE: Self = Self(0);
    pub const EXP: Self = Self(1);
    pub const EXP2: Self = Self(2);
    pub const LINEAR: Self = Self(3);
}

/// A bit for each stage. Bits 8 to 15 have no effect.
#[derive(Clone, Copy, Debug, Default, PartialEq, Eq, Hash)]
#[repr(transparent)]
pub struct Mask([u8; 2]);

impl Mask {
    pub const NONE: Self = Self::from_bits(0);

    /// Bit i is for stage i.
    #[must_use]
    pub const fn from_bits(bits: u16) -> Self {
        Self(bits.to_le_bytes())
    }

    #[must_use]
    pub const fn bits(self) -> u16 {
        u16::from_le_bytes(self.0)
    }
}

/// A byte of flags of which some bits are refused.
macro_rules! flags {
    ($(#[$about:meta])* $name:ident, $refusal:expr, $($(#[$what:meta])* $flag:ident = $bit:expr;)*) => {
        $(#[$about])*
        #[derive(Clone, Copy, Debug, Default, PartialEq, Eq, Hash)]
        #[repr(transparent)]
        pub struct $name(u8);

        impl $name {
            pub const NONE: Self = Self(0);
            $($(#[$what])* pub const $flag: Self = Self($bit);)*

            const ALL: u8 = $($bit)|*;

            /// # Errors
            /// If there is a bit that is none of these flags.
            pub const fn from_bits(bits: u8) -> Result<Self, Refusal> {
                if bits & !Self::ALL == 0 { Ok(Self(bits)) } else { Err($refusal) }
            }

            #[must_use]
            pub const fn bits(self) -> u8 {
                self.0
            }
        }

        impl BitOr for $name {
            type Output = Self;

            fn bitor(self, other: Self) -> Self {
                Self(self.0 | other.0)
            }
        }
    };
}

flags! {
    /// The flags of a stage.
    StageFlags, Refusal::StageFlags,
    /// A texture is bound to the stage.
    TEXTURED = 1;
    /// The result goes to the register TEMP, not to the next stage.
    TO_TEMP = 2;
}

flags! {
    /// The flags of a variant.
    VariantFlags, Refusal::VariantFlags,
    /// The diffuse and the specular colour are not interpolated.
    FLAT_SHADE = 1;
    /// The function encodes its colour as sRGB.
    SRGB_WRITE = 2;
    /// The function returns the sample mask too.
    SAMPLE_MASK = 4;
    /// Texture coordinates come from the place in the point.
    POINT_SPRITE = 8;
    /// Lookups take their level-of-detail bias from a buffer.
    LOD_BIAS = 16;
    /// Table fog goes by the eye's W in place of the depth.
    FOG_SOURCE_W = 32;
}
