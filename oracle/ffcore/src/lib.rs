//! The published ff.rs and link.rs, compiled unchanged, over stand-ins for what was not published.
//!
//! Of emit.rs, which needs the unpublished translator, only the items that ff.rs uses are compiled.

#![allow(dead_code, clippy::all, clippy::pedantic)]

/// The vertex side's.
pub mod vs_draw {
    pub const VS_DRAW_MSL: &str = "";
}

pub mod dxso {
    pub const LOG_TARGET: &str = "dxso";

    /// What link.rs names of the unpublished ir.rs. The pixel path passes no extra semantics.
    pub mod ir {
        #[derive(Clone, Copy, Debug, PartialEq, Eq)]
        #[repr(u8)]
        pub enum DeclUsage {
            Position,
            BlendWeight,
            BlendIndices,
            Normal,
            PSize,
            Texcoord,
            Tangent,
            Binormal,
            TessFactor,
            PositionT,
            Color,
            Fog,
            Depth,
            Sample,
        }

        #[derive(Clone, Copy, Debug, PartialEq, Eq, PartialOrd, Ord)]
        pub enum RegKind {
            Input,
            RastOut,
            AttrOut,
            TexcoordOut,
            Output,
        }

        #[derive(Clone, Copy, Debug, PartialEq, Eq)]
        pub struct WriteMask(pub u8);

        impl WriteMask {
            pub const ALL: Self = Self(15);

            pub const fn covers(self, component: u8) -> bool {
                self.0 & (1 << component) != 0
            }
        }

        #[derive(Clone, Copy, Debug, PartialEq, Eq)]
        pub struct Register {
            pub kind: RegKind,
            pub index: u16,
        }

        #[derive(Clone, Copy, Debug, PartialEq, Eq)]
        pub struct DstOperand {
            pub reg: Register,
            pub write_mask: WriteMask,
        }

        #[derive(Clone, Copy, Debug, PartialEq, Eq)]
        pub enum ShaderType {
            Vertex,
            Pixel,
        }

        pub enum Declaration {
            Semantic {
                usage: DeclUsage,
                usage_index: u32,
                reg: Register,
                mask: WriteMask,
            },
            Sampler {
                reg: Register,
            },
        }

        pub struct DxsoProgram {
            pub shader_type: ShaderType,
            pub major: u8,
            pub declarations: Vec<Declaration>,
        }
    }

    include!(concat!(env!("OUT_DIR"), "/modules.rs"));
}
