//! Metal fragment functions for the fixed-function pixel stages of Direct3D 9.
//!
//! A [`Key`] says what the pixel stages compute, a [`Variant`] has the render states beside it, and an [`Entry`] is the name of the function.
//! [`emit`] writes the function's text into a buffer of the caller:
//!
//! ```
//! use yuzuknoll::{Argument, Combiner, Entry, Key, Op, Stage, StageFlags, TEXT_LENGTH, Variant, emit};
//!
//! let key = Key::of([Stage {
//!     colour: Combiner::new(Op::MODULATE, Argument::TEXTURE, Argument::DIFFUSE),
//!     alpha: Combiner::select(Argument::TEXTURE),
//!     flags: StageFlags::TEXTURED,
//! }]);
//! let mut buffer = [0; TEXT_LENGTH];
//! let emission = emit(&key, &Variant::default(), &Entry::new("my_shader")?, &mut buffer)?;
//! assert!(emission.as_str().contains("fragment float4 my_shader("));
//! # Ok::<(), yuzuknoll::Refusal>(())
//! ```
//!
//! A [`WideKey`] has a third operand for the ops [`Op::MULTIPLYADD`] and [`Op::LERP`], and [`emit_wide`] writes its text.
//!
//! Keys, variants and entries can be stored as [`Record`]s. A [`Session`] takes a sequence of records and writes a text for each emit record. A program
//! that has a list of texture stage state writes in place of a key hands them to a session as [`StateWrite`]s.
//!
//! The functions are those of the archive that `tools/archive` makes (include/yuzuknoll.h). On a [`Refusal`] nothing is modified.

#![deny(
    clippy::expect_used,
    clippy::indexing_slicing,
    clippy::panic,
    clippy::unwrap_used,
    missing_debug_implementations,
    unsafe_code
)]

mod codes;
mod emission;
mod pass;
#[allow(unsafe_code)]
pub mod raw;
mod records;
mod refusal;
mod session;
mod states;
mod values;
mod warnings;
mod wide;

pub use codes::{Argument, Comparison, FogMode, Mask, Op, StageFlags, VariantFlags};
pub use emission::{Emission, emit, emit_wide};
pub use pass::EntryPass;
pub use records::{Kind, Record};
pub use refusal::Refusal;
pub use session::{Applied, Session};
pub use states::{Register, State, StateWrite};
pub use values::{Combiner, Entry, Key, STAGES, Stage, Variant};
pub use warnings::{StageMask, Warning, Warnings};
pub use wide::{HeldKey, WideKey, WideStage};

/// No text has more bytes than this, so a buffer of this length takes every text.
pub const TEXT_LENGTH: usize = 16_384;

/// The length of the longest text of a [`Key`], with an entry of 32 bytes. With an entry of n bytes the longest text is 32 - n bytes shorter.
pub const KEY_TEXT_LENGTH: usize = 6_516;

/// The length of the longest text of a [`WideKey`], with an entry of 32 bytes. With an entry of n bytes the longest text is 32 - n bytes shorter.
pub const WIDE_KEY_TEXT_LENGTH: usize = 6_657;

/// The version of this crate and of the archive.
pub const VERSION: &str = env!("CARGO_PKG_VERSION");
