//! Keys, variants, entries and record streams for comparisons.
//!
//! Whatever is random comes from an [`Rng`] that the caller seeds.

mod random;
mod rng;
mod streams;
mod systematic;
mod wide;

pub use random::{entry, everyday, key, name, triple, variant, write};
pub use rng::Rng;
pub use streams::{
    Stream, accepted, any, bad_entry, bad_write, damaged, full, good_record, refused, reserved,
};
pub use systematic::{SAMPLING, bump_chain, systematic};
pub use wide::{wide_key, wide_systematic, wide_triple};

/// The ops that have a text.
pub const TEXT_OPS: [u8; 20] = [
    2, 3, 4, 5, 6, 7, 8, 9, 10, 11, 12, 13, 14, 15, 16, 18, 19, 20, 21, 24,
];

/// The codes of fog modes that differ, and two beyond them.
pub const FOG_MODES: [u8; 6] = [0, 1, 2, 3, 4, 255];

/// An argument's upper bits: none, complement, alpha replicate, both, and the two unknown ones.
pub const MODIFIERS: [u8; 6] = [0, 0x10, 0x20, 0x30, 0x40, 0x80];
