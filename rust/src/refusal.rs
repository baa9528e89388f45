//! Why a call is refused.

use std::{error::Error, fmt};

/// Why a call is refused. Nothing was modified then.
#[derive(Clone, Copy, Debug, PartialEq, Eq, Hash)]
#[non_exhaustive]
pub enum Refusal {
    /// There is no byte to read, or the record ends before its length.
    CutShort,
    /// The first byte of the record is the number of no [`Kind`](crate::Kind).
    UnknownKind,
    /// The flags of a stage have a bit that is none of [`StageFlags`](crate::StageFlags).
    StageFlags,
    /// The specular byte of a key is neither 0 nor 1.
    SpecularAdd,
    /// The flags of a variant have a bit that is none of [`VariantFlags`](crate::VariantFlags).
    VariantFlags,
    /// The entry is no name of 1 to 32 letters, digits and underscores that begins with no digit, or nonzero bytes follow the name.
    EntryName,
    /// An emit record came before a key, a variant and an entry were held.
    EmitTooEarly,
    /// The text, or the record to write, is longer than the buffer.
    NoRoom,
    /// The input of the program `ffps` has more than 32,768 bytes. No call of this crate is refused for it.
    InputTooLong,
    /// The entry is a reserved word, one that the texts or Metal use.
    ReservedWord,
    /// The stage of a state write is above 7.
    StageNumber,
    /// The type of a state write is the number of no [`State`](crate::State).
    StateType,
    /// The type of a state write does not take its value.
    StateValue,
    /// A number that this version of the crate has no name for. The archive of the same version returns none.
    Other(u64),
}

impl Refusal {
    /// The refusal of a number, as the C interface returns it; none for 0.
    #[must_use]
    pub const fn from_number(number: u64) -> Option<Self> {
        Some(match number {
            0 => return None,
            1 => Self::CutShort,
            2 => Self::UnknownKind,
            3 => Self::StageFlags,
            4 => Self::SpecularAdd,
            5 => Self::VariantFlags,
            6 => Self::EntryName,
            7 => Self::EmitTooEarly,
            8 => Self::NoRoom,
            9 => Self::InputTooLong,
            10 => Self::StageNumber,
            11 => Self::StateType,
            12 => Self::StateValue,
            13 => Self::ReservedWord,
            _ => Self::Other(number),
        })
    }

    #[must_use]
    pub const fn number(self) -> u64 {
        match self {
            Self::CutShort => 1,
            Self::UnknownKind => 2,
            Self::StageFlags => 3,
            Self::SpecularAdd => 4,
            Self::VariantFlags => 5,
            Self::EntryName => 6,
            Self::EmitTooEarly => 7,
            Self::NoRoom => 8,
            Self::InputTooLong => 9,
            Self::StageNumber => 10,
            Self::StateType => 11,
            Self::StateValue => 12,
            Self::ReservedWord => 13,
            Self::Other(number) => number,
        }
    }

    /// What a call returned, 0 if it was accepted.
    pub(crate) fn check(number: u64) -> Result<(), Self> {
        Self::from_number(number).map_or(Ok(()), Err)
    }
}

impl fmt::Display for Refusal {
    fn fmt(&self, f: &mut fmt::Formatter) -> fmt::Result {
        let cause = match self {
            Self::CutShort => "the record is cut short",
            Self::UnknownKind => "the record is of no known kind",
            Self::StageFlags => "a stage has an unknown flag",
            Self::SpecularAdd => "the specular byte of the key is neither 0 nor 1",
            Self::VariantFlags => "the variant has an unknown flag",
            Self::EntryName => "the entry is no valid name",
            Self::EmitTooEarly => "emit came before a key, a variant and an entry",
            Self::NoRoom => "the buffer is too short",
            Self::InputTooLong => "the input is too long",
            Self::StageNumber => "a state write has a stage above 7",
            Self::StateType => "a state write has an unknown type",
            Self::StateValue => "a state write has a value that its type does not take",
            Self::ReservedWord => "the entry is a reserved word",
            Self::Other(_) => "the cause has no name here",
        };
        write!(f, "refused with {}: {cause}", self.number())
    }
}

impl Error for Refusal {}
