//! Writes of texture stage states, as a program that draws with Direct3D 9 issues them in place of keys.

use crate::{Argument, Kind, Op, Refusal, raw};

/// Where the result of a stage goes.
#[derive(Clone, Copy, Debug, PartialEq, Eq, Hash)]
pub enum Register {
    /// To the next stage.
    Current,
    /// To the register TEMP.
    Temp,
}

/// A state of a stage and its value. The numbers of the types are Direct3D's (`D3DTSS_..`) but for that of [`State::TextureBound`], which Direct3D has no
/// state for.
#[derive(Clone, Copy, Debug, PartialEq, Eq, Hash)]
pub enum State {
    /// Whether a texture is bound to the stage.
    TextureBound(bool),
    ColourOp(Op),
    ColourArg1(Argument),
    ColourArg2(Argument),
    AlphaOp(Op),
    AlphaArg1(Argument),
    AlphaArg2(Argument),
    /// The third operand of the colour op. This write and the next one make the key a [`WideKey`](crate::WideKey).
    ColourArg0(Argument),
    /// The third operand of the alpha op.
    AlphaArg0(Argument),
    ResultArg(Register),
}

impl State {
    /// The number of the state's type.
    #[must_use]
    pub const fn number(self) -> u8 {
        match self {
            Self::TextureBound(_) => 0,
            Self::ColourOp(_) => 1,
            Self::ColourArg1(_) => 2,
            Self::ColourArg2(_) => 3,
            Self::AlphaOp(_) => 4,
            Self::AlphaArg1(_) => 5,
            Self::AlphaArg2(_) => 6,
            Self::ColourArg0(_) => 26,
            Self::AlphaArg0(_) => 27,
            Self::ResultArg(_) => 28,
        }
    }

    /// The value as a number.
    #[must_use]
    pub fn value(self) -> u32 {
        match self {
            Self::TextureBound(bound) => bound.into(),
            Self::ColourOp(op) | Self::AlphaOp(op) => op.0.into(),
            Self::ColourArg1(argument)
            | Self::ColourArg2(argument)
            | Self::AlphaArg1(argument)
            | Self::AlphaArg2(argument)
            | Self::ColourArg0(argument)
            | Self::AlphaArg0(argument) => argument.0.into(),
            Self::ResultArg(Register::Current) => Argument::CURRENT.0.into(),
            Self::ResultArg(Register::Temp) => Argument::TEMP.0.into(),
        }
    }

    /// The state of numbers that the archive accepts.
    const fn of_accepted(number: u8, value: u8) -> Option<Self> {
        Some(match number {
            0 => Self::TextureBound(value == 1),
            1 => Self::ColourOp(Op(value)),
            2 => Self::ColourArg1(Argument(value)),
            3 => Self::ColourArg2(Argument(value)),
            4 => Self::AlphaOp(Op(value)),
            5 => Self::AlphaArg1(Argument(value)),
            6 => Self::AlphaArg2(Argument(value)),
            26 => Self::ColourArg0(Argument(value)),
            27 => Self::AlphaArg0(Argument(value)),
            28 if value == Argument::TEMP.0 => Self::ResultArg(Register::Temp),
            28 => Self::ResultArg(Register::Current),
            _ => return None,
        })
    }
}

/// A write of one state of one stage. The records of such writes make a key: see [`Session`](crate::Session).
#[derive(Clone, Copy, Debug, PartialEq, Eq, Hash)]
pub struct StateWrite {
    stage: u8,
    state: State,
}

impl StateWrite {
    /// # Errors
    /// [`Refusal::StageNumber`] if the stage is above 7.
    pub fn new(stage: u8, state: State) -> Result<Self, Refusal> {
        Self::from_numbers(stage, state.number(), state.value())
    }

    /// A write as Direct3D's `SetTextureStageState` takes it.
    ///
    /// # Errors
    /// [`Refusal::StageNumber`] if the stage is above 7, [`Refusal::StateType`] if the number is none of a [`State`], [`Refusal::StateValue`] if that
    /// state does not take the value; the first of these.
    pub fn from_numbers(stage: u8, state: u8, value: u32) -> Result<Self, Refusal> {
        let mut record = [0; Kind::State.record_length()];
        let [kind, body @ ..] = &mut record;
        *kind = Kind::State.number();
        *body = bytes_of(stage, state, value);
        // The archive decides which writes there are.
        Refusal::check(raw::read(&record, &mut raw::Record::default()))?;
        Self::of_accepted(&bytes_of(stage, state, value)).ok_or(Refusal::StateType)
    }

    #[must_use]
    pub const fn stage(self) -> u8 {
        self.stage
    }

    #[must_use]
    pub const fn state(self) -> State {
        self.state
    }

    /// The bytes of the record behind the kind: the stage, the type, and the value in four bytes, low byte first.
    #[must_use]
    pub fn to_bytes(self) -> [u8; raw::STATE_LENGTH] {
        bytes_of(self.stage, self.state.number(), self.state.value())
    }

    /// The write of bytes that the archive accepts. It accepts no value above 255.
    pub(crate) const fn of_accepted(bytes: &[u8; raw::STATE_LENGTH]) -> Option<Self> {
        let &[stage, number, value, ..] = bytes;
        match State::of_accepted(number, value) {
            Some(state) => Some(Self { stage, state }),
            None => None,
        }
    }
}

const fn bytes_of(stage: u8, state: u8, value: u32) -> [u8; raw::STATE_LENGTH] {
    let [v0, v1, v2, v3] = value.to_le_bytes();
    [stage, state, v0, v1, v2, v3]
}
