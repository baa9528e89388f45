//! 02's state writes: which are refused, what one does to a key, and the key before any write.

use crate::records::{Combiner, Key, Refusal, STAGES, Stage, TEXTURED, TO_TEMP};

/// Bytes of a write: stage, type, and the value in four.
pub const WRITE: usize = 6;

/// The types of stage states: Direct3D's, and our 0.
pub const TEXTURE_BOUND: u8 = 0;
pub const COLOR_OP: u8 = 1;
pub const COLOR_ARG1: u8 = 2;
pub const COLOR_ARG2: u8 = 3;
pub const ALPHA_OP: u8 = 4;
pub const ALPHA_ARG1: u8 = 5;
pub const ALPHA_ARG2: u8 = 6;
pub const COLOR_ARG0: u8 = 26;
pub const ALPHA_ARG0: u8 = 27;
pub const RESULT_ARG: u8 = 28;
pub const TYPES: [u8; 10] = [
    TEXTURE_BOUND,
    COLOR_OP,
    COLOR_ARG1,
    COLOR_ARG2,
    ALPHA_OP,
    ALPHA_ARG1,
    ALPHA_ARG2,
    COLOR_ARG0,
    ALPHA_ARG0,
    RESULT_ARG,
];

/// The values of a result.
pub const CURRENT: u32 = 1;
pub const TEMP: u32 = 5;

#[derive(Clone, Copy, Debug, PartialEq, Eq)]
pub struct StateWrite {
    pub stage: u8,
    pub state: u8,
    pub value: u32,
}

impl StateWrite {
    /// # Panics
    /// Unless `body` has the size of a write.
    #[must_use]
    pub fn from_body(body: &[u8]) -> Self {
        let &[stage, state, v0, v1, v2, v3] = body else {
            panic!("a write has {WRITE} bytes");
        };
        Self {
            stage,
            state,
            value: u32::from_le_bytes([v0, v1, v2, v3]),
        }
    }

    #[must_use]
    pub fn body(&self) -> Vec<u8> {
        let mut out = vec![self.stage, self.state];
        out.extend(self.value.to_le_bytes());
        out
    }

    #[must_use]
    pub fn cause(&self) -> Option<Refusal> {
        if usize::from(self.stage) >= STAGES {
            Some(Refusal::StageNumber)
        } else if !TYPES.contains(&self.state) {
            Some(Refusal::StateType)
        } else if !takes(self.state, self.value) {
            Some(Refusal::StateValue)
        } else {
            None
        }
    }

    /// Whether it makes a key one of kind 6.
    #[must_use]
    pub const fn widens(&self) -> bool {
        matches!(self.state, COLOR_ARG0 | ALPHA_ARG0)
    }

    /// A key with this write done, which is free of causes.
    ///
    /// # Panics
    /// If the write has a cause.
    #[must_use]
    pub fn done(&self, mut key: Key) -> Key {
        assert_eq!(self.cause(), None);
        if self.widens() {
            key = key.widened();
        }
        let stage = &mut key.stages[usize::from(self.stage)];
        let byte = self.value as u8;
        match self.state {
            COLOR_OP => stage.color.op = byte,
            COLOR_ARG1 => stage.color.arg1 = byte,
            COLOR_ARG2 => stage.color.arg2 = byte,
            ALPHA_OP => stage.alpha.op = byte,
            ALPHA_ARG1 => stage.alpha.arg1 = byte,
            ALPHA_ARG2 => stage.alpha.arg2 = byte,
            COLOR_ARG0 => stage.color.arg0 = Some(byte),
            ALPHA_ARG0 => stage.alpha.arg0 = Some(byte),
            RESULT_ARG => set(&mut stage.flags, TO_TEMP, self.value == TEMP),
            _ => set(&mut stage.flags, TEXTURED, self.value == 1),
        }
        key
    }
}

fn set(flags: &mut u8, bit: u8, to: bool) {
    *flags = *flags & !bit | if to { bit } else { 0 };
}

fn takes(state: u8, value: u32) -> bool {
    match state {
        RESULT_ARG => value == CURRENT || value == TEMP,
        TEXTURE_BOUND => value < 2,
        _ => value < 256,
    }
}

/// Microsoft's defaults.
#[must_use]
pub fn defaults() -> Key {
    let stage = |color, alpha| Stage {
        color: Combiner::new(color, 2, 1),
        alpha: Combiner::new(alpha, 2, 1),
        flags: 0,
    };
    let mut stages = [stage(1, 1); STAGES];
    stages[0] = stage(4, 2);
    Key {
        stages,
        specular: 0,
        projected: 0,
    }
}
