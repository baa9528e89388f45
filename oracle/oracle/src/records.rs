//! 01's records: kinds, bodies as plain values, and the causes that refuse them. A state write is 02's (`states`).

use crate::{states::WRITE, words};

pub const STAGES: usize = 8;
pub const KEY: usize = STAGES * STAGE + 2;
/// A key of kind 6.
pub const WIDE_KEY: usize = STAGES * WIDE_STAGE + 2;
pub const VARIANT: usize = 19;
pub const ENTRY: usize = NAME + 1;
/// The three bodies behind one another.
pub const TRIPLE: usize = KEY + VARIANT + ENTRY;
/// The three bodies with a key of kind 6.
pub const WIDE_TRIPLE: usize = WIDE_KEY + VARIANT + ENTRY;

const STAGE: usize = 7;
const WIDE_STAGE: usize = 9;
/// What an argument 0 is before any write.
const DEFAULT_ARG0: u8 = 1;
const NAME: usize = 32;
const MASKS: usize = 7;

/// Bits of a stage's flags.
pub const TEXTURED: u8 = 1;
pub const TO_TEMP: u8 = 2;

/// Places of a variant's masks.
pub const DEPTH: usize = 0;
pub const DEPTH_FETCH: usize = 1;
pub const FETCH4: usize = 2;
pub const FETCH4_ALPHA: usize = 3;
pub const RAW_DEPTH_RED: usize = 4;
pub const VOLUME: usize = 5;
pub const CUBE: usize = 6;

/// Bits of a variant's flags.
pub const FLAT_SHADE: u8 = 1;
pub const SRGB_WRITE: u8 = 2;
pub const SAMPLE_MASK: u8 = 4;
pub const POINT_SPRITE: u8 = 8;
pub const LOD_BIAS: u8 = 16;
pub const FOG_SOURCE_W: u8 = 32;

/// A line of 01's table of refusals, or one that 02 adds, by its number.
#[derive(Clone, Copy, Debug, PartialEq, Eq)]
#[repr(u8)]
pub enum Refusal {
    Cut = 1,
    Kind,
    StageFlag,
    Specular,
    VariantFlag,
    Entry,
    NothingHeld,
    LongText,
    LongInput,
    StageNumber,
    StateType,
    StateValue,
    Word,
}

impl Refusal {
    /// In the order in which they are looked for, but for 9; the last two, 8 and 9, are about lengths.
    pub const ALL: [Self; 13] = [
        Self::Cut,
        Self::Kind,
        Self::StageFlag,
        Self::Specular,
        Self::VariantFlag,
        Self::Entry,
        Self::Word,
        Self::StageNumber,
        Self::StateType,
        Self::StateValue,
        Self::NothingHeld,
        Self::LongText,
        Self::LongInput,
    ];

    /// All but 8 and 9: those that short inputs meet in the program.
    #[must_use]
    pub fn of_records() -> &'static [Self] {
        &Self::ALL[..Self::ALL.len() - 2]
    }

    /// All but 9, which only the program answers.
    #[must_use]
    pub fn of_calls() -> &'static [Self] {
        &Self::ALL[..Self::ALL.len() - 1]
    }

    #[must_use]
    pub const fn number(self) -> u8 {
        self as u8
    }
}

#[derive(Clone, Copy, Debug, PartialEq, Eq)]
#[repr(u8)]
pub enum Kind {
    Key = 1,
    Variant,
    Entry,
    Emit,
    State,
    WideKey,
}

impl Kind {
    #[must_use]
    pub const fn of(byte: u8) -> Option<Self> {
        match byte {
            1 => Some(Self::Key),
            2 => Some(Self::Variant),
            3 => Some(Self::Entry),
            4 => Some(Self::Emit),
            5 => Some(Self::State),
            6 => Some(Self::WideKey),
            _ => None,
        }
    }

    /// Bytes of the body.
    #[must_use]
    pub const fn size(self) -> usize {
        match self {
            Self::Key => KEY,
            Self::Variant => VARIANT,
            Self::Entry => ENTRY,
            Self::Emit => 0,
            Self::State => WRITE,
            Self::WideKey => WIDE_KEY,
        }
    }
}

/// An operation and its arguments. Those of a key of kind 6, and no others, have an argument 0.
#[derive(Clone, Copy, Debug, Default, PartialEq, Eq)]
pub struct Combiner {
    pub op: u8,
    pub arg1: u8,
    pub arg2: u8,
    pub arg0: Option<u8>,
}

impl Combiner {
    #[must_use]
    pub const fn new(op: u8, arg1: u8, arg2: u8) -> Self {
        Self {
            op,
            arg1,
            arg2,
            arg0: None,
        }
    }

    /// Of a key of kind 6.
    #[must_use]
    pub const fn wide(op: u8, arg0: u8, arg1: u8, arg2: u8) -> Self {
        Self {
            op,
            arg1,
            arg2,
            arg0: Some(arg0),
        }
    }

    const fn widened(self) -> Self {
        let arg0 = match self.arg0 {
            Some(arg0) => arg0,
            None => DEFAULT_ARG0,
        };
        Self::wide(self.op, arg0, self.arg1, self.arg2)
    }

    const fn narrowed(self) -> Self {
        Self::new(self.op, self.arg1, self.arg2)
    }
}

#[derive(Clone, Copy, Debug, Default, PartialEq, Eq)]
pub struct Stage {
    pub color: Combiner,
    pub alpha: Combiner,
    pub flags: u8,
}

impl Stage {
    /// A stage with colour op 1 and all else 0.
    pub const DISABLED: Self = Self {
        color: Combiner::new(1, 0, 0),
        alpha: Combiner::new(0, 0, 0),
        flags: 0,
    };

    #[must_use]
    pub const fn textured(self) -> bool {
        self.flags & TEXTURED != 0
    }

    #[must_use]
    pub const fn to_temp(self) -> bool {
        self.flags & TO_TEMP != 0
    }

    const fn widened(self) -> Self {
        Self {
            color: self.color.widened(),
            alpha: self.alpha.widened(),
            flags: self.flags,
        }
    }

    const fn narrowed(self) -> Self {
        Self {
            color: self.color.narrowed(),
            alpha: self.alpha.narrowed(),
            flags: self.flags,
        }
    }

    /// Of seven bytes, or of nine with argument 0 of colour and of alpha in front of the flags.
    fn from_bytes(bytes: &[u8]) -> Self {
        match *bytes {
            [c, c1, c2, a, a1, a2, flags] => Self {
                color: Combiner::new(c, c1, c2),
                alpha: Combiner::new(a, a1, a2),
                flags,
            },
            [c, c1, c2, a, a1, a2, c0, a0, flags] => Self {
                color: Combiner::wide(c, c0, c1, c2),
                alpha: Combiner::wide(a, a0, a1, a2),
                flags,
            },
            _ => panic!("a stage has seven bytes or nine"),
        }
    }

    fn bytes(self) -> Vec<u8> {
        let Self {
            color: c,
            alpha: a,
            flags,
        } = self;
        let mut out = vec![c.op, c.arg1, c.arg2, a.op, a.arg1, a.arg2];
        out.extend(c.arg0);
        out.extend(a.arg0);
        out.push(flags);
        out
    }
}

#[derive(Clone, Copy, Debug, PartialEq, Eq)]
pub struct Key {
    pub stages: [Stage; STAGES],
    pub specular: u8,
    pub projected: u8,
}

impl Key {
    /// A key with the given stages in front, and colour op 1 in every other.
    ///
    /// # Panics
    /// With more than eight stages.
    #[must_use]
    pub fn of(front: &[Stage]) -> Self {
        let mut stages = [Stage::DISABLED; STAGES];
        stages[..front.len()].copy_from_slice(front);
        Self {
            stages,
            specular: 0,
            projected: 0,
        }
    }

    /// Whether it is of kind 6.
    #[must_use]
    pub const fn is_wide(&self) -> bool {
        self.stages[0].color.arg0.is_some()
    }

    #[must_use]
    pub const fn kind(&self) -> Kind {
        if self.is_wide() {
            Kind::WideKey
        } else {
            Kind::Key
        }
    }

    /// The key of kind 6 that a write of an argument 0 makes of it: 1 where there is none.
    #[must_use]
    pub fn widened(&self) -> Self {
        let stages = self.stages.map(Stage::widened);
        Self { stages, ..*self }
    }

    /// The key of kind 1 that is left without the arguments 0.
    #[must_use]
    pub fn narrowed(&self) -> Self {
        let stages = self.stages.map(Stage::narrowed);
        Self { stages, ..*self }
    }

    /// # Panics
    /// Unless `body` has the size of a key of either kind.
    #[must_use]
    pub fn from_body(body: &[u8]) -> Self {
        assert!(matches!(body.len(), KEY | WIDE_KEY));
        let (stages, rest) = body.split_at(body.len() - 2);
        let size = stages.len() / STAGES;
        Self {
            stages: std::array::from_fn(|i| Stage::from_bytes(&stages[i * size..][..size])),
            specular: rest[0],
            projected: rest[1],
        }
    }

    #[must_use]
    pub fn body(&self) -> Vec<u8> {
        let mut out: Vec<u8> = self.stages.iter().flat_map(|s| s.bytes()).collect();
        out.extend([self.specular, self.projected]);
        out
    }

    #[must_use]
    pub fn cause(&self) -> Option<Refusal> {
        if self.stages.iter().any(|s| s.flags > TEXTURED | TO_TEMP) {
            Some(Refusal::StageFlag)
        } else if self.specular > 1 {
            Some(Refusal::Specular)
        } else {
            None
        }
    }
}

#[derive(Clone, Copy, Debug, Default, PartialEq, Eq)]
pub struct Variant {
    pub alpha_func: u8,
    pub fog_mode: u8,
    pub fog_table_mode: u8,
    pub masks: [u16; MASKS],
    pub sample_mask: u8,
    pub flags: u8,
}

impl Variant {
    /// # Panics
    /// Unless `body` has the size of a variant.
    #[must_use]
    pub fn from_body(body: &[u8]) -> Self {
        assert_eq!(body.len(), VARIANT);
        let mask = |n: usize| u16::from_le_bytes([body[3 + 2 * n], body[4 + 2 * n]]);
        Self {
            alpha_func: body[0],
            fog_mode: body[1],
            fog_table_mode: body[2],
            masks: std::array::from_fn(mask),
            sample_mask: body[17],
            flags: body[18],
        }
    }

    #[must_use]
    pub fn body(&self) -> Vec<u8> {
        let mut out = vec![self.alpha_func, self.fog_mode, self.fog_table_mode];
        out.extend(self.masks.iter().flat_map(|m| m.to_le_bytes()));
        out.extend([self.sample_mask, self.flags]);
        out
    }

    #[must_use]
    pub const fn cause(&self) -> Option<Refusal> {
        if self.flags & 0xc0 != 0 {
            Some(Refusal::VariantFlag)
        } else {
            None
        }
    }
}

#[derive(Clone, Copy, Debug, PartialEq, Eq)]
pub struct Entry {
    pub length: u8,
    pub bytes: [u8; NAME],
}

impl Entry {
    /// # Panics
    /// With more than 32 bytes.
    #[must_use]
    pub fn new(name: &[u8]) -> Self {
        let mut bytes = [0; NAME];
        bytes[..name.len()].copy_from_slice(name);
        let length = u8::try_from(name.len()).expect("at most 32");
        Self { length, bytes }
    }

    /// # Panics
    /// Unless `body` has the size of an entry.
    #[must_use]
    pub fn from_body(body: &[u8]) -> Self {
        assert_eq!(body.len(), ENTRY);
        Self {
            length: body[0],
            bytes: std::array::from_fn(|i| body[1 + i]),
        }
    }

    #[must_use]
    pub fn body(&self) -> Vec<u8> {
        let mut out = vec![self.length];
        out.extend(self.bytes);
        out
    }

    /// Whether it is free of cause 6.
    #[must_use]
    pub fn is_name(&self) -> bool {
        (1..=NAME).contains(&usize::from(self.length)) && {
            let (name, tail) = self.bytes.split_at(usize::from(self.length));
            let letter = |b: u8| b.is_ascii_alphabetic() || b == b'_';
            letter(name[0])
                && name.iter().all(|&b| letter(b) || b.is_ascii_digit())
                && tail.iter().all(|&b| b == 0)
        }
    }

    #[must_use]
    pub fn cause(&self) -> Option<Refusal> {
        if !self.is_name() {
            Some(Refusal::Entry)
        } else if words::is_reserved(self.name()) {
            Some(Refusal::Word)
        } else {
            None
        }
    }

    /// The name of an entry free of cause 6.
    ///
    /// # Panics
    /// If the entry has cause 6.
    #[must_use]
    pub fn name(&self) -> &str {
        std::str::from_utf8(&self.bytes[..usize::from(self.length)]).expect("ASCII")
    }
}

/// What one emission is made from.
#[derive(Clone, Copy, Debug, PartialEq, Eq)]
pub struct Triple {
    pub key: Key,
    pub variant: Variant,
    pub entry: Entry,
}

impl Triple {
    /// The key with a zero variant and entry `m`.
    #[must_use]
    pub fn plain(key: Key) -> Self {
        Self {
            key,
            variant: Variant::default(),
            entry: Entry::new(b"m"),
        }
    }

    /// # Panics
    /// Unless `bodies` has the size of the three bodies.
    #[must_use]
    pub fn from_bodies(bodies: &[u8]) -> Self {
        let (key, rest) = bodies.split_at(bodies.len() - VARIANT - ENTRY);
        let (variant, entry) = rest.split_at(VARIANT);
        Self {
            key: Key::from_body(key),
            variant: Variant::from_body(variant),
            entry: Entry::from_body(entry),
        }
    }

    #[must_use]
    pub fn bodies(&self) -> Vec<u8> {
        [self.key.body(), self.variant.body(), self.entry.body()].concat()
    }

    /// The three records.
    #[must_use]
    pub fn records(&self) -> Vec<u8> {
        let key = record(self.key.kind(), &self.key.body());
        let variant = record(Kind::Variant, &self.variant.body());
        let entry = record(Kind::Entry, &self.entry.body());
        [key, variant, entry].concat()
    }

    /// The first cause of 3, 4, 5, 6 and 13.
    #[must_use]
    pub fn cause(&self) -> Option<Refusal> {
        self.key
            .cause()
            .or_else(|| self.variant.cause())
            .or_else(|| self.entry.cause())
    }
}

/// One record.
///
/// # Panics
/// Unless `body` has the size of its kind.
#[must_use]
pub fn record(kind: Kind, body: &[u8]) -> Vec<u8> {
    assert_eq!(body.len(), kind.size());
    [&[kind as u8], body].concat()
}
