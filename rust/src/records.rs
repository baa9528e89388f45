//! Keys, variants, entries and state writes as bytes that can be stored and sent.

use crate::{Entry, Key, Refusal, StateWrite, Variant, WideKey, raw};

/// The kind of a record.
#[derive(Clone, Copy, Debug, PartialEq, Eq, Hash)]
pub enum Kind {
    Key,
    Variant,
    Entry,
    Emit,
    State,
    WideKey,
}

impl Kind {
    /// The kind of a record by its first byte.
    #[must_use]
    pub const fn from_number(number: u8) -> Option<Self> {
        match number {
            1 => Some(Self::Key),
            2 => Some(Self::Variant),
            3 => Some(Self::Entry),
            4 => Some(Self::Emit),
            5 => Some(Self::State),
            6 => Some(Self::WideKey),
            _ => None,
        }
    }

    /// The record's first byte.
    #[must_use]
    pub const fn number(self) -> u8 {
        match self {
            Self::Key => 1,
            Self::Variant => 2,
            Self::Entry => 3,
            Self::Emit => 4,
            Self::State => 5,
            Self::WideKey => 6,
        }
    }

    /// The number of bytes of a record, its first one included.
    #[must_use]
    pub const fn record_length(self) -> usize {
        match self {
            Self::Key => 1 + raw::KEY_LENGTH,
            Self::Variant => 1 + raw::VARIANT_LENGTH,
            Self::Entry => 1 + raw::ENTRY_LENGTH,
            Self::Emit => 1,
            Self::State => 1 + raw::STATE_LENGTH,
            Self::WideKey => 1 + raw::WIDE_KEY_LENGTH,
        }
    }
}

/// A key of either kind, a variant or an entry to be held, the wish for the text of what is held, or a write to the key that is held.
#[derive(Clone, Copy, Debug, PartialEq, Eq, Hash)]
pub enum Record {
    Key(Key),
    Variant(Variant),
    Entry(Entry),
    Emit,
    State(StateWrite),
    WideKey(WideKey),
}

impl Record {
    #[must_use]
    pub const fn kind(&self) -> Kind {
        match self {
            Self::Key(_) => Kind::Key,
            Self::Variant(_) => Kind::Variant,
            Self::Entry(_) => Kind::Entry,
            Self::Emit => Kind::Emit,
            Self::State(_) => Kind::State,
            Self::WideKey(_) => Kind::WideKey,
        }
    }

    /// Reads the record at the front of `bytes`, and moves `bytes` on to what follows it.
    ///
    /// # Errors
    /// [`Refusal::CutShort`], [`Refusal::UnknownKind`], or the first cause of the record's kind; `bytes` then still begins with the refused record.
    pub fn read(bytes: &mut &[u8]) -> Result<Self, Refusal> {
        Refusal::check(raw::read(bytes, &mut raw::Record::default()))?;
        let (record, rest) = Self::of_accepted(bytes)?;
        *bytes = rest;
        Ok(record)
    }

    /// The record at the front of bytes that the archive accepts, and what follows it.
    fn of_accepted(bytes: &[u8]) -> Result<(Self, &[u8]), Refusal> {
        let cut_short = Refusal::CutShort;
        let (&kind, body) = bytes.split_first().ok_or(cut_short)?;
        let kind = Kind::from_number(kind).ok_or(Refusal::UnknownKind)?;
        Ok(match kind {
            Kind::Key => {
                let (key, rest) = body.split_first_chunk().ok_or(cut_short)?;
                (Key::of_accepted(key).into(), rest)
            }
            Kind::Variant => {
                let (variant, rest) = body.split_first_chunk().ok_or(cut_short)?;
                (Variant::of_accepted(variant).into(), rest)
            }
            Kind::Entry => {
                let (entry, rest) = body.split_first_chunk().ok_or(cut_short)?;
                (Entry::of_accepted(entry).into(), rest)
            }
            Kind::Emit => (Self::Emit, body),
            Kind::State => {
                let (write, rest) = body.split_first_chunk().ok_or(cut_short)?;
                let write = StateWrite::of_accepted(write).ok_or(Refusal::StateType)?;
                (write.into(), rest)
            }
            Kind::WideKey => {
                let (key, rest) = body.split_first_chunk().ok_or(cut_short)?;
                (WideKey::of_accepted(key).into(), rest)
            }
        })
    }

    /// Writes the record to the front of `out`, and gives the number of its bytes. Does not modify the bytes after it.
    ///
    /// # Errors
    /// [`Refusal::NoRoom`] if the record is longer than `out`.
    pub fn write(&self, out: &mut [u8]) -> Result<usize, Refusal> {
        let mut written = raw::Record::default();
        Refusal::check(raw::write(&self.to_vec(), out, &mut written))?;
        Ok(written.taken as usize)
    }

    /// The record's bytes.
    #[must_use]
    pub fn to_vec(&self) -> Vec<u8> {
        let write;
        let body: &[u8] = match self {
            Self::Key(key) => key.as_bytes(),
            Self::Variant(variant) => variant.as_bytes(),
            Self::Entry(entry) => entry.as_bytes(),
            Self::Emit => &[],
            Self::State(state) => {
                write = state.to_bytes();
                &write
            }
            Self::WideKey(key) => key.as_bytes(),
        };
        [&[self.kind().number()], body].concat()
    }
}

impl From<Key> for Record {
    fn from(key: Key) -> Self {
        Self::Key(key)
    }
}

impl From<Variant> for Record {
    fn from(variant: Variant) -> Self {
        Self::Variant(variant)
    }
}

impl From<Entry> for Record {
    fn from(entry: Entry) -> Self {
        Self::Entry(entry)
    }
}

impl From<StateWrite> for Record {
    fn from(write: StateWrite) -> Self {
        Self::State(write)
    }
}

impl From<WideKey> for Record {
    fn from(key: WideKey) -> Self {
        Self::WideKey(key)
    }
}
