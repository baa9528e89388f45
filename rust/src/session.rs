//! Records one after another, and what they set.

use crate::{Emission, Entry, HeldKey, Kind, Record, Refusal, Variant, raw};

/// The key, the variant and the entry that the records so far have set.
///
/// ```
/// use yuzuknoll::{Applied, Entry, Key, Record, Session, TEXT_LENGTH, Variant};
///
/// let (key, variant, entry) = (Key::default(), Variant::default(), Entry::new("m")?);
/// let records = [key.into(), variant.into(), entry.into(), Record::Emit].map(|r| r.to_vec()).concat();
///
/// let mut session = Session::new();
/// let mut buffer = [0; TEXT_LENGTH];
/// let mut rest = records.as_slice();
/// while !rest.is_empty() {
///     if let Applied::Text(emission) = session.apply(&mut rest, &mut buffer)? {
///         println!("{}", emission.as_str());
///     }
/// }
/// # Ok::<(), yuzuknoll::Refusal>(())
/// ```
///
/// A key may come as a list of state writes. Each sets one state of the held key, and leaves the rest of it. If no key is held, the first one begins from
/// [`Key::BEFORE_WRITES`](crate::Key::BEFORE_WRITES):
///
/// ```
/// use yuzuknoll::{Applied, HeldKey, Op, Record, Session, State, StateWrite};
///
/// let mut session = Session::new();
/// for state in [State::TextureBound(true), State::ColourOp(Op::ADD), State::ColourOp(Op::MODULATE2X)] {
///     let record = Record::State(StateWrite::new(0, state)?).to_vec();
///     assert_eq!(session.apply(&mut record.as_slice(), &mut [])?, Applied::Altered);
/// }
/// let key = session.key().and_then(HeldKey::narrow);
/// assert_eq!(key.map(|key| key.stages[0].colour.op), Some(Op::MODULATE2X));
/// # Ok::<(), yuzuknoll::Refusal>(())
/// ```
///
/// A write of [`State::ColourArg0`](crate::State::ColourArg0) or [`State::AlphaArg0`](crate::State::AlphaArg0) makes the held key a
/// [`WideKey`](crate::WideKey), with [`Argument::CURRENT`](crate::Argument::CURRENT) as every argument 0 that is not written. Only a key record turns it
/// back.
#[derive(Clone, Copy, Debug, PartialEq, Eq, Hash)]
pub struct Session {
    held: [u8; raw::HELD_LENGTH],
}

/// Where the records of the variant and of the entry begin. The key's comes first, in a part with room for either kind.
const VARIANT_AT: usize = Kind::WideKey.record_length();
const ENTRY_AT: usize = VARIANT_AT + Kind::Variant.record_length();

/// What a record did.
#[derive(Clone, Copy, Debug, PartialEq, Eq)]
pub enum Applied<'a> {
    /// The record replaced the key, the variant or the entry that was held.
    Replaced,
    /// The record asked for a text.
    Text(Emission<'a>),
    /// The record, a state write, altered the key that was held, or began one.
    Altered,
}

impl Session {
    /// Nothing is held.
    #[must_use]
    pub const fn new() -> Self {
        Self::from_bytes([0; raw::HELD_LENGTH])
    }

    /// What [`as_bytes`](Self::as_bytes) gave. A part that is no good record of its kind counts as not held.
    #[must_use]
    pub const fn from_bytes(held: [u8; raw::HELD_LENGTH]) -> Self {
        Self { held }
    }

    /// The records of the key, the variant and the entry, each at the front of its part. Zeros are for what was never held.
    #[must_use]
    pub const fn as_bytes(&self) -> &[u8; raw::HELD_LENGTH] {
        &self.held
    }

    #[must_use]
    pub fn key(&self) -> Option<HeldKey> {
        match self.record_at(0)? {
            Record::Key(key) => Some(key.into()),
            Record::WideKey(key) => Some(key.into()),
            _ => None,
        }
    }

    #[must_use]
    pub fn variant(&self) -> Option<Variant> {
        match self.record_at(VARIANT_AT)? {
            Record::Variant(variant) => Some(variant),
            _ => None,
        }
    }

    #[must_use]
    pub fn entry(&self) -> Option<Entry> {
        match self.record_at(ENTRY_AT)? {
            Record::Entry(entry) => Some(entry),
            _ => None,
        }
    }

    fn record_at(&self, place: usize) -> Option<Record> {
        Record::read(&mut self.held.get(place..)?).ok()
    }

    /// Takes the record at the front of `records`, and moves `records` on to what follows it. An emit record writes the text of what is held to the
    /// front of `text`. Does not modify the bytes after the text.
    ///
    /// # Errors
    /// As [`Record::read`]; for an emit record also [`Refusal::EmitTooEarly`] if a key, a variant or an entry is missing, or [`Refusal::NoRoom`] if
    /// the text is longer than the buffer. `records` then still begins with the refused record, and the session is as it was.
    pub fn apply<'a>(
        &mut self,
        records: &mut &[u8],
        text: &'a mut [u8],
    ) -> Result<Applied<'a>, Refusal> {
        let mut applied = raw::Applied::default();
        Refusal::check(raw::apply(&mut self.held, records, text, &mut applied))?;
        *records = records.get(applied.taken as usize..).unwrap_or_default();
        Ok(match Kind::from_number(applied.kind as u8) {
            Some(Kind::Emit) => Applied::Text(Emission::of(&applied.result, text)),
            Some(Kind::State) => Applied::Altered,
            _ => Applied::Replaced,
        })
    }
}

impl Default for Session {
    fn default() -> Self {
        Self::new()
    }
}
