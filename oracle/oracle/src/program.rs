//! What 01 says that program `ffps` prints.

use std::io::Write;

use crate::{
    emission::{Outcome, emit},
    records::{Entry, Key, Kind, Refusal, Triple, Variant, record},
    states::{self, StateWrite},
};

pub const INPUT_CAP: usize = 32_768;
pub const TEXT_CAP: usize = 16_384;

/// A record at the front of some bytes, free of causes.
#[derive(Clone, Copy, Debug, PartialEq, Eq)]
pub enum Record {
    Key(Key),
    Variant(Variant),
    Entry(Entry),
    Emit,
    State(StateWrite),
}

impl Record {
    #[must_use]
    pub const fn kind(&self) -> Kind {
        match self {
            Self::Key(key) => key.kind(),
            Self::Variant(_) => Kind::Variant,
            Self::Entry(_) => Kind::Entry,
            Self::Emit => Kind::Emit,
            Self::State(_) => Kind::State,
        }
    }

    fn cause(&self) -> Option<Refusal> {
        match self {
            Self::Key(key) => key.cause(),
            Self::Variant(variant) => variant.cause(),
            Self::Entry(entry) => entry.cause(),
            Self::Emit => None,
            Self::State(write) => write.cause(),
        }
    }

    /// The record's bytes, from its value.
    #[must_use]
    pub fn bytes(&self) -> Vec<u8> {
        let body = match self {
            Self::Key(key) => key.body(),
            Self::Variant(variant) => variant.body(),
            Self::Entry(entry) => entry.body(),
            Self::Emit => Vec::new(),
            Self::State(write) => write.body(),
        };
        record(self.kind(), &body)
    }

    /// # Errors
    /// The first of the causes 1 to 6 and 10 to 13.
    pub fn read(bytes: &[u8]) -> Result<Self, Refusal> {
        let (&kind, rest) = bytes.split_first().ok_or(Refusal::Cut)?;
        let kind = Kind::of(kind).ok_or(Refusal::Kind)?;
        let body = rest.get(..kind.size()).ok_or(Refusal::Cut)?;
        let record = match kind {
            Kind::Key | Kind::WideKey => Self::Key(Key::from_body(body)),
            Kind::Variant => Self::Variant(Variant::from_body(body)),
            Kind::Entry => Self::Entry(Entry::from_body(body)),
            Kind::Emit => Self::Emit,
            Kind::State => Self::State(StateWrite::from_body(body)),
        };
        record.cause().map_or(Ok(record), Err)
    }
}

/// The held key, variant and entry.
#[derive(Clone, Copy, Default)]
pub struct Held {
    pub key: Option<Key>,
    pub variant: Option<Variant>,
    pub entry: Option<Entry>,
}

impl Held {
    /// Takes a record; an emit record has an outcome.
    ///
    /// # Errors
    /// 7 or 8, of an emit record.
    pub fn apply(&mut self, record: Record, text_cap: usize) -> Result<Option<Outcome>, Refusal> {
        if let Record::Emit = record {
            return self.emit(text_cap).map(Some);
        }
        self.hold(record);
        Ok(None)
    }

    /// Holds a record's value; an emit record has none. A state write alters the held key, or begins from the defaults.
    pub fn hold(&mut self, record: Record) {
        match record {
            Record::Key(key) => self.key = Some(key),
            Record::Variant(variant) => self.variant = Some(variant),
            Record::Entry(entry) => self.entry = Some(entry),
            Record::Emit => {}
            Record::State(write) => {
                self.key = Some(write.done(self.key.unwrap_or_else(states::defaults)));
            }
        }
    }

    /// What an emit record needs, if all is held.
    #[must_use]
    pub fn triple(&self) -> Option<Triple> {
        Some(Triple {
            key: self.key?,
            variant: self.variant?,
            entry: self.entry?,
        })
    }

    /// # Errors
    /// 7 or 8.
    pub fn emit(&self, text_cap: usize) -> Result<Outcome, Refusal> {
        let outcome = emit(&self.triple().ok_or(Refusal::NothingHeld)?);
        if outcome.text.len() > text_cap {
            return Err(Refusal::LongText);
        }
        Ok(outcome)
    }
}

/// The bytes that the program prints for `input`, with a text buffer of `text_cap` bytes.
#[must_use]
pub fn program(input: &[u8], text_cap: usize) -> Vec<u8> {
    let mut out = Vec::new();
    match run(input, text_cap, &mut out) {
        Ok(texts) => print(&mut out, format_args!("end {texts}\n")),
        Err((refusal, at)) => {
            print(
                &mut out,
                format_args!("refused {} at {at}\n", refusal.number()),
            );
        }
    }
    out
}

/// Prints the emissions; gives their number, or what was refused and where.
fn run(input: &[u8], text_cap: usize, out: &mut Vec<u8>) -> Result<usize, (Refusal, usize)> {
    if input.len() > INPUT_CAP {
        return Err((Refusal::LongInput, INPUT_CAP));
    }
    let mut held = Held::default();
    let (mut at, mut texts) = (0, 0);
    while at < input.len() {
        let refused = |refusal| (refusal, at);
        let record = Record::read(&input[at..]).map_err(refused)?;
        let size = 1 + record.kind().size();
        if let Some(outcome) = held.apply(record, text_cap).map_err(refused)? {
            print_outcome(out, &outcome);
            texts += 1;
        }
        at += size;
    }
    Ok(texts)
}

fn print_outcome(out: &mut Vec<u8>, o: &Outcome) {
    let Outcome {
        mask,
        rows,
        lookups,
        warnings,
        text,
    } = o;
    print(
        out,
        format_args!("emit {mask} {rows} {lookups} {warnings}\n{text}"),
    );
}

fn print(out: &mut Vec<u8>, text: std::fmt::Arguments) {
    out.write_fmt(text).expect("a vector takes all");
}
