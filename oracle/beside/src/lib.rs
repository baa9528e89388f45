//! What the programs beside the archive share: values as the archive takes them, what its functions must answer where the Rust gives something, and
//! buffers that show what was written outside.

mod lent;

use std::fmt::Debug;

use oraclelib::{
    Outcome,
    program::Record,
    records::{ENTRY, KEY, Kind, Refusal, Triple, VARIANT, WIDE_KEY},
};
use yuzuknoll::raw::{self, Applied, Emitted};

pub use lent::Lent;

/// The key, the variant and the entry of a triple, as the archive takes them; the key is of the kind that has so many bytes.
#[derive(Clone, Copy, Debug, PartialEq, Eq)]
pub struct Bodies<const K: usize = KEY> {
    pub key: [u8; K],
    pub variant: [u8; VARIANT],
    pub entry: [u8; ENTRY],
}

impl<const K: usize> Bodies<K> {
    /// # Panics
    /// If the key is of the other kind.
    #[must_use]
    pub fn of(triple: &Triple) -> Self {
        let sized = "a body of its size";
        Self {
            key: triple.key.body().try_into().expect(sized),
            variant: triple.variant.body().try_into().expect(sized),
            entry: triple.entry.body().try_into().expect(sized),
        }
    }
}

/// Bodies that a function of the archive emits.
pub trait Emit: Copy + Debug + PartialEq {
    /// What the function returns.
    #[must_use]
    fn emit(&self, text: &mut [u8], result: &mut Emitted) -> u64;
}

impl Emit for Bodies<KEY> {
    fn emit(&self, text: &mut [u8], result: &mut Emitted) -> u64 {
        raw::emit(&self.key, &self.variant, &self.entry, text, result)
    }
}

impl Emit for Bodies<WIDE_KEY> {
    fn emit(&self, text: &mut [u8], result: &mut Emitted) -> u64 {
        raw::emit_wide(&self.key, &self.variant, &self.entry, text, result)
    }
}

/// What a call returned, and what its report holds afterwards.
#[derive(Clone, Copy, Debug, PartialEq, Eq)]
pub struct Answer<T> {
    pub number: u64,
    pub report: T,
}

impl<T: Copy> Answer<T> {
    /// What must come of a call whose report held something before it: a refusal leaves that.
    #[must_use]
    pub fn of(result: Result<T, Refusal>, before: T) -> Self {
        match result {
            Ok(report) => Self { number: 0, report },
            Err(refusal) => Self {
                number: refusal.number().into(),
                report: before,
            },
        }
    }
}

/// What a call reports into.
pub trait Report: Copy + Debug + PartialEq {
    /// Numbers that no call reports, by which a report that was left can be told.
    fn filled(from: u8) -> Self;
}

/// The n-th such number.
fn filling(from: u8, n: u64) -> u64 {
    0xf0f0_f0f0_0000_0000 | u64::from(from) << 8 | n
}

impl Report for Emitted {
    fn filled(from: u8) -> Self {
        Self {
            length: filling(from, 2),
            mask: filling(from, 3),
            rows: filling(from, 4),
            lookups: filling(from, 5),
            op_warnings: filling(from, 6),
            selector_warnings: filling(from, 7),
            modifier_warnings: filling(from, 8),
            alpha_warning: filling(from, 9),
        }
    }
}

impl Report for raw::Record {
    fn filled(from: u8) -> Self {
        Self {
            kind: filling(from, 0),
            taken: filling(from, 1),
        }
    }
}

impl Report for Applied {
    fn filled(from: u8) -> Self {
        Self {
            kind: filling(from, 0),
            taken: filling(from, 1),
            result: Emitted::filled(from),
        }
    }
}

/// What `yuzuknoll_emit` must report where the Rust gives this.
#[must_use]
pub fn emitted(o: &Outcome) -> Emitted {
    Emitted {
        length: o.text.len() as u64,
        mask: o.mask.into(),
        rows: o.rows.into(),
        lookups: o.lookups.into(),
        op_warnings: o.warnings.op.into(),
        selector_warnings: o.warnings.selector.into(),
        modifier_warnings: o.warnings.modifier.into(),
        alpha_warning: o.warnings.alpha.into(),
    }
}

/// What `yuzuknoll_read` and `yuzuknoll_write` must report of a record of a kind.
#[must_use]
pub fn taken(kind: Kind) -> raw::Record {
    raw::Record {
        kind: kind as u64,
        taken: length(kind) as u64,
    }
}

/// Bytes of a record of a kind.
#[must_use]
pub const fn length(kind: Kind) -> usize {
    1 + kind.size()
}

/// What `yuzuknoll_apply` must report where the Rust side takes a record of a kind, with an outcome if it emits.
#[must_use]
pub fn applied(kind: Kind, outcome: Option<&Outcome>) -> Applied {
    let raw::Record { kind, taken } = taken(kind);
    Applied {
        kind,
        taken,
        result: outcome.map_or_else(Emitted::default, emitted),
    }
}

/// What must be reported of a record that the Rust side read or refused.
///
/// # Errors
/// The refusal.
pub fn read_result(read: &Result<Record, Refusal>) -> Result<raw::Record, Refusal> {
    match read {
        Ok(record) => Ok(taken(record.kind())),
        Err(refusal) => Err(*refusal),
    }
}
