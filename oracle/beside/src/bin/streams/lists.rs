//! Lists of state writes, beside a plain map from stage and type to the last value.
//!
//! The map is filled from the bytes of the key before the list, of either kind, or with Microsoft's defaults where none is held, and knows nothing of
//! the oracle's writes. After the list, and here and there within it, the held key is looked at byte by byte. Then its text is compared with the Rust's.

use std::collections::BTreeMap;

use beside::length;
use oraclelib::{
    generate::{self, Rng},
    program::Record,
    records::{Kind, Refusal, STAGES, record},
    states::{StateWrite, TYPES},
};
use yuzuknoll::{
    TEXT_LENGTH,
    raw::{Applied, HELD_LENGTH},
};

use crate::{Run, Step, held_of, place};

const BOUND: u8 = 0;
const COLOUR_ARG0: u8 = 26;
const ALPHA_ARG0: u8 = 27;
const RESULT: u8 = 28;

/// The kind of the key in some held bytes.
fn kind_of(held: &[u8; HELD_LENGTH]) -> Option<Kind> {
    Kind::of(held[0]).filter(|kind| matches!(kind, Kind::Key | Kind::WideKey))
}

/// The stages of the key in some held bytes, seven or nine bytes each, and specular and projected.
fn parts_of(held: &[u8; HELD_LENGTH]) -> (std::slice::ChunksExact<'_, u8>, &[u8]) {
    let body = &held[1..length(kind_of(held).expect("a key"))];
    let (stages, rest) = body.split_at(body.len() - 2);
    (stages.chunks_exact(stages.len() / STAGES), rest)
}

/// What is held for each stage and type.
pub type States = BTreeMap<(u8, u8), u32>;

/// What the key in some held bytes has for each stage and type.
pub fn states_of(held: &[u8; HELD_LENGTH]) -> States {
    let mut states = States::new();
    for (number, stage) in parts_of(held).0.enumerate() {
        let (six, arguments0, flags) = match stage {
            [six @ .., colour, alpha, flags] if stage.len() == 9 => (six, [*colour, *alpha], flags),
            [six @ .., flags] => (six, [1, 1], flags),
            [] => unreachable!("a stage has bytes"),
        };
        for state in TYPES {
            let value = match state {
                BOUND => flags & 1,
                RESULT if flags & 2 != 0 => 5,
                RESULT => 1,
                COLOUR_ARG0 => arguments0[0],
                ALPHA_ARG0 => arguments0[1],
                byte => six[usize::from(byte) - 1],
            };
            states.insert((number as u8, state), value.into());
        }
    }
    states
}

/// 02: "ops 4 and 2 at stage 0, 1 elsewhere; arguments 2 and 1; result 1; no texture", and 1 for arguments 0
pub fn defaults() -> States {
    let mut states = States::new();
    for stage in 0..STAGES as u8 {
        let values = [
            (1, 1),
            (2, 2),
            (3, 1),
            (4, 1),
            (5, 2),
            (6, 1),
            (COLOUR_ARG0, 1),
            (ALPHA_ARG0, 1),
            (RESULT, 1),
            (BOUND, 0),
        ];
        states.extend(values.map(|(state, value)| ((stage, state), value)));
    }
    states.extend([((0, 1), 4), ((0, 4), 2)]);
    states
}

/// Mostly short, seldom thousands.
fn list_length(rng: &mut Rng) -> usize {
    match rng.below(100) {
        0..50 => 1 + rng.below(10),
        50..90 => 1 + rng.below(200),
        90..98 => 1_000 + rng.below(1_000),
        _ => 5_000 + rng.below(5_000),
    }
}

/// A write; in some lists all are of a few stages, so that most are written again, and in some none is of an argument 0.
fn write(rng: &mut Rng, stages: usize, arguments0: bool) -> StateWrite {
    if rng.one_in(50) {
        let refusal = rng.pick(&[
            Refusal::StageNumber,
            Refusal::StateType,
            Refusal::StateValue,
        ]);
        return generate::bad_write(rng, refusal);
    }
    loop {
        let mut write = generate::write(rng);
        write.stage %= stages as u8;
        if arguments0 || !is_argument0(&write) {
            return write;
        }
    }
}

fn is_argument0(write: &StateWrite) -> bool {
    matches!(write.state, COLOUR_ARG0 | ALPHA_ARG0)
}

/// What must be held after some of a list's writes.
struct Expected {
    before: [u8; HELD_LENGTH],
    /// The kind of the key; none where there was none and no write was accepted.
    kind: Option<Kind>,
    states: States,
}

impl Run<'_> {
    pub fn lists(&mut self, count: u64) {
        for _ in 0..count {
            self.list();
        }
    }

    fn list(&mut self) {
        let mut held = [0; HELD_LENGTH];
        held[..place(Kind::Variant)].fill(self.rng.pick(&[0, 0xff]));
        if let Some(kind) = self.rng.pick(&[None, Some(Kind::Key), Some(Kind::WideKey)]) {
            let key = generate::good_record(&mut self.rng, kind);
            held[..key.len()].copy_from_slice(&key);
        }
        for kind in [Kind::Variant, Kind::Entry] {
            let part = generate::good_record(&mut self.rng, kind);
            held[place(kind)..][..part.len()].copy_from_slice(&part);
        }
        let kind = kind_of(&held);
        let mut expected = Expected {
            before: held,
            kind,
            states: kind.map_or_else(defaults, |_| states_of(&held)),
        };
        let arguments0 = self.rng.one_in(2);
        let stages = self.rng.pick(&[1, 2, STAGES, STAGES]);
        self.lists += 1;
        for _ in 0..list_length(&mut self.rng) {
            let write = write(&mut self.rng, stages, arguments0);
            self.writes += 1;
            if self.take(&mut held, &write) {
                let state = (write.stage, write.state);
                expected.states.insert(state, write.value);
                expected.kind = match expected.kind {
                    _ if is_argument0(&write) => Some(Kind::WideKey),
                    None => Some(Kind::Key),
                    same => same,
                };
            }
            if self.rng.one_in(100) {
                self.look(&held, &expected);
            }
        }
        self.look(&held, &expected);
        let step = Step::of(&held_of(&held), Record::read(&[Kind::Emit as u8]));
        self.apply(&mut held, &[Kind::Emit as u8], TEXT_LENGTH, &step);
    }

    /// Applies a write, and tells whether it must be accepted.
    fn take(&mut self, held: &mut [u8; HELD_LENGTH], write: &StateWrite) -> bool {
        let bytes = record(Kind::State, &write.body());
        let unchanged = *held;
        let number = self
            .functions
            .apply(held, &bytes, &mut [], &mut Applied::default());
        let expected = write.cause().map_or(0, Refusal::number);
        self.check(number == expected.into() && (number == 0 || *held == unchanged), || {
            format!("{write:?} to {unchanged:02x?}: expected {expected}, got {number}, held {held:02x?}")
        });
        expected == 0
    }

    /// Compares what is held with the map; what no type reaches, and what is behind a key that was of kind 1 throughout, is as before.
    fn look(&mut self, held: &[u8; HELD_LENGTH], expected: &Expected) {
        let Expected {
            before,
            kind,
            states,
        } = expected;
        let rest = kind_of(before).map_or([0; 2].as_slice(), |_| parts_of(before).1);
        let good = kind_of(held) == *kind
            && kind.is_none_or(|_| states_of(held) == *states && parts_of(held).1 == rest);
        let untouched = kind.map_or(0, length);
        self.check(good && held[untouched..] == before[untouched..], || {
            format!("after a list of writes to {before:02x?}: {held:02x?} for {kind:?} {states:?}")
        });
    }
}
