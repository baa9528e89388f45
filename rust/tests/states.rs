//! Lists of state writes: what a session holds after them, beside a plain map, and where they begin.

use std::collections::BTreeMap;

use yuzuknoll::{
    Applied, Argument, Combiner, Entry, HeldKey, Key, Kind, Op, Record, Refusal, Register, STAGES,
    Session, Stage, StageFlags, State, StateWrite, TEXT_LENGTH, Variant, raw,
};

/// Those that leave a key what it is.
const TYPES: [u8; 8] = [0, 1, 2, 3, 4, 5, 6, 28];

fn write(stage: u8, state: State) -> StateWrite {
    StateWrite::new(stage, state).unwrap()
}

fn apply(session: &mut Session, record: impl Into<Record>) -> Applied<'static> {
    let bytes = record.into().to_vec();
    session.apply(&mut bytes.as_slice(), &mut []).unwrap()
}

/// The held key, which is no wide one.
fn narrow(session: &Session) -> Key {
    session.key().and_then(HeldKey::narrow).unwrap()
}

/// The states of a stage of a key, in the order of `TYPES`.
fn states(stage: &Stage) -> [State; TYPES.len()] {
    let Stage {
        colour,
        alpha,
        flags,
    } = *stage;
    let has = |flag: StageFlags| flags.bits() & flag.bits() != 0;
    let result = if has(StageFlags::TO_TEMP) {
        Register::Temp
    } else {
        Register::Current
    };
    [
        State::TextureBound(has(StageFlags::TEXTURED)),
        State::ColourOp(colour.op),
        State::ColourArg1(colour.arg1),
        State::ColourArg2(colour.arg2),
        State::AlphaOp(alpha.op),
        State::AlphaArg1(alpha.arg1),
        State::AlphaArg2(alpha.arg2),
        State::ResultArg(result),
    ]
}

/// What a key holds for each stage and type.
fn map_of(key: &Key) -> BTreeMap<(u8, u8), State> {
    let mut map = BTreeMap::new();
    for (stage, number) in key.stages.iter().zip(0..) {
        map.extend(states(stage).map(|state| ((number, state.number()), state)));
    }
    map
}

#[test]
fn numbers_make_writes_and_writes_numbers() {
    for stage in 0..STAGES as u8 {
        for number in TYPES {
            for value in 0..=255 {
                let made = StateWrite::from_numbers(stage, number, value);
                let named = match number {
                    0 => value < 2,
                    28 => value == 1 || value == 5,
                    _ => true,
                };
                assert_eq!(made.err(), (!named).then_some(Refusal::StateValue));
                if let Ok(write) = made {
                    let state = write.state();
                    assert_eq!((state.number(), state.value()), (number, value));
                    assert_eq!(StateWrite::new(stage, state), Ok(write));
                    assert_eq!(write.stage(), stage);
                    assert_eq!(write.to_bytes(), [stage, number, value as u8, 0, 0, 0]);
                }
            }
            for value in [256, 257, 261, 0x100_0001, 1 << 31, u32::MAX] {
                let made = StateWrite::from_numbers(stage, number, value);
                assert_eq!(made, Err(Refusal::StateValue));
            }
        }
    }
    assert_eq!(
        StateWrite::from_numbers(8, 7, 256),
        Err(Refusal::StageNumber)
    );
    assert_eq!(StateWrite::from_numbers(7, 7, 256), Err(Refusal::StateType));
    for number in [7, 24, 25, 29, 32, 255] {
        let made = StateWrite::from_numbers(0, number, 1);
        assert_eq!(made, Err(Refusal::StateType), "{number}");
    }
    assert_eq!(
        StateWrite::new(8, State::TextureBound(true)),
        Err(Refusal::StageNumber)
    );
}

/// Writes in an order that looks random, the same each time.
struct Writes(u64);

impl Writes {
    fn below(&mut self, bound: u64) -> u64 {
        self.0 = self.0.wrapping_mul(6364136223846793005).wrapping_add(1);
        (self.0 >> 33) % bound
    }

    fn next(&mut self) -> StateWrite {
        let (stage, number) = (self.below(8) as u8, TYPES[self.below(8) as usize]);
        let value = match number {
            0 => self.below(2),
            28 => [1, 5][self.below(2) as usize],
            _ => self.below(256),
        };
        StateWrite::from_numbers(stage, number, value as u32).unwrap()
    }
}

#[test]
fn keys_hold_what_was_written_last() {
    let mut writes = Writes(16);
    let mut held = Key::of([Stage {
        colour: Combiner::new(Op::ADD, Argument::TFACTOR, Argument::TEMP),
        flags: StageFlags::TEXTURED | StageFlags::TO_TEMP,
        ..Stage::DISABLED
    }]);
    (held.specular, held.projected) = (true, 0xa5);
    for length in [1, 2, 10, 100, 5_000] {
        for before in [None, Some(held)] {
            let mut session = Session::new();
            if let Some(key) = before {
                assert_eq!(apply(&mut session, key), Applied::Replaced);
            }
            let start = before.unwrap_or(Key::BEFORE_WRITES);
            let mut map = map_of(&start);
            for _ in 0..length {
                let write = writes.next();
                map.insert((write.stage(), write.state().number()), write.state());
                assert_eq!(apply(&mut session, write), Applied::Altered);
            }
            let key = narrow(&session);
            assert_eq!(map_of(&key), map, "{length} writes");
            assert_eq!(
                (key.specular, key.projected),
                (start.specular, start.projected)
            );
            assert_eq!((session.variant(), session.entry()), (None, None));
        }
    }
}

#[test]
fn a_first_write_begins_from_the_defaults() {
    let [first, rest @ ..] = Key::BEFORE_WRITES.stages;
    let ops = |stage: Stage| (stage.colour.op, stage.alpha.op);
    assert_eq!(ops(first), (Op::MODULATE, Op::SELECTARG1));
    assert!(rest.iter().all(|&s| ops(s) == (Op::DISABLE, Op::DISABLE)));
    for stage in Key::BEFORE_WRITES.stages {
        for combiner in [stage.colour, stage.alpha] {
            let arguments = (combiner.arg1, combiner.arg2);
            assert_eq!(arguments, (Argument::TEXTURE, Argument::CURRENT));
        }
        assert_eq!(stage.flags, StageFlags::NONE);
    }
    // A write of the default itself makes the key held.
    let mut session = Session::new();
    apply(&mut session, write(5, State::ResultArg(Register::Current)));
    assert_eq!(session.key(), Some(Key::BEFORE_WRITES.into()));
    let bytes = Record::Key(Key::BEFORE_WRITES).to_vec();
    assert_eq!(session.as_bytes()[..bytes.len()], bytes);
    assert!(session.as_bytes()[bytes.len()..].iter().all(|&b| b == 0));
}

#[test]
fn each_write_leaves_all_else() {
    for stage in 0..STAGES as u8 {
        for state in [
            State::TextureBound(true),
            State::ColourOp(Op::DOTPRODUCT3),
            State::ColourArg1(Argument(0xf1)),
            State::ColourArg2(Argument(0xf2)),
            State::AlphaOp(Op(255)),
            State::AlphaArg1(Argument(0xf3)),
            State::AlphaArg2(Argument(0xf4)),
            State::ResultArg(Register::Temp),
        ] {
            let mut session = Session::new();
            apply(&mut session, write(stage, state));
            let mut map = map_of(&Key::BEFORE_WRITES);
            assert_ne!(map.insert((stage, state.number()), state), Some(state));
            assert_eq!(map_of(&narrow(&session)), map);
        }
    }
    // Both bits of the flags are set, and each is cleared alone.
    let mut session = Session::new();
    let flags = |session: &Session| narrow(session).stages[2].flags;
    apply(&mut session, write(2, State::TextureBound(true)));
    apply(&mut session, write(2, State::ResultArg(Register::Temp)));
    assert_eq!(flags(&session), StageFlags::TEXTURED | StageFlags::TO_TEMP);
    apply(&mut session, write(2, State::TextureBound(false)));
    assert_eq!(flags(&session), StageFlags::TO_TEMP);
    apply(&mut session, write(2, State::TextureBound(true)));
    apply(&mut session, write(2, State::ResultArg(Register::Current)));
    assert_eq!(flags(&session), StageFlags::TEXTURED);
}

#[test]
fn a_key_record_replaces_all_that_was_written() {
    let mut session = Session::new();
    apply(&mut session, write(0, State::TextureBound(true)));
    apply(&mut session, Key::default());
    assert_eq!(session.key(), Some(Key::default().into()));
    apply(&mut session, write(1, State::ColourOp(Op::ADD)));
    let mut altered = Key::default();
    altered.stages[1].colour.op = Op::ADD;
    assert_eq!(session.key(), Some(altered.into()));
}

#[test]
fn a_refused_write_holds_nothing() {
    let bad = [
        [8, 1, 4, 0, 0, 0],
        [0, 7, 4, 0, 0, 0],
        [0, 26, 1, 1, 0, 0],
        [0, 1, 0, 1, 0, 0],
        [0, 28, 2, 0, 0, 0],
        [0, 0, 2, 0, 0, 0],
    ];
    let mut session = Session::new();
    apply(&mut session, Variant::default());
    apply(&mut session, Entry::new("m").unwrap());
    let before = session;
    let emit = Record::Emit.to_vec();
    for body in bad {
        let record = [&[Kind::State.number()], &body[..]].concat();
        assert!(session.apply(&mut record.as_slice(), &mut []).is_err());
        assert_eq!(session, before);
        let early = session.apply(&mut emit.as_slice(), &mut []);
        assert_eq!(early, Err(Refusal::EmitTooEarly));
    }
    // The first accepted write counts as a key.
    apply(&mut session, write(0, State::AlphaOp(Op::SELECTARG1)));
    let mut buffer = [0; TEXT_LENGTH];
    let applied = session.apply(&mut emit.as_slice(), &mut buffer);
    assert!(matches!(applied, Ok(Applied::Text(_))));
}

/// A held key that is no good record counts as none, and a write begins anew.
#[test]
fn a_write_to_a_bad_key_begins_from_the_defaults() {
    let mut good = Session::new();
    apply(&mut good, Key::default());
    apply(&mut good, Variant::default());
    let stage = size_of::<Stage>();
    for (at, byte) in [(0, 2), (0, 5), (stage, 4), (stage * STAGES + 1, 2)] {
        let mut bytes = *good.as_bytes();
        bytes[at] = byte;
        let mut session = Session::from_bytes(bytes);
        assert_eq!(session.key(), None);
        apply(&mut session, write(0, State::ColourOp(Op::MODULATE)));
        assert_eq!(session.key(), Some(Key::BEFORE_WRITES.into()));
        let behind = 1 + raw::KEY_LENGTH;
        assert_eq!(session.as_bytes()[behind..], bytes[behind..]);
    }
}
