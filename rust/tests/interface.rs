//! Each call at its edges: what it answers, which refusals it meets, and that a refusal leaves every lent byte and number as it was.

use yuzuknoll::{
    Applied, Argument, Combiner, Comparison, Entry, EntryPass, FogMode, HeldKey, Key, Kind, Mask,
    Op, Record, Refusal, STAGES, Session, Stage, StageFlags, StageMask, State, StateWrite,
    TEXT_LENGTH, Variant, VariantFlags, Warnings, WideKey, WideStage, emit, emit_wide, raw,
};

/// Where the parts begin of what a session holds. The key's has room for either kind.
const KEY_AT: usize = 0;
const VARIANT_AT: usize = KEY_AT + Kind::WideKey.record_length();
const ENTRY_AT: usize = VARIANT_AT + Kind::Variant.record_length();

/// Where the flags of a stage and the specular byte stand in a key.
const FLAGS_AT: usize = size_of::<Stage>() - 1;
const SPECULAR_AT: usize = size_of::<[Stage; STAGES]>();

/// The same in a wide key.
const WIDE_FLAGS_AT: usize = size_of::<WideStage>() - 1;
const WIDE_SPECULAR_AT: usize = size_of::<[WideStage; STAGES]>();

/// MODULATE of texture and diffuse.
fn key() -> Key {
    Key::of([Stage {
        colour: Combiner::new(Op::MODULATE, Argument::TEXTURE, Argument::DIFFUSE),
        flags: StageFlags::TEXTURED,
        ..Stage::DISABLED
    }])
}

fn variant() -> Variant {
    Variant::default()
}

fn entry() -> Entry {
    Entry::new("m").unwrap()
}

/// One that the key has set.
fn write() -> StateWrite {
    StateWrite::new(0, State::ColourOp(Op::MODULATE)).unwrap()
}

fn records() -> [Record; 6] {
    [
        Record::Key(key()),
        Record::Variant(variant()),
        Record::Entry(entry()),
        Record::Emit,
        Record::State(write()),
        Record::WideKey(key().into()),
    ]
}

fn changed<const N: usize>(bytes: &[u8; N], at: usize, byte: u8) -> [u8; N] {
    let mut bytes = *bytes;
    bytes[at] = byte;
    bytes
}

fn record(kind: Kind, body: &[u8]) -> Vec<u8> {
    [&[kind.number()], body].concat()
}

/// Bytes of a key that are refused, with 3 before 4.
fn bad_keys() -> Vec<(Refusal, [u8; raw::KEY_LENGTH])> {
    let good = *key().as_bytes();
    let mut bad = Vec::new();
    for stage in 0..STAGES {
        for bit in 2..8 {
            let flags = changed(&good, size_of::<Stage>() * stage + FLAGS_AT, 1 << bit);
            bad.push((Refusal::StageFlags, flags));
            bad.push((Refusal::StageFlags, changed(&flags, SPECULAR_AT, 2)));
        }
    }
    bad.extend((2..=255).map(|byte| (Refusal::SpecularAdd, changed(&good, SPECULAR_AT, byte))));
    bad
}

/// The same of a wide key.
fn bad_wide_keys() -> Vec<(Refusal, [u8; raw::WIDE_KEY_LENGTH])> {
    let good = *WideKey::from(key()).as_bytes();
    let mut bad = Vec::new();
    for stage in 0..STAGES {
        for bit in 2..8 {
            let flags = changed(
                &good,
                size_of::<WideStage>() * stage + WIDE_FLAGS_AT,
                1 << bit,
            );
            bad.push((Refusal::StageFlags, flags));
            bad.push((Refusal::StageFlags, changed(&flags, WIDE_SPECULAR_AT, 2)));
        }
    }
    bad.extend(
        (2..=255).map(|byte| (Refusal::SpecularAdd, changed(&good, WIDE_SPECULAR_AT, byte))),
    );
    bad
}

fn bad_variants() -> Vec<(Refusal, [u8; raw::VARIANT_LENGTH])> {
    let flags = [64, 128, 192, 255];
    let bad = flags.map(|flags| {
        (
            Refusal::VariantFlags,
            changed(variant().as_bytes(), 18, flags),
        )
    });
    bad.to_vec()
}

fn bad_entries() -> Vec<(Refusal, [u8; raw::ENTRY_LENGTH])> {
    let good = *entry().as_bytes();
    let mut bad = vec![changed(&good, 0, 0), changed(&good, 0, 2)];
    bad.extend((33..=255).map(|length| changed(&good, 0, length)));
    bad.extend(b"0123456789 .-/:@[`{\0\x80\xff".map(|first| changed(&good, 1, first)));
    bad.extend((2..33).map(|tail| changed(&good, tail, b'm')));
    let words = reserved_words();
    bad.extend(words.iter().map(|word| changed(&named(word), 32, b'm')));
    let bad = bad.into_iter().map(|entry| (Refusal::EntryName, entry));
    let words = words
        .iter()
        .map(|word| (Refusal::ReservedWord, named(word)));
    bad.chain(words).collect()
}

fn named(name: &str) -> [u8; raw::ENTRY_LENGTH] {
    let mut body = [0; raw::ENTRY_LENGTH];
    body[0] = name.len() as u8;
    body[1..=name.len()].copy_from_slice(name.as_bytes());
    body
}

/// Bytes of a state write that are refused, with 10 before 11 and 11 before 12.
fn bad_writes() -> Vec<(Refusal, [u8; raw::STATE_LENGTH])> {
    let mut bad = Vec::new();
    for stage in 8..=255 {
        bad.push((Refusal::StageNumber, [stage, 1, 4, 0, 0, 0]));
        bad.push((Refusal::StageNumber, [stage, 7, 4, 0, 0, 1]));
    }
    for number in (0..=255).filter(|number| !matches!(number, 0..=6 | 26..=28)) {
        bad.push((Refusal::StateType, [7, number, 1, 0, 0, 0]));
        bad.push((Refusal::StateType, [7, number, 0, 0, 0, 128]));
    }
    for number in [0, 1, 2, 3, 4, 5, 6, 26, 27, 28] {
        for at in 3..raw::STATE_LENGTH {
            let good = [0, number, 1, 0, 0, 0];
            bad.extend((0..8).map(|bit| (Refusal::StateValue, changed(&good, at, 1 << bit))));
        }
    }
    let values = |number, taken: [u8; 2]| {
        let others = (0..=255).filter(move |value| !taken.contains(value));
        others.map(move |value| (Refusal::StateValue, [3, number, value, 0, 0, 0]))
    };
    bad.extend(values(0, [0, 1]));
    bad.extend(values(28, [1, 5]));
    bad
}

/// The words that no entry may be.
fn reserved_words() -> Vec<String> {
    const PLAIN: &str = "current temp oC0 in in_stage point_coord ps_c alpha_ref fog_data bump_env \
        lod_bias fog_c fog_f fog_dz fog_range main metal Varyings FfPsOut mtld3d_linear_to_srgb \
        fragment vertex kernel struct constant sampler static inline return if uint float float2 \
        float3 float4";
    let numbered = ["t", "s", "samp", "pc", "bc", "proj"].into_iter();
    let numbered = numbered.flat_map(|word| (0..8).map(move |n| format!("{word}{n}")));
    let plain = PLAIN.split_whitespace().map(str::to_owned);
    plain.chain(numbered).collect()
}

/// Bytes for each refusal of the reader.
fn bad_records() -> Vec<(Refusal, Vec<u8>)> {
    let mut bad = vec![(Refusal::CutShort, Vec::new())];
    for good in records() {
        let bytes = good.to_vec();
        for length in 1..bytes.len() {
            bad.push((Refusal::CutShort, bytes[..length].to_vec()));
        }
    }
    for kind in (0..=255).filter(|&kind| Kind::from_number(kind).is_none()) {
        bad.push((Refusal::UnknownKind, vec![kind]));
        bad.push((Refusal::UnknownKind, vec![kind; 60]));
    }
    let keys = bad_keys().into_iter();
    bad.extend(keys.map(|(refusal, body)| (refusal, record(Kind::Key, &body))));
    let keys = bad_wide_keys().into_iter();
    bad.extend(keys.map(|(refusal, body)| (refusal, record(Kind::WideKey, &body))));
    let variants = bad_variants().into_iter();
    bad.extend(variants.map(|(refusal, body)| (refusal, record(Kind::Variant, &body))));
    let entries = bad_entries().into_iter();
    bad.extend(entries.map(|(refusal, body)| (refusal, record(Kind::Entry, &body))));
    let writes = bad_writes().into_iter();
    bad.extend(writes.map(|(refusal, body)| (refusal, record(Kind::State, &body))));
    bad
}

/// A session that holds all three, and one text of it.
fn full() -> Session {
    let mut session = Session::new();
    for record in &records()[..3] {
        let bytes = record.to_vec();
        let applied = session.apply(&mut bytes.as_slice(), &mut []);
        assert_eq!(applied, Ok(Applied::Replaced));
    }
    session
}

const EMITTED: raw::Emitted = raw::Emitted {
    length: 101,
    mask: 102,
    rows: 103,
    lookups: 104,
    op_warnings: 105,
    selector_warnings: 106,
    modifier_warnings: 107,
    alpha_warning: 108,
};
const RECORD: raw::Record = raw::Record {
    kind: 109,
    taken: 110,
};
const APPLIED: raw::Applied = raw::Applied {
    kind: 111,
    taken: 112,
    result: EMITTED,
};

#[test]
fn emits_into_buffers_that_hold_the_text() {
    let mut whole = [0xaa; TEXT_LENGTH];
    let emission = emit(&key(), &variant(), &entry(), &mut whole).unwrap();
    assert_eq!(
        (
            emission.mask,
            emission.rows,
            emission.lookups,
            emission.warnings
        ),
        (StageMask::from_bits(1), 0, 1, Warnings::NONE)
    );
    assert!(
        emission
            .as_str()
            .contains("current = float4(((t0 * in.color0)).rgb, (current).a);")
    );
    let text = emission.text.to_owned();
    let length = text.len();
    assert!(whole[length..].iter().all(|&b| b == 0xaa));
    let mut exact = vec![0xaa; length];
    assert_eq!(
        emit(&key(), &variant(), &entry(), &mut exact).unwrap().text,
        text
    );
    for short in [length - 1, length / 2, 1, 0] {
        let mut buffer = vec![0xaa; short];
        let refused = emit(&key(), &variant(), &entry(), &mut buffer);
        assert_eq!(refused, Err(Refusal::NoRoom));
        assert!(buffer.iter().all(|&b| b == 0xaa));
    }
}

#[test]
fn refusals_of_emit_come_in_order_and_leave_all() {
    let (key, variant, entry) = (
        *key().as_bytes(),
        *variant().as_bytes(),
        *entry().as_bytes(),
    );
    let bad_variant = bad_variants()[0].1;
    let bad_entry = bad_entries()[0].1;
    let mut calls = Vec::new();
    for (refusal, bad) in bad_keys() {
        calls.push((refusal, bad, variant, entry));
        calls.push((refusal, bad, bad_variant, bad_entry));
    }
    for (refusal, bad) in bad_variants() {
        calls.push((refusal, key, bad, entry));
        calls.push((refusal, key, bad, bad_entry));
    }
    for (refusal, bad) in bad_entries() {
        calls.push((refusal, key, variant, bad));
    }
    for (refusal, key, variant, entry) in calls {
        for room in [0, TEXT_LENGTH] {
            let (mut text, mut result) = (vec![0xaa; room], EMITTED);
            let number = raw::emit(&key, &variant, &entry, &mut text, &mut result);
            assert_eq!(number, refusal.number());
            assert_eq!(result, EMITTED);
            assert!(text.iter().all(|&b| b == 0xaa));
        }
    }
    let (mut text, mut result) = ([0xaa; 700], EMITTED);
    let number = raw::emit(&key, &variant, &entry, &mut text, &mut result);
    assert_eq!(number, Refusal::NoRoom.number());
    assert_eq!((text, result), ([0xaa; 700], EMITTED));
}

#[test]
fn refusals_of_emit_wide_come_in_order_and_leave_all() {
    let (wide, variant, entry) = (
        *WideKey::from(key()).as_bytes(),
        *variant().as_bytes(),
        *entry().as_bytes(),
    );
    let bad_variant = bad_variants()[0].1;
    let bad_entry = bad_entries()[0].1;
    let mut calls = Vec::new();
    for (refusal, bad) in bad_wide_keys() {
        calls.push((refusal, bad, variant, entry));
        calls.push((refusal, bad, bad_variant, bad_entry));
    }
    for (refusal, bad) in bad_variants() {
        calls.push((refusal, wide, bad, bad_entry));
    }
    for (refusal, bad) in bad_entries() {
        calls.push((refusal, wide, variant, bad));
    }
    calls.push((Refusal::NoRoom, wide, variant, entry));
    for (refusal, wide, variant, entry) in calls {
        let (mut text, mut result) = ([0xaa; 700], EMITTED);
        let number = raw::emit_wide(&wide, &variant, &entry, &mut text, &mut result);
        assert_eq!(number, refusal.number());
        assert_eq!((text, result), ([0xaa; 700], EMITTED));
    }
}

/// Without ops of three operands a wide key gives what its key gives, into the same buffers.
#[test]
fn a_widened_key_gives_the_same() {
    let mut direct = [0xaa; TEXT_LENGTH];
    let expected = emit(&key(), &variant(), &entry(), &mut direct).unwrap();
    let length = expected.text.len();
    let wide = WideKey::from(key());
    let mut buffer = [0xaa; TEXT_LENGTH];
    let emission = emit_wide(&wide, &variant(), &entry(), &mut buffer);
    assert_eq!(emission, Ok(expected));
    assert_eq!(buffer, direct);
    let mut exact = vec![0xaa; length];
    assert!(emit_wide(&wide, &variant(), &entry(), &mut exact).is_ok());
    let mut short = vec![0xaa; length - 1];
    let refused = emit_wide(&wide, &variant(), &entry(), &mut short);
    assert_eq!(refused, Err(Refusal::NoRoom));
    assert!(short.iter().all(|&b| b == 0xaa));
}

#[test]
fn entries_are_names() {
    for name in ["m", "_", "A9_z", "windscreen", &"x".repeat(32)] {
        let entry = Entry::new(name).unwrap();
        assert_eq!(entry.as_str(), name);
        assert_eq!(entry.to_string(), name);
        assert_eq!(name.parse(), Ok(entry));
    }
    let long = [33, 255, 256, 1000].map(|length| "x".repeat(length));
    let bad = ["", "9", "a b", "a.b", "a\0", "é", "ä"].into_iter();
    for name in bad.chain(long.iter().map(String::as_str)) {
        assert_eq!(Entry::new(name), Err(Refusal::EntryName), "{name:?}");
    }
}

/// After how many bytes no name is possible any more; none if it is to the end.
fn stops(bytes: &[u8]) -> Option<usize> {
    let mut pass = EntryPass::new();
    assert!(pass.possible());
    let possible: Vec<bool> = bytes
        .iter()
        .map(|&byte| {
            pass.step(byte);
            pass.possible()
        })
        .collect();
    assert!(possible.is_sorted_by(|earlier, later| earlier >= later));
    possible
        .iter()
        .position(|possible| !possible)
        .map(|at| at + 1)
}

#[test]
fn passes_tell_at_the_first_wrong_byte() {
    let long = *Entry::new(&"x".repeat(32)).unwrap().as_bytes();
    for good in [entry().as_bytes(), &long] {
        assert_eq!(stops(good), None);
        for behind in [&[0][..], b"x", &[0; 300]] {
            assert_eq!(stops(&[good, behind].concat()), Some(34));
        }
    }
    for length in 0..=255 {
        let stop = stops(&changed(&long, 0, length));
        let expected = match length {
            0 | 33.. => Some(1),
            32 => None,
            _ => Some(usize::from(length) + 2),
        };
        assert_eq!(stop, expected, "length {length}");
    }
    for at in 1..33 {
        for byte in b"09 .-/:@[`{\0\x80\xff" {
            let stop = stops(&changed(&long, at, *byte));
            let good = byte.is_ascii_digit() && at != 1;
            assert_eq!(stop, (!good).then_some(at + 1), "{byte} at {at}");
        }
    }
    for at in 2..33 {
        let stop = stops(&changed(entry().as_bytes(), at, b'm'));
        assert_eq!(stop, Some(at + 1));
    }
    for (refusal, bad) in bad_entries() {
        assert_eq!(stops(&bad).is_some(), refusal == Refusal::EntryName);
    }
}

/// A state that no pass makes is read modulo 256.
#[test]
fn passes_take_any_state() {
    let numbers = [0, 1, 2, 32, 33, 34, 255].into_iter();
    let numbers: Vec<u64> = numbers
        .flat_map(|n: u64| [n, n + 256, n | 1 << 63, n | u64::MAX << 8])
        .collect();
    for &taken in &numbers {
        for &length in &numbers {
            for &wrong in &numbers {
                for byte in [0, 1, 32, 33, b'0', b'm', 255] {
                    let before = [taken, length, wrong];
                    let mut state = before;
                    assert_eq!(raw::entry_possible(&state), u64::from(wrong % 256 == 0));
                    assert_eq!(state, before);
                    raw::entry_step(&mut state, byte);
                    let mut reduced = before.map(|number| number % 256);
                    raw::entry_step(&mut reduced, byte);
                    assert_eq!(state, reduced);
                    assert_eq!(state[0], (taken % 256 + 1) % 256);
                    raw::entry_start(&mut state);
                    assert_eq!(state, [0; 3]);
                }
            }
        }
    }
}

#[test]
fn entries_are_no_reserved_words() {
    let words = reserved_words();
    assert_eq!(words.len(), 83);
    for word in &words {
        assert_eq!(Entry::new(word), Err(Refusal::ReservedWord), "{word}");
    }
    for word in [
        "T0", "t8", "t", "t00", "samp", "Main", "mai", "main_", "float5", "FLOAT",
    ] {
        assert!(Entry::new(word).is_ok(), "{word}");
    }
}

#[test]
fn flags_are_known_bits() {
    for bits in 0..=255 {
        let stage = StageFlags::from_bits(bits);
        assert_eq!(stage.map(StageFlags::bits).ok(), (bits < 4).then_some(bits));
        assert!(bits < 4 || stage == Err(Refusal::StageFlags));
        let variant = VariantFlags::from_bits(bits);
        assert_eq!(
            variant.map(VariantFlags::bits).ok(),
            (bits < 64).then_some(bits)
        );
        assert!(bits < 64 || variant == Err(Refusal::VariantFlags));
    }
}

/// Values with every byte different from its neighbours, so that a swapped field shows.
fn unlike() -> [Record; 6] {
    let combiner = |n| Combiner::new(Op(n), Argument(n + 1), Argument(n + 2));
    let mut key = Key {
        specular: true,
        projected: 0xa5,
        ..Key::default()
    };
    for (stage, n) in key.stages.iter_mut().zip(0..) {
        *stage = Stage {
            colour: combiner(10 * n),
            alpha: combiner(10 * n + 3),
            flags: StageFlags::from_bits(n % 4).unwrap(),
        };
    }
    let variant = Variant {
        alpha_function: Comparison::NOTEQUAL,
        fog_mode: FogMode::LINEAR,
        fog_table_mode: FogMode::EXP2,
        depth_sampler: Mask::from_bits(0x0102),
        depth_fetch: Mask::from_bits(0x0304),
        fetch4: Mask::from_bits(0x0506),
        fetch4_alpha: Mask::from_bits(0x0708),
        raw_depth_red: Mask::from_bits(0x090a),
        volume: Mask::from_bits(0x0b0c),
        cube: Mask::from_bits(0x0d0e),
        sample_mask: 0x0f,
        flags: VariantFlags::FLAT_SHADE | VariantFlags::FOG_SOURCE_W,
    };
    let entry = Entry::new("abcdefghijklmnopqrstuvwxyz_01234").unwrap();
    let write = StateWrite::new(7, State::AlphaArg2(Argument(0xa6))).unwrap();
    let mut wide = WideKey::from(key);
    for (stage, n) in wide.stages.iter_mut().zip(0..) {
        stage.colour_arg0 = Argument(10 * n + 6);
        stage.alpha_arg0 = Argument(10 * n + 7);
    }
    [
        key.into(),
        variant.into(),
        entry.into(),
        Record::Emit,
        write.into(),
        wide.into(),
    ]
}

#[test]
fn reads_what_is_written_and_no_byte_behind() {
    for record in records().into_iter().chain(unlike()) {
        let kind = record.kind();
        let length = kind.record_length();
        for room in length..length + 3 {
            let mut out = vec![0xaa; room];
            assert_eq!(record.write(&mut out), Ok(length));
            assert_eq!(out[..length], record.to_vec());
            assert!(out[length..].iter().all(|&b| b == 0xaa));
            let mut rest = out.as_slice();
            assert_eq!(Record::read(&mut rest), Ok(record));
            assert_eq!(rest, &out[length..]);
            let (mut read, mut written) = (RECORD, RECORD);
            assert_eq!(raw::read(&out, &mut read), 0);
            assert_eq!(raw::write(&out, &mut vec![0; length], &mut written), 0);
            let expected = raw::Record {
                kind: kind.number().into(),
                taken: length as u64,
            };
            assert_eq!((read, written), (expected, expected));
        }
        for room in 0..length {
            let mut out = vec![0xaa; room];
            assert_eq!(record.write(&mut out), Err(Refusal::NoRoom));
            assert!(out.iter().all(|&b| b == 0xaa));
        }
    }
}

#[test]
fn refusals_of_read_and_write_leave_all() {
    for (refusal, bytes) in bad_records() {
        let mut rest = bytes.as_slice();
        assert_eq!(Record::read(&mut rest), Err(refusal), "{bytes:02x?}");
        assert_eq!(rest, bytes);
        let mut report = RECORD;
        assert_eq!(raw::read(&bytes, &mut report), refusal.number());
        for room in [0, 90] {
            let mut out = vec![0xaa; room];
            let number = raw::write(&bytes, &mut out, &mut report);
            assert_eq!(number, refusal.number());
            assert!(out.iter().all(|&b| b == 0xaa));
        }
        assert_eq!(report, RECORD);
    }
    let mut report = RECORD;
    let number = raw::write(&[4], &mut [], &mut report);
    assert_eq!((number, report), (Refusal::NoRoom.number(), RECORD));
}

#[test]
fn holds_what_is_applied() {
    let mut session = Session::default();
    assert_eq!(session.as_bytes(), &[0; raw::HELD_LENGTH]);
    assert_eq!(
        (session.key(), session.variant(), session.entry()),
        (None, None, None)
    );
    for (n, record) in unlike()[..3].iter().enumerate() {
        let bytes = [record.to_vec(), vec![0xff; 5]].concat();
        let mut rest = bytes.as_slice();
        assert_eq!(session.apply(&mut rest, &mut []), Ok(Applied::Replaced));
        assert_eq!(rest, [0xff; 5]);
        assert!(session.key().is_some());
        assert_eq!(session.variant().is_some(), n >= 1);
        assert_eq!(session.entry().is_some(), n >= 2);
    }
    let [
        Record::Key(key),
        Record::Variant(variant),
        Record::Entry(entry),
        ..,
    ] = unlike()
    else {
        panic!("in this order");
    };
    assert_eq!(session.key(), Some(HeldKey::Key(key)));
    assert_eq!(session.variant(), Some(variant));
    assert_eq!(session.entry(), Some(entry));
    let [key, variant, entry, .., wide] = unlike().map(|record| record.to_vec());
    let room = vec![0; wide.len() - key.len()];
    let held = [key, room, variant.clone(), entry.clone()].concat();
    assert_eq!(session.as_bytes()[..], held);
    let applied = session.apply(&mut wide.as_slice(), &mut []);
    assert_eq!(applied, Ok(Applied::Replaced));
    assert_eq!(
        session.as_bytes()[..],
        [wide.clone(), variant, entry].concat()
    );
    assert_eq!(
        session.key().map(Record::from).map(|r| r.to_vec()),
        Some(wide)
    );
    assert_eq!(Session::from_bytes(*session.as_bytes()), session);
}

#[test]
fn reports_of_apply() {
    let mut held = [0; raw::HELD_LENGTH];
    let mut text = [0; TEXT_LENGTH];
    for record in records() {
        let mut applied = APPLIED;
        let bytes = record.to_vec();
        assert_eq!(raw::apply(&mut held, &bytes, &mut text, &mut applied), 0);
        let kind = record.kind();
        assert_eq!(applied.kind, kind.number().into());
        assert_eq!(applied.taken, kind.record_length() as u64);
        let mut result = raw::Emitted::default();
        if kind == Kind::Emit {
            let (key, variant, entry) = (key(), variant(), entry());
            let number = raw::emit(
                key.as_bytes(),
                variant.as_bytes(),
                entry.as_bytes(),
                &mut [0; TEXT_LENGTH],
                &mut result,
            );
            assert_eq!(number, 0);
        }
        assert_eq!(applied.result, result);
    }
}

#[test]
fn emits_the_text_of_what_is_held() {
    let mut direct = [0xaa; TEXT_LENGTH];
    let expected = emit(&key(), &variant(), &entry(), &mut direct).unwrap();
    let length = expected.text.len();
    let mut session = full();
    let mut buffer = [0xaa; TEXT_LENGTH];
    let mut rest = &[4, 9, 9][..];
    let applied = session.apply(&mut rest, &mut buffer);
    assert_eq!(applied, Ok(Applied::Text(expected)));
    assert_eq!(rest, [9, 9]);
    assert_eq!(session, full());
    assert_eq!(buffer, direct);
    let applied = session.apply(&mut &[4][..], &mut buffer[..length]);
    assert!(matches!(applied, Ok(Applied::Text(_))));
}

#[test]
fn refusals_of_apply_leave_all() {
    let mut text = [0xaa; 100];
    let mut bad = bad_records();
    bad.push((Refusal::NoRoom, vec![Kind::Emit.number()]));
    for (refusal, bytes) in bad {
        let mut session = full();
        let mut rest = bytes.as_slice();
        assert_eq!(session.apply(&mut rest, &mut text), Err(refusal));
        assert_eq!((rest, session), (bytes.as_slice(), full()));
        let (mut held, mut applied) = (*full().as_bytes(), APPLIED);
        let number = raw::apply(&mut held, &bytes, &mut text, &mut applied);
        assert_eq!(number, refusal.number());
        assert_eq!((held, applied), (*full().as_bytes(), APPLIED));
    }
    assert_eq!(text, [0xaa; 100]);
}

#[test]
fn emits_only_with_all_three() {
    for given in 0..7 {
        let mut session = Session::new();
        for (n, record) in records()[..3].iter().enumerate() {
            if given >> n & 1 != 0 {
                session
                    .apply(&mut record.to_vec().as_slice(), &mut [])
                    .unwrap();
            }
        }
        for room in [0, TEXT_LENGTH] {
            let before = session;
            let refused = session.apply(&mut &[4][..], &mut vec![0; room]).err();
            assert_eq!(refused, Some(Refusal::EmitTooEarly));
            assert_eq!(session, before);
        }
    }
}

/// A part that is no good record of its kind counts as not held, and stays until it is replaced.
#[test]
fn parts_that_are_not_good_are_not_held() {
    for (at, byte) in [
        (KEY_AT, 0xff),
        (KEY_AT, 2),
        (KEY_AT, 5),
        (KEY_AT + 1 + FLAGS_AT, 4),
        (KEY_AT + 1 + SPECULAR_AT, 2),
        (VARIANT_AT, 1),
        (VARIANT_AT, 0),
        (ENTRY_AT - 1, 64),
        (ENTRY_AT, 2),
        (ENTRY_AT + 1, 0),
        (ENTRY_AT + 2, b'.'),
        (raw::HELD_LENGTH - 1, 1),
    ] {
        let bytes = changed(full().as_bytes(), at, byte);
        let mut session = Session::from_bytes(bytes);
        let missing = [
            session.key().is_none(),
            session.variant().is_none(),
            session.entry().is_none(),
        ];
        let of_variant = (VARIANT_AT..ENTRY_AT).contains(&at);
        assert_eq!(missing, [at < VARIANT_AT, of_variant, at >= ENTRY_AT]);
        let refused = session.apply(&mut &[4][..], &mut [0; TEXT_LENGTH]).err();
        assert_eq!(refused, Some(Refusal::EmitTooEarly), "byte {at}");
        assert_eq!(*session.as_bytes(), bytes);
        for (part, record) in records()[..3].iter().enumerate() {
            let before = *session.as_bytes();
            session
                .apply(&mut record.to_vec().as_slice(), &mut [])
                .unwrap();
            assert!(missing[part] || *session.as_bytes() == before);
        }
        assert_eq!(session, full());
    }
}
