//! State writes: which are refused, what a list of them leaves, beside a plain map, and what the program prints of them.

use std::collections::BTreeMap;

use oraclelib::{
    TEXT_CAP, emit,
    generate::{self, Rng},
    program,
    records::{
        Combiner, Entry, Key, Kind, STAGES, Stage, TEXTURED, TO_TEMP, Triple, Variant, record,
    },
    states::{self, RESULT_ARG, StateWrite, TEXTURE_BOUND, TYPES},
    worked,
};

fn printed(input: &[u8]) -> String {
    String::from_utf8(program(input, TEXT_CAP)).unwrap()
}

fn write(stage: u8, state: u8, value: u32) -> Vec<u8> {
    let write = StateWrite {
        stage,
        state,
        value,
    };
    record(Kind::State, &write.body())
}

/// Variant, entry and emit.
fn emitting() -> Vec<u8> {
    let variant = record(Kind::Variant, &Variant::default().body());
    let entry = record(Kind::Entry, &Entry::new(b"m").body());
    [variant, entry, vec![Kind::Emit as u8]].concat()
}

/// What the program prints for the text of a key.
fn text_of(key: Key) -> String {
    let o = emit(&Triple::plain(key));
    let (mask, rows, lookups, warnings) = (o.mask, o.rows, o.lookups, o.warnings);
    format!("emit {mask} {rows} {lookups} {warnings}\n{}", o.text)
}

#[test]
fn bytes_are_stage_type_and_value_low_byte_first() {
    let bytes = write(1, 2, 0x0605_0403);
    assert_eq!(bytes, [5, 1, 2, 3, 4, 5, 6]);
    assert_eq!(StateWrite::from_body(&bytes[1..]).value, 0x0605_0403);
}

#[test]
fn refused_with_10_then_11_then_12() {
    for stage in 0..=255 {
        for state in 0..=255 {
            for value in [0, 1, 2, 5, 255, 256, 257, 1 << 24 | 1, u32::MAX] {
                let named = match state {
                    28 => [1, 5].contains(&value),
                    0 => [0, 1].contains(&value),
                    _ => value <= 255,
                };
                let known = matches!(state, 0..=6 | 26..=28);
                let expected = match (stage > 7, known, named) {
                    (true, ..) => "refused 10 at 0\n",
                    (_, false, _) => "refused 11 at 0\n",
                    (.., false) => "refused 12 at 0\n",
                    _ => "end 0\n",
                };
                let got = printed(&write(stage, state, value));
                assert_eq!(got, expected, "{stage} {state} {value}");
            }
        }
    }
}

#[test]
fn defaults_are_microsofts() {
    let mut body = vec![4, 2, 1, 2, 2, 1, 0];
    for _ in 1..STAGES {
        body.extend([1, 2, 1, 1, 2, 1, 0]);
    }
    body.extend([0, 0]);
    assert_eq!(states::defaults().body(), body);
    let input = [write(3, RESULT_ARG, 1), emitting()].concat();
    let expected = format!("{}end 1\n", text_of(states::defaults()));
    assert_eq!(printed(&input), expected);
}

#[test]
fn a_key_is_altered_and_a_key_record_replaces_all() {
    let z2 = worked::z2().key;
    let mut altered = z2;
    altered.stages[1].color.op = 7;
    let key = record(Kind::Key, &z2.body());
    let emit = vec![Kind::Emit as u8];
    let input = [
        write(0, TEXTURE_BOUND, 1),
        key,
        emitting(),
        write(1, 1, 7),
        emit,
        write(8, 1, 7),
    ]
    .concat();
    let at = input.len() - 7;
    let expected = format!("{}{}refused 10 at {at}\n", text_of(z2), text_of(altered));
    assert_eq!(printed(&input), expected);
}

/// What a key holds for a stage and a type.
fn get(stage: &Stage, state: u8) -> u32 {
    let byte = match state {
        1 => stage.color.op,
        2 => stage.color.arg1,
        3 => stage.color.arg2,
        4 => stage.alpha.op,
        5 => stage.alpha.arg1,
        6 => stage.alpha.arg2,
        26 => stage.color.arg0.unwrap_or(1),
        27 => stage.alpha.arg0.unwrap_or(1),
        28 => 1 + 4 * (stage.flags >> 1),
        _ => stage.flags & 1,
    };
    byte.into()
}

fn map_of(key: &Key) -> BTreeMap<(u8, u8), u32> {
    let stages = key.stages.iter().zip(0..);
    let states = stages.flat_map(|(stage, n)| TYPES.map(|state| ((n, state), get(stage, state))));
    states.collect()
}

#[test]
fn lists_leave_the_last_values() {
    let mut rng = Rng::new(9);
    for length in (0..40).chain([100, 1_000, 5_000]) {
        let mut key = match rng.below(3) {
            0 => states::defaults(),
            1 => generate::key(&mut rng),
            _ => generate::wide_key(&mut rng),
        };
        let before = key;
        let mut map = map_of(&key);
        for _ in 0..length {
            let write = generate::write(&mut rng);
            map.insert((write.stage, write.state), write.value);
            let wide = key.is_wide() || [26, 27].contains(&write.state);
            key = write.done(key);
            assert_eq!(key.is_wide(), wide);
        }
        assert_eq!(map_of(&key), map);
        assert_eq!(
            (key.specular, key.projected),
            (before.specular, before.projected)
        );
        assert!(key.cause().is_none());
    }
}

/// 'Types 26 and 27 ... set them and make the key a kind 6 key; their default is 1, also in a kind 1 key so turned'.
#[test]
fn argument_0_makes_a_key_of_kind_6() {
    let write = |stage, state, value| StateWrite {
        stage,
        state,
        value,
    };
    let mut body = vec![4, 2, 1, 2, 2, 1, 1, 1, 0];
    for stage in 1..8 {
        body.extend([1, 2, 1, 1, 2, 1, 1, if stage == 7 { 6 } else { 1 }, 0]);
    }
    body.extend([0, 0]);
    assert_eq!(write(7, 27, 6).done(states::defaults()).body(), body);
    body[6] = 3;
    let twice = write(0, 26, 3).done(write(7, 27, 6).done(states::defaults()));
    assert_eq!(twice.body(), body);
}

/// LERP has no text before such a write, has it afterwards, and only a key record of kind 1 takes it away, with every argument 0.
#[test]
fn only_a_key_of_kind_1_turns_back() {
    let lerp = Key::of(&[Stage {
        color: Combiner::new(26, 0, 4),
        alpha: Combiner::new(1, 0, 0),
        flags: 0,
    }]);
    let mut wide = lerp.widened();
    wide.stages[0].color.arg0 = Some(4);
    let key = record(Kind::Key, &lerp.body());
    let emit = vec![Kind::Emit as u8];
    let input = [
        key.clone(),
        emitting(),
        // The value that it has by default, behind the cascade's end.
        write(7, 26, 1),
        emit.clone(),
        write(0, 26, 4),
        emit.clone(),
        key,
        emit.clone(),
        write(5, 27, 0),
        emit,
    ]
    .concat();
    let texts = [lerp, lerp.widened(), wide, lerp, lerp.widened()].map(text_of);
    assert!(texts[0].contains("current = float4((in.color0).rgb, (current).a);"));
    assert!(texts[1].contains("(current * in.color0 + (1.0 - current) * in.color1)"));
    assert!(texts[2].contains("(in.color1 * in.color0 + (1.0 - in.color1) * in.color1)"));
    assert_eq!(printed(&input), format!("{}end 5\n", texts.concat()));
}

#[test]
fn the_flags_bits_are_written_apart() {
    for flags in 0..=TEXTURED | TO_TEMP {
        let mut key = states::defaults();
        key.stages[4].flags = flags;
        let after = |state, value| {
            let write = StateWrite {
                stage: 4,
                state,
                value,
            };
            write.done(key).stages[4].flags
        };
        assert_eq!(after(RESULT_ARG, 1), flags & TEXTURED);
        assert_eq!(after(RESULT_ARG, 5), flags | TO_TEMP);
        assert_eq!(after(TEXTURE_BOUND, 0), flags & TO_TEMP);
        assert_eq!(after(TEXTURE_BOUND, 1), flags | TEXTURED);
    }
}
