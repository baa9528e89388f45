//! Wide keys: the texts of three operands, and the writes that make a key wide.

use yuzuknoll::{
    Applied, Argument, Combiner, Emission, Entry, HeldKey, Key, Op, Record, STAGES, Session, Stage,
    StageFlags, StageMask, State, StateWrite, TEXT_LENGTH, Variant, Warnings, WideKey, WideStage,
    emit, emit_wide,
};

/// LERP of texture and diffuse by the factor, in colour alone.
fn lerp() -> WideStage {
    WideStage {
        colour: Combiner::new(Op::LERP, Argument::TEXTURE, Argument::DIFFUSE),
        colour_arg0: Argument::TFACTOR,
        flags: StageFlags::TEXTURED,
        ..WideStage::DISABLED
    }
}

fn emission<'a>(stage: WideStage, buffer: &'a mut [u8]) -> Emission<'a> {
    let entry = Entry::new("m").unwrap();
    emit_wide(&WideKey::of([stage]), &Variant::default(), &entry, buffer).unwrap()
}

/// The text of what a session holds beside a plain variant and an entry.
fn text(session: &Session) -> String {
    let mut session = *session;
    apply(&mut session, Variant::default());
    apply(&mut session, Entry::new("m").unwrap());
    let mut buffer = [0; TEXT_LENGTH];
    let applied = session.apply(&mut Record::Emit.to_vec().as_slice(), &mut buffer);
    match applied {
        Ok(Applied::Text(emission)) => emission.as_str().to_owned(),
        other => panic!("no text: {other:?}"),
    }
}

fn apply(session: &mut Session, record: impl Into<Record>) -> Applied<'static> {
    let bytes = record.into().to_vec();
    session.apply(&mut bytes.as_slice(), &mut []).unwrap()
}

fn write(session: &mut Session, stage: u8, state: State) {
    let write = StateWrite::new(stage, state).unwrap();
    assert_eq!(apply(session, write), Applied::Altered);
}

#[test]
fn three_operands_have_texts() {
    let mut buffer = [0; TEXT_LENGTH];
    let e = emission(lerp(), &mut buffer);
    let line = "current = float4(((ps_c[0] * t0 + (1.0 - ps_c[0]) * in.color0)).rgb, (current).a);";
    assert!(e.as_str().contains(line), "{}", e.as_str());
    assert_eq!(
        (e.mask, e.rows, e.lookups, e.warnings),
        (StageMask::from_bits(1), 1, 1, Warnings::NONE)
    );
    let mut stage = lerp();
    stage.colour.op = Op::MULTIPLYADD;
    stage.alpha = Combiner::new(Op::LERP, Argument::CURRENT, Argument::DIFFUSE);
    stage.alpha_arg0 = Argument::CONSTANT.complement();
    let e = emission(stage, &mut buffer);
    let line = "current = float4((saturate(ps_c[0] + t0 * in.color0)).rgb, \
                (((1.0 - ps_c[1]) * current + (1.0 - (1.0 - ps_c[1])) * in.color0)).a);";
    assert!(e.as_str().contains(line), "{}", e.as_str());
    assert_eq!(e.rows, 2);
}

#[test]
fn other_ops_ignore_argument_0() {
    let (mut wide, mut narrow) = ([0; TEXT_LENGTH], [0; TEXT_LENGTH]);
    let mut stage = lerp();
    stage.colour.op = Op::MODULATE;
    let key = Key::of([Stage {
        colour: stage.colour,
        alpha: stage.alpha,
        flags: stage.flags,
    }]);
    let entry = Entry::new("m").unwrap();
    let expected = emit(&key, &Variant::default(), &entry, &mut narrow).unwrap();
    for arg0 in [Argument::TEXTURE, Argument::CONSTANT, Argument(0x4f)] {
        (stage.colour_arg0, stage.alpha_arg0) = (arg0, arg0);
        assert_eq!(emission(stage, &mut wide), expected);
    }
}

#[test]
fn a_key_has_no_three_operands() {
    let mut buffer = [0; TEXT_LENGTH];
    let key = Key::of([Stage {
        colour: Combiner::new(Op::LERP, Argument::DIFFUSE, Argument::SPECULAR),
        ..Stage::DISABLED
    }]);
    let entry = Entry::new("m").unwrap();
    let e = emit(&key, &Variant::default(), &entry, &mut buffer).unwrap();
    assert!(e.as_str().contains("float4((in.color0).rgb, (current).a)"));
    assert_eq!(e.warnings.op, StageMask::from_bits(1));
}

#[test]
fn argument_0_makes_a_key_wide() {
    // With nothing held, from the defaults.
    let mut session = Session::new();
    write(&mut session, 7, State::AlphaArg0(Argument::TEMP));
    let mut key = WideKey::from(Key::BEFORE_WRITES);
    key.stages[7].alpha_arg0 = Argument::TEMP;
    assert_eq!(session.key(), Some(key.into()));
    // From a key, whatever the value.
    let narrow = Key::of([Stage::DISABLED]);
    for stage in 0..STAGES {
        let mut session = Session::new();
        apply(&mut session, narrow);
        write(
            &mut session,
            stage as u8,
            State::ColourArg0(Argument::CURRENT),
        );
        assert_eq!(session.key(), Some(WideKey::from(narrow).into()));
        assert_eq!(session.key().and_then(HeldKey::narrow), None);
        // Other writes leave a key what it is.
        write(&mut session, 0, State::TextureBound(true));
        assert!(session.key().and_then(HeldKey::wide).is_some());
    }
    // A wide key's record, and a write to it.
    let mut wide = WideKey::of([lerp()]);
    let mut session = Session::new();
    assert_eq!(apply(&mut session, wide), Applied::Replaced);
    write(&mut session, 0, State::ColourArg0(Argument::SPECULAR));
    wide.stages[0].colour_arg0 = Argument::SPECULAR;
    assert_eq!(session.key().and_then(HeldKey::wide), Some(wide));
}

#[test]
fn only_a_key_record_turns_back() {
    let lerp = Key::of([Stage {
        colour: Combiner::new(Op::LERP, Argument::DIFFUSE, Argument::SPECULAR),
        ..Stage::DISABLED
    }]);
    let first = "current = float4((in.color0).rgb, (current).a);";
    let by_current = "(current * in.color0 + (1.0 - current) * in.color1)";
    let by_specular = "(in.color1 * in.color0 + (1.0 - in.color1) * in.color1)";
    let mut session = Session::new();
    apply(&mut session, lerp);
    assert!(text(&session).contains(first));
    write(&mut session, 5, State::AlphaArg0(Argument::DIFFUSE));
    assert!(text(&session).contains(by_current));
    write(&mut session, 0, State::ColourArg0(Argument::SPECULAR));
    assert!(text(&session).contains(by_specular));
    apply(&mut session, lerp);
    assert!(text(&session).contains(first));
    // The arguments 0 of before are gone.
    write(&mut session, 7, State::ColourArg0(Argument::DIFFUSE));
    assert!(text(&session).contains(by_current));
}
