//! Every number and every struct of include/yuzuknoll.h is that of this crate.

use std::{collections::BTreeMap, mem::offset_of};

use yuzuknoll::{
    Argument, Combiner, Comparison, Entry, FogMode, KEY_TEXT_LENGTH, Key, Kind, Op, Refusal,
    Register, STAGES, Stage, StageFlags, State, StateWrite, TEXT_LENGTH, VERSION, Variant,
    VariantFlags, WIDE_KEY_TEXT_LENGTH, WideKey, WideStage, raw,
};

const HEADER: &str = include_str!("../../include/yuzuknoll.h");

/// What the header defines, without the prefix that all names have.
fn defined() -> BTreeMap<&'static str, &'static str> {
    let lines = HEADER
        .lines()
        .filter_map(|line| line.strip_prefix("#define YUZUKNOLL_"));
    lines
        .filter_map(|line| line.split_once(' '))
        .filter(|(name, _)| !name.contains('('))
        .map(|(name, rest)| (name, rest.split("/*").next().unwrap().trim()))
        .collect()
}

fn number(text: &str) -> Option<u64> {
    match text.strip_prefix("0x") {
        Some(digits) => u64::from_str_radix(digits, 16).ok(),
        None => text.parse().ok(),
    }
}

/// The place of a mask, from the place of its field.
const fn mask(offset: usize) -> u64 {
    ((offset - offset_of!(Variant, depth_sampler)) / 2) as u64
}

fn named() -> BTreeMap<&'static str, u64> {
    let version: Vec<u64> = VERSION.split('.').map(|n| n.parse().unwrap()).collect();
    let ops = [
        ("OP_DISABLE", Op::DISABLE),
        ("OP_SELECTARG1", Op::SELECTARG1),
        ("OP_SELECTARG2", Op::SELECTARG2),
        ("OP_MODULATE", Op::MODULATE),
        ("OP_MODULATE2X", Op::MODULATE2X),
        ("OP_MODULATE4X", Op::MODULATE4X),
        ("OP_ADD", Op::ADD),
        ("OP_ADDSIGNED", Op::ADDSIGNED),
        ("OP_ADDSIGNED2X", Op::ADDSIGNED2X),
        ("OP_SUBTRACT", Op::SUBTRACT),
        ("OP_ADDSMOOTH", Op::ADDSMOOTH),
        ("OP_BLENDDIFFUSEALPHA", Op::BLENDDIFFUSEALPHA),
        ("OP_BLENDTEXTUREALPHA", Op::BLENDTEXTUREALPHA),
        ("OP_BLENDFACTORALPHA", Op::BLENDFACTORALPHA),
        ("OP_BLENDTEXTUREALPHAPM", Op::BLENDTEXTUREALPHAPM),
        ("OP_BLENDCURRENTALPHA", Op::BLENDCURRENTALPHA),
        ("OP_MODULATEALPHA_ADDCOLOR", Op::MODULATEALPHA_ADDCOLOR),
        ("OP_MODULATECOLOR_ADDALPHA", Op::MODULATECOLOR_ADDALPHA),
        (
            "OP_MODULATEINVALPHA_ADDCOLOR",
            Op::MODULATEINVALPHA_ADDCOLOR,
        ),
        (
            "OP_MODULATEINVCOLOR_ADDALPHA",
            Op::MODULATEINVCOLOR_ADDALPHA,
        ),
        ("OP_BUMPENVMAP", Op::BUMPENVMAP),
        ("OP_BUMPENVMAPLUMINANCE", Op::BUMPENVMAPLUMINANCE),
        ("OP_DOTPRODUCT3", Op::DOTPRODUCT3),
        ("OP_MULTIPLYADD", Op::MULTIPLYADD),
        ("OP_LERP", Op::LERP),
    ];
    let arguments = [
        ("ARG_DIFFUSE", Argument::DIFFUSE),
        ("ARG_CURRENT", Argument::CURRENT),
        ("ARG_TEXTURE", Argument::TEXTURE),
        ("ARG_TFACTOR", Argument::TFACTOR),
        ("ARG_SPECULAR", Argument::SPECULAR),
        ("ARG_TEMP", Argument::TEMP),
        ("ARG_CONSTANT", Argument::CONSTANT),
        ("ARG_COMPLEMENT", Argument(0).complement()),
        ("ARG_ALPHAREPLICATE", Argument(0).alpha_replicate()),
    ];
    let comparisons = [
        ("CMP_NEVER", Comparison::NEVER),
        ("CMP_LESS", Comparison::LESS),
        ("CMP_EQUAL", Comparison::EQUAL),
        ("CMP_LESSEQUAL", Comparison::LESSEQUAL),
        ("CMP_GREATER", Comparison::GREATER),
        ("CMP_NOTEQUAL", Comparison::NOTEQUAL),
        ("CMP_GREATEREQUAL", Comparison::GREATEREQUAL),
        ("CMP_ALWAYS", Comparison::ALWAYS),
    ];
    let fogs = [
        ("FOG_NONE", FogMode::NONE),
        ("FOG_EXP", FogMode::EXP),
        ("FOG_EXP2", FogMode::EXP2),
        ("FOG_LINEAR", FogMode::LINEAR),
    ];
    let stage_flags = [
        ("STAGE_TEXTURED", StageFlags::TEXTURED),
        ("STAGE_TO_TEMP", StageFlags::TO_TEMP),
    ];
    let variant_flags = [
        ("VARIANT_FLAT_SHADE", VariantFlags::FLAT_SHADE),
        ("VARIANT_SRGB_WRITE", VariantFlags::SRGB_WRITE),
        ("VARIANT_SAMPLE_MASK", VariantFlags::SAMPLE_MASK),
        ("VARIANT_POINT_SPRITE", VariantFlags::POINT_SPRITE),
        ("VARIANT_LOD_BIAS", VariantFlags::LOD_BIAS),
        ("VARIANT_FOG_SOURCE_W", VariantFlags::FOG_SOURCE_W),
    ];
    let states = [
        ("STATE_TEXTURE_BOUND", State::TextureBound(true)),
        ("STATE_COLOUR_OP", State::ColourOp(Op::ADD)),
        ("STATE_COLOUR_ARG1", State::ColourArg1(Argument::TEMP)),
        ("STATE_COLOUR_ARG2", State::ColourArg2(Argument::TEMP)),
        ("STATE_ALPHA_OP", State::AlphaOp(Op::ADD)),
        ("STATE_ALPHA_ARG1", State::AlphaArg1(Argument::TEMP)),
        ("STATE_ALPHA_ARG2", State::AlphaArg2(Argument::TEMP)),
        ("STATE_COLOUR_ARG0", State::ColourArg0(Argument::TEMP)),
        ("STATE_ALPHA_ARG0", State::AlphaArg0(Argument::TEMP)),
        ("STATE_RESULT_ARG", State::ResultArg(Register::Temp)),
    ];
    let refusals = [
        ("REFUSED_CUT_SHORT", Refusal::CutShort),
        ("REFUSED_UNKNOWN_KIND", Refusal::UnknownKind),
        ("REFUSED_STAGE_FLAGS", Refusal::StageFlags),
        ("REFUSED_SPECULAR_ADD", Refusal::SpecularAdd),
        ("REFUSED_VARIANT_FLAGS", Refusal::VariantFlags),
        ("REFUSED_ENTRY_NAME", Refusal::EntryName),
        ("REFUSED_EMIT_TOO_EARLY", Refusal::EmitTooEarly),
        ("REFUSED_NO_ROOM", Refusal::NoRoom),
        ("REFUSED_INPUT_TOO_LONG", Refusal::InputTooLong),
        ("REFUSED_STAGE_NUMBER", Refusal::StageNumber),
        ("REFUSED_STATE_TYPE", Refusal::StateType),
        ("REFUSED_STATE_VALUE", Refusal::StateValue),
        ("REFUSED_RESERVED_WORD", Refusal::ReservedWord),
    ];
    let kinds = [
        ("KIND_KEY", "KEY_RECORD_LENGTH", Kind::Key),
        ("KIND_VARIANT", "VARIANT_RECORD_LENGTH", Kind::Variant),
        ("KIND_ENTRY", "ENTRY_RECORD_LENGTH", Kind::Entry),
        ("KIND_EMIT", "EMIT_RECORD_LENGTH", Kind::Emit),
        ("KIND_STATE", "STATE_RECORD_LENGTH", Kind::State),
        ("KIND_WIDE_KEY", "WIDE_KEY_RECORD_LENGTH", Kind::WideKey),
    ];
    let plain = [
        ("VERSION_MAJOR", version[0]),
        ("VERSION_MINOR", version[1]),
        ("VERSION_PATCH", version[2]),
        ("ACCEPTED", 0),
        (
            "MASK_DEPTH_SAMPLER",
            mask(offset_of!(Variant, depth_sampler)),
        ),
        ("MASK_DEPTH_FETCH", mask(offset_of!(Variant, depth_fetch))),
        ("MASK_FETCH4", mask(offset_of!(Variant, fetch4))),
        ("MASK_FETCH4_ALPHA", mask(offset_of!(Variant, fetch4_alpha))),
        (
            "MASK_RAW_DEPTH_RED",
            mask(offset_of!(Variant, raw_depth_red)),
        ),
        ("MASK_VOLUME", mask(offset_of!(Variant, volume))),
        ("MASK_CUBE", mask(offset_of!(Variant, cube))),
        ("TEXT_LENGTH", TEXT_LENGTH as u64),
        ("KEY_TEXT_LENGTH", KEY_TEXT_LENGTH as u64),
        ("WIDE_KEY_TEXT_LENGTH", WIDE_KEY_TEXT_LENGTH as u64),
        ("HELD_LENGTH", raw::HELD_LENGTH as u64),
        ("HELD_KEY", 0),
        ("HELD_VARIANT", 75),
        ("HELD_ENTRY", 95),
    ];
    let mut all = BTreeMap::from(plain);
    all.extend(ops.map(|(name, op)| (name, op.0.into())));
    all.extend(arguments.map(|(name, argument)| (name, argument.0.into())));
    all.extend(comparisons.map(|(name, comparison)| (name, comparison.0.into())));
    all.extend(fogs.map(|(name, fog)| (name, fog.0.into())));
    all.extend(stage_flags.map(|(name, flags)| (name, flags.bits().into())));
    all.extend(variant_flags.map(|(name, flags)| (name, flags.bits().into())));
    all.extend(states.map(|(name, state)| (name, state.number().into())));
    all.extend(refusals.map(|(name, refusal)| (name, refusal.number())));
    all.extend(kinds.map(|(name, _, kind)| (name, kind.number().into())));
    all.extend(kinds.map(|(_, name, kind)| (name, kind.record_length() as u64)));
    all
}

#[test]
fn every_number_is_named_here_and_there() {
    let mut defined = defined();
    assert_eq!(defined.remove("VERSION"), Some("\"0.13.0\""));
    assert_eq!(VERSION, "0.13.0");
    // the guard of the header
    assert_eq!(defined.remove("H"), None);
    let numbers: BTreeMap<&str, u64> = defined
        .into_iter()
        .map(|(name, text)| (name, number(text).expect(name)))
        .collect();
    assert_eq!(numbers, named());
}

#[test]
fn numbers_lead_back_to_their_names() {
    assert_eq!(Refusal::from_number(0), None);
    for number in 1..=14 {
        let refusal = Refusal::from_number(number).unwrap();
        assert_eq!(refusal.number(), number);
        assert_eq!(refusal == Refusal::Other(number), number == 14);
        let said = refusal.to_string();
        assert!(said.starts_with(&format!("refused with {number}: ")));
    }
    for number in 0..=u8::MAX {
        let kind = Kind::from_number(number);
        assert_eq!(kind.is_some(), (1..=6).contains(&number));
        assert!(kind.is_none_or(|kind| kind.number() == number));
    }
}

/// A field's name, offset and size.
type Field = (String, usize, usize);

/// The structs of the header: their sizes and fields, by the sizes of the types that they are made of.
fn structs() -> BTreeMap<&'static str, (usize, Vec<Field>)> {
    let mut found: BTreeMap<&str, (usize, Vec<Field>)> = BTreeMap::new();
    for part in HEADER.split("typedef struct {").skip(1) {
        let (body, rest) = part.split_once('}').unwrap();
        let name = rest.split_once(';').unwrap().0.trim();
        let (mut at, mut fields) = (0, Vec::new());
        for declaration in without_comments(body).split(';') {
            let Some((type_name, names)) = declaration.trim().split_once(' ') else {
                continue;
            };
            let size = match type_name {
                "uint8_t" | "char" => 1,
                "uint64_t" => 8,
                other => found[other].0,
            };
            for field in names.split(',') {
                let mut parts = field.trim().split('[');
                let field = parts.next().unwrap().to_owned();
                let count: usize = parts.map(|n| length(n.trim_end_matches(']'))).product();
                fields.push((field, at, size * count));
                at += size * count;
            }
        }
        found.insert(name, (at, fields));
    }
    found
}

fn without_comments(text: &str) -> String {
    let parts = text.split("/*");
    parts
        .map(|part| part.split_once("*/").map_or(part, |(_, rest)| rest))
        .collect()
}

fn length(text: &str) -> usize {
    let text = text.strip_prefix("YUZUKNOLL_").unwrap_or(text);
    let text = defined().get(text).copied().unwrap_or(text);
    text.parse().unwrap()
}

/// A struct's name in the header, its size here, and its fields' names in the header with their offsets here.
type Layout = (&'static str, usize, Vec<(String, usize)>);

macro_rules! fields {
    ($type:ty: $($($field:ident).+ = $name:expr),*) => {
        vec![$(($name.to_owned(), offset_of!($type, $($field).+))),*]
    };
}

#[test]
fn every_struct_has_the_same_layout() {
    let structs = structs();
    let layouts: [Layout; 11] = [
        (
            "yuzuknoll_stage",
            size_of::<Stage>(),
            fields!(Stage: colour.op = "colour_op", colour.arg1 = "colour_arg1", colour.arg2 = "colour_arg2", alpha.op = "alpha_op",
                alpha.arg1 = "alpha_arg1", alpha.arg2 = "alpha_arg2", flags = "flags"),
        ),
        (
            "yuzuknoll_key",
            size_of::<Key>(),
            fields!(Key: stages = "stages", specular = "specular", projected = "projected"),
        ),
        (
            "yuzuknoll_wide_stage",
            size_of::<WideStage>(),
            fields!(WideStage: colour.op = "colour_op", colour.arg1 = "colour_arg1", colour.arg2 = "colour_arg2", alpha.op = "alpha_op",
                alpha.arg1 = "alpha_arg1", alpha.arg2 = "alpha_arg2", colour_arg0 = "colour_arg0", alpha_arg0 = "alpha_arg0", flags = "flags"),
        ),
        (
            "yuzuknoll_wide_key",
            size_of::<WideKey>(),
            fields!(WideKey: stages = "stages", specular = "specular", projected = "projected"),
        ),
        (
            "yuzuknoll_variant",
            size_of::<Variant>(),
            fields!(Variant: alpha_function = "alpha_function", fog_mode = "fog_mode", fog_table_mode = "fog_table_mode",
                depth_sampler = "masks", sample_mask = "sample_mask", flags = "flags"),
        ),
        (
            "yuzuknoll_entry",
            size_of::<Entry>(),
            vec![("length".to_owned(), 0), ("name".to_owned(), 1)],
        ),
        (
            "yuzuknoll_state_write",
            raw::STATE_LENGTH,
            ["stage", "type", "value"]
                .map(str::to_owned)
                .into_iter()
                .zip(0..)
                .collect(),
        ),
        (
            "yuzuknoll_result",
            size_of::<raw::Emitted>(),
            fields!(raw::Emitted: length = "length", mask = "mask", rows = "rows", lookups = "lookups", op_warnings = "op_warnings",
                selector_warnings = "selector_warnings", modifier_warnings = "modifier_warnings", alpha_warning = "alpha_warning"),
        ),
        (
            "yuzuknoll_record",
            size_of::<raw::Record>(),
            fields!(raw::Record: kind = "kind", taken = "taken"),
        ),
        (
            "yuzuknoll_held",
            raw::HELD_LENGTH,
            vec![("bytes".to_owned(), 0)],
        ),
        (
            "yuzuknoll_applied",
            size_of::<raw::Applied>(),
            fields!(raw::Applied: kind = "kind", taken = "taken", result = "result"),
        ),
    ];
    assert_eq!(structs.len(), layouts.len());
    for (name, size, fields) in layouts {
        let (header_size, header_fields) = &structs[name];
        assert_eq!(size, *header_size, "{name}");
        let header_fields: Vec<(String, usize)> = header_fields
            .iter()
            .map(|(field, at, _)| (field.clone(), *at))
            .collect();
        assert_eq!(fields, header_fields, "{name}");
    }
}

/// The sizes that the header asserts, and that the archive relies on.
#[test]
fn sizes_are_asserted() {
    let structs = structs();
    let asserted: Vec<(&str, usize)> = HEADER
        .lines()
        .filter_map(|line| line.strip_prefix("YUZUKNOLL_SIZE(")?.strip_suffix(");"))
        .filter_map(|inside| inside.split_once(", "))
        .map(|(name, size)| (name, length(size)))
        .collect();
    assert_eq!(
        asserted,
        [
            ("yuzuknoll_key", raw::KEY_LENGTH),
            ("yuzuknoll_wide_key", raw::WIDE_KEY_LENGTH),
            ("yuzuknoll_state_write", raw::STATE_LENGTH),
            ("yuzuknoll_variant", raw::VARIANT_LENGTH),
            ("yuzuknoll_entry", raw::ENTRY_LENGTH),
            ("yuzuknoll_result", size_of::<raw::Emitted>()),
            ("yuzuknoll_record", size_of::<raw::Record>()),
            ("yuzuknoll_applied", size_of::<raw::Applied>()),
            ("yuzuknoll_held", raw::HELD_LENGTH),
        ]
    );
    for (name, size) in asserted {
        assert_eq!(structs[name].0, size, "{name}");
    }
    assert_eq!(size_of::<Combiner>(), 3);
    assert_eq!(size_of::<Stage>() * STAGES + 2, size_of::<Key>());
    assert_eq!(size_of::<WideStage>() * STAGES + 2, size_of::<WideKey>());
    for alignment in [
        align_of::<Key>(),
        align_of::<Variant>(),
        align_of::<Entry>(),
        align_of::<WideKey>(),
    ] {
        assert_eq!(alignment, 1);
    }
}

/// The bytes of a key, a variant, an entry and a state write are what was set, in the order of the fields.
#[test]
fn bytes_are_the_fields_in_order() {
    let combiner = |n| Combiner::new(Op(n), Argument(n + 1), Argument(n + 2));
    let stage = Stage {
        colour: combiner(10),
        alpha: combiner(13),
        flags: StageFlags::TO_TEMP,
    };
    let key = Key {
        specular: true,
        projected: 0x81,
        ..Key::of([Stage::DISABLED, stage])
    };
    let bytes = key.as_bytes();
    assert_eq!(bytes[..7], [1, 0, 0, 1, 0, 0, 0]);
    assert_eq!(bytes[7..14], [10, 11, 12, 13, 14, 15, 2]);
    assert_eq!(bytes[56..], [1, 0x81]);
    let mut wide = WideKey::from(key);
    wide.stages[1].colour_arg0 = Argument(16);
    wide.stages[1].alpha_arg0 = Argument(17);
    let bytes = wide.as_bytes();
    assert_eq!(bytes[..9], [1, 0, 0, 1, 0, 0, 1, 1, 0]);
    assert_eq!(bytes[9..18], [10, 11, 12, 13, 14, 15, 16, 17, 2]);
    assert_eq!(bytes[72..], [1, 0x81]);
    let entry = Entry::new("abc").unwrap();
    assert_eq!(entry.as_bytes()[..5], [3, b'a', b'b', b'c', 0]);
    let variant = Variant {
        fog_mode: FogMode::EXP2,
        depth_sampler: yuzuknoll::Mask::from_bits(0x0201),
        sample_mask: 7,
        flags: VariantFlags::LOD_BIAS | VariantFlags::SRGB_WRITE,
        ..Variant::default()
    };
    let bytes = variant.as_bytes();
    assert_eq!(bytes[..5], [0, 2, 0, 1, 2]);
    assert_eq!(bytes[17..], [7, 18]);
    let write = StateWrite::new(3, State::AlphaOp(Op::DOTPRODUCT3)).unwrap();
    assert_eq!(write.to_bytes(), [3, 4, 24, 0, 0, 0]);
}
