//! What each named number of a key and of a variant does to the text and to what is known of it.

use yuzuknoll::{
    Argument, Combiner, Comparison, Emission, Entry, FogMode, Key, Mask, Op, Stage, StageFlags,
    StageMask, TEXT_LENGTH, Variant, VariantFlags, Warnings, emit,
};

const SPECULAR: Argument = Argument::SPECULAR;
const TFACTOR: Argument = Argument::TFACTOR;

/// The body of the text, without the header and the name that every text has.
struct Text {
    whole: String,
    mask: u8,
    rows: u64,
    lookups: u64,
    warnings: Warnings,
}

impl Text {
    fn of(key: &Key, variant: &Variant) -> Self {
        let mut buffer = [0xaa; TEXT_LENGTH];
        let entry = Entry::new("shader").unwrap();
        let emission = emit(key, variant, &entry, &mut buffer).unwrap();
        let Emission {
            mask,
            rows,
            lookups,
            warnings,
            ..
        } = emission;
        let text = emission.as_str();
        assert!(text.starts_with("#include <metal_stdlib>\n"));
        assert!(text.ends_with(";\n}\n"));
        Self {
            whole: text.to_owned(),
            mask: mask.bits(),
            rows,
            lookups,
            warnings,
        }
    }

    #[track_caller]
    fn has(&self, line: &str) {
        assert!(self.whole.contains(line), "no {line} in {}", self.whole);
    }

    #[track_caller]
    fn lacks(&self, line: &str) {
        assert!(!self.whole.contains(line), "{line} in {}", self.whole);
    }
}

fn text(stages: &[Stage]) -> Text {
    text_with(stages, Variant::default())
}

fn text_with(stages: &[Stage], variant: Variant) -> Text {
    let mut key = Key::default();
    key.stages[..stages.len()].copy_from_slice(stages);
    Text::of(&key, &variant)
}

/// A stage that computes colour alone.
fn colour(op: Op, arg1: Argument, arg2: Argument, flags: StageFlags) -> Stage {
    Stage {
        colour: Combiner::new(op, arg1, arg2),
        flags,
        ..Stage::DISABLED
    }
}

/// A stage that shows its texture.
fn lookup() -> Stage {
    colour(
        Op::SELECTARG1,
        Argument::TEXTURE,
        Argument::DIFFUSE,
        StageFlags::TEXTURED,
    )
}

/// The line of stage 0 that assigns this colour and keeps alpha.
fn assigned(expression: &str) -> String {
    format!("    current = float4(({expression}).rgb, (current).a);\n")
}

#[test]
fn ops_with_a_formula() {
    let formulas = [
        (Op::SELECTARG1, "A"),
        (Op::SELECTARG2, "B"),
        (Op::MODULATE, "(A * B)"),
        (Op::MODULATE2X, "saturate(2.0 * A * B)"),
        (Op::MODULATE4X, "saturate(4.0 * A * B)"),
        (Op::ADD, "saturate(A + B)"),
        (Op::ADDSIGNED, "saturate(A + B - 0.5)"),
        (Op::ADDSIGNED2X, "saturate(2.0 * (A + B - 0.5))"),
        (Op::SUBTRACT, "saturate(A - B)"),
        (Op::ADDSMOOTH, "saturate(A + B * (1.0 - A))"),
        (
            Op::BLENDDIFFUSEALPHA,
            "(A * in.color0.a + B * (1.0 - in.color0.a))",
        ),
        (Op::BLENDTEXTUREALPHA, "(A * t0.a + B * (1.0 - t0.a))"),
        (
            Op::BLENDFACTORALPHA,
            "(A * ps_c[0].a + B * (1.0 - ps_c[0].a))",
        ),
        (Op::BLENDTEXTUREALPHAPM, "saturate(A + B * (1.0 - t0.a))"),
        (
            Op::BLENDCURRENTALPHA,
            "(A * current.a + B * (1.0 - current.a))",
        ),
        (Op::MODULATEALPHA_ADDCOLOR, "saturate(A + (A).a * B)"),
        (Op::MODULATECOLOR_ADDALPHA, "saturate(A * B + (A).a)"),
        (
            Op::MODULATEINVALPHA_ADDCOLOR,
            "saturate(A + (1.0 - (A).a) * B)",
        ),
        (
            Op::MODULATEINVCOLOR_ADDALPHA,
            "saturate((1.0 - A) * B + (A).a)",
        ),
    ];
    for (op, formula) in formulas {
        let formula = formula.replace('A', "in.color1").replace('B', "ps_c[0]");
        let text = text(&[colour(op, SPECULAR, TFACTOR, StageFlags::TEXTURED)]);
        text.has(&assigned(&formula));
        assert_eq!((text.mask, text.warnings), (1, Warnings::NONE));
    }
}

#[test]
fn a_dot_product_sets_alpha_too() {
    let text = text(&[colour(Op::DOTPRODUCT3, SPECULAR, TFACTOR, StageFlags::NONE)]);
    text.has(
        "    current = float4(saturate(4.0 * dot((in.color1).rgb - 0.5, (ps_c[0]).rgb - 0.5)));\n",
    );
    assert_eq!(text.warnings, Warnings::NONE);
}

#[test]
fn a_disabled_stage_ends_the_cascade() {
    let text = text(&[Stage::DISABLED, lookup()]);
    text.lacks("    current = float4(");
    assert_eq!((text.mask, text.rows, text.lookups), (0, 0, 0));
}

#[test]
fn bump_stages_displace_the_next_lookup() {
    for (op, scaled) in [(Op::BUMPENVMAP, false), (Op::BUMPENVMAPLUMINANCE, true)] {
        let bump = colour(
            op,
            Argument::TEXTURE,
            Argument::CURRENT,
            StageFlags::TEXTURED,
        );
        let text = text(&[bump, lookup()]);
        text.has("    float4 bc1 = float4(in.texcoord1.xy + float2(bump_env[0].x * t0.x");
        text.has("    float4 t1 = s1.sample(samp1, bc1.xy);\n");
        let scales = text.whole.contains("    t1 *= saturate(");
        assert_eq!(scales, scaled);
        assert_eq!((text.mask, text.lookups), (3, 2));
        assert_eq!(text.warnings, Warnings::NONE);
    }
}

/// Warnings of stage 0: of its op, a selector, a modifier.
fn of_stage_0(warns: [bool; 3]) -> Warnings {
    let [op, selector, modifier] = warns.map(|warns| StageMask::from_bits(warns.into()));
    Warnings {
        op,
        selector,
        modifier,
        alpha: false,
    }
}

#[test]
fn an_op_without_a_name_gives_argument_1_and_a_warning() {
    for op in [0, 17, 25, 26, 27, 255] {
        let text = text(&[colour(Op(op), SPECULAR, TFACTOR, StageFlags::NONE)]);
        text.has(&assigned("in.color1"));
        assert_eq!(text.warnings, of_stage_0([true, false, false]));
    }
}

#[test]
fn arguments_select_their_colours() {
    let sources = [
        (Argument::DIFFUSE, "in.color0"),
        (Argument::CURRENT, "current"),
        (Argument::TEXTURE, "t0"),
        (Argument::TFACTOR, "ps_c[0]"),
        (Argument::SPECULAR, "in.color1"),
        (Argument::TEMP, "temp"),
        (Argument::CONSTANT, "ps_c[1]"),
    ];
    for (argument, source) in sources {
        let modified = [
            (argument, source.to_owned()),
            (argument.complement(), format!("(1.0 - {source})")),
            (argument.alpha_replicate(), format!("{source}.aaaa")),
            (
                argument.complement().alpha_replicate(),
                format!("(1.0 - {source}.aaaa)"),
            ),
        ];
        for (argument, source) in modified {
            let text = text(&[colour(
                Op::SELECTARG1,
                argument,
                Argument::DIFFUSE,
                StageFlags::TEXTURED,
            )]);
            text.has(&assigned(&source));
            assert_eq!(text.warnings, Warnings::NONE);
        }
    }
}

#[test]
fn arguments_without_a_name_give_a_warning() {
    for selector in 7..16 {
        let text = text(&[colour(
            Op::SELECTARG1,
            Argument(selector),
            Argument::DIFFUSE,
            StageFlags::NONE,
        )]);
        text.has(&assigned("float4(1.0)"));
        assert_eq!(text.warnings, of_stage_0([false, true, false]));
    }
    for bits in [0x40, 0x80, 0xc0] {
        let text = text(&[colour(
            Op::SELECTARG1,
            Argument(bits),
            Argument::DIFFUSE,
            StageFlags::NONE,
        )]);
        text.has(&assigned("in.color0"));
        assert_eq!(text.warnings, of_stage_0([false, false, true]));
    }
}

#[test]
fn an_unbound_texture_gives_what_came_before() {
    let text = text(&[colour(
        Op::MODULATE,
        Argument::TEXTURE,
        SPECULAR,
        StageFlags::NONE,
    )]);
    text.has(&assigned("current"));
    assert_eq!((text.mask, text.lookups), (0, 0));
}

#[test]
fn a_stage_may_write_to_temp() {
    let to_temp = Stage {
        flags: StageFlags::TEXTURED | StageFlags::TO_TEMP,
        ..lookup()
    };
    let from_temp = colour(
        Op::SELECTARG1,
        Argument::TEMP,
        Argument::DIFFUSE,
        StageFlags::NONE,
    );
    let text = text(&[to_temp, from_temp]);
    text.has("    temp = float4((t0).rgb, (temp).a);\n");
    text.has(&assigned("temp"));
}

#[test]
fn rows_reach_to_the_last_constant() {
    for stages in 1..=8 {
        let constant = colour(
            Op::SELECTARG1,
            Argument::CONSTANT,
            Argument::DIFFUSE,
            StageFlags::NONE,
        );
        let text = text(&vec![constant; stages]);
        assert_eq!(text.rows, stages as u64 + 1);
        text.has(&assigned(&format!("ps_c[{stages}]")));
    }
    let factor = colour(Op::SELECTARG1, TFACTOR, Argument::DIFFUSE, StageFlags::NONE);
    assert_eq!(text(&[factor]).rows, 1);
}

#[test]
fn specular_and_projected() {
    let key = Key {
        specular: true,
        projected: 1,
        ..Key::of([lookup()])
    };
    let text = Text::of(&key, &Variant::default());
    text.has("    current = float4(saturate(current.rgb + in.color1.rgb), current.a);\n");
    text.has("in.texcoord0.xy / in.texcoord0.w");
}

#[test]
fn comparisons_of_the_alpha_test() {
    let tests = [
        (Comparison::NEVER, "false"),
        (Comparison::LESS, "oC0.a < alpha_ref"),
        (Comparison::EQUAL, "oC0.a == alpha_ref"),
        (Comparison::LESSEQUAL, "oC0.a <= alpha_ref"),
        (Comparison::GREATER, "oC0.a > alpha_ref"),
        (Comparison::NOTEQUAL, "oC0.a != alpha_ref"),
        (Comparison::GREATEREQUAL, "oC0.a >= alpha_ref"),
        (Comparison(9), "true"),
        (Comparison(255), "true"),
    ];
    for (alpha_function, test) in tests {
        let variant = Variant {
            alpha_function,
            ..Variant::default()
        };
        let text = text_with(&[], variant);
        text.has(&format!("    if (!({test})) discard_fragment();\n"));
        let expected = Warnings {
            alpha: alpha_function.0 > Comparison::ALWAYS.0,
            ..Warnings::NONE
        };
        assert_eq!(text.warnings, expected);
    }
    for alpha_function in [Comparison::NONE, Comparison::ALWAYS] {
        let variant = Variant {
            alpha_function,
            ..Variant::default()
        };
        text_with(&[], variant).lacks("discard_fragment");
    }
}

#[test]
fn fog_of_vertices_and_of_pixels() {
    let vertex = "    oC0 = float4(mix(fog_data[0].rgb, oC0.rgb, saturate(in.fog.x)), oC0.a);\n";
    let factors = [
        (
            FogMode::EXP,
            "saturate(precise::exp(-fog_data[1].z * fog_c))",
        ),
        (FogMode::EXP2, "saturate(precise::exp(-fog_dz * fog_dz))"),
        (
            FogMode::LINEAR,
            "saturate((fog_data[1].y - fog_c) / fog_range)",
        ),
        (FogMode(4), "saturate((fog_data[1].y - fog_c) / fog_range)"),
    ];
    for (mode, factor) in factors {
        let by_vertex = Variant {
            fog_mode: mode,
            ..Variant::default()
        };
        text_with(&[], by_vertex).has(vertex);
        let by_pixel = Variant {
            fog_table_mode: mode,
            ..by_vertex
        };
        let text = text_with(&[], by_pixel);
        text.has(factor);
        text.has("    float fog_c = in.fog_z + fog_data[1].w;\n");
        text.lacks(vertex);
    }
    let none = Variant {
        fog_mode: FogMode::NONE,
        fog_table_mode: FogMode::NONE,
        ..Variant::default()
    };
    text_with(&[], none).lacks("fog_data");
}

/// Each mask at stage 2, and what it makes of that stage's texture and lookup.
#[test]
fn masks_shape_a_lookup() {
    let mask = Mask::from_bits(1 << 2);
    let none = Variant::default();
    let depth = Variant {
        depth_sampler: mask,
        ..none
    };
    let fetched = Variant {
        depth_fetch: mask,
        ..depth
    };
    let gathered = Variant {
        fetch4: mask,
        ..none
    };
    let at = "in.texcoord2.xy";
    let cases = [
        (
            none,
            "texture2d<float> s2 ",
            format!("s2.sample(samp2, {at});"),
        ),
        (
            depth,
            "depth2d<float> s2 ",
            format!("float4(s2.sample_compare(samp2, {at}, saturate(in.texcoord2.z), level(0)));"),
        ),
        (
            fetched,
            "depth2d<float> s2 ",
            format!("float4(s2.sample(samp2, {at}, level(0)));"),
        ),
        (
            Variant {
                raw_depth_red: mask,
                ..fetched
            },
            "depth2d<float> s2 ",
            format!("float4(s2.sample(samp2, {at}, level(0)), 0.0, 0.0, 1.0);"),
        ),
        (
            gathered,
            "texture2d<float> s2 ",
            format!(
                "s2.gather(samp2, ({at}) + 0.5 / float2(s2.get_width(), s2.get_height())).zxyw;"
            ),
        ),
        (
            Variant {
                fetch4_alpha: mask,
                ..gathered
            },
            "texture2d<float> s2 ",
            "int2(0), component::w).zxyw;".to_owned(),
        ),
        (
            Variant {
                volume: mask,
                ..none
            },
            "texture3d<float> s2 ",
            "s2.sample(samp2, in.texcoord2.xyz);".to_owned(),
        ),
        (
            Variant { cube: mask, ..none },
            "texturecube<float> s2 ",
            "s2.sample(samp2, in.texcoord2.xyz);".to_owned(),
        ),
    ];
    for (variant, parameter, read) in cases {
        let text = text_with(&[lookup(); 3], variant);
        text.has(parameter);
        text.has(&read);
        text.has("    float4 t1 = s1.sample(samp1, in.texcoord1.xy);\n");
        assert_eq!((text.mask, text.lookups), (7, 3));
    }
}

#[test]
fn bits_8_to_15_of_a_mask_have_no_effect() {
    let high = Mask::from_bits(0xff00);
    assert_eq!(high.bits(), 0xff00);
    let variant = Variant {
        depth_sampler: high,
        depth_fetch: high,
        fetch4: high,
        fetch4_alpha: high,
        raw_depth_red: high,
        volume: high,
        cube: high,
        ..Variant::default()
    };
    assert_eq!(
        text_with(&[lookup(); 8], variant).whole,
        text(&[lookup(); 8]).whole
    );
}

#[test]
fn flags_of_a_variant() {
    let cases = [
        (VariantFlags::FLAT_SHADE, "    float4 color0 [[flat]];\n"),
        (
            VariantFlags::SRGB_WRITE,
            "    oC0.rgb = mtld3d_linear_to_srgb(oC0.rgb);\n",
        ),
        (
            VariantFlags::SAMPLE_MASK,
            "    return FfPsOut { oC0, 5u };\n",
        ),
        (
            VariantFlags::POINT_SPRITE,
            "    float2 point_coord [[point_coord]],\n",
        ),
        (VariantFlags::LOD_BIAS, ", bias(lod_bias[0].x));\n"),
        (
            VariantFlags::FOG_SOURCE_W,
            "    float fog_c = 1.0 / in.position.w;\n",
        ),
    ];
    let variant = Variant {
        fog_table_mode: FogMode::EXP,
        sample_mask: 5,
        ..Variant::default()
    };
    let plain = text_with(&[lookup()], variant);
    for (flags, line) in cases {
        plain.lacks(line);
        text_with(&[lookup()], Variant { flags, ..variant }).has(line);
    }
    let all = cases
        .iter()
        .fold(VariantFlags::NONE, |all, (flag, _)| all | *flag);
    let text = text_with(
        &[lookup()],
        Variant {
            flags: all,
            ..variant
        },
    );
    for (_, line) in cases {
        text.has(line);
    }
}
