//! 01's printed example and worked stages, against the Rust.

use oraclelib::{Outcome, TEXT_CAP, Warnings, emit, program, worked};

fn lines(outcome: &Outcome) -> Vec<&str> {
    outcome.text.lines().map(str::trim_start).collect()
}

fn has_line(outcome: &Outcome, line: &str) -> bool {
    lines(outcome).contains(&line)
}

/// The only line that sets `current` after its declaration.
fn stage_line(outcome: &Outcome) -> &str {
    let mut found = lines(outcome)
        .into_iter()
        .filter(|l| l.starts_with("current = "));
    let line = found.next().expect("a stage line");
    assert_eq!(found.next(), None);
    line
}

fn colour_only(expression: &str) -> String {
    format!("current = float4(({expression}).rgb, (current).a);")
}

#[test]
fn z1_prints_the_example() {
    let mut expected = String::from(
        "emit 0 0 0 0 0 0 0
#include <metal_stdlib>
using namespace metal;

struct Varyings {
    float4 position [[position, invariant]];
    float4 position1;
",
    );
    for i in 0..16 {
        expected.push_str(&format!("    float4 texcoord{i};\n"));
    }
    expected.push_str(
        "    float4 color0;
    float4 color1;
    float4 fog;
    float fog_z [[center_no_perspective]];
    float point_size [[point_size]];
};

fragment float4 m(
    Varyings in [[stage_in]],
    constant float4 *ps_c [[buffer(15)]]
) {
    float4 current = in.color0;
    float4 oC0 = current;
    return oC0;
}
end 1
",
    );
    let mut input = vec![0; 59 + 20 + 34 + 1];
    input[..2].copy_from_slice(&[1, 1]);
    input[59] = 2;
    input[79..82].copy_from_slice(&[3, 1, b'm']);
    input[113] = 4;
    assert_eq!(input, [worked::z1().records(), vec![4]].concat());
    assert_eq!(
        String::from_utf8(program(&input, TEXT_CAP)).unwrap(),
        expected
    );
}

#[test]
fn z2_samples_once() {
    let outcome = emit(&worked::z2());
    assert_eq!(stage_line(&outcome), colour_only("(t0 * in.color0)"));
    assert_eq!((outcome.mask, outcome.rows, outcome.lookups), (1, 0, 1));
}

#[test]
fn z3_falls_back_where_the_texture_is_read() {
    let [select, modulate] = worked::z3().map(|t| emit(&t));
    assert_eq!(stage_line(&select), colour_only("in.color0"));
    assert_eq!(stage_line(&modulate), colour_only("current"));
}

#[test]
fn z4_reads_the_constant_of_its_stage() {
    let outcome = emit(&worked::z4());
    assert!(has_line(&outcome, &colour_only("(1.0 - ps_c[3].aaaa)")));
    assert_eq!((outcome.rows, outcome.warnings), (4, Warnings::default()));
}

#[test]
fn z5_keeps_temp_only_for_a_reader() {
    let [premodulate, modulate] = worked::z5().map(|t| emit(&t));
    let declaration = "float4 temp = float4(0.0);";
    assert!(!has_line(&premodulate, declaration));
    assert_eq!(premodulate.warnings.numbers(), [1, 0, 0, 0]);
    assert!(has_line(&modulate, declaration));
    assert_eq!(modulate.warnings, Warnings::default());
}

#[test]
fn z6_looks_up_a_bump_stage_for_the_next_one() {
    let [sampling, plain] = worked::z6().map(|t| emit(&t));
    assert_eq!((sampling.mask, sampling.lookups), (3, 2));
    assert_eq!((plain.mask, plain.lookups), (3, 0));
}

#[test]
fn z7_scales_by_the_luminance_offset() {
    let outcome = emit(&worked::z7());
    assert!(has_line(&outcome, "t1 *= saturate(bump_env[1].y);"));
    assert_eq!((outcome.mask, outcome.lookups), (2, 1));
}

#[test]
fn z8_tests_alpha_above_function_8() {
    let [always, unknown] = worked::z8().map(|t| emit(&t));
    assert!(!always.text.contains("discard_fragment"));
    assert_eq!(always.warnings, Warnings::default());
    assert!(has_line(&unknown, "if (!(true)) discard_fragment();"));
    assert_eq!(unknown.warnings.numbers(), [0, 0, 0, 1]);
}

#[test]
fn z9_keeps_the_second_argument() {
    let outcome = emit(&worked::z9());
    assert_eq!(stage_line(&outcome), colour_only("in.color1"));
}
