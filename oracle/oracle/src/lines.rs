//! The line of a stage, from 01's rules of arguments, combiners and alpha, with the Rust's literal texts for 01's twenty ops and 02's two of three
//! operands.

use crate::{
    records::{Combiner, Stage},
    rules::selector,
};

const COMPLEMENT: u8 = 0x10;
const ALPHA_REPLICATE: u8 = 0x20;

/// The text of an op: A and B stand for arguments 1 and 2, Z for argument 0, T for the stage's texel.
fn template(op: u8, textured: bool) -> &'static str {
    match op {
        3 => "B",
        4 => "(A * B)",
        5 => "saturate(2.0 * A * B)",
        6 => "saturate(4.0 * A * B)",
        7 => "saturate(A + B)",
        8 => "saturate(A + B - 0.5)",
        9 => "saturate(2.0 * (A + B - 0.5))",
        10 => "saturate(A - B)",
        11 => "saturate(A + B * (1.0 - A))",
        12 => "(A * in.color0.a + B * (1.0 - in.color0.a))",
        13 if textured => "(A * T.a + B * (1.0 - T.a))",
        13 => "B",
        14 => "(A * ps_c[0].a + B * (1.0 - ps_c[0].a))",
        15 if textured => "saturate(A + B * (1.0 - T.a))",
        15 => "saturate(A + B)",
        16 => "(A * current.a + B * (1.0 - current.a))",
        18 => "saturate(A + (A).a * B)",
        19 => "saturate(A * B + (A).a)",
        20 => "saturate(A + (1.0 - (A).a) * B)",
        21 => "saturate((1.0 - A) * B + (A).a)",
        24 => "float4(saturate(4.0 * dot((A).rgb - 0.5, (B).rgb - 0.5)))",
        25 => "saturate(Z + A * B)",
        26 => "(Z * A + (1.0 - Z) * B)",
        _ => "A",
    }
}

fn argument(argument: u8, stage: usize, textured: bool) -> String {
    let mut text = match selector(argument) {
        0 => "in.color0".to_owned(),
        1 => "current".to_owned(),
        2 if textured => format!("t{stage}"),
        3 => "ps_c[0]".to_owned(),
        4 => "in.color1".to_owned(),
        5 => "temp".to_owned(),
        6 => format!("ps_c[{}]", stage + 1),
        _ => "float4(1.0)".to_owned(),
    };
    if argument & ALPHA_REPLICATE != 0 {
        text += ".aaaa";
    }
    if argument & COMPLEMENT != 0 {
        text = format!("(1.0 - {text})");
    }
    text
}

fn expression(combiner: Combiner, stage: usize, textured: bool) -> String {
    if combiner.falls_back(textured) {
        return "current".to_owned();
    }
    let template = if combiner.has_text() {
        template(combiner.op, textured)
    } else {
        "A"
    };
    let text = |c: char| match c {
        'A' => argument(combiner.arg1, stage, textured),
        'B' => argument(combiner.arg2, stage, textured),
        'Z' => argument(combiner.arg0.expect("a key of kind 6"), stage, textured),
        'T' => format!("t{stage}"),
        _ => c.to_string(),
    };
    template.chars().map(text).collect()
}

/// The line of the stage with this number, without its newline; a bump stage has none.
#[must_use]
pub fn line(stage: Stage, number: usize) -> Option<String> {
    let (color, alpha) = stage.expressions();
    let text = |combiner| expression(combiner, number, stage.textured());
    let register = if stage.to_temp() { "temp" } else { "current" };
    let color = text(color?);
    if stage.alpha_from_color() {
        return Some(format!("    {register} = {color};"));
    }
    let alpha = alpha.map_or_else(|| register.to_owned(), text);
    Some(format!(
        "    {register} = float4(({color}).rgb, ({alpha}).a);"
    ))
}
