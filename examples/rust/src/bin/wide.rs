//! Three operands: a wide key whose first stage blends its texture with the diffuse colour by the texture factor, and adds in alpha. Prints the lines of
//! the stages.

use yuzuknoll::{
    Argument, Combiner, Entry, Op, Refusal, StageFlags, TEXT_LENGTH, Variant, WideKey, WideStage,
    emit_wide,
};

fn main() -> Result<(), Refusal> {
    let key = WideKey::of([WideStage {
        colour: Combiner::new(Op::LERP, Argument::TEXTURE, Argument::DIFFUSE),
        colour_arg0: Argument::TFACTOR,
        alpha: Combiner::new(Op::MULTIPLYADD, Argument::TEXTURE, Argument::DIFFUSE),
        alpha_arg0: Argument::CONSTANT,
        flags: StageFlags::TEXTURED,
    }]);
    let mut buffer = [0; TEXT_LENGTH];
    let emission = emit_wide(
        &key,
        &Variant::default(),
        &Entry::new("blend")?,
        &mut buffer,
    )?;
    let (mask, rows, lookups) = (emission.mask.bits(), emission.rows, emission.lookups);
    println!("mask {mask}, rows {rows}, lookups {lookups}");
    for line in emission.as_str().lines() {
        if line.starts_with("    current = ") {
            println!("{line}");
        }
    }
    Ok(())
}
