//! From values to a text: prints the Metal function of a lit texture with an alpha test.

use yuzuknoll::{
    Argument, Combiner, Comparison, Entry, Key, Op, Refusal, Stage, StageFlags, TEXT_LENGTH,
    Variant, emit,
};

fn main() -> Result<(), Refusal> {
    // The texture is lit by the diffuse colour, and the texture factor is added. Alpha is the texture's.
    let key = Key::of([
        Stage {
            colour: Combiner::new(Op::MODULATE, Argument::TEXTURE, Argument::DIFFUSE),
            alpha: Combiner::select(Argument::TEXTURE),
            flags: StageFlags::TEXTURED,
        },
        Stage {
            colour: Combiner::new(Op::ADD, Argument::CURRENT, Argument::TFACTOR),
            alpha: Combiner::select(Argument::CURRENT),
            flags: StageFlags::NONE,
        },
    ]);
    // Pixels are kept if alpha is above the reference value.
    let variant = Variant {
        alpha_function: Comparison::GREATER,
        ..Variant::default()
    };
    let entry = Entry::new("windscreen")?;

    let mut buffer = [0; TEXT_LENGTH];
    let emission = emit(&key, &variant, &entry, &mut buffer)?;
    let warnings = emission.warnings;
    println!(
        "// mask {}, rows {}, lookups {}, warnings {} {} {} {}",
        emission.mask.bits(),
        emission.rows,
        emission.lookups,
        warnings.op.bits(),
        warnings.selector.bits(),
        warnings.modifier.bits(),
        u8::from(warnings.alpha)
    );
    print!("{}", emission.as_str());
    Ok(())
}
