//! From state writes to a text: a scene's list of texture stage state writes, as a program that draws with Direct3D 9 issues them, becomes a key.

use yuzuknoll::{
    Applied, Argument, Entry, HeldKey, Op, Record, Refusal, Session, State, StateWrite,
    TEXT_LENGTH, Variant,
};

/// A state of Direct3D that no key has.
const D3DTSS_TEXCOORDINDEX: u8 = 11;

/// A lit texture at stage 0, and a detail texture that is added at stage 1. The second write of an op counts. What no write sets has Direct3D's default:
/// stage 0 modulates, and stage 2 is disabled.
fn scene() -> [Result<StateWrite, Refusal>; 6] {
    [
        StateWrite::new(0, State::TextureBound(true)),
        StateWrite::new(0, State::ColourArg2(Argument::DIFFUSE)),
        StateWrite::new(1, State::TextureBound(true)),
        StateWrite::new(1, State::ColourOp(Op::ADD)),
        StateWrite::from_numbers(1, D3DTSS_TEXCOORDINDEX, 0),
        StateWrite::new(1, State::ColourOp(Op::ADDSIGNED)),
    ]
}

fn print_key(session: &Session) {
    let key = session.key().and_then(HeldKey::narrow).unwrap_or_default();
    for (stage, number) in key.stages[..3].iter().zip(0..) {
        let (colour, alpha) = (stage.colour, stage.alpha);
        println!(
            "stage {number}: colour {} {} {}, alpha {} {} {}, flags {}",
            colour.op.0,
            colour.arg1.0,
            colour.arg2.0,
            alpha.op.0,
            alpha.arg1.0,
            alpha.arg2.0,
            stage.flags.bits()
        );
    }
}

fn main() -> Result<(), Refusal> {
    let mut session = Session::new();
    let mut buffer = [0; TEXT_LENGTH];
    for (write, number) in scene().into_iter().zip(0..) {
        match write {
            Ok(write) => {
                let record = Record::State(write).to_vec();
                session.apply(&mut record.as_slice(), &mut [])?;
            }
            Err(refusal) => println!("write {number}: refused with {}", refusal.number()),
        }
    }
    print_key(&session);
    let (variant, entry) = (Variant::default(), Entry::new("scene")?);
    let records = [variant.into(), entry.into(), Record::Emit].map(|record| record.to_vec());
    for record in records {
        if let Applied::Text(emission) = session.apply(&mut record.as_slice(), &mut buffer)? {
            let (length, lookups) = (emission.text.len(), emission.lookups);
            println!("a text of {length} bytes with {lookups} lookups");
        }
    }
    Ok(())
}
