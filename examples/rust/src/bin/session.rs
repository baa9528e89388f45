//! From records to texts: takes a stream of records, as a file or a connection would give it, and reports each text and its warnings.

use yuzuknoll::{
    Applied, Argument, Combiner, Entry, FogMode, Key, Op, Record, Refusal, Session, Stage,
    StageFlags, TEXT_LENGTH, Variant, VariantFlags,
};

/// A stage that shows its texture, as it is or lit by the diffuse colour.
fn key(op: Op) -> Key {
    Key::of([Stage {
        colour: Combiner::new(op, Argument::TEXTURE, Argument::DIFFUSE),
        flags: StageFlags::TEXTURED,
        ..Stage::DISABLED
    }])
}

/// One from elsewhere: PREMODULATE, which has no formula here, and an argument that there is not.
fn foreign_key() -> Key {
    let stage = |op, arg2| Stage {
        colour: Combiner::new(op, Argument::CURRENT, arg2),
        ..Stage::DISABLED
    };
    let mut key = key(Op::SELECTARG1);
    key.stages[1] = stage(Op(17), Argument::DIFFUSE);
    key.stages[2] = stage(Op::ADD, Argument(9));
    key
}

/// A text of the plain key, those of the other keys with the same variant and entry, and a variant that is cut short.
fn make_records() -> Result<Vec<u8>, Refusal> {
    let foggy = Variant {
        fog_table_mode: FogMode::EXP,
        flags: VariantFlags::FOG_SOURCE_W,
        ..Variant::default()
    };
    let records = [
        Record::Key(key(Op::SELECTARG1)),
        Record::Variant(foggy),
        Record::Entry(Entry::new("mirror")?),
        Record::Emit,
        Record::Key(key(Op::MODULATE)),
        Record::Emit,
        Record::Key(foreign_key()),
        Record::Emit,
        Record::Variant(foggy),
    ];
    let mut bytes = records.map(|record| record.to_vec()).concat();
    bytes.pop();
    Ok(bytes)
}

fn main() -> Result<(), Refusal> {
    let records = make_records()?;
    let mut buffer = [0; TEXT_LENGTH];
    let mut session = Session::new();
    let mut rest = records.as_slice();
    while let Some(kind) = rest.first() {
        let before = rest.len();
        match session.apply(&mut rest, &mut buffer) {
            Ok(Applied::Replaced | Applied::Altered) => {
                println!("a record of kind {kind}, {} bytes", before - rest.len());
            }
            Ok(Applied::Text(emission)) => {
                let (length, lookups) = (emission.text.len(), emission.lookups);
                println!("a text of {length} bytes with {lookups} lookup");
                for warning in emission.warnings.iter() {
                    println!("  {warning}");
                }
            }
            Err(refusal) => {
                let at = records.len() - rest.len();
                println!("refused with {} at {at}", refusal.number());
                break;
            }
        }
    }
    Ok(())
}
