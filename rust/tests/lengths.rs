//! The longest texts: of the key and the variant that the program `longest` prints, and of a wide key.

use yuzuknoll::{
    Argument, Combiner, Comparison, Entry, FogMode, KEY_TEXT_LENGTH, Key, Mask, Op, Record,
    Refusal, STAGES, StageFlags, Variant, VariantFlags, WIDE_KEY_TEXT_LENGTH, WideKey, WideStage,
    emit, emit_wide,
};

/// What the program prints.
const PRINTED: &str = include_str!("../../crates/longest/stdout");

/// Both modifiers make an argument longest.
const fn modified(argument: Argument) -> Argument {
    argument.alpha_replicate().complement()
}

/// The record in a line of hexadecimal digits.
fn record(digits: &str) -> Record {
    let byte = |at| u8::from_str_radix(&digits[at..at + 2], 16).unwrap();
    let bytes: Vec<u8> = (0..digits.len()).step_by(2).map(byte).collect();
    let mut rest = bytes.as_slice();
    let record = Record::read(&mut rest).unwrap();
    assert!(rest.is_empty());
    record
}

fn printed() -> (usize, Key, Variant) {
    let lines: Vec<&str> = PRINTED.lines().collect();
    match lines[..] {
        [length, key, variant] => match (record(key), record(variant)) {
            (Record::Key(key), Record::Variant(variant)) => (length.parse().unwrap(), key, variant),
            other => panic!("other records: {other:?}"),
        },
        _ => panic!("{} lines", lines.len()),
    }
}

/// LERP for colour and for alpha, but for a bump stage, the first whose rows of `bump_env` have two digits.
fn wide() -> (WideKey, Variant) {
    let white = modified(Argument(7));
    let line = WideStage {
        colour: Combiner::new(Op::LERP, modified(Argument::TEXTURE), white),
        alpha: Combiner::new(Op::LERP, white, white),
        colour_arg0: white,
        alpha_arg0: white,
        flags: StageFlags::TEXTURED,
    };
    let mut stages = [line; STAGES];
    stages[0].alpha.arg1 = modified(Argument::TEMP);
    stages[5].colour.op = Op::BUMPENVMAPLUMINANCE;
    let behind_bump = 1 << 6;
    let key = WideKey {
        stages,
        specular: true,
        projected: 0xff,
    };
    let variant = Variant {
        alpha_function: Comparison::EQUAL,
        fog_table_mode: FogMode::LINEAR,
        depth_sampler: Mask::from_bits(0xff ^ behind_bump),
        fetch4: Mask::from_bits(behind_bump),
        fetch4_alpha: Mask::from_bits(behind_bump),
        cube: Mask::from_bits(behind_bump),
        sample_mask: 0xff,
        flags: VariantFlags::FLAT_SHADE
            | VariantFlags::SRGB_WRITE
            | VariantFlags::SAMPLE_MASK
            | VariantFlags::POINT_SPRITE
            | VariantFlags::LOD_BIAS,
        ..Variant::default()
    };
    (key, variant)
}

fn entry(length: usize) -> Entry {
    Entry::new(&"m".repeat(length)).unwrap()
}

/// A text that has exactly so many bytes with an entry of 32, and one fewer for each that the entry is shorter.
fn reaches(greatest: usize, length: impl Fn(&Entry, &mut [u8]) -> Result<usize, Refusal>) {
    for n in 1..=32 {
        let mut slot = vec![0; greatest - 32 + n];
        assert_eq!(length(&entry(n), &mut slot), Ok(slot.len()));
        slot.pop();
        assert_eq!(length(&entry(n), &mut slot), Err(Refusal::NoRoom));
    }
}

#[test]
fn what_is_printed_reaches_the_bound() {
    let (length, key, variant) = printed();
    assert_eq!(length, KEY_TEXT_LENGTH - 31);
    reaches(KEY_TEXT_LENGTH, |entry, slot| {
        emit(&key, &variant, entry, slot).map(|emission| emission.text.len())
    });
}

#[test]
fn a_wide_key_reaches_its_bound() {
    let (key, variant) = wide();
    reaches(WIDE_KEY_TEXT_LENGTH, |entry, slot| {
        emit_wide(&key, &variant, entry, slot).map(|emission| emission.text.len())
    });
}
