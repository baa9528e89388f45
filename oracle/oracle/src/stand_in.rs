//! Texts of keys that the Rust cannot be given: it is given others in their place.
//!
//! What the Rust writes around the lines of the stages depends on a stage only by its flags, by being a bump stage, and by whether its expressions read
//! TEMP and its texel. So in the place of each stage with a line of its own the Rust gets one that reads the same and besides its own constant, which no
//! other stage can name. The line with that constant is then the stage's, and [`lines`] has the one that belongs there.

use crate::{
    emission::by_the_rust,
    lines,
    records::{Combiner, Stage, Triple},
    rules::{CONSTANT, TEMP, TEXTURE, active},
};

const SELECTARG1: u8 = 2;
const MODULATE: u8 = 4;
const DIFFUSE: u8 = 0;

/// The text of a triple that is free of causes, every stage's line from [`lines`].
///
/// # Panics
/// If the Rust writes more than one line for a stage.
#[must_use]
pub fn text(triple: &Triple) -> String {
    let mut given = *triple;
    given.key = triple.key.narrowed();
    let stages = active(&triple.key);
    for (stage, place) in stages.iter().zip(&mut given.key.stages) {
        if !stage.is_bump() {
            *place = stand_in(*stage);
        }
    }
    let mut text = by_the_rust(&given).text;
    for (number, stage) in stages.iter().enumerate() {
        if let Some(line) = lines::line(*stage, number) {
            put(&mut text, &format!("ps_c[{}]", number + 1), &line);
        }
    }
    text
}

/// A stage of two operands that reads TEMP and its texel exactly where the given one does, and names its constant once.
fn stand_in(stage: Stage) -> Stage {
    let if_read = |selector| {
        if stage.expressions_read(selector) {
            selector
        } else {
            DIFFUSE
        }
    };
    Stage {
        color: Combiner::new(MODULATE, if_read(TEMP), if_read(TEXTURE)),
        alpha: Combiner::new(SELECTARG1, CONSTANT, CONSTANT),
        flags: stage.flags,
    }
}

/// Puts a line in the place of the one with a mark. There is none where the stage writes a TEMP that nothing reads.
fn put(text: &mut String, mark: &str, line: &str) {
    let Some(at) = text.find(mark) else { return };
    assert_eq!(text.rfind(mark), Some(at), "{mark} twice in {text}");
    let start = text[..at].rfind('\n').expect("a line before it") + 1;
    let end = at + text[at..].find('\n').expect("the line's end");
    text.replace_range(start..end, line);
}
