//! Random triples: [`triple`] for unusual ones, [`everyday`] for those of a usual scene.

use super::{MODIFIERS, Rng, TEXT_OPS};
use crate::{
    records::{
        Combiner, Entry, FLAT_SHADE, FOG_SOURCE_W, Key, STAGES, Stage, TEXTURED, TO_TEMP, Triple,
        Variant,
    },
    states::{ALPHA_OP, COLOR_OP, CURRENT, RESULT_ARG, StateWrite, TEMP, TEXTURE_BOUND, TYPES},
};

/// A triple in which textures, TEMP, bump stages, constants and unknown codes meet often.
pub fn triple(rng: &mut Rng) -> Triple {
    Triple {
        key: key(rng),
        variant: variant(rng),
        entry: entry(rng),
    }
}

pub fn key(rng: &mut Rng) -> Key {
    let make = if rng.one_in(16) { any_stage } else { stage };
    let mut key = Key {
        stages: std::array::from_fn(|_| make(rng)),
        specular: u8::from(rng.one_in(4)),
        projected: if rng.percent(50) { 0 } else { rng.byte() },
    };
    if rng.percent(25) {
        make_bump_pair(rng, &mut key);
    }
    // Without this the cascade would seldom end late.
    if rng.percent(60) {
        let end = rng.below(STAGES + 1);
        for (i, stage) in key.stages.iter_mut().enumerate() {
            if i == end {
                stage.color.op = 1;
            } else if stage.color.op == 1 {
                stage.color.op = 4;
            }
        }
    }
    key
}

/// A bump stage and one behind it that samples.
fn make_bump_pair(rng: &mut Rng, key: &mut Key) {
    let at = rng.below(STAGES - 1);
    key.stages[at].color.op = rng.pick(&[22, 23]);
    let next = &mut key.stages[at + 1];
    next.color = Combiner::new(rng.pick(&TEXT_OPS), 2, 2);
    next.flags |= TEXTURED;
}

fn stage(rng: &mut Rng) -> Stage {
    let color = op(rng);
    let alpha = if rng.one_in(4) { 1 } else { op(rng) };
    Stage {
        color: Combiner::new(color, argument(rng), argument(rng)),
        alpha: Combiner::new(alpha, argument(rng), argument(rng)),
        flags: flag(rng, 60, TEXTURED) | flag(rng, 25, TO_TEMP),
    }
}

fn any_stage(rng: &mut Rng) -> Stage {
    Stage {
        color: Combiner::new(rng.byte(), rng.byte(), rng.byte()),
        alpha: Combiner::new(rng.byte(), rng.byte(), rng.byte()),
        flags: rng.byte() & (TEXTURED | TO_TEMP),
    }
}

fn flag(rng: &mut Rng, percent: usize, bit: u8) -> u8 {
    if rng.percent(percent) { bit } else { 0 }
}

fn op(rng: &mut Rng) -> u8 {
    match rng.below(100) {
        0..55 => rng.pick(&TEXT_OPS),
        55..70 => rng.pick(&[22, 23]),
        70..88 => rng.pick(&[13, 15, 17, 24]),
        88..92 => 1,
        92..96 => rng.pick(&[0, 25, 26, 27, 255]),
        _ => rng.byte(),
    }
}

pub(super) fn argument(rng: &mut Rng) -> u8 {
    let known = [(8, 2), (4, 5), (4, 6), (3, 0), (3, 1), (2, 3), (2, 4)];
    let selector = if rng.percent(94) {
        rng.weighted(&known)
    } else {
        7 + rng.below(9) as u8
    };
    let modifier = match rng.below(100) {
        0..60 => 0,
        60..97 => rng.pick(&MODIFIERS),
        _ => rng.byte() & 0xf0,
    };
    selector | modifier
}

/// A state write free of causes.
pub fn write(rng: &mut Rng) -> StateWrite {
    let state = rng.pick(&TYPES);
    let value = match state {
        TEXTURE_BOUND => rng.pick(&[0, 1]),
        RESULT_ARG => rng.pick(&[CURRENT, TEMP]),
        _ if rng.one_in(8) => rng.byte().into(),
        COLOR_OP | ALPHA_OP => op(rng).into(),
        _ => argument(rng).into(),
    };
    StateWrite {
        stage: rng.below(STAGES) as u8,
        state,
        value,
    }
}

pub fn variant(rng: &mut Rng) -> Variant {
    Variant {
        alpha_func: code(rng, &[1, 2, 3, 4, 5, 6, 7, 8, 9]),
        fog_mode: code(rng, &[1, 2, 3, 4]),
        fog_table_mode: code(rng, &[1, 2, 3, 4]),
        masks: std::array::from_fn(|_| mask(rng)),
        sample_mask: rng.byte(),
        flags: if rng.percent(40) {
            0
        } else {
            rng.byte() & 0x3f
        },
    }
}

/// 0 half the time, seldom any byte.
fn code(rng: &mut Rng, known: &[u8]) -> u8 {
    match rng.below(100) {
        0..50 => 0,
        50..95 => rng.pick(known),
        _ => rng.byte(),
    }
}

fn mask(rng: &mut Rng) -> u16 {
    if rng.percent(60) {
        0
    } else {
        rng.next_u64() as u16
    }
}

pub fn entry(rng: &mut Rng) -> Entry {
    let length = match rng.below(4) {
        0 => 1,
        1 => 32,
        _ => 1 + rng.below(32),
    };
    name(rng, length)
}

/// An entry of the given length; seldom a name that the text uses too, or one beside the reserved words.
pub fn name(rng: &mut Rng, length: usize) -> Entry {
    const FIRST: &[u8] = b"_ABCDEFGHIJKLMNOPQRSTUVWXYZabcdefghijklmnopqrstuvwxyz";
    const OTHER: &[u8] = b"_ABCDEFGHIJKLMNOPQRSTUVWXYZabcdefghijklmnopqrstuvwxyz0123456789";
    const USED: [&[u8]; 9] = [
        b"t",
        b"t8",
        b"dot",
        b"samp",
        b"level",
        b"float5",
        b"Current",
        b"saturate",
        b"texcoord0",
    ];
    if let Some(used) = USED.iter().find(|used| used.len() == length)
        && rng.one_in(8)
    {
        return Entry::new(used);
    }
    loop {
        let mut bytes: Vec<u8> = (0..length).map(|_| rng.pick(OTHER)).collect();
        bytes[0] = rng.pick(FIRST);
        let entry = Entry::new(&bytes);
        if entry.cause().is_none() {
            return entry;
        }
    }
}

/// A triple of a usual scene: at most four stages, one or two textures, few variant settings.
pub fn everyday(rng: &mut Rng) -> Triple {
    let count = rng.weighted(&[(1, 0), (6, 1), (7, 2), (3, 3), (2, 4)]);
    let stages: Vec<Stage> = (0..count).map(|i| everyday_stage(rng, i)).collect();
    let mut key = Key::of(&stages);
    key.specular = u8::from(rng.one_in(8));
    if rng.one_in(16) {
        key.projected = 1 << rng.below(2);
    }
    Triple {
        key,
        variant: everyday_variant(rng),
        entry: Entry::new(b"mtld3d_ps"),
    }
}

fn everyday_stage(rng: &mut Rng, number: usize) -> Stage {
    const DIFFUSE: u8 = 0;
    const CURRENT: u8 = 1;
    const TEXTURE: u8 = 2;
    let before = if number == 0 { DIFFUSE } else { CURRENT };
    let textured = number == 0 || (number == 1 && rng.percent(60));
    let first = if textured {
        TEXTURE
    } else {
        rng.pick(&[DIFFUSE, 3, 4, 6])
    };
    let blend = if textured { 13 } else { 16 };
    let color = rng.weighted(&[
        (10, 4),
        (4, 2),
        (3, 7),
        (3, 5),
        (2, blend),
        (1, 6),
        (1, 8),
        (1, 10),
        (1, 11),
        (1, 12),
        (1, 14),
    ]);
    let alpha = rng.weighted(&[(4, 2), (4, 4), (3, 1), (2, 3)]);
    Stage {
        color: Combiner::new(color, first, before),
        alpha: Combiner::new(alpha, first, before),
        flags: u8::from(textured),
    }
}

fn everyday_variant(rng: &mut Rng) -> Variant {
    let mut variant = Variant {
        alpha_func: rng.weighted(&[(6, 0), (2, 5), (2, 7), (1, 8)]),
        ..Variant::default()
    };
    match rng.below(8) {
        0 | 1 => variant.fog_mode = 3,
        2 => {
            variant.fog_table_mode = rng.pick(&[1, 2, 3]);
            variant.flags = FOG_SOURCE_W;
        }
        3 => variant.flags = FLAT_SHADE,
        _ => {}
    }
    variant
}
