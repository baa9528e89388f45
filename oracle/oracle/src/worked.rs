//! 01's worked stages.

use crate::records::{Combiner, Key, STAGES, Stage, TEXTURED, Triple};

fn stage(op: u8, arg1: u8, arg2: u8, flags: u8) -> Stage {
    Stage {
        color: Combiner::new(op, arg1, arg2),
        alpha: Combiner::new(1, 0, 0),
        flags,
    }
}

/// The printed example: stage 0 op 1 and all else 0.
#[must_use]
pub fn z1() -> Triple {
    let mut key = Key {
        stages: [Stage::default(); STAGES],
        specular: 0,
        projected: 0,
    };
    key.stages[0].color.op = 1;
    Triple::plain(key)
}

#[must_use]
pub fn z2() -> Triple {
    Triple::plain(Key::of(&[stage(4, 2, 0, TEXTURED)]))
}

/// With op 2, and with op 4.
#[must_use]
pub fn z3() -> [Triple; 2] {
    [2, 4].map(|op| Triple::plain(Key::of(&[stage(op, 0, 2, 0)])))
}

#[must_use]
pub fn z4() -> Triple {
    let plain = stage(2, 0, 0, 0);
    Triple::plain(Key::of(&[plain, plain, stage(2, 0x36, 0, 0)]))
}

/// With op 17, and with op 4.
#[must_use]
pub fn z5() -> [Triple; 2] {
    [17, 4].map(|op| Triple::plain(Key::of(&[stage(op, 0, 5, 0)])))
}

/// With argument 2 at stage 1, and with argument 0.
#[must_use]
pub fn z6() -> [Triple; 2] {
    let bump = stage(22, 0, 0, TEXTURED);
    [2, 0].map(|arg1| Triple::plain(Key::of(&[bump, stage(2, arg1, 0, TEXTURED)])))
}

#[must_use]
pub fn z7() -> Triple {
    Triple::plain(Key::of(&[stage(23, 0, 1, 0), stage(2, 2, 0, TEXTURED)]))
}

/// With alpha function 8, and with 9.
#[must_use]
pub fn z8() -> [Triple; 2] {
    [8, 9].map(|alpha_func| {
        let mut triple = z1();
        triple.variant.alpha_func = alpha_func;
        triple
    })
}

#[must_use]
pub fn z9() -> Triple {
    Triple::plain(Key::of(&[stage(13, 0, 4, 0)]))
}

/// All of them in order.
#[must_use]
pub fn all() -> Vec<Triple> {
    let mut all = vec![z1(), z2()];
    all.extend(z3());
    all.push(z4());
    all.extend(z5());
    all.extend(z6());
    all.push(z7());
    all.extend(z8());
    all.push(z9());
    all
}
