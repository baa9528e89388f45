//! Keys of kind 6: random ones, and ones that go through what 02 says of argument 0.

use super::{
    Rng, entry, key,
    random::argument,
    systematic::{KEPT, PLAIN, SAMPLING, SELECT, TEMP_READER, bump_stage, systematic},
    variant,
};
use crate::{
    records::{Combiner, Key, STAGES, Stage, TEXTURED, TO_TEMP, Triple},
    rules::THREE_OPERANDS,
};

/// A triple with a key of kind 6.
pub fn wide_triple(rng: &mut Rng) -> Triple {
    Triple {
        key: wide_key(rng),
        variant: variant(rng),
        entry: entry(rng),
    }
}

/// A key of kind 6, with many ops of three operands, with few, or with hardly any.
pub fn wide_key(rng: &mut Rng) -> Key {
    let share = rng.pick(&[0, 15, 40, 75]);
    let mut key = key(rng);
    for stage in &mut key.stages {
        for combiner in [&mut stage.color, &mut stage.alpha] {
            // Stages that end the cascade, and bump stages, are left.
            if !matches!(combiner.op, 1 | 22 | 23) && rng.percent(share) {
                combiner.op = rng.pick(&THREE_OPERANDS);
            }
            let arg0 = if rng.one_in(32) {
                rng.byte()
            } else {
                argument(rng)
            };
            combiner.arg0 = Some(arg0);
        }
    }
    key
}

/// Every section, in a fixed order.
#[must_use]
pub fn wide_systematic() -> Vec<Triple> {
    let keys = [
        arguments(),
        selectors(),
        other_ops(),
        temps(),
        rows(),
        warnings(),
        bump_readers(),
        disabled_stages(),
        stage_numbers(),
    ];
    let keys = keys.concat();
    let plain = keys.iter().map(|key| Triple::plain(key.widened()));
    plain.chain(without_three_operands()).collect()
}

/// The combiner in the colour of a stage and in the alpha of another.
fn in_both_roles(combiner: Combiner, flags: u8) -> [Stage; 2] {
    let stage = |color, alpha| Stage {
        color,
        alpha,
        flags,
    };
    [stage(combiner, KEPT), stage(SELECT, combiner)]
}

/// Every byte as each of the three arguments of each op.
fn arguments() -> Vec<Key> {
    let mut keys = Vec::new();
    for op in THREE_OPERANDS {
        for byte in 0..=255 {
            for flags in 0..=TEXTURED | TO_TEMP {
                for combiner in [
                    Combiner::wide(op, byte, 0, 4),
                    Combiner::wide(op, 0, byte, 4),
                    Combiner::wide(op, 4, 0, byte),
                ] {
                    let stages = in_both_roles(combiner, flags);
                    keys.extend(stages.map(|stage| Key::of(&[stage])));
                }
            }
        }
    }
    keys
}

/// Every choice of three selectors up to 7, with and without a texture.
fn selectors() -> Vec<Key> {
    let mut keys = Vec::new();
    for op in THREE_OPERANDS {
        for choice in 0..512_u16 {
            let [arg0, arg1, arg2] = [6, 3, 0].map(|shift| (choice >> shift & 7) as u8);
            for flags in [0, TEXTURED] {
                let stages = in_both_roles(Combiner::wide(op, arg0, arg1, arg2), flags);
                keys.extend(stages.map(|stage| Key::of(&[stage])));
            }
        }
    }
    keys
}

/// Every op with an argument 0 that only 25 and 26 may count.
fn other_ops() -> Vec<Key> {
    let mut keys = Vec::new();
    for op in 0..=255 {
        for arg0 in [2, 3, 5, 6, 0x4f] {
            for flags in 0..=TEXTURED | TO_TEMP {
                let stages = in_both_roles(Combiner::wide(op, arg0, 0, 4), flags);
                keys.extend(stages.map(|stage| Key::of(&[stage, PLAIN])));
            }
        }
    }
    keys
}

/// A result in TEMP, with a reader of TEMP in each argument or with none, and a texture in each argument.
fn temps() -> Vec<Key> {
    const READERS: [Combiner; 4] = [
        Combiner::wide(25, 5, 0, 0),
        Combiner::wide(26, 0, 5, 0),
        Combiner::wide(25, 0, 0, 5),
        Combiner::wide(4, 5, 0, 0),
    ];
    let mut keys = Vec::new();
    for op in THREE_OPERANDS {
        for (arg0, arg1, arg2) in [(2, 0, 4), (0, 2, 4), (0, 4, 2)] {
            for writer in in_both_roles(Combiner::wide(op, arg0, arg1, arg2), TEXTURED | TO_TEMP) {
                keys.push(Key::of(&[writer, TEMP_READER]));
                for reader in READERS {
                    let readers = in_both_roles(reader, 0);
                    keys.extend(readers.map(|reader| Key::of(&[writer, reader])));
                }
            }
        }
    }
    keys
}

/// Argument 0 that selects the factor or the constant, where the row count sees the one and not the other: in a fallback, in alpha beside op 24, in a
/// bump stage, and in the alpha of op 1.
fn rows() -> Vec<Key> {
    let mut keys = Vec::new();
    for op in [1, 4, 25, 26] {
        for arg0 in [3, 6] {
            let combiner = Combiner::wide(op, arg0, 0, 4);
            let fallback = Combiner::wide(op, arg0, 2, 4);
            let colors = [22, 23, 24, 2].map(|op| Combiner::new(op, 0, 0));
            let beside = colors.map(|color| Stage {
                color,
                alpha: combiner,
                flags: 0,
            });
            let mut stages = beside.to_vec();
            stages.extend(in_both_roles(fallback, 0));
            stages.extend(in_both_roles(combiner, TEXTURED));
            for stage in stages {
                for number in 0..STAGES {
                    let mut key = Key::of(&[PLAIN; STAGES]);
                    key.stages[number] = stage;
                    keys.push(key);
                }
            }
        }
    }
    keys
}

/// Causes of warnings in argument 0, at each stage: in colour, in alpha, and in alpha beside op 24, which sets alpha unless it falls back.
fn warnings() -> Vec<Key> {
    const CAUSES: [Combiner; 6] = [
        Combiner::wide(25, 7, 0, 4),
        Combiner::wide(26, 0x40, 0, 4),
        Combiner::wide(25, 0x8f, 0x47, 4),
        // Without a texture, a fallback.
        Combiner::wide(26, 0x4f, 2, 4),
        Combiner::wide(25, 0x42, 0x4f, 4),
        Combiner::wide(17, 0x4f, 0, 4),
    ];
    let mut keys = Vec::new();
    for number in 0..STAGES {
        for cause in CAUSES {
            for flags in 0..=TEXTURED | TO_TEMP {
                let [color, alpha] = in_both_roles(cause, flags);
                let beside = [0, 2].map(|arg1| Stage {
                    color: Combiner::new(24, arg1, 0),
                    ..alpha
                });
                for stage in [color, alpha].into_iter().chain(beside) {
                    let mut key = Key::of(&[PLAIN; STAGES]);
                    key.stages[number] = stage;
                    keys.push(key);
                }
            }
        }
    }
    keys
}

/// Behind bump stages, a stage that looks its texture up for one argument.
fn bump_readers() -> Vec<Key> {
    let mut keys = Vec::new();
    for bump in [22, 23] {
        for textured in [false, true] {
            for op in THREE_OPERANDS {
                for (arg0, arg1, arg2) in [(2, 0, 4), (0, 2, 4), (0, 4, 2), (0, 0, 4)] {
                    for reader in in_both_roles(Combiner::wide(op, arg0, arg1, arg2), TEXTURED) {
                        for projected in [0, 0xff] {
                            let stage = bump_stage(bump, textured);
                            let mut key = Key::of(&[stage, stage, reader, SAMPLING]);
                            key.projected = projected;
                            keys.push(key);
                        }
                    }
                }
            }
        }
    }
    keys
}

/// What stands at and behind the first colour op 1 has no effect.
fn disabled_stages() -> Vec<Key> {
    let busy = Stage {
        color: Combiner::wide(25, 6, 2, 5),
        alpha: Combiner::wide(26, 0x4f, 3, 2),
        flags: TEXTURED,
    };
    let ends = 0..=STAGES;
    ends.map(|end| {
        let mut key = Key::of(&[busy; STAGES]);
        if let Some(stage) = key.stages.get_mut(end) {
            stage.color.op = 1;
        }
        key
    })
    .collect()
}

/// Texture and constant carry the number of their stage.
fn stage_numbers() -> Vec<Key> {
    let mut keys = Vec::new();
    for number in 0..STAGES {
        for op in THREE_OPERANDS {
            for (arg0, arg1, arg2) in [(2, 6, 0), (6, 0, 2), (0x36, 0x12, 0x21)] {
                let combiner = Combiner::wide(op, arg0, arg1, arg2);
                let mut stages = vec![Stage::default(); number];
                stages.push(Stage {
                    color: combiner,
                    alpha: combiner,
                    flags: TEXTURED,
                });
                keys.push(Key::of(&stages));
            }
        }
    }
    keys
}

/// Every eleventh systematic triple of kind 1, widened, with an argument 0 that nothing may count unless its op is 25 or 26.
fn without_three_operands() -> impl Iterator<Item = Triple> {
    let triples = systematic().into_iter().step_by(11).enumerate();
    triples.map(|(n, mut triple)| {
        let arg0 = [2, 6, 3, 5, 0x4f][n % 5];
        for stage in &mut triple.key.stages {
            stage.color.arg0 = Some(arg0);
            stage.alpha.arg0 = Some(arg0);
        }
        triple
    })
}
