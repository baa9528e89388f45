//! Triples that go through 01's codes one after the other.

use super::{FOG_MODES, MODIFIERS, TEXT_OPS};
use crate::records::{
    Combiner, Entry, FOG_SOURCE_W, Key, LOD_BIAS, SAMPLE_MASK, STAGES, Stage, TEXTURED, TO_TEMP,
    Triple, Variant,
};

pub(super) const KEPT: Combiner = Combiner::new(1, 0, 0);
pub(super) const SELECT: Combiner = Combiner::new(2, 0, 0);
pub(super) const PLAIN: Stage = Stage {
    color: SELECT,
    alpha: SELECT,
    flags: 0,
};
/// A stage that does nothing but look its texture up.
pub const SAMPLING: Stage = Stage {
    color: Combiner::new(2, 2, 0),
    alpha: KEPT,
    flags: TEXTURED,
};
pub(super) const TEMP_READER: Stage = Stage {
    color: Combiner::new(2, 5, 0),
    alpha: KEPT,
    flags: 0,
};

/// Every section, in a fixed order.
#[must_use]
pub fn systematic() -> Vec<Triple> {
    let keys = [
        op_codes(),
        selector_pairs(),
        modifiers(),
        stage_numbers(),
        constants(),
        disabled_stages(),
        warnings(),
        bump_chains(),
    ];
    let keys = keys.concat().into_iter().map(Triple::plain);
    let variants = [masks(), flags(), fog(), outputs()];
    keys.chain(variants.concat()).chain(entries()).collect()
}

/// The combiner in the colour of a stage and in the alpha of another.
fn in_both_roles(combiner: Combiner, flags: u8) -> [Stage; 2] {
    let stage = |color, alpha| Stage {
        color,
        alpha,
        flags,
    };
    [stage(combiner, KEPT), stage(SELECT, combiner)]
}

fn op_codes() -> Vec<Key> {
    let mut keys = Vec::new();
    for op in 0..=255 {
        for flags in 0..=TEXTURED | TO_TEMP {
            for (arg1, arg2) in [(0, 4), (2, 1), (5, 2)] {
                let stages = in_both_roles(Combiner::new(op, arg1, arg2), flags);
                keys.extend(stages.map(|stage| Key::of(&[stage])));
            }
        }
    }
    keys
}

/// Each result goes to CURRENT, to TEMP, and to TEMP with a reader behind it.
fn selector_pairs() -> Vec<Key> {
    let mut keys = Vec::new();
    for op in TEXT_OPS {
        for pair in 0..=255 {
            let combiner = Combiner::new(op, pair >> 4, pair & 15);
            for flags in 0..=TEXTURED | TO_TEMP {
                for stage in in_both_roles(combiner, flags) {
                    keys.push(Key::of(&[stage]));
                    if stage.to_temp() {
                        keys.push(Key::of(&[stage, TEMP_READER]));
                    }
                }
            }
        }
    }
    keys
}

fn modifiers() -> Vec<Key> {
    let mut keys = Vec::new();
    for modifier in MODIFIERS.into_iter().chain([0xc0, 0xf0]) {
        for selector in 0..16 {
            for (op, flags) in [(4, 0), (4, TEXTURED), (2, 0), (3, TEXTURED), (17, 0)] {
                let argument = selector | modifier;
                for combiner in [
                    Combiner::new(op, argument, 4),
                    Combiner::new(op, 4, argument),
                ] {
                    let stages = in_both_roles(combiner, flags);
                    keys.extend(stages.map(|stage| Key::of(&[stage])));
                }
            }
        }
    }
    keys
}

/// Texture, constant and bump terms carry the number of their stage.
fn stage_numbers() -> Vec<Key> {
    let mut keys = Vec::new();
    for number in 0..STAGES {
        for op in TEXT_OPS {
            for projected in [0, 0xff] {
                let combiner = Combiner::new(op, 2, 6);
                let mut stages = vec![Stage::default(); number];
                stages.push(Stage {
                    color: combiner,
                    alpha: combiner,
                    flags: TEXTURED,
                });
                let mut key = Key::of(&stages);
                key.projected = projected;
                keys.push(key);
            }
        }
    }
    for bit in 0..STAGES {
        let mut key = Key::of(&[SAMPLING; STAGES]);
        key.projected = 1 << bit;
        keys.push(key);
    }
    keys
}

/// A stage's constant at one stage and the texture factor at another, in colour and in alpha.
fn constants() -> Vec<Key> {
    let mut keys = Vec::new();
    for constant in 0..STAGES {
        for factor in 0..STAGES {
            let mut key = Key::of(&[PLAIN; STAGES]);
            key.stages[factor].color.arg1 = 3;
            key.stages[constant].color.arg1 = 6;
            keys.push(key);
            key.stages[constant].color.arg1 = 0;
            key.stages[constant].alpha.arg1 = 6;
            keys.push(key);
        }
    }
    keys
}

/// What stands at and behind the first colour op 1 has no effect.
fn disabled_stages() -> Vec<Key> {
    let busy = Stage {
        color: Combiner::new(4, 2, 6),
        alpha: Combiner::new(14, 5, 9),
        flags: TEXTURED,
    };
    let ends = 0..=STAGES;
    ends.map(|end| {
        let mut key = Key::of(&[busy; STAGES]);
        if let Some(stage) = key.stages.get_mut(end) {
            stage.color.op = 1;
        }
        key
    })
    .collect()
}

/// Causes of warnings at each stage: in colour; in alpha; and in alpha beside op 24, which sets alpha unless it falls back. Some of these do not warn.
fn warnings() -> Vec<Key> {
    const CAUSES: [Combiner; 7] = [
        Combiner::new(17, 0, 4),
        Combiner::new(4, 7, 0),
        Combiner::new(4, 0, 0x40),
        // The argument that the op discards is resolved too.
        Combiner::new(2, 0, 0x8f),
        Combiner::new(0, 0x47, 0x8f),
        // Without a texture, a fallback.
        Combiner::new(0, 0x42, 0x8f),
        // A bump stage in colour, kept in alpha.
        Combiner::new(22, 0x47, 0x8f),
    ];
    let mut keys = Vec::new();
    for number in 0..STAGES {
        for cause in CAUSES {
            for flags in 0..=TEXTURED | TO_TEMP {
                let [color, alpha] = in_both_roles(cause, flags);
                let beside = [0, 2].map(|arg1| Stage {
                    color: Combiner::new(24, arg1, 0),
                    ..alpha
                });
                for stage in [color, alpha].into_iter().chain(beside) {
                    let mut key = Key::of(&[PLAIN; STAGES]);
                    key.stages[number] = stage;
                    keys.push(key);
                }
            }
        }
    }
    keys
}

pub(super) fn bump_stage(op: u8, textured: bool) -> Stage {
    Stage {
        color: Combiner::new(op, 0, 1),
        alpha: KEPT,
        flags: u8::from(textured),
    }
}

/// A chain of bump stages, one for each pair of bits in `pattern` (texture, luminance), and behind
/// it, where there is room, a stage that samples or one that does not.
///
/// # Panics
/// With a length above 8.
#[must_use]
pub fn bump_chain(length: usize, pattern: u16, sampled: bool) -> Key {
    let mut stages: Vec<Stage> = (0..length)
        .map(|i| {
            let bits = pattern >> (2 * i);
            bump_stage(if bits & 2 == 0 { 22 } else { 23 }, bits & 1 != 0)
        })
        .collect();
    if length < STAGES {
        let mut reader = SAMPLING;
        if !sampled {
            reader.color.arg1 = 0;
        }
        stages.push(reader);
    }
    Key::of(&stages)
}

fn bump_chains() -> Vec<Key> {
    let mut keys = Vec::new();
    for length in 1..=STAGES {
        // Every pattern of a short chain, and those of period 4 of a longer one.
        for pattern in 0..1_u16 << (2 * length.min(4)) {
            let pattern = pattern | pattern << 8;
            for sampled in [false, true] {
                for projected in [0, 0xff] {
                    let mut key = bump_chain(length, pattern, sampled);
                    key.projected = projected;
                    keys.push(key);
                }
            }
        }
    }
    // Without a texture, a bump op that reads one is no bump stage.
    for op in [22, 23] {
        for (arg1, arg2) in [(2, 0), (0, 2)] {
            for flags in 0..=TEXTURED | TO_TEMP {
                for stage in in_both_roles(Combiner::new(op, arg1, arg2), flags) {
                    keys.push(Key::of(&[stage, SAMPLING]));
                }
            }
        }
    }
    keys
}

/// The keys that variants are tried on: eight lookups, projected or not, and displaced ones.
fn sampling_keys() -> [Key; 3] {
    let plain = Key::of(&[SAMPLING; STAGES]);
    let mut projected = plain;
    projected.projected = 0xff;
    let mut displaced = plain;
    for i in [0, 2, 4, 6] {
        displaced.stages[i] = bump_stage(23, true);
    }
    displaced.projected = 0x0f;
    [plain, projected, displaced]
}

fn on_sampling_keys(variant: Variant) -> impl Iterator<Item = Triple> {
    sampling_keys().into_iter().map(move |key| Triple {
        variant,
        ..Triple::plain(key)
    })
}

/// Each bit of each mask, and each combination of the seven masks at every stage.
fn masks() -> Vec<Triple> {
    let mut variants = Vec::new();
    for mask in 0..7 {
        for bit in 0..16 {
            let mut variant = Variant::default();
            variant.masks[mask] = 1 << bit;
            variants.push(variant);
        }
    }
    for combination in 0..128 {
        for flags in [0, LOD_BIAS] {
            variants.push(Variant {
                masks: std::array::from_fn(|n| if combination >> n & 1 == 0 { 0 } else { 0xff }),
                flags,
                ..Variant::default()
            });
        }
    }
    variants.into_iter().flat_map(on_sampling_keys).collect()
}

fn flags() -> Vec<Triple> {
    let variants = (0..0x40).map(|flags| Variant {
        flags,
        fog_table_mode: 1,
        sample_mask: 5,
        ..Variant::default()
    });
    variants.flat_map(on_sampling_keys).collect()
}

fn fog() -> Vec<Triple> {
    let mut triples = Vec::new();
    for fog_mode in FOG_MODES {
        for fog_table_mode in FOG_MODES {
            for flags in [0, FOG_SOURCE_W] {
                triples.push(Triple {
                    variant: Variant {
                        fog_mode,
                        fog_table_mode,
                        flags,
                        ..Variant::default()
                    },
                    ..Triple::plain(Key::of(&[]))
                });
            }
        }
    }
    triples
}

/// Every alpha function and every sample mask, with specular add and without.
fn outputs() -> Vec<Triple> {
    let mut triples = Vec::new();
    for specular in [0, 1] {
        for code in 0..=255 {
            let mut triple = Triple::plain(Key::of(&[]));
            triple.key.specular = specular;
            triple.variant.alpha_func = code;
            triples.push(triple);
            triple.variant.alpha_func = 0;
            triple.variant.sample_mask = code;
            triple.variant.flags = SAMPLE_MASK;
            triples.push(triple);
        }
    }
    triples
}

/// Every length, and every permitted byte in the first place and in the last.
fn entries() -> Vec<Triple> {
    let mut names: Vec<Vec<u8>> = (1..=32).map(|length| vec![b'_'; length]).collect();
    for byte in (0..=255_u8).filter(|&b| b.is_ascii_alphanumeric() || b == b'_') {
        if !byte.is_ascii_digit() {
            names.push(vec![byte]);
        }
        let mut long = [b'm'; 32];
        long[31] = byte;
        names.push(long.to_vec());
    }
    let triple = |name: Vec<u8>| Triple {
        entry: Entry::new(&name),
        ..Triple::plain(Key::of(&[]))
    };
    names.into_iter().map(triple).collect()
}
