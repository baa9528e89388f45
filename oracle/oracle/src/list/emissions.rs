//! The inputs of the list that are accepted.

use crate::{
    emission::emit,
    generate::{self, FOG_MODES, MODIFIERS, Rng, SAMPLING, TEXT_OPS, bump_chain},
    records::{
        Combiner, Entry, Key, Kind, POINT_SPRITE, SRGB_WRITE, STAGES, Stage, TEXTURED, TO_TEMP,
        Triple, Variant, record,
    },
    rules::THREE_OPERANDS,
    states::{CURRENT, RESULT_ARG, StateWrite, TEMP, TEXTURE_BOUND, TYPES},
    worked,
};

/// How much the emits of one input print at most.
const PRINTED: usize = 16_000;
const ALPHA_FUNCS: [u8; 11] = [0, 1, 2, 3, 4, 5, 6, 7, 8, 9, 255];

/// An op without a text, and arguments with an unknown selector or modifier.
const BAD: Combiner = Combiner::new(0, 0x47, 0x8f);
/// The same where the first argument is an unbound texture.
const BAD_FALLBACK: Combiner = Combiner::new(0, 0x42, 0x8f);

const SELECT: Combiner = Combiner::new(2, 0, 0);
const PLAIN: Stage = stage(SELECT, SELECT, 0);

const fn stage(color: Combiner, alpha: Combiner, flags: u8) -> Stage {
    Stage {
        color,
        alpha,
        flags,
    }
}

/// A bump stage; a colour fallback with alpha kept; alpha from colour; alpha kept by a bump op; an alpha fallback; a result in a dead TEMP, which warns;
/// alpha beside a fallback of op 24, which warns; and a stage behind the cascade's end.
const FULL_OF_CAUSES: [Stage; STAGES] = [
    stage(Combiner::new(22, BAD.arg1, BAD.arg2), BAD, 0),
    stage(BAD_FALLBACK, Combiner::new(1, BAD.arg1, BAD.arg2), 0),
    stage(Combiner::new(24, 0, 0), BAD, 0),
    stage(SELECT, Combiner::new(22, BAD.arg1, BAD.arg2), 0),
    stage(SELECT, BAD_FALLBACK, 0),
    stage(BAD, SELECT, TO_TEMP),
    stage(Combiner::new(24, 2, BAD.arg2), BAD, 0),
    stage(Combiner::new(1, BAD.arg1, BAD.arg2), BAD, TEXTURED),
];

pub fn inputs(rng: &mut Rng) -> Vec<Vec<u8>> {
    let mut maker = Maker { rng, made: 0 };
    let sections = [
        maker.op_codes(),
        maker.combiners(),
        maker.bump_chains(),
        maker.lookups(),
        maker.ends(),
        maker.warnings(),
        maker.random(),
        maker.everyday(),
        maker.three_operands(),
    ];
    let alone = |triple| pack(&[triple]);
    let worked = worked::all().into_iter().flat_map(alone);
    let sections = sections.iter().flat_map(|s| pack(s));
    let inputs = worked.chain(sections);
    inputs.chain(writes(maker.rng)).collect()
}

/// Inputs that make their keys from state writes: each stage and type first, every third with a text; all of them in some order, twice; both bits of the
/// flags over each that may be held; long lists; a key record between writes.
fn writes(rng: &mut Rng) -> Vec<Vec<u8>> {
    let mut states: Vec<(u8, u8)> = (0..STAGES as u8)
        .flat_map(|stage| TYPES.map(|state| (stage, state)))
        .collect();
    let some = |rng: &mut Rng, (stage, state)| loop {
        let write = generate::write(rng);
        if write.state == state {
            break StateWrite { stage, ..write };
        }
    };
    let mut inputs = Vec::new();
    for (n, &state) in states.iter().enumerate() {
        inputs.push(of_writes(&[some(rng, state)], n % 3 == 0));
    }
    for _ in 0..2 {
        rng.shuffle(&mut states);
        let all: Vec<StateWrite> = states.iter().map(|&state| some(rng, state)).collect();
        inputs.push(of_writes(&all, true));
    }
    inputs.push(of_writes(&flag_writes(), true));
    for length in [20, 200, 1_000] {
        let list: Vec<StateWrite> = (0..length).map(|_| generate::write(rng)).collect();
        inputs.push(of_writes(&list, true));
    }
    let around: Vec<StateWrite> = (0..4).map(|_| generate::write(rng)).collect();
    let mut input = of_writes(&around, true);
    input.extend(record(Kind::Key, &generate::key(rng).body()));
    input.extend(of_writes(&around, true));
    inputs.push(input);
    inputs
}

/// The records of writes, and an emit record behind a plain variant and an entry.
fn of_writes(writes: &[StateWrite], emits: bool) -> Vec<u8> {
    let records = writes.iter().map(|w| record(Kind::State, &w.body()));
    let mut input: Vec<u8> = records.flatten().collect();
    if emits {
        input.extend(record(Kind::Variant, &Variant::default().body()));
        input.extend(record(Kind::Entry, &Entry::new(b"written").body()));
        input.extend(record(Kind::Emit, &[]));
    }
    input
}

/// Each value of the types 28 and 0 over each flags that a stage may hold.
fn flag_writes() -> Vec<StateWrite> {
    let result = |value| (RESULT_ARG, value);
    let bound = |value| (TEXTURE_BOUND, value);
    let mut writes = Vec::new();
    for (held_result, held_bound) in [(CURRENT, 0), (CURRENT, 1), (TEMP, 0), (TEMP, 1)] {
        for last in [result(CURRENT), result(TEMP), bound(0), bound(1)] {
            let stage = (writes.len() % STAGES) as u8;
            let three = [result(held_result), bound(held_bound), last];
            writes.extend(three.map(|(state, value)| StateWrite {
                stage,
                state,
                value,
            }));
        }
    }
    writes
}

/// Joins triples to inputs, each triple with the records that changed.
fn pack(triples: &[Triple]) -> Vec<Vec<u8>> {
    let mut inputs: Vec<Vec<u8>> = Vec::new();
    let mut held: Option<&Triple> = None;
    let mut printed = 0;
    for triple in triples {
        let length = emit(triple).text.len();
        if held.is_none() || printed + length > PRINTED {
            inputs.push(Vec::new());
            held = None;
            printed = 0;
        }
        let input = inputs.last_mut().expect("one begun");
        if held.is_none_or(|h| h.key != triple.key) {
            input.extend(record(triple.key.kind(), &triple.key.body()));
        }
        if held.is_none_or(|h| h.variant != triple.variant) {
            input.extend(record(Kind::Variant, &triple.variant.body()));
        }
        if held.is_none_or(|h| h.entry != triple.entry) {
            input.extend(record(Kind::Entry, &triple.entry.body()));
        }
        input.extend(record(Kind::Emit, &[]));
        held = Some(triple);
        printed += length;
    }
    inputs
}

struct Maker<'a> {
    rng: &'a mut Rng,
    made: usize,
}

impl Maker<'_> {
    /// A triple without masks. The first go through the settings behind the cascade; later ones leave
    /// out what makes a text much longer.
    fn triple(&mut self, key: Key) -> Triple {
        let n = self.made;
        self.made += 1;
        let mut variant = Variant {
            alpha_func: ALPHA_FUNCS[n % 11],
            sample_mask: self.rng.byte(),
            flags: (n * 37 % 64) as u8,
            ..Variant::default()
        };
        if n < FOG_MODES.len().pow(2) {
            variant.fog_mode = FOG_MODES[n % 6];
            variant.fog_table_mode = FOG_MODES[n / 6 % 6];
        } else {
            variant.flags &= !(POINT_SPRITE | SRGB_WRITE);
        }
        let length = [1, 32, 1 + n % 32][n % 3];
        Triple {
            key,
            variant,
            entry: generate::name(self.rng, length),
        }
    }

    fn triples(&mut self, keys: &[Key]) -> Vec<Triple> {
        keys.iter().map(|key| self.triple(*key)).collect()
    }

    /// Every colour op but 1, and every alpha op beside a colour op that leaves it its say.
    fn op_codes(&mut self) -> Vec<Triple> {
        let stage = |color, alpha| Stage {
            color: Combiner::new(color, 0, 4),
            alpha: Combiner::new(alpha, 1, 0),
            flags: 0,
        };
        let mut stages: Vec<Stage> = (0..=255)
            .filter(|&color| color != 1)
            .map(|color| stage(color, color ^ 0x80))
            .collect();
        stages.extend([1, 22, 23, 24].map(|color| stage(2, color ^ 0x80)));
        let keys: Vec<Key> = stages.chunks(STAGES).map(Key::of).collect();
        self.triples(&keys)
    }

    /// Every op with a text, with and without texture, in colour and in alpha, with selectors 0 to 6
    /// and one above in argument 1, and so in argument 2; every pair of these selectors somewhere.
    fn combiners(&mut self) -> Vec<Triple> {
        let mut stages = Vec::new();
        for flags in [0, TEXTURED] {
            for n in 0..TEXT_OPS.len() {
                for first in 0..8 {
                    stages.extend(self.combiner_stages(n, first, flags));
                }
            }
        }
        self.rng.shuffle(&mut stages);
        let keys: Vec<Key> = stages.chunks(STAGES).map(Key::of).collect();
        self.triples(&keys)
    }

    /// A stage for the `n`th op; a second one where the first takes alpha from colour.
    fn combiner_stages(&mut self, n: usize, first: usize, flags: u8) -> Vec<Stage> {
        let shift = usize::from(flags);
        let alpha_n = (n + first) % TEXT_OPS.len();
        let color = self.combiner(n, first, 3 * first + 2 * n + shift);
        let alpha = self.combiner(alpha_n, first, 5 * first + 2 * alpha_n + shift);
        let to_temp = (n + 2 * first).is_multiple_of(5);
        let stage = |color| Stage {
            color,
            alpha,
            flags: flags | if to_temp { TO_TEMP } else { 0 },
        };
        let mut stages = vec![stage(color)];
        if color.op == 24 {
            stages.push(stage(Combiner::new(2, 0, 0)));
        }
        stages
    }

    fn combiner(&mut self, n: usize, first: usize, second: usize) -> Combiner {
        Combiner::new(TEXT_OPS[n], self.argument(first), self.argument(second))
    }

    fn argument(&mut self, choice: usize) -> u8 {
        let selector = match choice % 8 {
            7 => 7 + self.rng.below(9),
            known => known,
        };
        selector as u8 | self.rng.pick(&MODIFIERS)
    }

    /// Chains of every length, of luminance stages with textures and mixed; short ones of others.
    fn bump_chains(&mut self) -> Vec<Triple> {
        const TEXTURED_22: u16 = 0x5555;
        const PLAIN_23: u16 = 0xaaaa;
        const TEXTURED_23: u16 = 0xffff;
        let mut keys = Vec::new();
        for length in 1..=STAGES {
            let mixed = self.rng.next_u64() as u16;
            keys.extend([TEXTURED_23, mixed].map(|p| bump_chain(length, p, true)));
        }
        for length in [1, 2, 3] {
            keys.extend([TEXTURED_22, PLAIN_23].map(|p| bump_chain(length, p, true)));
            keys.push(bump_chain(length, TEXTURED_23, false));
        }
        let mut triples = self.triples(&keys);
        for triple in &mut triples {
            triple.key.projected = self.rng.byte();
            triple.variant.masks = self.masks();
        }
        triples
    }

    fn masks(&mut self) -> [u16; 7] {
        std::array::from_fn(|_| (self.rng.next_u64() & self.rng.next_u64()) as u16)
    }

    /// Every combination of the seven masks at a stage with a lookup; the bits above the eighth,
    /// which have no effect, at random.
    fn lookups(&mut self) -> Vec<Triple> {
        let mut combinations: Vec<usize> = (0..128).collect();
        self.rng.shuffle(&mut combinations);
        let mut triples = Vec::new();
        for combination in combinations.chunks(STAGES) {
            let mut key = Key::of(&[SAMPLING; STAGES]);
            key.projected = self.rng.byte();
            let mut triple = self.triple(key);
            for (n, mask) in triple.variant.masks.iter_mut().enumerate() {
                let bit = |i: usize| (combination[i] >> n & 1) << i;
                let effective: usize = (0..STAGES).map(bit).sum();
                *mask = effective as u16 | u16::from(self.rng.byte()) << 8;
            }
            triples.push(triple);
        }
        triples
    }

    /// A key that ends at each place, with much behind the end.
    fn ends(&mut self) -> Vec<Triple> {
        let keys: Vec<Key> = (0..STAGES)
            .map(|end| {
                let mut key = generate::key(self.rng);
                for stage in &mut key.stages[..end] {
                    stage.color = Combiner::new(4, 1, 6);
                    stage.alpha.op = 1;
                }
                key.stages[end].color.op = 1;
                key.specular = (end % 2) as u8;
                key
            })
            .collect();
        self.triples(&keys)
    }

    /// Each cause alone in its mask, at each stage, in colour; each choice of causes in alpha, beside a bad alpha function; and stages full of causes,
    /// some of which do not warn.
    fn warnings(&mut self) -> Vec<Triple> {
        const CAUSES: [Combiner; 3] = [
            Combiner::new(17, 0, 0),
            Combiner::new(2, 7, 0),
            Combiner::new(2, 0, 0x40),
        ];
        let in_color = |n: usize| {
            let mut key = Key::of(&[PLAIN; STAGES]);
            for (cause, shift) in CAUSES.into_iter().zip([0, 1, 3]) {
                key.stages[(n + shift) % STAGES].color = cause;
            }
            key
        };
        let in_alpha = |choice: usize| {
            let mut key = Key::of(&[PLAIN; CAUSES.len()]);
            for (n, cause) in CAUSES.into_iter().enumerate() {
                if choice >> n & 1 != 0 {
                    key.stages[n].alpha = cause;
                }
            }
            key
        };
        let mut keys: Vec<Key> = (0..STAGES).map(in_color).collect();
        keys.push(Key::of(&FULL_OF_CAUSES));
        let mut triples = self.triples(&keys);
        let keys: Vec<Key> = (0..1 << CAUSES.len()).map(in_alpha).collect();
        for mut triple in self.triples(&keys) {
            triple.variant.alpha_func = 9;
            triples.push(triple);
        }
        triples
    }

    /// Keys of kind 6: each op of three operands, in colour and in alpha, with selectors 0 to 6 and one above as each argument, with a texture and without;
    /// every third stage of another op, which ignores argument 0; and random ones.
    fn three_operands(&mut self) -> Vec<Triple> {
        let mut stages = Vec::new();
        for flags in [0, TEXTURED, TEXTURED | TO_TEMP] {
            for op in THREE_OPERANDS {
                for choice in 0..8 {
                    for place in 0..3 {
                        stages.push(self.three_operand_stage(op, choice, place, flags));
                    }
                    let mut other = self.three_operand_stage(op, choice, 0, flags);
                    other.color.op = self.rng.pick(&TEXT_OPS);
                    other.alpha.op = self.rng.pick(&TEXT_OPS);
                    stages.push(other);
                }
            }
        }
        self.rng.shuffle(&mut stages);
        let keys: Vec<Key> = stages
            .chunks(STAGES)
            .map(|stages| Key::of(stages).widened())
            .collect();
        let mut triples = self.triples(&keys);
        triples.extend((0..4).map(|_| generate::wide_triple(self.rng)));
        triples
    }

    /// A choice as one of the arguments of both combiners, and other arguments that are no texture, which would make a fallback.
    fn three_operand_stage(&mut self, op: u8, choice: usize, place: usize, flags: u8) -> Stage {
        let mut combiner = |op| {
            let mut arguments = [0, 0, 0].map(|_| self.rng.pick(&[0, 1, 3, 4, 5, 6]));
            arguments[place] = self.argument(choice);
            let [arg0, arg1, arg2] = arguments;
            Combiner::wide(op, arg0, arg1, arg2)
        };
        Stage {
            color: combiner(op),
            alpha: combiner(THREE_OPERANDS[0] + THREE_OPERANDS[1] - op),
            flags,
        }
    }

    fn random(&mut self) -> Vec<Triple> {
        (0..4).map(|_| generate::triple(self.rng)).collect()
    }

    /// With one entry and few variants, so that these stay in force; the last key emits twice.
    fn everyday(&mut self) -> Vec<Triple> {
        let mut triples: Vec<Triple> = (0..6).map(|_| generate::everyday(self.rng)).collect();
        triples.extend_from_within(5..);
        triples
    }
}
