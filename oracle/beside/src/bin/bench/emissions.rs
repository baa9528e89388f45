//! Emission: the corpus of the comparison and everyday keys, and how the time grows with stages and text.

use std::hint::black_box;

use beside::{Bodies, Emit};
use ffcore::dxso::{
    emit::VariantKey,
    ff::{FfPsKey, emit_ps_ff_named},
};
use oraclelib::{
    emission::{rust_key, rust_variant},
    emit,
    generate::{self, Rng},
    records::{Combiner, KEY, Key, STAGES, Stage, TEXTURED, TRIPLE, Triple, WIDE_KEY},
    rules::{self, THREE_OPERANDS},
};
use yuzuknoll::{TEXT_LENGTH, raw::Emitted};

use crate::measure::{Clock, Row, Sides, measure};

/// One emission's arguments, in each one's types, and its text.
pub struct Call<const K: usize = KEY> {
    key: FfPsKey,
    variant: VariantKey,
    entry: String,
    bodies: Bodies<K>,
    text: Vec<u8>,
    /// Whether the Rust has this text.
    by_the_rust: bool,
}

impl<const K: usize> Call<K> {
    pub fn of(triple: &Triple) -> Self {
        Self {
            key: rust_key(&triple.key),
            variant: rust_variant(&triple.variant),
            entry: triple.entry.name().to_owned(),
            bodies: Bodies::of(triple),
            text: emit(triple).text.into_bytes(),
            by_the_rust: !rules::has_three_operands(&triple.key),
        }
    }

    /// The published Rust: text, mask and rows.
    fn rust(&self) -> (String, u16, u8) {
        let text = emit_ps_ff_named(
            black_box(&self.key),
            black_box(self.variant),
            black_box(&self.entry),
        );
        (
            text,
            self.key.sampled_stage_mask(),
            self.key.constant_rows(),
        )
    }
}

pub fn row<const K: usize>(
    group: &'static str,
    name: &str,
    passes: usize,
    calls: &[&Call<K>],
) -> Row
where
    Bodies<K>: Emit,
{
    let mut buffer = vec![0; TEXT_LENGTH];
    let mut result = Emitted::default();
    let mut copied = vec![0; TEXT_LENGTH];
    let rust = || {
        for call in calls {
            black_box(call.rust());
        }
    };
    let by_the_rust = calls.iter().all(|call| call.by_the_rust);
    let sides = Sides {
        rust: by_the_rust.then(|| Box::new(rust) as Box<dyn FnMut()>),
        ours: Box::new(|| {
            for call in calls {
                let bodies = black_box(&call.bodies);
                black_box(bodies.emit(black_box(&mut buffer), black_box(&mut result)));
            }
        }),
        copy: Box::new(|| {
            for call in calls {
                let text = black_box(&call.text);
                copied[..text.len()].copy_from_slice(text);
                black_box(&mut copied);
            }
        }),
    };
    let (rust, ours, copy) = measure(Clock::Thread, passes, calls.len(), sides);
    let bytes: usize = calls.iter().map(|call| call.text.len()).sum();
    Row {
        group,
        name: name.to_owned(),
        calls: calls.len(),
        bytes: bytes as f64 / calls.len() as f64,
        rust,
        ours,
        copy,
    }
}

/// The two corpora, and the corpus of the comparison by the length of its texts.
pub fn emissions(rng: &mut Rng, count: usize, passes: usize) -> Vec<Row> {
    let mut corpus: Vec<Triple> = (0..count).map(|_| generate::triple(rng)).collect();
    corpus.extend(generate::systematic());
    let corpus: Vec<Call> = corpus.iter().map(Call::of).collect();
    let everyday: Vec<Call> = (0..count)
        .map(|_| Call::of(&generate::everyday(rng)))
        .collect();
    let all = |calls: &'static str, of: &[Call]| {
        row("emission", calls, passes, &of.iter().collect::<Vec<_>>())
    };
    let mut rows = vec![
        all("of the comparison", &corpus),
        all("everyday keys, none to four stages", &everyday),
    ];
    rows.extend(parts(&everyday, passes));
    rows.extend(by_length(&corpus, passes));
    rows
}

/// Keys of kind 6: the corpus of the comparison, everyday keys widened, and these with ops of three operands in the place of others.
pub fn wide_emissions(rng: &mut Rng, count: usize, passes: usize) -> Vec<Row> {
    let mut corpus: Vec<Triple> = (0..count).map(|_| generate::wide_triple(rng)).collect();
    corpus.extend(generate::wide_systematic());
    let everyday: Vec<Triple> = (0..count)
        .map(|_| {
            let mut triple = generate::everyday(rng);
            triple.key = triple.key.widened();
            triple
        })
        .collect();
    let with_three = |triple: &Triple| {
        let mut triple = *triple;
        for (n, stage) in triple.key.stages.iter_mut().enumerate() {
            if stage.color.op != 1 {
                stage.color.op = THREE_OPERANDS[n % 2];
            }
        }
        triple
    };
    let three: Vec<Triple> = everyday.iter().map(with_three).collect();
    [
        ("of the comparison", corpus),
        ("everyday keys, widened", everyday),
        ("everyday keys, colour with three operands", three),
    ]
    .map(|(name, triples)| {
        let calls: Vec<Call<WIDE_KEY>> = triples.iter().map(Call::of).collect();
        row("wide", name, passes, &calls.iter().collect::<Vec<_>>())
    })
    .into()
}

/// What an emission does before it writes: the values checked (an entry that is refused ends there), and the text measured (no buffer).
fn parts(calls: &[Call], passes: usize) -> [Row; 2] {
    let refused: Vec<Bodies> = calls.iter().map(|call| without_name(call.bodies)).collect();
    let (mut buffer, mut copied) = (vec![0; TEXT_LENGTH], vec![0; TEXT_LENGTH]);
    let (mut checked, mut result) = (Emitted::default(), Emitted::default());
    let read = Sides {
        rust: None,
        ours: Box::new(|| {
            for bodies in &refused {
                let bodies = black_box(bodies);
                black_box(bodies.emit(black_box(&mut buffer), black_box(&mut checked)));
            }
        }),
        copy: Box::new(|| {
            for bodies in &refused {
                let mut copy = black_box(*bodies);
                black_box(&mut copy);
            }
        }),
    };
    let measured = Sides {
        rust: None,
        ours: Box::new(|| {
            for call in calls {
                let bodies = black_box(&call.bodies);
                black_box(bodies.emit(black_box(&mut []), black_box(&mut result)));
            }
        }),
        copy: Box::new(|| {
            for call in calls {
                copied[..call.text.len()].copy_from_slice(black_box(&call.text));
                black_box(&mut copied);
            }
        }),
    };
    let text: usize = calls.iter().map(|call| call.text.len()).sum();
    [
        ("read and checked, the entry refused", TRIPLE as f64, read),
        (
            "read, checked and measured, no buffer",
            text as f64 / calls.len() as f64,
            measured,
        ),
    ]
    .map(|(name, bytes, sides)| {
        let (rust, ours, copy) = measure(Clock::Thread, passes, calls.len(), sides);
        Row {
            group: "parts",
            name: name.to_owned(),
            calls: calls.len(),
            bytes,
            rust,
            ours,
            copy,
        }
    })
}

fn without_name(mut bodies: Bodies) -> Bodies {
    bodies.entry[0] = 0;
    bodies
}

/// Bytes of text in one row of the growth with text.
const STEP: usize = 500;
/// Fewer calls than these make no row.
const FEWEST: usize = 50;
const MOST: usize = 1_000;
/// Rows of few calls are passed over more often.
const MORE: usize = 3;

fn by_length(corpus: &[Call], passes: usize) -> Vec<Row> {
    let longest = corpus.iter().map(|call| call.text.len()).max().unwrap_or(0);
    let mut rows = Vec::new();
    for from in (0..=longest).step_by(STEP) {
        let within = |call: &&Call| (from..from + STEP).contains(&call.text.len());
        let calls: Vec<&Call> = corpus.iter().filter(within).take(MOST).collect();
        if calls.len() >= FEWEST {
            let name = format!("{from} to {}", from + STEP - 1);
            rows.push(row("text", &name, MORE * passes, &calls));
        }
    }
    rows
}

/// Keys with so many active stages, each with a texture and a lookup.
pub fn by_stages(rng: &mut Rng, passes: usize) -> Vec<Row> {
    (0..=STAGES)
        .map(|stages| {
            let calls: Vec<Call> = (0..500)
                .map(|_| Call::of(&Triple::plain(key_of(rng, stages))))
                .collect();
            let calls: Vec<&Call> = calls.iter().collect();
            row("stages", &stages.to_string(), MORE * passes, &calls)
        })
        .collect()
}

/// Usual ops on a texture and what came before.
fn key_of(rng: &mut Rng, stages: usize) -> Key {
    const CURRENT: u8 = 1;
    const TEXTURE: u8 = 2;
    let stages: Vec<Stage> = (0..stages)
        .map(|_| Stage {
            color: Combiner::new(rng.pick(&[4, 5, 7, 8, 13]), TEXTURE, CURRENT),
            alpha: Combiner::new(rng.pick(&[2, 4]), TEXTURE, CURRENT),
            flags: TEXTURED,
        })
        .collect();
    Key::of(&stages)
}
