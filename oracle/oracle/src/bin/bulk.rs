//! `bulk`: answers to many triples on standard input, each the bodies of a key, a variant and an
//! entry, 110 bytes; after `--wide` 126, with keys of kind 6.
//!
//! An answer is eleven bytes: the text's length and the mask, two bytes each, low byte first, then
//! rows, lookups, the four numbers of the warnings, and the cause; behind them the text. With a
//! cause other than 0 (the first of 3, 4, 5, 6 and 13) all else is 0 and there is no text.
//!
//! `--nums`: without the texts. `--bench N`: instead of answers, the time per emission over N
//! passes.

use std::{
    hint::black_box,
    io::{Read, Write},
    time::{Duration, Instant},
};

use ffcore::dxso::{
    emit::VariantKey,
    ff::{FfPsKey, emit_ps_ff_named},
};
use oraclelib::{
    emission::{rust_key, rust_variant},
    emit,
    records::{TRIPLE, Triple, WIDE_TRIPLE},
    rules,
};

fn main() -> std::io::Result<()> {
    let args: Vec<String> = std::env::args().skip(1).collect();
    let args: Vec<&str> = args.iter().map(String::as_str).collect();
    let (size, args) = match &args[..] {
        ["--wide", rest @ ..] => (WIDE_TRIPLE, rest),
        all => (TRIPLE, all),
    };
    let mut input = Vec::new();
    std::io::stdin().lock().read_to_end(&mut input)?;
    assert_eq!(input.len() % size, 0, "standard input ends inside a triple");
    let triples = input.chunks_exact(size).map(Triple::from_bodies);
    match *args {
        [] => answer(triples, true),
        ["--nums"] => answer(triples, false),
        ["--bench", passes] => bench(triples, passes.parse().expect("--bench wants a number")),
        _ => panic!("unknown arguments {args:?}"),
    }
}

fn answer(triples: impl Iterator<Item = Triple>, texts: bool) -> std::io::Result<()> {
    let mut out = std::io::BufWriter::with_capacity(1 << 20, std::io::stdout().lock());
    for triple in triples {
        if let Some(cause) = triple.cause() {
            out.write_all(&[0; 10])?;
            out.write_all(&[cause.number()])?;
            continue;
        }
        let o = emit(&triple);
        let length = u16::try_from(o.text.len()).expect("at most 16,384 bytes");
        out.write_all(&length.to_le_bytes())?;
        out.write_all(&o.mask.to_le_bytes())?;
        out.write_all(&[o.rows, o.lookups])?;
        out.write_all(&o.warnings.numbers())?;
        out.write_all(&[0])?;
        if texts {
            out.write_all(o.text.as_bytes())?;
        }
    }
    out.flush()
}

/// An emission's arguments in the Rust's types.
struct Call {
    key: FfPsKey,
    variant: VariantKey,
    entry: String,
}

impl Call {
    fn of(triple: Triple) -> Self {
        assert_eq!(triple.cause(), None, "--bench wants accepted triples");
        assert!(
            !rules::has_three_operands(&triple.key),
            "the Rust has no text of three operands"
        );
        Self {
            key: rust_key(&triple.key),
            variant: rust_variant(&triple.variant),
            entry: triple.entry.name().to_owned(),
        }
    }

    fn text(&self) -> String {
        emit_ps_ff_named(
            black_box(&self.key),
            black_box(self.variant),
            black_box(&self.entry),
        )
    }
}

fn bench(triples: impl Iterator<Item = Triple>, passes: usize) -> std::io::Result<()> {
    let calls: Vec<Call> = triples.map(Call::of).collect();
    let bytes: usize = calls.iter().map(|call| call.text().len()).sum();
    let text = measure(&calls, passes, |call| {
        black_box(call.text());
    });
    let all = measure(&calls, passes, |call| {
        black_box((
            call.text(),
            call.key.sampled_stage_mask(),
            call.key.constant_rows(),
        ));
    });
    let count = calls.len();
    let mut out = std::io::stdout().lock();
    writeln!(
        out,
        "triples {count}, passes {passes}, bytes per text {}",
        bytes / count
    )?;
    for (what, times) in [("text", text), ("text, mask and rows", all)] {
        let nanoseconds = |time: Duration| time.as_nanos() / count as u128;
        let mean = nanoseconds(times.iter().sum::<Duration>() / passes as u32);
        let best = nanoseconds(*times.iter().min().expect("at least one pass"));
        writeln!(out, "{what}: mean {mean} ns, best pass {best} ns")?;
    }
    Ok(())
}

/// The time of each pass.
fn measure(calls: &[Call], passes: usize, one: impl Fn(&Call)) -> Vec<Duration> {
    let pass = |_| {
        let start = Instant::now();
        calls.iter().for_each(&one);
        start.elapsed()
    };
    (0..passes).map(pass).collect()
}
