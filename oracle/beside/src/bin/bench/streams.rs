//! Records read, written and applied, and whole inputs of the program.

use std::{
    fs::File,
    hint::black_box,
    io::Write,
    path::Path,
    process::{Command, Stdio},
};

use ffcore::dxso::ff::emit_ps_ff_named;
use oraclelib::{
    INPUT_CAP,
    emission::{rust_key, rust_variant},
    generate::{self, Rng},
    program,
    program::{Held, Record},
    records::{Kind, Triple, record},
    rules,
    states::StateWrite,
};
use yuzuknoll::{
    TEXT_LENGTH,
    raw::{self, Applied, HELD_LENGTH},
};

use crate::measure::{Clock, Row, Sides, measure};

/// Everyday triples, and as many state writes.
struct Corpus {
    triples: Vec<Triple>,
    writes: Vec<StateWrite>,
}

impl Corpus {
    fn records(&self, kind: Kind) -> Vec<Vec<u8>> {
        let body = |triple: &Triple| match kind {
            Kind::Key => triple.key.body(),
            Kind::WideKey => triple.key.widened().body(),
            Kind::Variant => triple.variant.body(),
            Kind::Entry => triple.entry.body(),
            Kind::Emit | Kind::State => Vec::new(),
        };
        if kind == Kind::State {
            return self
                .writes
                .iter()
                .map(|w| record(kind, &w.body()))
                .collect();
        }
        let records = self.triples.iter().map(|t| record(kind, &body(t)));
        records.collect()
    }
}

const KINDS: [(&str, Kind); 5] = [
    ("key", Kind::Key),
    ("variant", Kind::Variant),
    ("entry", Kind::Entry),
    ("state write", Kind::State),
    ("key of kind 6", Kind::WideKey),
];

pub fn records(rng: &mut Rng, count: usize, passes: usize) -> Vec<Row> {
    let triples = (0..count).map(|_| generate::everyday(rng)).collect();
    let writes = (0..count).map(|_| generate::write(rng)).collect();
    let corpus = Corpus { triples, writes };
    let mut rows = Vec::new();
    for (name, kind) in KINDS {
        rows.push(read_row(name, &corpus.records(kind), passes));
    }
    for (name, kind) in KINDS {
        rows.push(write_row(name, &corpus.records(kind), passes));
    }
    for (name, kind) in KINDS {
        rows.push(hold_row(name, &corpus.records(kind), passes));
    }
    rows.push(emit_row(&corpus, passes));
    rows
}

/// The bytes of each record into one buffer.
fn copy_of(records: &[Vec<u8>]) -> Box<dyn FnMut() + '_> {
    let mut copied = vec![0; TEXT_LENGTH];
    Box::new(move || {
        for record in records {
            let record = black_box(record);
            copied[..record.len()].copy_from_slice(record);
            black_box(&mut copied);
        }
    })
}

fn row(group: &'static str, name: &str, passes: usize, records: &[Vec<u8>], sides: Sides) -> Row {
    row_by(Clock::Thread, group, name, passes, records, sides)
}

fn row_by(
    clock: Clock,
    group: &'static str,
    name: &str,
    passes: usize,
    records: &[Vec<u8>],
    sides: Sides,
) -> Row {
    let (rust, ours, copy) = measure(clock, passes, records.len(), sides);
    let bytes: usize = records.iter().map(Vec::len).sum();
    Row {
        group,
        name: name.to_owned(),
        calls: records.len(),
        bytes: bytes as f64 / records.len() as f64,
        rust,
        ours,
        copy,
    }
}

fn read_row(name: &str, records: &[Vec<u8>], passes: usize) -> Row {
    let mut report = raw::Record::default();
    let sides = Sides {
        rust: Some(Box::new(|| {
            for record in records {
                black_box(Record::read(black_box(record)).is_ok());
            }
        })),
        ours: Box::new(|| {
            for record in records {
                black_box(raw::read(black_box(record), black_box(&mut report)));
            }
        }),
        copy: copy_of(records),
    };
    row("read", name, passes, records, sides)
}

fn write_row(name: &str, records: &[Vec<u8>], passes: usize) -> Row {
    let mut buffer = [0; HELD_LENGTH];
    let mut theirs = [0; HELD_LENGTH];
    let mut report = raw::Record::default();
    let sides = Sides {
        rust: Some(Box::new(|| {
            for record in records {
                let read = Record::read(black_box(record)).expect("a good record");
                let bytes = read.bytes();
                theirs[..bytes.len()].copy_from_slice(&bytes);
                black_box(&mut theirs);
            }
        })),
        ours: Box::new(|| {
            for record in records {
                let (record, buffer) = (black_box(record), black_box(&mut buffer));
                black_box(raw::write(record, buffer, black_box(&mut report)));
            }
        }),
        copy: copy_of(records),
    };
    row("write", name, passes, records, sides)
}

fn hold_row(name: &str, records: &[Vec<u8>], passes: usize) -> Row {
    let mut held = [0; HELD_LENGTH];
    let mut theirs = Held::default();
    let mut report = Applied::default();
    let sides = Sides {
        rust: Some(Box::new(|| {
            for record in records {
                theirs.hold(Record::read(black_box(record)).expect("a good record"));
                black_box(&mut theirs);
            }
        })),
        ours: Box::new(|| {
            for record in records {
                let (held, record) = (black_box(&mut held), black_box(record));
                black_box(raw::apply(held, record, &mut [], black_box(&mut report)));
            }
        }),
        copy: copy_of(records),
    };
    row("apply", name, passes, records, sides)
}

/// What the Rust does for an emit record: its types made from what is held, then text, mask and rows.
fn rust_emit(held: &Held) -> (String, u16, u8) {
    let key = rust_key(&held.key.expect("a key"));
    let variant = rust_variant(&held.variant.expect("a variant"));
    let entry = held.entry.expect("an entry");
    let text = emit_ps_ff_named(&key, variant, entry.name());
    (text, key.sampled_stage_mask(), key.constant_rows())
}

/// A triple as yuzuknoll_apply holds it.
fn held_bytes(triple: &Triple) -> [u8; HELD_LENGTH] {
    let mut held = [0; HELD_LENGTH];
    let mut records = triple.records();
    while !records.is_empty() {
        let mut applied = Applied::default();
        let number = raw::apply(&mut held, &records, &mut [], &mut applied);
        assert_eq!(number, 0, "a good record");
        records.drain(..applied.taken as usize);
    }
    held
}

fn emit_row(corpus: &Corpus, passes: usize) -> Row {
    let theirs: Vec<Held> = corpus
        .triples
        .iter()
        .map(|t| Held {
            key: Some(t.key),
            variant: Some(t.variant),
            entry: Some(t.entry),
        })
        .collect();
    let texts: Vec<Vec<u8>> = theirs
        .iter()
        .map(|held| rust_emit(held).0.into_bytes())
        .collect();
    let mut ours: Vec<[u8; HELD_LENGTH]> = corpus.triples.iter().map(held_bytes).collect();
    let mut report = Applied::default();
    let mut buffer = vec![0; TEXT_LENGTH];
    let sides = Sides {
        rust: Some(Box::new(|| {
            for held in &theirs {
                black_box(rust_emit(black_box(held)));
            }
        })),
        ours: Box::new(|| {
            for held in &mut ours {
                black_box(raw::apply(
                    black_box(held),
                    black_box(&[Kind::Emit as u8]),
                    black_box(&mut buffer),
                    black_box(&mut report),
                ));
            }
        }),
        copy: copy_of(&texts),
    };
    row("apply", "emit", passes, &texts, sides)
}

/// One input is passed over more often than a corpus.
const MORE: usize = 5;

/// An input that is as long as the program takes: everyday triples, an emit record behind each.
fn whole_input(rng: &mut Rng) -> Vec<u8> {
    let mut input = Vec::new();
    loop {
        let mut one = generate::everyday(rng).records();
        one.push(Kind::Emit as u8);
        if input.len() + one.len() > INPUT_CAP {
            return input;
        }
        input.extend(one);
    }
}

/// The program's output, by the C interface.
fn ours_output(input: &[u8], out: &mut Vec<u8>, text: &mut [u8]) {
    let mut held = [0; HELD_LENGTH];
    let mut applied = Applied::default();
    let (mut at, mut texts) = (0, 0);
    out.clear();
    while at < input.len() {
        let number = raw::apply(&mut held, &input[at..], text, &mut applied);
        assert_eq!(number, 0, "a good record");
        if applied.kind == Kind::Emit as u64 {
            let e = applied.result;
            let (op, selector) = (e.op_warnings, e.selector_warnings);
            let (modifier, alpha) = (e.modifier_warnings, e.alpha_warning);
            writeln!(
                out,
                "emit {} {} {} {op} {selector} {modifier} {alpha}",
                e.mask, e.rows, e.lookups
            )
            .expect("room");
            out.extend_from_slice(&text[..e.length as usize]);
            texts += 1;
        }
        at += applied.taken as usize;
    }
    writeln!(out, "end {texts}").expect("room");
}

/// The same by the published Rust, with lookups and warnings by 01's rules on the key, which the Rust does not report.
fn rust_output(input: &[u8], out: &mut Vec<u8>) {
    let mut held = Held::default();
    let (mut at, mut texts) = (0, 0);
    out.clear();
    while at < input.len() {
        let read = Record::read(&input[at..]).expect("a good record");
        at += beside::length(read.kind());
        if let Record::Emit = read {
            let (text, mask, rows) = rust_emit(&held);
            let key = held.key.expect("a key");
            let lookups = rules::marks(&key).count_ones();
            let warnings = rules::warnings(&key, &held.variant.expect("a variant"));
            writeln!(out, "emit {mask} {rows} {lookups} {warnings}").expect("room");
            out.extend_from_slice(text.as_bytes());
            texts += 1;
        } else {
            held.hold(read);
        }
    }
    writeln!(out, "end {texts}").expect("room");
}

/// Whole inputs: in one process, and by the programs where both are built.
pub fn inputs(rng: &mut Rng, passes: usize, programs: Option<(&Path, &Path)>) -> Vec<Row> {
    let input = whole_input(rng);
    let output = program(&input, TEXT_LENGTH);
    let mut rows = vec![in_process(&input, &output, passes)];
    if let Some((ffps, oracle)) = programs {
        rows.push(as_processes(&input, &output, passes, ffps, oracle));
    }
    rows
}

fn in_process(input: &[u8], output: &[u8], passes: usize) -> Row {
    let mut text = vec![0; TEXT_LENGTH];
    let (mut ours, mut theirs, mut copied) = (Vec::new(), Vec::new(), vec![0; output.len()]);
    ours_output(input, &mut ours, &mut text);
    rust_output(input, &mut theirs);
    assert!(
        ours == output && theirs == output,
        "the sides print the same"
    );
    let sides = Sides {
        rust: Some(Box::new(|| {
            rust_output(black_box(input), &mut theirs);
            black_box(&mut theirs);
        })),
        ours: Box::new(|| {
            ours_output(black_box(input), &mut ours, &mut text);
            black_box(&mut ours);
        }),
        copy: Box::new(|| {
            copied.copy_from_slice(black_box(output));
            black_box(&mut copied);
        }),
    };
    row("input", "in one process", passes, &[output.to_vec()], sides)
}

/// Standard input and output of the processes are files, as a pipe would be timed too. The copy is by `cat`.
fn as_processes(input: &[u8], output: &[u8], passes: usize, ffps: &Path, oracle: &Path) -> Row {
    let folder = std::env::temp_dir().join(format!("yuzuknoll-bench-{}", std::process::id()));
    std::fs::create_dir_all(&folder).expect("a folder for the processes' files");
    let (from, to, printed) = (
        folder.join("input"),
        folder.join("output"),
        folder.join("printed"),
    );
    std::fs::write(&from, input).expect("the input");
    std::fs::write(&printed, output).expect("the output");
    let run = |program: &Path, from: &Path| {
        let status = Command::new(program)
            .stdin(Stdio::from(File::open(from).expect("the input")))
            .stdout(Stdio::from(File::create(&to).expect("an output")))
            .status();
        assert!(
            status.is_ok_and(|s| s.success()),
            "{} runs",
            program.display()
        );
    };
    for program in [ffps, oracle] {
        run(program, &from);
        let same = std::fs::read(&to).expect("the output") == output;
        assert!(same, "{} prints the same", program.display());
    }
    let sides = Sides {
        rust: Some(Box::new(|| run(oracle, &from))),
        ours: Box::new(|| run(ffps, &from)),
        copy: Box::new(|| run(Path::new("cat"), &printed)),
    };
    let row = row_by(
        Clock::Wall,
        "input",
        "as processes",
        MORE * passes,
        &[output.to_vec()],
        sides,
    );
    std::fs::remove_dir_all(&folder).expect("the folder");
    row
}
