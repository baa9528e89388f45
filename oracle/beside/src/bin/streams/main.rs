//! `streams [SEED [COUNT]]`: yuzuknoll_read, yuzuknoll_write and yuzuknoll_apply beside the Rust side's translation, on COUNT streams of records.
//!
//! A stream is gone through record by record, up to its end or the first refusal. At each record the answers of the three functions are compared,
//! every number that they report, and every byte of what is held, of the written record and of the text's buffer, in front of it and behind it too. A
//! refusal must leave the report as it was. Beside the step itself there are calls with other buffers, short ones among them, and with what is held
//! damaged.
//!
//! Then lists of state writes, some of thousands, are applied one by one, and what is held is compared with a plain map from stage and type to the last
//! value (`lists`).
//!
//! First the comparison is shown to fail: wrong functions are put in the place of the archive's, and each must be found. Prints the counts and the
//! first differences; the exit status is 1 if there is any, or if a wrong function passes.

mod lists;
mod wrong;

use std::process::ExitCode;

use beside::{Answer, Lent, Report, applied, length, read_result};
use oraclelib::{
    Outcome,
    generate::{self, Rng, Stream},
    program::{Held, Record},
    records::{Kind, Refusal, STAGES},
};
use wrong::Wrong;
use yuzuknoll::{
    TEXT_LENGTH,
    raw::{self, Applied, HELD_LENGTH},
};

const SEED: u64 = 1;
const COUNT: u64 = 25_000;
/// Streams that each wrong function is given, always the same.
const SELF_TEST: u64 = 300;
/// A list of writes comes after so many streams.
const STREAMS_A_LIST: u64 = 25;
/// How many differences are printed.
const SHOWN: u64 = 10;

fn main() -> ExitCode {
    let args: Vec<u64> = std::env::args()
        .skip(1)
        .map(|arg| arg.parse().expect("SEED and COUNT are numbers"))
        .collect();
    let seed = args.first().copied().unwrap_or(SEED);
    let count = args.get(1).copied().unwrap_or(COUNT);
    let missed: Vec<Wrong> = Wrong::ALL
        .into_iter()
        .filter(|wrong| !found(*wrong))
        .collect();
    println!(
        "compare-streams: {} wrong functions tried, {} not found{}",
        Wrong::ALL.len(),
        missed.len(),
        missed
            .iter()
            .map(|wrong| format!(", {wrong:?}"))
            .collect::<String>()
    );
    let mut run = Run::new(&Archive, seed);
    run.streams(count);
    run.lists(count / STREAMS_A_LIST);
    run.print(seed);
    ExitCode::from(u8::from(run.differences != 0 || !missed.is_empty()))
}

/// The three functions, or others in their place.
trait Functions {
    fn read(&self, bytes: &[u8], report: &mut raw::Record) -> u64;
    fn write(&self, bytes: &[u8], out: &mut [u8], report: &mut raw::Record) -> u64;
    fn apply(
        &self,
        held: &mut [u8; HELD_LENGTH],
        bytes: &[u8],
        text: &mut [u8],
        report: &mut Applied,
    ) -> u64;
}

struct Archive;

impl Functions for Archive {
    fn read(&self, bytes: &[u8], report: &mut raw::Record) -> u64 {
        raw::read(bytes, report)
    }

    fn write(&self, bytes: &[u8], out: &mut [u8], report: &mut raw::Record) -> u64 {
        raw::write(bytes, out, report)
    }

    fn apply(
        &self,
        held: &mut [u8; HELD_LENGTH],
        bytes: &[u8],
        text: &mut [u8],
        report: &mut Applied,
    ) -> u64 {
        raw::apply(held, bytes, text, report)
    }
}

/// Whether the comparison finds a wrong function.
fn found(wrong: Wrong) -> bool {
    let mut run = Run::new(&wrong, SEED);
    run.shown = 0;
    run.streams(SELF_TEST);
    run.lists(SELF_TEST / STREAMS_A_LIST);
    run.differences != 0
}

/// A stream of 01's, or bytes that are none.
fn stream(rng: &mut Rng) -> Stream {
    let open = |input| Stream {
        input,
        text_cap: TEXT_LENGTH,
        refused: None,
    };
    match rng.below(1000) {
        0 => generate::full(rng),
        1 => open(generate::refused(rng, Refusal::LongInput).input),
        2..200 => generate::accepted(rng),
        200..600 => {
            let refusal = rng.pick(Refusal::of_calls());
            generate::refused(rng, refusal)
        }
        600..850 => open(generate::damaged(rng)),
        850..950 => open(generate::any(rng)),
        _ => open(noise(rng)),
    }
}

/// Any bytes behind a kind byte, or one beside those that are known.
fn noise(rng: &mut Rng) -> Vec<u8> {
    let mut bytes: Vec<u8> = (0..rng.below(130)).map(|_| rng.byte()).collect();
    if let Some(first) = bytes.first_mut() {
        *first = rng.below(8) as u8;
    }
    bytes
}

/// The kinds of the parts of what is held, in their order.
const PARTS: [Kind; 3] = [Kind::Key, Kind::Variant, Kind::Entry];

/// What is held, as yuzuknoll_apply is lent it; zeros where nothing is.
fn held_bytes(held: &Held) -> [u8; HELD_LENGTH] {
    let mut bytes = [0; HELD_LENGTH];
    for kind in PARTS {
        lay(&mut bytes, held, kind);
    }
    bytes
}

/// Puts what is held where a record of a kind sets it. A key of kind 1 is shorter than its part, and the bytes behind it stay.
fn lay(bytes: &mut [u8; HELD_LENGTH], held: &Held, kind: Kind) {
    let part = part(held, kind);
    bytes[place(kind)..][..part.len()].copy_from_slice(&part);
}

/// The bytes of what is held that a record of a kind sets. A state write sets the key's.
fn part(held: &Held, kind: Kind) -> Vec<u8> {
    let record = match kind {
        Kind::Key | Kind::WideKey | Kind::State => held.key.map(Record::Key),
        Kind::Variant => held.variant.map(Record::Variant),
        Kind::Entry => held.entry.map(Record::Entry),
        Kind::Emit => None,
    };
    record.map_or_else(Vec::new, |record| record.bytes())
}

/// What some lent bytes hold: a part that does not begin with a good record of its kind is not there.
fn held_of(bytes: &[u8; HELD_LENGTH]) -> Held {
    let (key, rest) = bytes.split_at(length(Kind::WideKey));
    let (variant, entry) = rest.split_at(length(Kind::Variant));
    let mut held = Held::default();
    if let Ok(Record::Key(key)) = Record::read(key) {
        held.key = Some(key);
    }
    if let Ok(Record::Variant(variant)) = Record::read(variant) {
        held.variant = Some(variant);
    }
    if let Ok(Record::Entry(entry)) = Record::read(entry) {
        held.entry = Some(entry);
    }
    held
}

/// Where the part begins in what is held that a record of a kind sets. The key's part has room for either kind.
const fn place(kind: Kind) -> usize {
    match kind {
        Kind::Key | Kind::WideKey | Kind::State => 0,
        Kind::Variant => length(Kind::WideKey),
        Kind::Entry => length(Kind::WideKey) + length(Kind::Variant),
        Kind::Emit => HELD_LENGTH,
    }
}

/// What must come of a record that is applied, whatever the buffer's length; what a record emits is made once for all buffers.
enum Step {
    Refused(Refusal),
    /// A record of a kind was taken, and this is held then.
    Holds(Kind, Held),
    Text(Outcome),
}

impl Step {
    /// A record that was read or refused, applied to what is held.
    fn of(held: &Held, read: Result<Record, Refusal>) -> Self {
        match read {
            Err(refusal) => Self::Refused(refusal),
            Ok(Record::Emit) => match held.emit(usize::MAX) {
                Ok(outcome) => Self::Text(outcome),
                Err(refusal) => Self::Refused(refusal),
            },
            Ok(record) => {
                let mut after = *held;
                after.hold(record);
                Self::Holds(record.kind(), after)
            }
        }
    }

    /// What must be reported with a buffer of a length.
    fn result(&self, room: usize) -> Result<Applied, Refusal> {
        match self {
            Self::Refused(refusal) => Err(*refusal),
            Self::Holds(kind, _) => Ok(applied(*kind, None)),
            Self::Text(outcome) if outcome.text.len() > room => Err(Refusal::LongText),
            Self::Text(outcome) => Ok(applied(Kind::Emit, Some(outcome))),
        }
    }
}

struct Run<'a> {
    functions: &'a dyn Functions,
    rng: Rng,
    held: Lent,
    out: Lent,
    streams: u64,
    /// Calls of the three functions, and refusals that they had to answer, by number.
    calls: [u64; 3],
    refused: [[u64; NUMBERS]; 3],
    /// Lists of state writes, and the writes in them.
    lists: u64,
    writes: u64,
    ended: u64,
    damaged: u64,
    texts: u64,
    text: usize,
    bytes: usize,
    differences: u64,
    shown: u64,
}

/// More than the numbers of refusals.
const NUMBERS: usize = 14;

const READ: usize = 0;
const WRITE: usize = 1;
const APPLY: usize = 2;

impl<'a> Run<'a> {
    fn new(functions: &'a dyn Functions, seed: u64) -> Self {
        Self {
            functions,
            rng: Rng::new(seed),
            held: Lent::new(),
            out: Lent::new(),
            streams: 0,
            calls: [0; 3],
            refused: [[0; NUMBERS]; 3],
            lists: 0,
            writes: 0,
            ended: 0,
            damaged: 0,
            texts: 0,
            text: 0,
            bytes: 0,
            differences: 0,
            shown: SHOWN,
        }
    }

    fn streams(&mut self, count: u64) {
        for _ in 0..count {
            let stream = stream(&mut self.rng);
            let before = stream.input.clone();
            let end = self.walk(&stream);
            self.streams += 1;
            self.ended += u64::from(end.is_none());
            let aimed = stream.refused.is_none() || end == stream.refused;
            self.check(aimed && stream.input == before, || {
                format!(
                    "the stream {:02x?} ends with {end:?}, or was written",
                    stream.input
                )
            });
        }
    }

    /// Goes through a stream to its end or the first refusal, which is given with its offset.
    fn walk(&mut self, stream: &Stream) -> Option<(Refusal, usize)> {
        let mut theirs = Held::default();
        let mut expected = [0; HELD_LENGTH];
        let mut ours = [0; HELD_LENGTH];
        let mut at = 0;
        while at < stream.input.len() {
            let rest = &stream.input[at..];
            self.read(rest);
            self.write(rest);
            let step = Step::of(&theirs, Record::read(rest));
            self.beside(&ours, rest, &step);
            let taken = self.apply(&mut ours, rest, stream.text_cap, &step);
            if let Err(refusal) = step.result(stream.text_cap) {
                return Some((refusal, at));
            }
            if taken == 0 {
                return None;
            }
            at += taken;
            if let Step::Holds(kind, after) = step {
                theirs = after;
                lay(&mut expected, &theirs, kind);
            }
            self.check(ours == expected, || {
                format!("held after {rest:02x?}: {ours:02x?}")
            });
        }
        // No byte is left.
        self.read(&[]);
        self.write(&[]);
        let step = Step::Refused(Refusal::Cut);
        self.apply(&mut ours, &[], stream.text_cap, &step);
        None
    }

    fn read(&mut self, bytes: &[u8]) {
        let before = raw::Record::filled(self.rng.byte());
        let expected = Answer::of(read_result(&Record::read(bytes)), before);
        let mut report = before;
        let number = self.functions.read(bytes, &mut report);
        let got = Answer { number, report };
        self.count(READ, expected.number);
        self.check(got == expected, || {
            format!("read of {bytes:02x?}: expected {expected:?}, got {got:?}")
        });
    }

    /// The record into a buffer: as long as it, longer, one byte shorter, or of any length.
    fn write(&mut self, bytes: &[u8]) {
        let read = Record::read(bytes);
        let record = read.as_ref().map_or_else(|_| Vec::new(), Record::bytes);
        let room = match self.rng.below(6) {
            0 | 1 => record.len(),
            2 | 3 => record.len() + 1 + self.rng.below(40),
            4 => record.len().saturating_sub(1),
            _ => self.rng.below(90),
        };
        let start = self.rng.byte();
        self.out.fill(room, start);
        let mut result = read_result(&read);
        if record.len() > room {
            result = Err(Refusal::LongText);
        } else {
            self.out.expect(0, &record);
        }
        let before = raw::Record::filled(start);
        let expected = Answer::of(result, before);
        let mut report = before;
        let out = self.out.buffer();
        let number = self.functions.write(bytes, out, &mut report);
        let got = Answer { number, report };
        self.bytes += room;
        self.count(WRITE, expected.number);
        let good = got == expected && self.out.as_expected();
        let difference = self.difference(good, "buffer");
        self.check(good, || {
            format!("write of {bytes:02x?} into {room} bytes: expected {expected:?}, got {got:?}; {difference}")
        });
    }

    /// Calls beside the step: with other buffers, and with what is held damaged. They are made on copies.
    fn beside(&mut self, held: &[u8; HELD_LENGTH], bytes: &[u8], step: &Step) {
        let lengths: &[usize] = match step {
            Step::Text(o) => {
                let text = o.text.len();
                let any = self.rng.below(text);
                &[
                    text,
                    text - 1,
                    text + 1 + any % 300,
                    self.rng.pick(&[0, any]),
                ]
            }
            _ => &[self.rng.below(100)],
        };
        for &length in lengths {
            let mut copy = *held;
            self.apply(&mut copy, bytes, length, step);
        }
        if self.rng.one_in(4) {
            self.damaged(*held, bytes);
        }
    }

    /// What is held, spoilt at a byte or two.
    fn damaged(&mut self, mut held: [u8; HELD_LENGTH], bytes: &[u8]) {
        let rng = &mut self.rng;
        self.damaged += 1;
        for _ in 0..=rng.below(2) {
            let any = rng.below(HELD_LENGTH);
            let kind = place(rng.pick(&PARTS));
            let key = rng.pick(&[Kind::Key, Kind::WideKey]);
            let specular = length(key) - 2;
            let first_flags = specular / STAGES;
            let at = rng.pick(&[kind, kind, kind + 1, kind + 2, first_flags, specular, any]);
            held[at] = rng.byte();
        }
        let step = Step::of(&held_of(&held), Record::read(bytes));
        let room = self.rng.pick(&[0, 700, TEXT_LENGTH]);
        self.apply(&mut held, bytes, room, &step);
    }

    /// One call on what is held, which is left in `held`. Answers how many bytes the record took, 0 if it was refused.
    fn apply(
        &mut self,
        held: &mut [u8; HELD_LENGTH],
        bytes: &[u8],
        room: usize,
        step: &Step,
    ) -> usize {
        let start = self.rng.byte();
        self.held.load(held, start);
        self.out.fill(room, self.rng.byte());
        let before = Applied::filled(start);
        let expected = Answer::of(step.result(room), before);
        match step {
            Step::Holds(kind, after) => self.held.expect(place(*kind), &part(after, *kind)),
            Step::Text(outcome) if expected.number == 0 => {
                self.out.expect(0, outcome.text.as_bytes());
                self.texts += 1;
                self.text += outcome.text.len();
            }
            _ => {}
        }
        let mut report = before;
        let lent = self.held.buffer().first_chunk_mut().expect("what is held");
        let text = self.out.buffer();
        let number = self.functions.apply(lent, bytes, text, &mut report);
        let got = Answer { number, report };
        self.bytes += room;
        self.count(APPLY, expected.number);
        let good = got == expected && self.held.as_expected() && self.out.as_expected();
        let difference = self.difference(good, "text");
        self.check(good, || {
            format!("apply of {bytes:02x?} to {held:02x?}, a buffer of {room} bytes: expected {expected:?}, got {got:?}; {difference}")
        });
        held.copy_from_slice(self.held.buffer());
        if number == 0 {
            report.taken as usize
        } else {
            0
        }
    }

    fn difference(&self, good: bool, name: &str) -> String {
        if good {
            return String::new();
        }
        let (held, out) = (self.held.difference(), self.out.difference());
        format!("held {held}; the {name} {out}")
    }

    fn count(&mut self, function: usize, expected: u64) {
        self.calls[function] += 1;
        self.refused[function][expected as usize] += 1;
    }

    fn check(&mut self, good: bool, what: impl FnOnce() -> String) {
        if !good {
            self.differences += 1;
            if self.differences <= self.shown {
                println!("difference: {}", what());
            }
        }
    }

    fn print(&self, seed: u64) {
        println!(
            "seed {seed}: {} streams, {} gone through to their end, the others to a refusal; {} calls with what is held damaged",
            self.streams, self.ended, self.damaged
        );
        for (name, function) in [("read", READ), ("write", WRITE), ("apply", APPLY)] {
            let numbers = (1..NUMBERS).filter(|&n| self.refused[function][n] != 0);
            let numbers: Vec<String> = numbers
                .map(|n| format!(" {n}: {}", self.refused[function][n]))
                .collect();
            println!(
                "{name}: {} calls; refused:{}",
                self.calls[function],
                numbers.join(",")
            );
        }
        println!(
            "{} lists of state writes, {} writes",
            self.lists, self.writes
        );
        println!(
            "{} texts, {} bytes of text, {} bytes of buffers, {} differences",
            self.texts, self.text, self.bytes, self.differences
        );
    }
}
