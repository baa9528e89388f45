//! `compare [SEED [COUNT]]`: yuzuknoll_emit and yuzuknoll_emit_wide beside the Rust, and beside 02's rules where the Rust has no text, on the
//! systematic triples, COUNT random ones with keys of kind 1, and half as many with keys of kind 6.
//!
//! Each accepted triple goes into four buffers: as long as its text, one byte shorter, longer, and of no byte (or any shorter one). Refused triples,
//! and keys, variants and entries of any bytes, stand among the random ones. Every byte of the buffer is compared, in front of it and behind it too,
//! with a pattern that the buffer holds before the call, and every number of the result with those that it holds before. In each text the names, rows
//! and lookups must fit, by 01's rules of names (demand 3), and no local may be idle.
//!
//! First the comparison is shown to fail: wrong functions are put in the place of the archive's, and each must be found. Prints the counts and the
//! first differences; the exit status is 1 if there is any, or if a wrong function passes.

use std::process::ExitCode;

use beside::{Answer, Bodies, Emit, Lent, Report, emitted};
use oraclelib::{
    Outcome, emit,
    generate::{self, Rng},
    names::{demand_3, no_idle},
    records::{ENTRY, KEY, Key, Refusal, TRIPLE, Triple, Variant, WIDE_KEY, WIDE_TRIPLE},
    rules, words,
};
use yuzuknoll::{TEXT_LENGTH, WIDE_KEY_TEXT_LENGTH, raw::Emitted};

const SEED: u64 = 1;
const COUNT: u64 = 20_000;
/// Random triples of each kind that each wrong function is given, always the same.
const SELF_TEST: u64 = 1_500;
/// How many differences are printed.
const SHOWN: u64 = 10;
/// Lengths of long buffers: the last is a byte short of the longest text.
const LONG: [usize; 3] = [TEXT_LENGTH, WIDE_KEY_TEXT_LENGTH, WIDE_KEY_TEXT_LENGTH - 1];

fn main() -> ExitCode {
    let args: Vec<u64> = std::env::args()
        .skip(1)
        .map(|arg| arg.parse().expect("SEED and COUNT are numbers"))
        .collect();
    let seed = args.first().copied().unwrap_or(SEED);
    let count = args.get(1).copied().unwrap_or(COUNT);
    let missed: Vec<Wrong> = Wrong::ALL
        .into_iter()
        .filter(|wrong| !found(*wrong))
        .collect();
    println!(
        "compare: {} wrong functions tried, {} not found{}",
        Wrong::ALL.len(),
        missed.len(),
        missed
            .iter()
            .map(|wrong| format!(", {wrong:?}"))
            .collect::<String>()
    );
    let mut run = Run::new(&Archive, seed);
    for triple in generate::systematic() {
        run.accepted(&triple);
    }
    let systematic = run.triples;
    run.random(count, generate::triple);
    let narrow = run.triples;
    println!(
        "seed {seed}: {systematic} systematic and {} random triples with keys of kind 1",
        narrow - systematic
    );
    for triple in generate::wide_systematic() {
        run.accepted(&triple);
    }
    let systematic = run.triples - narrow;
    run.random(count / 2, generate::wide_triple);
    println!(
        "{systematic} systematic and {} random triples with keys of kind 6, {} of them with three operands",
        run.triples - narrow - systematic,
        run.three_operands
    );
    println!(
        "{} triples in a buffer of their length, as many one byte short, as many longer, as many of no byte or few",
        run.triples
    );
    println!("refused:{}", run.refusals());
    println!(
        "{} calls, {} bytes of text, {} bytes of buffers, {} differences",
        run.calls, run.text, run.bytes, run.differences
    );
    ExitCode::from(u8::from(run.differences != 0 || !missed.is_empty()))
}

/// The two functions, or others in their place.
trait Functions {
    fn emit<const K: usize>(
        &self,
        bodies: &Bodies<K>,
        text: &mut [u8],
        result: &mut Emitted,
    ) -> u64
    where
        Bodies<K>: Emit;
}

struct Archive;

impl Functions for Archive {
    fn emit<const K: usize>(&self, bodies: &Bodies<K>, text: &mut [u8], result: &mut Emitted) -> u64
    where
        Bodies<K>: Emit,
    {
        bodies.emit(text, result)
    }
}

struct Run<'a, F> {
    functions: &'a F,
    rng: Rng,
    out: Lent,
    triples: u64,
    three_operands: u64,
    calls: u64,
    text: usize,
    bytes: usize,
    refused: [u64; 14],
    differences: u64,
    shown: u64,
}

impl<'a, F: Functions> Run<'a, F> {
    fn new(functions: &'a F, seed: u64) -> Self {
        Self {
            functions,
            rng: Rng::new(seed),
            out: Lent::new(),
            triples: 0,
            three_operands: 0,
            calls: 0,
            text: 0,
            bytes: 0,
            refused: [0; 14],
            differences: 0,
            shown: SHOWN,
        }
    }

    /// Random triples, and beside each one that is refused, or one of any bytes.
    fn random(&mut self, count: u64, one: fn(&mut Rng) -> Triple) {
        for n in 0..count {
            let triple = one(&mut self.rng);
            self.accepted(&triple);
            match n % 4 {
                0..3 => self.bad_value(triple),
                _ => self.any_bytes(&triple),
            }
        }
    }

    /// A triple that is free of causes.
    fn accepted(&mut self, triple: &Triple) {
        let o = emit(triple);
        self.triples += 1;
        self.three_operands += u64::from(rules::has_three_operands(&triple.key));
        let fits = demand_3(&o, rules::marks(&triple.key));
        if let Err(e) = fits.and_then(|()| no_idle(&o.text)) {
            self.differ(|| println!("names of {triple:?}: {e}"));
        }
        if triple.key.is_wide() {
            self.in_buffers(&Bodies::<WIDE_KEY>::of(triple), &o);
        } else {
            self.in_buffers(&Bodies::<KEY>::of(triple), &o);
        }
    }

    /// In buffers of several lengths.
    fn in_buffers<const K: usize>(&mut self, bodies: &Bodies<K>, o: &Outcome)
    where
        Bodies<K>: Emit,
    {
        let accepted = Ok(emitted(o));
        let too_long = Err(Refusal::LongText);
        let text = o.text.as_bytes();
        let longer = if self.rng.one_in(2) {
            self.rng.pick(&LONG).max(text.len())
        } else {
            text.len() + 1 + self.rng.below(300)
        };
        let few = if self.rng.one_in(2) {
            0
        } else {
            self.rng.below(text.len())
        };
        self.text += 2 * text.len();
        self.call(bodies, text.len(), accepted, text);
        self.call(bodies, text.len() - 1, too_long, &[]);
        self.call(bodies, longer, accepted, text);
        self.call(bodies, few, too_long, &[]);
    }

    /// A triple with a cause of 3, 4, 5, 6 or 13, or several.
    fn bad_value(&mut self, mut triple: Triple) {
        let rng = &mut self.rng;
        let causes = 1 + rng.below(15);
        if causes & 1 != 0 {
            triple.key.stages[rng.below(8)].flags |= 4 << rng.below(6);
        }
        if causes & 2 != 0 {
            triple.key.specular = 2 + rng.below(254) as u8;
        }
        if causes & 4 != 0 {
            triple.variant.flags |= 0x40 << rng.below(2);
        }
        if causes & 8 != 0 {
            if rng.one_in(2) {
                triple.entry = generate::reserved(rng);
            }
            match rng.below(7) {
                0 => triple.entry.length = 0,
                1 => triple.entry.length = 33 + rng.below(223) as u8,
                2 => triple.entry.bytes[0] = rng.pick(b"0123456789 .-/:@[`{\0\x80\xff"),
                // a byte of the name, or of the zeros behind it
                3 => triple.entry.bytes[rng.below(32)] = rng.pick(b" .-/:@[`{\x01\x80\xff"),
                4 => triple.entry.bytes[31] = b'.',
                _ => {}
            }
        }
        if triple.cause().is_some() {
            self.refused(&triple);
        }
    }

    /// A key, a variant or an entry of any bytes; of a key and a variant sometimes without those that are refused.
    fn any_bytes(&mut self, triple: &Triple) {
        let rng = &mut self.rng;
        let length = if triple.key.is_wide() {
            WIDE_TRIPLE
        } else {
            TRIPLE
        };
        let bytes: Vec<u8> = (0..length).map(|_| rng.byte()).collect();
        let any = Triple::from_bodies(&bytes);
        let mut triple = *triple;
        match rng.below(5) {
            0 => triple.key = any.key,
            1 => triple.variant = any.variant,
            2 => triple.entry = any.entry,
            3 => {
                triple.key = any.key;
                triple.key.specular %= 2;
                for stage in &mut triple.key.stages {
                    stage.flags %= 4;
                }
            }
            _ => {
                triple.variant = any.variant;
                triple.variant.flags %= 64;
            }
        }
        if triple.cause().is_some() {
            self.refused(&triple);
        } else {
            self.accepted(&triple);
        }
    }

    /// A triple with a cause, in a buffer of some length.
    fn refused(&mut self, triple: &Triple) {
        let length = self.rng.pick(&[0, 100, 3_000, TEXT_LENGTH]);
        let cause = Err(triple.cause().expect("a cause"));
        if triple.key.is_wide() {
            self.call(&Bodies::<WIDE_KEY>::of(triple), length, cause, &[]);
        } else {
            self.call(&Bodies::<KEY>::of(triple), length, cause, &[]);
        }
    }

    /// Counts a difference, and tells the first ones.
    fn differ(&mut self, tell: impl Fn()) {
        self.differences += 1;
        if self.differences <= self.shown {
            tell();
        }
    }

    /// One call with a buffer of a length, and what must come of it.
    fn call<const K: usize>(
        &mut self,
        bodies: &Bodies<K>,
        length: usize,
        result: Result<Emitted, Refusal>,
        text: &[u8],
    ) where
        Bodies<K>: Emit,
    {
        let start = self.rng.byte();
        self.out.fill(length, start);
        self.out.expect(0, text);
        let before = Emitted::filled(start);
        let expected = Answer::of(result, before);
        let mut report = before;
        let lent = *bodies;
        let number = self.functions.emit(&lent, self.out.buffer(), &mut report);
        let got = Answer { number, report };
        self.calls += 1;
        self.bytes += length;
        self.refused[expected.number as usize] += 1;
        if got != expected || !self.out.as_expected() || lent != *bodies {
            let difference = self.out.difference();
            self.differ(|| {
                println!("difference: {bodies:02x?}, a buffer of {length} bytes");
                println!("  expected {expected:?}, got {got:?}");
                println!("  the buffer {difference}");
            });
        }
    }

    /// How many calls had to be refused, by number.
    fn refusals(&self) -> String {
        let numbers = [3, 4, 5, 6, 13, 8];
        numbers
            .iter()
            .map(|&n: &usize| format!(" {n}: {}", self.refused[n]))
            .collect::<Vec<_>>()
            .join(",")
    }
}

/// What a wrong function does.
#[derive(Clone, Copy, Debug)]
enum Wrong {
    Answers4Before3,
    Answers5Before4,
    Answers6Before5,
    Answers13Before5,
    Answers13Before6,
    Answers8First,
    PassesSpecular,
    PassesAWord,
    RefusesAnExactFit,
    ClearsTheByteBehind,
    WritesOnRefusal,
    WritesAnotherByte,
    ReportsOnRefusal,
    ReportsTheRoom,
    ReportsTheMaskAsLookups,
    DropsTheRows,
    DropsTheOpWarnings,
    DropsTheAlphaWarning,
    MovesTheWarnings,
    SwapsSelectorAndModifier,
    ReportsTheFirstStageOnly,
    ReportsTheSum,
    EmitsAWideKeyAsNarrow,
    ExchangesArguments0,
    ExchangesArguments1And2,
    TakesCurrentForArgument0,
    ReadsArgument0OfOtherOps,
    WarnsOfThreeOperands,
}

impl Wrong {
    const ALL: [Self; 28] = [
        Self::Answers4Before3,
        Self::Answers5Before4,
        Self::Answers6Before5,
        Self::Answers13Before5,
        Self::Answers13Before6,
        Self::Answers8First,
        Self::PassesSpecular,
        Self::PassesAWord,
        Self::RefusesAnExactFit,
        Self::ClearsTheByteBehind,
        Self::WritesOnRefusal,
        Self::WritesAnotherByte,
        Self::ReportsOnRefusal,
        Self::ReportsTheRoom,
        Self::ReportsTheMaskAsLookups,
        Self::DropsTheRows,
        Self::DropsTheOpWarnings,
        Self::DropsTheAlphaWarning,
        Self::MovesTheWarnings,
        Self::SwapsSelectorAndModifier,
        Self::ReportsTheFirstStageOnly,
        Self::ReportsTheSum,
        Self::EmitsAWideKeyAsNarrow,
        Self::ExchangesArguments0,
        Self::ExchangesArguments1And2,
        Self::TakesCurrentForArgument0,
        Self::ReadsArgument0OfOtherOps,
        Self::WarnsOfThreeOperands,
    ];
}

/// Whether the comparison finds a wrong function.
fn found(wrong: Wrong) -> bool {
    let mut run = Run::new(&wrong, SEED);
    run.shown = 0;
    run.random(SELF_TEST, generate::triple);
    run.random(SELF_TEST, generate::wide_triple);
    run.differences != 0
}

impl Functions for Wrong {
    fn emit<const K: usize>(&self, bodies: &Bodies<K>, text: &mut [u8], result: &mut Emitted) -> u64
    where
        Bodies<K>: Emit,
    {
        let specular = K - 2;
        let [.., flags] = bodies.variant;
        let (specular_bad, flags_bad) = (bodies.key[specular] > 1, flags > 63);
        if let Self::PassesSpecular = self {
            let mut passed = *bodies;
            passed.key[specular] %= 2;
            return Archive.emit(&passed, text, result);
        }
        if let (Self::EmitsAWideKeyAsNarrow, WIDE_KEY) = (self, K) {
            let key = Key::from_body(&bodies.key).narrowed().body();
            let narrow = Bodies::<KEY> {
                key: key.try_into().expect("a body of its size"),
                variant: bodies.variant,
                entry: bodies.entry,
            };
            return Archive.emit::<KEY>(&narrow, text, result);
        }
        let mut altered = *bodies;
        if K == WIDE_KEY {
            let stages = altered.key[..specular].chunks_exact_mut(9);
            stages.for_each(|stage| self.alter_stage(stage));
        }
        let bodies = &altered;
        let mut wanted = *result;
        let number = Archive.emit(bodies, text, &mut wanted);
        let length = wanted.length as usize;
        match self {
            Self::Answers4Before3 if number == 3 && specular_bad => return 4,
            Self::Answers5Before4 if number == 4 && flags_bad => return 5,
            Self::Answers6Before5 if number == 5 && bodies.entry[0] == 0 => return 6,
            Self::Answers13Before5 if number == 5 && is_reserved(&bodies.entry) => return 13,
            Self::Answers13Before6 if number == 6 && is_reserved(&bodies.entry) => return 13,
            Self::PassesAWord if number == 13 => {
                let mut passed = *bodies;
                passed.entry[1] ^= 1;
                return Archive.emit(&passed, text, result);
            }
            Self::Answers8First if number != 0 && text.is_empty() => return 8,
            Self::RefusesAnExactFit if number == 0 && text.len() == length => return 8,
            Self::WritesOnRefusal if number != 0 => spoil(text.last_mut()),
            Self::ReportsOnRefusal if number != 0 => wanted.alpha_warning = 0,
            _ => {}
        }
        if number == 0 {
            match self {
                Self::ClearsTheByteBehind => spoil(text.get_mut(length)),
                Self::WritesAnotherByte => spoil(text.get_mut(length - 1)),
                Self::ReportsTheRoom => wanted.length = text.len() as u64,
                Self::ReportsTheMaskAsLookups => wanted.lookups = wanted.mask.count_ones().into(),
                Self::DropsTheRows => wanted.rows = 0,
                Self::WarnsOfThreeOperands => {
                    let key = Key::from_body(&bodies.key);
                    let warned = rules::warnings(&key.narrowed(), &Variant::default());
                    wanted.op_warnings |= u64::from(warned.op);
                }
                _ => self.alter_warnings(&mut wanted),
            }
        }
        *result = wanted;
        number
    }
}

impl Wrong {
    /// The stage of a key of kind 6 that is emitted in the place of another.
    fn alter_stage(self, stage: &mut [u8]) {
        let &mut [c, _, _, a, _, _, c0, a0, _] = stage else {
            unreachable!("nine bytes")
        };
        let three = |op: u8| rules::THREE_OPERANDS.contains(&op);
        match self {
            Self::ExchangesArguments0 => stage.swap(6, 7),
            Self::ExchangesArguments1And2 if c == 26 => stage.swap(1, 2),
            Self::ExchangesArguments1And2 if a == 26 => stage.swap(4, 5),
            Self::TakesCurrentForArgument0 => stage[6..8].fill(1),
            Self::ReadsArgument0OfOtherOps if !three(c) => stage[1] = c0,
            Self::ReadsArgument0OfOtherOps if !three(a) => stage[4] = a0,
            _ => {}
        }
    }

    fn alter_warnings(self, wanted: &mut Emitted) {
        let masks = [
            &mut wanted.op_warnings,
            &mut wanted.selector_warnings,
            &mut wanted.modifier_warnings,
        ];
        match self {
            Self::DropsTheOpWarnings => wanted.op_warnings = 0,
            Self::DropsTheAlphaWarning => wanted.alpha_warning = 0,
            Self::MovesTheWarnings => {
                for mask in masks {
                    *mask = *mask << 1 & 0xff;
                }
            }
            Self::SwapsSelectorAndModifier => {
                std::mem::swap(&mut wanted.selector_warnings, &mut wanted.modifier_warnings);
            }
            Self::ReportsTheFirstStageOnly => {
                for mask in masks {
                    *mask &= mask.wrapping_neg();
                }
            }
            // 01's numbers, in the place of masks and of the yes or no
            Self::ReportsTheSum => {
                for (mask, cause) in masks.into_iter().zip([1, 2, 4]) {
                    *mask = if *mask == 0 { 0 } else { cause };
                }
                wanted.alpha_warning *= 8;
            }
            _ => {}
        }
    }
}

/// Whether the bytes of the name are a reserved word, whatever stands behind them.
fn is_reserved(entry: &[u8; ENTRY]) -> bool {
    let [length, name @ ..] = entry;
    let name = name.get(..usize::from(*length)).unwrap_or_default();
    str::from_utf8(name).is_ok_and(words::is_reserved)
}

fn spoil(byte: Option<&mut u8>) {
    if let Some(byte) = byte {
        *byte ^= 1;
    }
}
