//! `lengths [SEED [COUNT]]`: no text is longer than include/yuzuknoll.h says, beside the Rust, and beside 02's rules where the Rust has no text.
//!
//! Of either kind of key one key, with its variant, reaches the greatest length; of kind 1 it is what the program `longest` prints. Each byte of the two
//! is changed to each other value. Then COUNT climbs for each kind begin at a random key and variant, and take a change whenever the text does not become
//! shorter by it. The entry has one byte. Every text goes into a buffer of the greatest length: what is returned and the length are compared with the
//! Rust's, and the Rust's with the greatest.
//!
//! First the run is shown to fail: bounds that are too low and wrong functions are put in the place of the right ones, and each must be found. Prints the
//! counts and the first differences; the exit status is 1 if there is any, or if a wrong one passes.

use std::process::ExitCode;

use beside::{Bodies, Emit};
use oraclelib::{
    emit,
    generate::{self, Rng},
    records::{ENTRY, Entry, KEY, Triple, VARIANT, WIDE_KEY},
};
use yuzuknoll::{KEY_TEXT_LENGTH, WIDE_KEY_TEXT_LENGTH, raw::Emitted};

const SEED: u64 = 1;
const COUNT: u64 = 3;
/// Changes that a climb tries.
const CHANGES: u64 = 20_000;
/// Climbs for a bound that is far too low, always the same.
const SELF_TEST: u64 = 1;
/// How far below the greatest length such a bound is.
const NEAR: usize = 60;
/// How many differences are printed.
const SHOWN: u64 = 10;

/// What the program `longest` prints.
const PRINTED: &str = include_str!("../../../../crates/longest/stdout");
/// The same of a key of kind 6, which no program prints: LERP, but for a bump stage, the first whose rows have two digits.
const WIDE: [&str; 2] = [
    "061a32371a3537373701\
     1a32371a3737373701\
     1a32371a3737373701\
     1a32371a3737373701\
     1a32371a3737373701\
     170000010000010101\
     1a32371a3737373701\
     1a32371a3737373701\
     01ff",
    "02030003bf00000040004000000000004000ff1f",
];
/// Masks of a variant, two bytes each, behind its first three bytes.
const MASKS: usize = 7;
/// Bytes that an entry of 32 has more than one of one.
const LONGER_ENTRY: usize = 31;

fn main() -> ExitCode {
    let args: Vec<u64> = std::env::args()
        .skip(1)
        .map(|arg| arg.parse().expect("SEED and COUNT are numbers"))
        .collect();
    let seed = args.first().copied().unwrap_or(SEED);
    let count = args.get(1).copied().unwrap_or(COUNT);
    let missed: Vec<Wrong> = Wrong::ALL
        .into_iter()
        .filter(|wrong| !found(*wrong))
        .collect();
    println!(
        "compare-lengths: {} wrong bounds and functions tried, {} not found{}",
        Wrong::ALL.len(),
        missed.len(),
        missed
            .iter()
            .map(|wrong| format!(", {wrong:?}"))
            .collect::<String>()
    );
    let mut differences = 0;
    for kind in [OF_KIND_1, OF_KIND_6] {
        let mut run = Run::new(kind, None, seed);
        run.witness();
        run.neighbours();
        run.climbs(count);
        run.print(seed);
        differences += run.differences;
    }
    ExitCode::from(u8::from(differences != 0 || !missed.is_empty()))
}

/// A kind of key: the greatest length of its texts with an entry of one byte, random ones, and where a stage ends.
#[derive(Clone, Copy)]
struct Kind {
    number: u8,
    greatest: usize,
    random: fn(&mut Rng) -> Triple,
    key: usize,
    stage: usize,
}

const OF_KIND_1: Kind = Kind {
    number: 1,
    greatest: KEY_TEXT_LENGTH - LONGER_ENTRY,
    random: generate::triple,
    key: KEY,
    stage: 7,
};

const OF_KIND_6: Kind = Kind {
    number: 6,
    greatest: WIDE_KEY_TEXT_LENGTH - LONGER_ENTRY,
    random: generate::wide_triple,
    key: WIDE_KEY,
    stage: 9,
};

impl Kind {
    /// The bodies of the key and the variant that reach the greatest length, and of an entry of one byte.
    fn witness(self) -> Vec<u8> {
        let [key, variant] = if self.number == 1 {
            let lines: Vec<&str> = PRINTED.lines().collect();
            let &[length, key, variant] = lines.as_slice() else {
                panic!("three lines")
            };
            assert_eq!(length, self.greatest.to_string(), "the printed length");
            [key, variant]
        } else {
            WIDE
        };
        let key = bytes(key);
        let variant = bytes(variant);
        assert_eq!([key[0], variant[0]], [self.number, 2], "the kinds");
        [&key[1..], &variant[1..], &Entry::new(b"m").body()].concat()
    }
}

fn bytes(digits: &str) -> Vec<u8> {
    let byte = |at| u8::from_str_radix(&digits[at..at + 2], 16).expect("hexadecimal digits");
    (0..digits.len()).step_by(2).map(byte).collect()
}

/// What the archive answers into a buffer of the greatest length: a number, and the length.
fn answer(bodies: &[u8], greatest: usize) -> (u64, u64) {
    let triple = Triple::from_bodies(bodies);
    let mut text = vec![0; greatest];
    let mut result = Emitted::default();
    let number = if triple.key.is_wide() {
        Bodies::<WIDE_KEY>::of(&triple).emit(&mut text, &mut result)
    } else {
        Bodies::<KEY>::of(&triple).emit(&mut text, &mut result)
    };
    (number, result.length)
}

/// A bound that is too low, or a function that answers something else.
#[derive(Clone, Copy, Debug, PartialEq, Eq)]
enum Wrong {
    /// For the witness alone.
    BoundOneLess,
    /// For the climbs alone.
    BoundFarTooLow,
    /// For the neighbours alone: a text one byte longer with another alpha function.
    LongerByAlphaFunction,
    /// For the neighbours alone: a byte that is refused passes.
    PassesStageFlags,
    RefusesTheLongest,
}

impl Wrong {
    const ALL: [Self; 5] = [
        Self::BoundOneLess,
        Self::BoundFarTooLow,
        Self::LongerByAlphaFunction,
        Self::PassesStageFlags,
        Self::RefusesTheLongest,
    ];

    fn bound(self, kind: Kind) -> usize {
        match self {
            Self::BoundOneLess => kind.greatest - 1,
            Self::BoundFarTooLow => kind.greatest - NEAR,
            _ => kind.greatest,
        }
    }

    fn answer(self, bodies: &[u8], kind: Kind) -> (u64, u64) {
        let mut bodies = bodies.to_vec();
        let variant = kind.key;
        let (number, length) = match self {
            Self::PassesStageFlags => {
                bodies[kind.stage - 1] %= 4;
                answer(&bodies, kind.greatest)
            }
            _ => answer(&bodies, kind.greatest),
        };
        match self {
            Self::LongerByAlphaFunction if bodies[variant] == 200 => (number, length + 1),
            Self::RefusesTheLongest if length == kind.greatest as u64 => (8, 0),
            _ => (number, length),
        }
    }
}

/// Whether the run finds a wrong one, for either kind of key, by the part that is to find it.
fn found(wrong: Wrong) -> bool {
    [OF_KIND_1, OF_KIND_6].into_iter().all(|kind| {
        let mut run = Run::new(kind, Some(wrong), SEED);
        run.shown = 0;
        match wrong {
            Wrong::BoundOneLess | Wrong::RefusesTheLongest => run.witness(),
            Wrong::BoundFarTooLow => run.climbs(SELF_TEST),
            Wrong::LongerByAlphaFunction | Wrong::PassesStageFlags => run.neighbours(),
        }
        run.differences != 0
    })
}

struct Run {
    kind: Kind,
    wrong: Option<Wrong>,
    bound: usize,
    rng: Rng,
    neighbours: u64,
    refused: u64,
    climbs: u64,
    /// The longest text that each climb came to.
    summits: Vec<usize>,
    differences: u64,
    shown: u64,
}

impl Run {
    fn new(kind: Kind, wrong: Option<Wrong>, seed: u64) -> Self {
        Self {
            kind,
            wrong,
            bound: wrong.map_or(kind.greatest, |wrong| wrong.bound(kind)),
            rng: Rng::new(seed),
            neighbours: 0,
            refused: 0,
            climbs: 0,
            summits: Vec::new(),
            differences: 0,
            shown: SHOWN,
        }
    }

    /// The Rust's length, where nothing refuses the triple.
    fn length(&mut self, bodies: &[u8]) -> Option<usize> {
        let triple = Triple::from_bodies(bodies);
        let cause = triple.cause();
        let length = cause.is_none().then(|| emit(&triple).text.len());
        let number = cause.map_or(0, |refusal| refusal.number().into());
        let expected = (number, length.unwrap_or(0) as u64);
        let got = match self.wrong {
            Some(wrong) => wrong.answer(bodies, self.kind),
            None => answer(bodies, self.kind.greatest),
        };
        self.check(got == expected, bodies, || {
            format!("expected {expected:?}, got {got:?}")
        });
        let bound = self.bound;
        self.check(length.is_none_or(|length| length <= bound), bodies, || {
            format!("{} bytes, more than {bound}", expected.1)
        });
        length
    }

    fn witness(&mut self) {
        let bodies = self.kind.witness();
        let length = self.length(&bodies);
        let greatest = self.kind.greatest;
        self.check(length == Some(greatest), &bodies, || {
            format!("{length:?} bytes, not {greatest}")
        });
    }

    /// The witness with each byte changed to each other value; the entry stays.
    fn neighbours(&mut self) {
        let mut bodies = self.kind.witness();
        for at in 0..bodies.len() - ENTRY {
            let own = bodies[at];
            for byte in (0..=u8::MAX).filter(|&byte| byte != own) {
                bodies[at] = byte;
                let length = self.length(&bodies);
                self.neighbours += 1;
                self.refused += u64::from(length.is_none());
            }
            bodies[at] = own;
        }
    }

    fn climbs(&mut self, count: u64) {
        for _ in 0..count {
            let mut triple = (self.kind.random)(&mut self.rng);
            triple.entry = Entry::new(b"m");
            let mut bodies = triple.bodies();
            let mut longest = self.length(&bodies).expect("a triple free of causes");
            for _ in 0..CHANGES {
                let changed = self.changed(&bodies);
                if let Some(length) = self.length(&changed)
                    && longest <= length
                {
                    (bodies, longest) = (changed, length);
                }
            }
            self.climbs += 1;
            self.summits.push(longest);
        }
    }

    /// Up to three changes of the key or the variant.
    fn changed(&mut self, bodies: &[u8]) -> Vec<u8> {
        let mut bodies = bodies.to_vec();
        for _ in 0..1 + self.rng.below(3) {
            match self.rng.below(5) {
                0 => self.copy_stage(&mut bodies),
                1 => self.change_masks(&mut bodies),
                _ => self.change_byte(&mut bodies),
            }
        }
        bodies
    }

    /// A stage in the place of another.
    fn copy_stage(&mut self, bodies: &mut [u8]) {
        let stage = self.kind.stage;
        let (from, to) = (self.rng.below(8) * stage, self.rng.below(8) * stage);
        bodies.copy_within(from..from + stage, to);
    }

    /// A stage's bit of some of the variant's masks.
    fn change_masks(&mut self, bodies: &mut [u8]) {
        let (bit, which) = (self.rng.below(8), self.rng.byte());
        let masks = &mut bodies[self.kind.key + 3..][..2 * MASKS];
        for (n, mask) in masks.chunks_exact_mut(2).enumerate() {
            mask[0] ^= (which >> n & 1) << bit;
        }
    }

    fn change_byte(&mut self, bodies: &mut [u8]) {
        let stage = self.kind.stage;
        let at = self.rng.below(self.kind.key + VARIANT);
        let byte = self.rng.byte();
        bodies[at] = match at % stage {
            flags if at < 8 * stage && flags == stage - 1 => byte % 4,
            _ if self.rng.one_in(4) => byte,
            _ if at >= 8 * stage => bodies[at] ^ 1 << (byte % 8),
            0 | 3 => byte % 27,
            // an argument with both modifiers
            _ => 0x30 | (byte % 8),
        };
    }

    fn check(&mut self, good: bool, bodies: &[u8], what: impl FnOnce() -> String) {
        if !good {
            self.differences += 1;
            if self.differences <= self.shown {
                println!("difference: {bodies:02x?}: {}", what());
            }
        }
    }

    fn print(&self, seed: u64) {
        let Kind {
            number, greatest, ..
        } = self.kind;
        let summit = self.summits.iter().max().map_or(0, |&summit| summit);
        let reached = self.summits.iter().filter(|&&s| s == greatest).count();
        println!(
            "keys of kind {number}: the witness's text has {greatest} bytes; {} neighbours, {} of them refused",
            self.neighbours, self.refused
        );
        println!(
            "seed {seed}: {} climbs of {CHANGES} changes, {reached} of them to the greatest length, the longest text {summit}; {} differences",
            self.climbs, self.differences
        );
    }
}
