//! `orders [SEED [COUNT]]`: state writes that change places, by yuzuknoll_apply, on COUNT lists of writes.
//!
//! A list has no stage and type twice. From the same held bytes it is applied in two orders, and every held byte must be the same behind both, and the
//! number of each write. Two neighbours of it are applied in either order, and one write of it once and twice running. The lists begin where nothing is
//! held, where a key of kind 1 or of kind 6 is, and on any bytes; refused writes stand among the others.
//!
//! First the comparison is shown to fail: wrong functions are put in the place of the archive's, and each must be found. Prints the counts and the
//! first differences; the exit status is 1 if there is any, or if a wrong function passes.

use std::process::ExitCode;

use oraclelib::generate::Rng;
use yuzuknoll::raw::{self, Applied, HELD_LENGTH};

const SEED: u64 = 1;
const COUNT: u64 = 20_000;
/// Lists that each wrong function is given, always the same.
const SELF_TEST: u64 = 300;
/// How many differences are printed.
const SHOWN: u64 = 10;

const STAGES: u8 = 8;
const KEY: u8 = 1;
const STATE: u8 = 5;
const WIDE_KEY: u8 = 6;

// D3DTSS, and this project's own type.
const COLORARG0: u8 = 26;
const ALPHAARG0: u8 = 27;
const RESULTARG: u8 = 28;
const TEXTURE_BOUND: u8 = 0;
const TYPES: [u8; 10] = [
    TEXTURE_BOUND,
    1,
    2,
    3,
    4,
    5,
    6,
    COLORARG0,
    ALPHAARG0,
    RESULTARG,
];

// D3DTA
const CURRENT: u32 = 1;
const TEMP: u32 = 5;

fn main() -> ExitCode {
    let args: Vec<u64> = std::env::args()
        .skip(1)
        .map(|arg| arg.parse().expect("SEED and COUNT are numbers"))
        .collect();
    let seed = args.first().copied().unwrap_or(SEED);
    let count = args.get(1).copied().unwrap_or(COUNT);
    let missed: Vec<Wrong> = Wrong::ALL
        .into_iter()
        .filter(|wrong| !found(*wrong))
        .collect();
    println!(
        "compare-orders: {} wrong functions tried, {} not found{}",
        Wrong::ALL.len(),
        missed.len(),
        missed
            .iter()
            .map(|wrong| format!(", {wrong:?}"))
            .collect::<String>()
    );
    let mut run = Run::new(&Archive, seed);
    run.lists(count);
    run.print(seed);
    ExitCode::from(u8::from(run.differences != 0 || !missed.is_empty()))
}

type Held = [u8; HELD_LENGTH];

#[derive(Clone, Copy, Debug)]
struct Write {
    stage: u8,
    state: u8,
    value: u32,
}

impl Write {
    fn record(self) -> [u8; 7] {
        let [a, b, c, d] = self.value.to_le_bytes();
        [STATE, self.stage, self.state, a, b, c, d]
    }
}

/// yuzuknoll_apply of a write, or another in its place.
trait Functions {
    fn write(&self, held: &mut Held, write: Write) -> u64;
}

struct Archive;

impl Functions for Archive {
    fn write(&self, held: &mut Held, write: Write) -> u64 {
        apply(held, &write.record())
    }
}

fn apply(held: &mut Held, record: &[u8]) -> u64 {
    raw::apply(held, record, &mut [], &mut Applied::default())
}

/// What a wrong function does beside the write.
#[derive(Clone, Copy, Debug)]
enum Wrong {
    ResultClearsTexture,
    TextureClearsResult,
    TextureIsExchanged,
    ArgumentsZeroResetAgain,
    TurningBeginsAnew,
    ProjectedByTheLastStage,
    ProjectedCountsWrites,
    LastByteByTheLastValue,
    ResultRefusedWithTexture,
}

impl Wrong {
    const ALL: [Self; 9] = [
        Self::ResultClearsTexture,
        Self::TextureClearsResult,
        Self::TextureIsExchanged,
        Self::ArgumentsZeroResetAgain,
        Self::TurningBeginsAnew,
        Self::ProjectedByTheLastStage,
        Self::ProjectedCountsWrites,
        Self::LastByteByTheLastValue,
        Self::ResultRefusedWithTexture,
    ];
}

/// Where the key in held bytes has the flags of a stage and the projected mask.
fn flags_place(held: &Held, stage: u8) -> usize {
    let (size, flags) = if held[0] == WIDE_KEY { (9, 8) } else { (7, 6) };
    1 + size * usize::from(stage) + flags
}

fn projected_place(held: &Held) -> usize {
    flags_place(held, STAGES - 1) + 2
}

impl Functions for Wrong {
    fn write(&self, held: &mut Held, write: Write) -> u64 {
        let before = *held;
        let number = Archive.write(held, write);
        if number != 0 {
            return number;
        }
        let flags = flags_place(held, write.stage);
        let projected = projected_place(held);
        let arg0 = matches!(write.state, COLORARG0 | ALPHAARG0);
        match self {
            Self::ResultClearsTexture if write.state == RESULTARG => held[flags] &= !1,
            Self::TextureClearsResult if write.state == TEXTURE_BOUND => held[flags] &= !2,
            Self::TextureIsExchanged if write.state == TEXTURE_BOUND => {
                held[flags] = before[flags] ^ 1;
            }
            Self::ArgumentsZeroResetAgain if arg0 => {
                for other in (0..STAGES).filter(|&other| other != write.stage) {
                    let flags = flags_place(held, other);
                    held[flags - 2..flags].fill(1);
                }
            }
            Self::TurningBeginsAnew if arg0 && before[0] == KEY => {
                *held = before;
                held[0] = 0;
                return Archive.write(held, write);
            }
            Self::ProjectedByTheLastStage => held[projected] = write.stage,
            Self::ProjectedCountsWrites => held[projected] = held[projected].wrapping_add(1),
            Self::LastByteByTheLastValue => held[HELD_LENGTH - 1] = write.value as u8,
            Self::ResultRefusedWithTexture if write.state == RESULTARG && held[flags] % 2 == 1 => {
                *held = before;
                return 12;
            }
            _ => {}
        }
        number
    }
}

/// Whether the comparison finds a wrong function.
fn found(wrong: Wrong) -> bool {
    let mut run = Run::new(&wrong, SEED);
    run.shown = 0;
    run.lists(SELF_TEST);
    run.differences != 0
}

/// What is held before a list.
#[derive(Clone, Copy, Debug)]
enum Start {
    Nothing,
    Key,
    WideKey,
    AnyBytes,
}

const STARTS: [Start; 4] = [Start::Nothing, Start::Key, Start::WideKey, Start::AnyBytes];

impl Start {
    /// Around a key any bytes may stand: parts that are no good records, and what stands behind a key of kind 1.
    fn held(self, rng: &mut Rng) -> Held {
        let mut held = [0; HELD_LENGTH];
        let around = matches!(self, Self::AnyBytes) || rng.one_in(2);
        if around && !matches!(self, Self::Nothing) {
            held.fill_with(|| rng.byte());
        }
        match self {
            Self::Key => keep(&mut held, &key_record(rng, KEY, 7)),
            Self::WideKey => keep(&mut held, &key_record(rng, WIDE_KEY, 9)),
            Self::Nothing | Self::AnyBytes => {}
        }
        held
    }
}

fn keep(held: &mut Held, record: &[u8]) {
    assert_eq!(apply(held, record), 0, "a key's record {record:02x?}");
}

/// A key of a kind, whose stages have that many bytes.
fn key_record(rng: &mut Rng, kind: u8, stage: usize) -> Vec<u8> {
    let mut record = vec![kind];
    for _ in 0..STAGES {
        record.extend((1..stage).map(|_| rng.byte()));
        record.push(rng.byte() % 4);
    }
    record.extend([rng.byte() % 2, rng.byte()]);
    record
}

/// Writes of different stages or types, in any order, some refused ones among them.
fn list(rng: &mut Rng) -> Vec<Write> {
    let mut writes: Vec<Write> = (0..STAGES)
        .flat_map(|stage| TYPES.map(|state| (stage, state)))
        .map(|(stage, state)| Write {
            stage,
            state,
            value: value(rng, state),
        })
        .collect();
    if rng.one_in(4) {
        let value = 256 + u32::from(rng.byte());
        writes[rng.below(80)].value = value;
        let stage = STAGES + rng.byte() % 248;
        let state = rng.pick(&TYPES);
        writes.push(Write {
            stage,
            state,
            value,
        });
        let (stage, state) = (rng.byte() % STAGES, 29 + rng.byte() % 227);
        writes.push(Write {
            stage,
            state,
            value,
        });
    }
    rng.shuffle(&mut writes);
    let most = rng.pick(&[3, 8, 20, writes.len()]);
    writes.truncate(rng.below(most + 1));
    writes
}

fn value(rng: &mut Rng, state: u8) -> u32 {
    match state {
        RESULTARG => rng.pick(&[CURRENT, TEMP]),
        TEXTURE_BOUND => rng.pick(&[0, 1]),
        _ => rng.byte().into(),
    }
}

struct Run<'a> {
    functions: &'a dyn Functions,
    rng: Rng,
    /// Lists by what is held before them.
    lists: [u64; 4],
    writes: u64,
    refused: u64,
    /// Lists that changed what is held, and those that turned a key to kind 6.
    changing: u64,
    turning: u64,
    differences: u64,
    shown: u64,
}

impl<'a> Run<'a> {
    fn new(functions: &'a dyn Functions, seed: u64) -> Self {
        Self {
            functions,
            rng: Rng::new(seed),
            lists: [0; 4],
            writes: 0,
            refused: 0,
            changing: 0,
            turning: 0,
            differences: 0,
            shown: SHOWN,
        }
    }

    fn lists(&mut self, count: u64) {
        for _ in 0..count {
            let start = self.rng.below(STARTS.len());
            let held = STARTS[start].held(&mut self.rng);
            let writes = list(&mut self.rng);
            self.lists[start] += 1;
            self.rearranged(&held, &writes);
            self.neighbours(&held, &writes);
            self.twice(&held, &writes);
        }
    }

    /// The writes at these places of a list, from the same held bytes: what is held behind them, and the number of each by its place.
    fn after(&mut self, held: &Held, writes: &[Write], order: &[usize]) -> (Held, Vec<u64>) {
        let mut held = *held;
        let mut numbers = vec![0; writes.len()];
        for &at in order {
            numbers[at] = self.functions.write(&mut held, writes[at]);
            self.writes += 1;
            self.refused += u64::from(numbers[at] != 0);
        }
        (held, numbers)
    }

    fn rearranged(&mut self, held: &Held, writes: &[Write]) {
        let mut order: Vec<usize> = (0..writes.len()).collect();
        let expected = self.after(held, writes, &order);
        self.rng.shuffle(&mut order);
        let got = self.after(held, writes, &order);
        self.changing += u64::from(expected.0 != *held);
        self.turning += u64::from(expected.0[0] == WIDE_KEY && held[0] != WIDE_KEY);
        self.check(got == expected, || {
            format!(
                "{writes:?} in the order {order:?} on {held:02x?}: {expected:02x?}, and {got:02x?}"
            )
        });
    }

    fn neighbours(&mut self, held: &Held, writes: &[Write]) {
        if writes.len() < 2 {
            return;
        }
        let first = self.rng.below(writes.len() - 1);
        let pair = &writes[first..first + 2];
        let (expected, got) = (
            self.after(held, pair, &[0, 1]),
            self.after(held, pair, &[1, 0]),
        );
        self.check(got == expected, || {
            format!("{pair:?} in either order on {held:02x?}: {expected:02x?}, and {got:02x?}")
        });
    }

    fn twice(&mut self, held: &Held, writes: &[Write]) {
        let Some(&write) = writes.first() else {
            return;
        };
        let (once, twice) = (
            self.after(held, &[write], &[0]),
            self.after(held, &[write], &[0, 0]),
        );
        self.check(twice == once, || {
            format!("{write:?} once and twice on {held:02x?}: {once:02x?}, and {twice:02x?}")
        });
    }

    fn check(&mut self, good: bool, what: impl FnOnce() -> String) {
        if !good {
            self.differences += 1;
            if self.differences <= self.shown {
                println!("difference: {}", what());
            }
        }
    }

    fn print(&self, seed: u64) {
        let starts: Vec<String> = STARTS
            .iter()
            .zip(self.lists)
            .map(|(start, lists)| format!("{lists} from {start:?}"))
            .collect();
        println!("seed {seed}: lists: {}", starts.join(", "));
        println!(
            "{} lists changed what is held, {} turned a key to kind 6",
            self.changing, self.turning
        );
        println!(
            "{} writes, {} of them refused, {} differences",
            self.writes, self.refused, self.differences
        );
    }
}
