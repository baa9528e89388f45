//! `entries [SEED [COUNT]]`: yuzuknoll_entry_start, yuzuknoll_entry_step and yuzuknoll_entry_possible beside a check by completion, and which entries
//! are refused with 13.
//!
//! After every front of a body, the empty and the whole one too, the state must tell whether some body that begins so is free of cause 6, and behind
//! more bytes that none is. The bodies are COUNT random ones, and those with each of the 256 bytes at each place of several entries. For a whole body
//! the answer must be that of yuzuknoll_read too. States of any numbers are tried: each number is read modulo 256.
//!
//! Every reserved word must be refused with 13 by yuzuknoll_read, yuzuknoll_write, yuzuknoll_emit and yuzuknoll_apply, and none beside them: words with
//! a byte more or less, with another last byte or another case, and every name of up to three bytes. A word with cause 6 is refused with 6.
//!
//! First the comparison is shown to fail: wrong functions are put in the place of the archive's, and each must be found. Prints the counts and the
//! first differences; the exit status is 1 if there is any, or if a wrong function passes.

use std::{collections::BTreeSet, process::ExitCode};

use oraclelib::{
    fronts::possible,
    generate::{self, Rng},
    records::{ENTRY, Entry, KEY, Kind, Refusal, VARIANT, record},
    words,
};
use yuzuknoll::{
    TEXT_LENGTH,
    raw::{self, Applied, Emitted, EntryState, HELD_LENGTH},
};

const SEED: u64 = 1;
const COUNT: u64 = 20_000;
/// Random bodies that each wrong function is given, always the same.
const SELF_TEST: u64 = 500;
/// How many differences are printed.
const SHOWN: u64 = 10;
/// Enough bytes behind a body for a count of bytes to begin anew.
const FAR_BEHIND: usize = 300;
/// What a state holds before a pass starts.
const UNSTARTED: EntryState = [0xf0f0_f0f0_0000_0001, 2, 0xf0f0_f0f0_0000_0003];

fn main() -> ExitCode {
    let args: Vec<u64> = std::env::args()
        .skip(1)
        .map(|arg| arg.parse().expect("SEED and COUNT are numbers"))
        .collect();
    let seed = args.first().copied().unwrap_or(SEED);
    let count = args.get(1).copied().unwrap_or(COUNT);
    let missed: Vec<Wrong> = Wrong::ALL
        .into_iter()
        .filter(|wrong| !found(*wrong))
        .collect();
    println!(
        "compare-entries: {} wrong functions tried, {} not found{}",
        Wrong::ALL.len(),
        missed.len(),
        missed
            .iter()
            .map(|wrong| format!(", {wrong:?}"))
            .collect::<String>()
    );
    let mut run = Run::new(&Archive, seed);
    run.every_byte();
    let every_byte = run.bodies;
    run.random(count);
    run.words();
    run.short_names();
    println!(
        "seed {seed}: {every_byte} bodies with each byte at each place, {} random ones; {} fronts, {} of them possible; {} states of any numbers",
        run.bodies - every_byte,
        run.fronts,
        run.possible,
        run.states
    );
    println!(
        "{} names, of which {} different ones are refused with 13; {} reserved words",
        run.names,
        run.reserved.len(),
        words::all().len()
    );
    let exactly = run.reserved == words::all().into_iter().collect();
    run.check(exactly, || {
        "not the reserved words are refused with 13".to_owned()
    });
    println!("{} steps, {} differences", run.steps, run.differences);
    ExitCode::from(u8::from(run.differences != 0 || !missed.is_empty()))
}

/// The three functions and yuzuknoll_read's answer for an entry, or others in their place.
trait Functions {
    fn start(&self, state: &mut EntryState);
    fn step(&self, state: &mut EntryState, byte: u8);
    fn possible(&self, state: &EntryState) -> u64;
    fn refusal(&self, body: &[u8]) -> u64;
}

struct Archive;

impl Functions for Archive {
    fn start(&self, state: &mut EntryState) {
        raw::entry_start(state);
    }

    fn step(&self, state: &mut EntryState, byte: u8) {
        raw::entry_step(state, byte);
    }

    fn possible(&self, state: &EntryState) -> u64 {
        raw::entry_possible(state)
    }

    fn refusal(&self, body: &[u8]) -> u64 {
        raw::read(&record(Kind::Entry, body), &mut raw::Record::default())
    }
}

/// What the other calls answer for an entry: writing it, emission with it and applying it.
fn other_refusals(body: &[u8; ENTRY]) -> [u64; 4] {
    let bytes = record(Kind::Entry, body);
    let write = raw::write(&bytes, &mut [0; ENTRY + 1], &mut raw::Record::default());
    let emit = |text: &mut [u8]| {
        let (key, variant) = ([1; KEY], [0; VARIANT]);
        raw::emit(&key, &variant, body, text, &mut Emitted::default())
    };
    let mut held = [0; HELD_LENGTH];
    let apply = raw::apply(&mut held, &bytes, &mut [], &mut Applied::default());
    // Without room for the text, an entry that is not refused is 8.
    let cramped = match emit(&mut []) {
        8 => 0,
        number => number,
    };
    [write, emit(&mut [0; TEXT_LENGTH]), cramped, apply]
}

/// The bytes of names; the first 53 may lead.
const NAME_BYTES: &[u8] = b"_ABCDEFGHIJKLMNOPQRSTUVWXYZabcdefghijklmnopqrstuvwxyz0123456789";
const LEADING: &[u8] = NAME_BYTES.split_at(53).0;

/// Names beside a word: a byte more or less, another last byte, another case.
fn beside(word: &[u8]) -> Vec<Vec<u8>> {
    let (last, front) = word.split_last().expect("a word");
    let mut names = vec![front.to_vec(), word[1..].to_vec()];
    for &byte in NAME_BYTES {
        names.push([word, &[byte]].concat());
        if byte != *last {
            names.push([front, &[byte]].concat());
        }
    }
    names.extend(LEADING.iter().map(|&byte| [&[byte], word].concat()));
    for at in 0..word.len() {
        let mut name = word.to_vec();
        name[at] ^= 0x20 * u8::from(name[at].is_ascii_alphabetic());
        names.push(name);
    }
    names.extend([word.to_ascii_uppercase(), word.to_ascii_lowercase()]);
    names.retain(|name| name != word);
    names
}

struct Run<'a> {
    functions: &'a dyn Functions,
    rng: Rng,
    bodies: u64,
    fronts: u64,
    possible: u64,
    states: u64,
    steps: u64,
    names: u64,
    /// The names that were refused with 13.
    reserved: BTreeSet<String>,
    differences: u64,
    shown: u64,
}

impl<'a> Run<'a> {
    fn new(functions: &'a dyn Functions, seed: u64) -> Self {
        Self {
            functions,
            rng: Rng::new(seed),
            bodies: 0,
            fronts: 0,
            possible: 0,
            states: 0,
            steps: 0,
            names: 0,
            reserved: BTreeSet::new(),
            differences: 0,
            shown: SHOWN,
        }
    }

    /// Each byte at each place of entries of several lengths.
    fn every_byte(&mut self) {
        for name in [
            "m",
            "_9",
            "windscreen",
            &"m".repeat(31),
            &"Z_9".repeat(11)[..32],
        ] {
            let good = Entry::new(name.as_bytes()).body();
            for place in 0..ENTRY {
                for byte in 0..=255 {
                    let mut body = good.clone();
                    body[place] = byte;
                    self.body(&body);
                }
            }
        }
    }

    /// Names, damaged names, and any bytes behind any length; and states of any numbers.
    fn random(&mut self, count: u64) {
        for n in 0..count {
            let rng = &mut self.rng;
            let body = match n % 4 {
                0 => generate::entry(rng).body(),
                1 | 2 => generate::bad_entry(rng).body(),
                _ => {
                    let length = rng.below(40) as u8;
                    let rest = (1..ENTRY).map(|_| rng.byte());
                    std::iter::once(length).chain(rest).collect()
                }
            };
            self.body(&body);
            self.behind(&body);
            self.any_state();
        }
    }

    fn step(&mut self, state: &mut EntryState, byte: u8) {
        self.functions.step(state, byte);
        self.steps += 1;
    }

    /// Every front of a body, and the whole body as a record.
    fn body(&mut self, body: &[u8]) {
        let mut state = UNSTARTED;
        self.functions.start(&mut state);
        self.bodies += 1;
        self.front(&state, &[]);
        for end in 1..=body.len() {
            self.step(&mut state, body[end - 1]);
            self.front(&state, &body[..end]);
        }
        let name = self.functions.possible(&state) == 1;
        let number = self.functions.refusal(body);
        let refused = number == u64::from(Refusal::Entry.number());
        self.check(name != refused, || {
            format!("{body:02x?} is a name: {name}; read answers {number}")
        });
    }

    /// What the state tells after a front of a body, and what it is.
    fn front(&mut self, state: &EntryState, front: &[u8]) {
        let expected = possible(front);
        let lent = *state;
        let got = self.functions.possible(&lent);
        self.fronts += 1;
        self.possible += u64::from(expected);
        let length = front.first().copied().unwrap_or(0);
        let numbers = [front.len() as u64, u64::from(length), u64::from(!expected)];
        let good = got == u64::from(expected) && lent == *state && numbers == *state;
        self.check(good, || {
            format!("after {front:02x?}: possible {got}, state {state:?}; expected {expected}, {numbers:?}")
        });
    }

    /// Bytes behind a whole body: nothing is possible any more, however many there are.
    fn behind(&mut self, body: &[u8]) {
        let more = if self.rng.one_in(8) { FAR_BEHIND } else { 2 };
        let mut state = UNSTARTED;
        self.functions.start(&mut state);
        for &byte in body {
            self.step(&mut state, byte);
        }
        for n in 1..=more {
            let any = self.rng.byte();
            let byte = self.rng.pick(&[0, b'm', 1, any]);
            self.step(&mut state, byte);
            let got = self.functions.possible(&state);
            let taken = ((body.len() + n) % 256) as u64;
            self.check(got == 0 && state[0] == taken, || {
                format!("{n} bytes behind {body:02x?}: possible {got}, state {state:?}")
            });
        }
    }

    /// A state of any numbers tells, and steps, as that of their remainders does.
    fn any_state(&mut self) {
        let rng = &mut self.rng;
        let state: EntryState = std::array::from_fn(|_| {
            let any = u64::from(rng.byte());
            let low = rng.pick(&[0, 0, 1, 2, 31, 32, 33, 34, 255, any, any]);
            let high = rng.next_u64() << 8;
            low | rng.pick(&[0, 0x100, u64::MAX << 8, high])
        });
        let any = rng.byte();
        let byte = rng.pick(&[0, 1, 32, 33, b'0', b'm', any]);
        let reduced = state.map(|number| number % 256);
        let told = [&state, &reduced].map(|state| self.functions.possible(state));
        let expected = u64::from(reduced[2] == 0);
        self.states += 1;
        self.check(told == [expected; 2], || {
            format!("{state:x?}: possible {told:?}, expected {expected}")
        });
        let mut after = [state, reduced];
        for state in &mut after {
            self.step(state, byte);
        }
        let [taken, length, wrong] = after[1];
        let good = after[0] == after[1]
            && taken == (reduced[0] + 1) % 256
            && length
                == if reduced[0] == 0 {
                    byte.into()
                } else {
                    reduced[1]
                }
            && (wrong == reduced[2] || wrong == 1);
        self.check(good, || format!("{state:x?} and {byte}: {after:x?}"));
    }

    /// Every reserved word, the names beside them, and words that have cause 6 too.
    fn words(&mut self) {
        for word in words::all() {
            let word = word.as_bytes();
            for name in beside(word).iter().map(Vec::as_slice).chain([word]) {
                let body = self.name(name);
                let expected = Entry::from_body(&body).cause().map_or(0, Refusal::number);
                let others = other_refusals(&body);
                self.check(others == [expected.into(); 4], || {
                    format!("{body:02x?}: write, emit, emit without room and apply answer {others:?}, expected {expected}")
                });
            }
            let good = Entry::new(word).body();
            for (place, byte) in [
                (0, 0),
                (0, 33),
                (1, b'0'),
                (ENTRY - 1, 1),
                (ENTRY - 1, b'_'),
            ] {
                let mut body = good.clone();
                body[place] = byte;
                let number = self.functions.refusal(&body);
                self.check(number == 6, || {
                    format!("{body:02x?}: read answers {number}, expected 6")
                });
            }
        }
    }

    /// Every name of up to three bytes.
    fn short_names(&mut self) {
        for &first in LEADING {
            self.name(&[first]);
            for &second in NAME_BYTES {
                self.name(&[first, second]);
                for &third in NAME_BYTES {
                    self.name(&[first, second, third]);
                }
            }
        }
    }

    /// What is answered for a name, or for what is none any more. Gives its body.
    fn name(&mut self, name: &[u8]) -> [u8; ENTRY] {
        let entry = Entry::new(name);
        let body = entry.body();
        let expected = entry.cause().map_or(0, Refusal::number);
        let number = self.functions.refusal(&body);
        self.names += 1;
        if number == u64::from(Refusal::Word.number()) {
            let name = String::from_utf8_lossy(name).into_owned();
            self.reserved.insert(name);
        }
        self.check(number == expected.into(), || {
            let name = String::from_utf8_lossy(name);
            format!("the entry {name:?}: read answers {number}, expected {expected}")
        });
        body.try_into().expect("a body of its size")
    }

    fn check(&mut self, good: bool, what: impl FnOnce() -> String) {
        if !good {
            self.differences += 1;
            if self.differences <= self.shown {
                println!("difference: {}", what());
            }
        }
    }
}

/// What a wrong function does.
#[derive(Clone, Copy, Debug, PartialEq, Eq)]
enum Wrong {
    ADigitMayLead,
    ANonzeroByteBehindTheNamePasses,
    Length0Passes,
    Length33Passes,
    AHighByteIsALetter,
    ForgetsAWrongByte,
    TellsOnlyAtTheEnd,
    TellsOneByteLate,
    PossibleBehindTheEnd,
    PossibleAfterManyBytes,
    AnswersTwo,
    StartLeavesTheLength,
    StartLeavesTheMark,
    ReadsTheWholeCount,
    ReadsTheWholeMark,
    AWordPasses,
    AFrontOfAWordIsRefused,
    AWordInFrontIsRefused,
    CaseIsIgnored,
    Number8IsRefused,
    Answers13Before6,
    Answers6For13,
}

impl Wrong {
    const ALL: [Self; 22] = [
        Self::ADigitMayLead,
        Self::ANonzeroByteBehindTheNamePasses,
        Self::Length0Passes,
        Self::Length33Passes,
        Self::AHighByteIsALetter,
        Self::ForgetsAWrongByte,
        Self::TellsOnlyAtTheEnd,
        Self::TellsOneByteLate,
        Self::PossibleBehindTheEnd,
        Self::PossibleAfterManyBytes,
        Self::AnswersTwo,
        Self::StartLeavesTheLength,
        Self::StartLeavesTheMark,
        Self::ReadsTheWholeCount,
        Self::ReadsTheWholeMark,
        Self::AWordPasses,
        Self::AFrontOfAWordIsRefused,
        Self::AWordInFrontIsRefused,
        Self::CaseIsIgnored,
        Self::Number8IsRefused,
        Self::Answers13Before6,
        Self::Answers6For13,
    ];
}

/// Whether the comparison finds a wrong function.
fn found(wrong: Wrong) -> bool {
    let mut run = Run::new(&wrong, SEED);
    run.shown = 0;
    run.random(SELF_TEST);
    run.words();
    run.differences != 0
}

impl Functions for Wrong {
    fn start(&self, state: &mut EntryState) {
        let [_, length, wrong] = *state;
        Archive.start(state);
        match self {
            Self::StartLeavesTheLength => state[1] = length,
            Self::StartLeavesTheMark => state[2] = wrong,
            _ => {}
        }
    }

    fn step(&self, state: &mut EntryState, byte: u8) {
        let [taken, length, wrong] = *state;
        let (at, end) = (taken % 256, length % 256);
        Archive.step(state, byte);
        let passed = match self {
            Self::ADigitMayLead => at == 1 && byte.is_ascii_digit(),
            Self::ANonzeroByteBehindTheNamePasses => at == 32 && end < 32,
            Self::Length0Passes => at == 0 && byte == 0,
            Self::Length33Passes => at == 0 && byte == 33,
            Self::AHighByteIsALetter => (1..=end).contains(&at) && byte > 127,
            Self::ForgetsAWrongByte => at == 20 && byte == 0,
            Self::PossibleBehindTheEnd => at == 33 && byte == 0,
            Self::PossibleAfterManyBytes => at == 255,
            Self::ReadsTheWholeCount => taken == 256,
            _ => false,
        };
        if passed {
            state[2] = match self {
                Self::ForgetsAWrongByte | Self::PossibleAfterManyBytes => 0,
                Self::ReadsTheWholeCount => 1,
                _ => wrong % 256,
            };
        }
    }

    fn possible(&self, state: &EntryState) -> u64 {
        match self {
            Self::TellsOnlyAtTheEnd if state[0] < 33 => 1,
            Self::TellsOneByteLate if state[0] == 1 => 1,
            Self::AnswersTwo => 2 * Archive.possible(state),
            Self::ReadsTheWholeMark => u64::from(state[2] == 0),
            _ => Archive.possible(state),
        }
    }

    fn refusal(&self, body: &[u8]) -> u64 {
        let number = Archive.refusal(body);
        let length = usize::from(body[0]).min(ENTRY - 1);
        let name = String::from_utf8_lossy(&body[1..=length]).into_owned();
        let wrong = match (self, number) {
            (Self::AFrontOfAWordIsRefused, 0) => words::is_reserved(&format!("{name}0")),
            (Self::AWordInFrontIsRefused, 0) => words::is_reserved(&name[..length - 1]),
            (Self::CaseIsIgnored, 0) => words::is_reserved(&name.to_ascii_lowercase()),
            (Self::Number8IsRefused, 0) => words::is_reserved(&name.replace('8', "7")),
            (Self::Answers13Before6, 6) => words::is_reserved(&name),
            _ => false,
        };
        match self {
            Self::AWordPasses if name == "float2" => 0,
            Self::Answers6For13 if number == 13 => 6,
            _ if wrong => 13,
            _ => number,
        }
    }
}
