//! `resident [SEED [COUNT]]`: COUNT emissions in one process, as in the resident service, every thousandth compared with the Rust.
//!
//! Keys, variants and entries are drawn from pools that are renewed all the time, unusual ones and those of a usual scene. Every other emission goes
//! through yuzuknoll_apply: three records, then an emit record. Resident memory is read near the start, after every hundredth of the emissions and at
//! the end. The exit status is 1 if there is a difference, an emission is refused, or memory has grown by more than a mebibyte.

use std::{process::ExitCode, time::Instant};

use beside::{Bodies, emitted, length};
use oraclelib::{
    emit,
    generate::{self, Rng},
    records::{Kind, Triple},
};
use yuzuknoll::{
    TEXT_LENGTH,
    raw::{self, Applied, Emitted, HELD_LENGTH},
};

const SEED: u64 = 1;
const COUNT: u64 = 100_000_000;
const POOL: usize = 4096;
const COMPARED: u64 = 1000;
/// Emissions before memory is read for the first time: the Rust's allocator has then had its share.
const FIRST: u64 = 100_000;
const MOST_GROWTH: u64 = 1024;

fn main() -> ExitCode {
    let args: Vec<u64> = std::env::args()
        .skip(1)
        .map(|arg| arg.parse().expect("SEED and COUNT are numbers"))
        .collect();
    let seed = args.first().copied().unwrap_or(SEED);
    let count = args.get(1).copied().unwrap_or(COUNT);
    let start = Instant::now();
    let mut run = Run::new(seed);
    run.emissions(FIRST.min(count));
    let mut memory = vec![resident_kilobytes()];
    for hundredth in 1..=100 {
        let until = count * hundredth / 100;
        run.emissions(until.saturating_sub(run.done));
        memory.push(resident_kilobytes());
    }
    let (first, most) = (memory[0], memory.iter().max().expect("the first"));
    println!(
        "resident: seed {seed}: {} emissions, every other by yuzuknoll_apply, {} bytes of text, {} compared with the Rust, {} differences; VmRSS {first} kB after {FIRST}, at most {most} kB, {} kB at the end; {} s",
        run.done,
        run.text,
        run.compared,
        run.differences,
        memory[100],
        start.elapsed().as_secs()
    );
    let grown = most.saturating_sub(first) > MOST_GROWTH;
    ExitCode::from(u8::from(run.differences != 0 || grown))
}

/// The process's resident memory.
fn resident_kilobytes() -> u64 {
    let status = std::fs::read_to_string("/proc/self/status").expect("Linux");
    let line = status.lines().find_map(|line| line.strip_prefix("VmRSS:"));
    let number = line.and_then(|line| line.trim().strip_suffix(" kB"));
    number.and_then(|n| n.parse().ok()).expect("VmRSS in kB")
}

/// A triple, as the Rust, yuzuknoll_emit and yuzuknoll_apply take it.
struct Pooled {
    triple: Triple,
    bodies: Bodies,
    records: Vec<u8>,
}

impl Pooled {
    fn of(triple: Triple) -> Self {
        Self {
            triple,
            bodies: Bodies::of(&triple),
            records: triple.records(),
        }
    }
}

struct Run {
    rng: Rng,
    pool: Vec<Pooled>,
    held: [u8; HELD_LENGTH],
    buffer: [u8; TEXT_LENGTH],
    done: u64,
    text: u64,
    compared: u64,
    differences: u64,
}

fn triple(rng: &mut Rng) -> Triple {
    if rng.one_in(2) {
        generate::everyday(rng)
    } else {
        generate::triple(rng)
    }
}

impl Run {
    fn new(seed: u64) -> Self {
        let mut rng = Rng::new(seed);
        let pool = (0..POOL).map(|_| Pooled::of(triple(&mut rng))).collect();
        Self {
            rng,
            pool,
            held: [0; HELD_LENGTH],
            buffer: [0; TEXT_LENGTH],
            done: 0,
            text: 0,
            compared: 0,
            differences: 0,
        }
    }

    fn emissions(&mut self, count: u64) {
        for _ in 0..count {
            if self.done.is_multiple_of(16) {
                self.renew();
            }
            let bits = self.rng.next_u64() as usize;
            let at = [bits % POOL, bits / POOL % POOL, bits / (POOL * POOL) % POOL];
            match self.emission(at) {
                Err(number) => self.differs(&format!("refused {number}")),
                Ok(result) => {
                    self.text += result.length;
                    // One in a thousand, by turns of either function.
                    if self.done % COMPARED == self.done / COMPARED % 2 {
                        self.compare(at, result);
                    }
                }
            }
            self.done += 1;
        }
    }

    /// Puts a new triple in the place of another.
    fn renew(&mut self) {
        let new = triple(&mut self.rng);
        let at = self.rng.below(POOL);
        self.pool[at] = Pooled::of(new);
    }

    /// The result for the key, variant and entry at these places of the pool, or the number of a refusal.
    fn emission(&mut self, at: [usize; 3]) -> Result<Emitted, u64> {
        if self.done.is_multiple_of(2) {
            self.by_emit(at)
        } else {
            self.by_apply(at)
        }
    }

    fn by_emit(&mut self, [key, variant, entry]: [usize; 3]) -> Result<Emitted, u64> {
        let mut result = Emitted::default();
        let number = raw::emit(
            &self.pool[key].bodies.key,
            &self.pool[variant].bodies.variant,
            &self.pool[entry].bodies.entry,
            &mut self.buffer,
            &mut result,
        );
        accepted(number).map(|()| result)
    }

    fn by_apply(&mut self, [key, variant, entry]: [usize; 3]) -> Result<Emitted, u64> {
        const VARIANT: usize = length(Kind::Key);
        const ENTRY: usize = VARIANT + length(Kind::Variant);
        let records = [
            &self.pool[key].records[..VARIANT],
            &self.pool[variant].records[VARIANT..ENTRY],
            &self.pool[entry].records[ENTRY..],
        ];
        let mut done = Applied::default();
        for record in records {
            accepted(raw::apply(&mut self.held, record, &mut [], &mut done))?;
        }
        let emit = [Kind::Emit as u8];
        let number = raw::apply(&mut self.held, &emit, &mut self.buffer, &mut done);
        accepted(number).map(|()| done.result)
    }

    fn compare(&mut self, [key, variant, entry]: [usize; 3], result: Emitted) {
        let outcome = emit(&Triple {
            key: self.pool[key].triple.key,
            variant: self.pool[variant].triple.variant,
            entry: self.pool[entry].triple.entry,
        });
        self.compared += 1;
        if result != emitted(&outcome) || !self.buffer.starts_with(outcome.text.as_bytes()) {
            self.differs("another result or text");
        }
    }

    fn differs(&mut self, what: &str) {
        self.differences += 1;
        if self.differences <= 10 {
            println!("difference at emission {}: {what}", self.done);
        }
    }
}

/// What a call returned.
const fn accepted(number: u64) -> Result<(), u64> {
    match number {
        0 => Ok(()),
        number => Err(number),
    }
}
