//! The inputs of the list that are refused.

use super::{Case, coverage::emissions};
use crate::{
    generate::{self, Rng, good_record},
    records::{Entry, Key, Kind, Refusal, STAGES, Variant, record},
    states::{RESULT_ARG, StateWrite, TEXTURE_BOUND, TYPES},
    words, worked,
};

/// Random inputs and outputs are shorter.
const LONGEST: usize = 2_000;

pub fn inputs(rng: &mut Rng) -> Vec<Vec<u8>> {
    let alone = [
        cut(rng),
        kinds(),
        flags(),
        speculars(),
        variants(),
        entries(),
        reserved(),
        stages(),
        types(),
        values(),
    ];
    let behind: Vec<Vec<u8>> = alone.iter().flat_map(|bad| some_behind(rng, bad)).collect();
    let alone = alone.concat();
    [alone, behind, missing(rng), random(rng), vec![far(rng)]].concat()
}

/// The kinds of records that print nothing.
const SILENT: [Kind; 5] = [
    Kind::Key,
    Kind::Variant,
    Kind::Entry,
    Kind::State,
    Kind::WideKey,
];

/// Eight of these, each behind up to nine records that print nothing.
fn some_behind(rng: &mut Rng, bad: &[Vec<u8>]) -> Vec<Vec<u8>> {
    let chosen = (0..8).map(|n| &bad[n * bad.len() / 8]);
    chosen.map(|bad| behind_records(rng, bad)).collect()
}

fn behind_records(rng: &mut Rng, bad: &[u8]) -> Vec<u8> {
    let mut input = Vec::new();
    for _ in 0..=rng.below(9) {
        let kind = rng.pick(&SILENT);
        input.extend(good_record(rng, kind));
    }
    input.extend(bad);
    input
}

/// Number 1: each record cut at each place, every third one with a bad body.
fn cut(rng: &mut Rng) -> Vec<Vec<u8>> {
    let mut inputs = Vec::new();
    for kind in SILENT {
        for left in 0..kind.size() {
            let mut whole = good_record(rng, kind);
            if left % 3 == 0 {
                whole[1..].fill(0xff);
            }
            inputs.push(whole[..=left].to_vec());
        }
    }
    inputs
}

/// Number 2: each other kind, by itself and so without a body.
fn kinds() -> Vec<Vec<u8>> {
    let bad = (0..=255).filter(|&kind| Kind::of(kind).is_none());
    bad.map(|kind| vec![kind]).collect()
}

/// The record of a key of each kind.
fn keys_with(alter: impl Fn(&mut Key)) -> [Vec<u8>; 2] {
    let narrow = worked::z2().key;
    [narrow, narrow.widened()].map(|mut key| {
        alter(&mut key);
        record(key.kind(), &key.body())
    })
}

/// Number 3: each bit of each stage, and beside a bad specular byte.
fn flags() -> Vec<Vec<u8>> {
    let mut inputs = Vec::new();
    for stage in 0..STAGES {
        for bit in 2..8 {
            inputs.extend(keys_with(|key| key.stages[stage].flags |= 1 << bit));
        }
        inputs.extend(keys_with(|key| {
            key.stages[stage].flags = 0xff;
            key.specular = 2;
        }));
    }
    inputs
}

/// Number 4.
fn speculars() -> Vec<Vec<u8>> {
    let bad = [2, 3, 4, 8, 16, 32, 64, 128, 254, 255];
    bad.map(|specular| keys_with(|key| key.specular = specular))
        .concat()
}

/// Number 5.
fn variants() -> Vec<Vec<u8>> {
    let bad = [0x40, 0x80, 0xc0, 0x41, 0xa0, 0xff];
    bad.map(|flags| {
        let variant = Variant {
            flags,
            ..Variant::default()
        };
        record(Kind::Variant, &variant.body())
    })
    .to_vec()
}

fn entry_with(name: &[u8], alter: impl Fn(&mut Entry)) -> Vec<u8> {
    let mut entry = Entry::new(name);
    alter(&mut entry);
    record(Kind::Entry, &entry.body())
}

/// Number 6: bad lengths, bad bytes in each place of a name, and each place of a tail.
fn entries() -> Vec<Vec<u8>> {
    const LONG: [u8; 32] = [b'm'; 32];
    let mut inputs = Vec::new();
    for length in [0, 33, 34, 64, 128, 255] {
        inputs.push(entry_with(&LONG, |entry| entry.length = length));
    }
    inputs.push(entry_with(b"", |_| {}));
    for (place, &byte) in b"09/:@[^`{ .-\x00\x1f\x7f\x80\xc3\xe1\xff"
        .iter()
        .enumerate()
    {
        inputs.push(entry_with(&LONG, |entry| entry.bytes[0] = byte));
        if !byte.is_ascii_digit() {
            inputs.push(entry_with(&LONG, |entry| entry.bytes[1 + place] = byte));
        }
    }
    for place in 1..32 {
        inputs.push(entry_with(&LONG, |entry| entry.bytes[place] = b'.'));
        inputs.push(entry_with(&LONG[..1], |entry| entry.bytes[place] = b'm'));
        inputs.push(entry_with(&LONG[..place], |entry| entry.bytes[31] = 1));
    }
    inputs
}

/// Number 13: each word. Behind it, number 6: some with a nonzero tail.
fn reserved() -> Vec<Vec<u8>> {
    let words = words::all();
    let alone = words.iter().map(|word| entry_with(word.as_bytes(), |_| {}));
    let worse = words.iter().step_by(9);
    let worse = worse.map(|word| entry_with(word.as_bytes(), |entry| entry.bytes[31] = b'_'));
    alone.chain(worse).collect()
}

fn write(stage: u8, state: u8, value: u32) -> Vec<u8> {
    let write = StateWrite {
        stage,
        state,
        value,
    };
    record(Kind::State, &write.body())
}

/// Number 10: stages above 7, alone and beside a bad type and a bad value.
fn stages() -> Vec<Vec<u8>> {
    let bad = [8, 9, 10, 15, 16, 32, 64, 127, 128, 254, 255];
    let alone = bad.iter().map(|&stage| write(stage, 1, 4));
    let worse = bad.iter().map(|&stage| write(stage, 7, 1 << 31));
    alone.chain(worse).collect()
}

/// Number 11: types up to 34 that there are not, and some above, alone and beside a bad value.
fn types() -> Vec<Vec<u8>> {
    let bad = (0..=34).chain([64, 128, 156, 254, 255]);
    let bad: Vec<u8> = bad.filter(|state| !TYPES.contains(state)).collect();
    let alone = bad.iter().map(|&state| write(7, state, 1));
    let worse = bad.iter().step_by(4).map(|&state| write(0, state, 256));
    alone.chain(worse).collect()
}

/// Number 12: each bit above the lowest eight beside a good byte, for some types; what the types 28 and 0 do not take.
fn values() -> Vec<Vec<u8>> {
    let mut inputs = Vec::new();
    for (n, bit) in (8..32).enumerate() {
        let state = TYPES[n % TYPES.len()];
        inputs.push(write((n % STAGES) as u8, state, 1 | 1 << bit));
    }
    for state in TYPES {
        inputs.extend([256, 257, u32::MAX].map(|value| write(3, state, value)));
    }
    let results = [0, 2, 3, 4, 6, 7, 0x15, 0x25, 255];
    inputs.extend(results.map(|value| write(5, RESULT_ARG, value)));
    let bounds = [2, 3, 4, 5, 128, 255];
    inputs.extend(bounds.map(|value| write(5, TEXTURE_BOUND, value)));
    inputs
}

/// Number 7: each choice of records that is not all three, in each order. A state write stands for a key.
fn missing(rng: &mut Rng) -> Vec<Vec<u8>> {
    let orders: [&[Kind]; 14] = [
        &[Kind::WideKey],
        &[Kind::Entry, Kind::WideKey],
        &[Kind::State],
        &[Kind::State, Kind::Variant],
        &[Kind::Entry, Kind::State],
        &[Kind::Key],
        &[Kind::Variant],
        &[Kind::Entry],
        &[Kind::Key, Kind::Variant],
        &[Kind::Variant, Kind::Key],
        &[Kind::Key, Kind::Entry],
        &[Kind::Entry, Kind::Key],
        &[Kind::Variant, Kind::Entry],
        &[Kind::Entry, Kind::Variant],
    ];
    let mut inputs = vec![record(Kind::Emit, &[])];
    for times in 1..4 {
        for order in orders {
            let kinds = order.repeat(times);
            let mut input: Vec<u8> = kinds
                .iter()
                .flat_map(|kind| good_record(rng, *kind))
                .collect();
            input.extend(record(Kind::Emit, &[]));
            inputs.push(input);
        }
    }
    inputs
}

/// Each number behind random records; two of each but 7 behind a printed text.
fn random(rng: &mut Rng) -> Vec<Vec<u8>> {
    let mut inputs = Vec::new();
    for &refusal in Refusal::of_records() {
        inputs.extend((0..6).map(|_| refused(rng, refusal, 0)));
        if refusal != Refusal::NothingHeld {
            inputs.extend((0..2).map(|_| refused(rng, refusal, 1)));
        }
    }
    inputs
}

/// A short input that prints this many texts before it is refused.
fn refused(rng: &mut Rng, refusal: Refusal, texts: usize) -> Vec<u8> {
    loop {
        let case = Case::of(generate::refused(rng, refusal).input);
        let short = case.input.len().max(case.output.len()) < LONGEST;
        if short && emissions(&case).len() == texts {
            return case.input;
        }
    }
}

/// An offset of five digits.
fn far(rng: &mut Rng) -> Vec<u8> {
    let mut input = Vec::new();
    while input.len() < 10_000 {
        input.extend(good_record(rng, Kind::Key));
    }
    input.push(0);
    input
}
