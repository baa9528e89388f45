//! Record streams: accepted ones, ones refused for a wanted reason, and damaged ones.

use super::{Rng, entry, key, triple, variant, wide_key, write};
use crate::{
    emission::emit,
    program::{Held, INPUT_CAP, Record, TEXT_CAP},
    records::{Entry, Key, Kind, Refusal, STAGES, Triple, WIDE_KEY, record},
    states::{RESULT_ARG, StateWrite, TEXTURE_BOUND, TYPES},
    words,
};

/// An input, and what it was made to give.
#[derive(Clone, Debug)]
pub struct Stream {
    pub input: Vec<u8>,
    /// The size of the text buffer: the program's, unless a text is to be too long for it.
    pub text_cap: usize,
    pub refused: Option<(Refusal, usize)>,
}

/// Records behind one another, with what they leave held.
#[derive(Default)]
struct Builder {
    input: Vec<u8>,
    held: Held,
}

impl Builder {
    fn push(&mut self, kind: Kind, body: &[u8]) {
        let record = record(kind, body);
        if let Ok(good) = Record::read(&record) {
            self.held.hold(good);
        }
        self.input.extend(record);
    }

    /// A record of one of these kinds, no emit before a key, a variant and an entry.
    fn push_any(&mut self, rng: &mut Rng, kinds: &[Kind]) {
        let kind = rng.pick(kinds);
        if kind != Kind::Emit || self.held.triple().is_some() {
            self.push(kind, &good_body(rng, kind));
        }
    }

    /// Some such records, which leave room in the input for a few more.
    fn push_many(&mut self, rng: &mut Rng, kinds: &[Kind]) {
        for _ in 0..record_count(rng) {
            if self.input.len() < INPUT_CAP - 1000 {
                self.push_any(rng, kinds);
            }
        }
    }

    fn push_triple(&mut self, triple: &Triple) {
        self.push(triple.key.kind(), &triple.key.body());
        self.push(Kind::Variant, &triple.variant.body());
        self.push(Kind::Entry, &triple.entry.body());
    }

    fn stream(self, refused: Option<(Refusal, usize)>) -> Stream {
        Stream {
            input: self.input,
            text_cap: TEXT_CAP,
            refused,
        }
    }
}

/// What an emit record needs; a state write stands for a key.
const PARTS: [Kind; 3] = [Kind::Key, Kind::Variant, Kind::Entry];
const SETTING: [Kind; 6] = [
    Kind::Key,
    Kind::WideKey,
    Kind::Variant,
    Kind::Entry,
    Kind::State,
    Kind::State,
];
const ANY: [Kind; 9] = [
    Kind::Key,
    Kind::WideKey,
    Kind::Variant,
    Kind::Entry,
    Kind::Emit,
    Kind::Emit,
    Kind::State,
    Kind::State,
    Kind::State,
];

/// Mostly few, seldom enough for offsets of four and five digits.
fn record_count(rng: &mut Rng) -> usize {
    if rng.one_in(32) {
        100 + rng.below(300)
    } else {
        rng.below(14)
    }
}

fn good_body(rng: &mut Rng, kind: Kind) -> Vec<u8> {
    match kind {
        Kind::Key => key(rng).body(),
        Kind::WideKey => wide_key(rng).body(),
        Kind::Variant => variant(rng).body(),
        Kind::Entry => entry(rng).body(),
        Kind::Emit => Vec::new(),
        Kind::State => write(rng).body(),
    }
}

/// A record free of causes.
pub fn good_record(rng: &mut Rng, kind: Kind) -> Vec<u8> {
    record(kind, &good_body(rng, kind))
}

/// An accepted stream.
pub fn accepted(rng: &mut Rng) -> Stream {
    front(rng).stream(None)
}

fn front(rng: &mut Rng) -> Builder {
    let mut builder = Builder::default();
    if rng.percent(75) {
        let first = triple(rng);
        builder.push_triple(&first);
    }
    builder.push_many(rng, &ANY);
    builder
}

/// A stream whose last line is this refusal.
pub fn refused(rng: &mut Rng, refusal: Refusal) -> Stream {
    match refusal {
        Refusal::Cut => cut(rng),
        Refusal::NothingHeld => nothing_held(rng),
        Refusal::LongText => long_text(rng),
        Refusal::LongInput => long_input(rng),
        _ => {
            let bad = bad_record(rng, refusal);
            behind_front(rng, refusal, &bad)
        }
    }
}

/// Accepted records, the bad one, and anything behind it.
fn behind_front(rng: &mut Rng, refusal: Refusal, bad: &[u8]) -> Stream {
    let mut builder = front(rng);
    let at = builder.input.len();
    builder.input.extend(bad);
    for _ in 0..rng.pick(&[0, 0, 1, 70]) {
        builder.input.push(rng.byte());
    }
    builder.stream(Some((refusal, at)))
}

fn bad_record(rng: &mut Rng, refusal: Refusal) -> Vec<u8> {
    match refusal {
        Refusal::StageFlag => key_record(&bad_flag(rng)),
        Refusal::Specular => key_record(&bad_specular(rng)),
        Refusal::VariantFlag => {
            let mut bad = variant(rng);
            bad.flags |= rng.pick(&[0x40, 0x80, 0xc0]);
            record(Kind::Variant, &bad.body())
        }
        Refusal::Entry => record(Kind::Entry, &bad_entry(rng).body()),
        Refusal::Word => record(Kind::Entry, &reserved(rng).body()),
        Refusal::StageNumber | Refusal::StateType | Refusal::StateValue => {
            record(Kind::State, &bad_write(rng, refusal).body())
        }
        _ => {
            // A bad kind counts before the length, so the body is of any length.
            let above = unlike(rng, |b| Kind::of(b).is_some());
            let kind = rng.weighted(&[(1, 0), (1, 7), (3, above)]);
            let body = (0..rng.below(70)).map(|_| rng.byte());
            std::iter::once(kind).chain(body).collect()
        }
    }
}

fn key_record(key: &Key) -> Vec<u8> {
    record(key.kind(), &key.body())
}

/// A key of either kind.
fn either_key(rng: &mut Rng) -> Key {
    if rng.one_in(3) {
        wide_key(rng)
    } else {
        key(rng)
    }
}

/// Every other one has a bad specular byte too, which counts later.
fn bad_flag(rng: &mut Rng) -> Key {
    let mut key = if rng.one_in(2) {
        bad_specular(rng)
    } else {
        either_key(rng)
    };
    key.stages[rng.below(STAGES)].flags |= 1 << (2 + rng.below(6));
    key
}

fn bad_specular(rng: &mut Rng) -> Key {
    let mut key = either_key(rng);
    key.specular = 2 + rng.below(254) as u8;
    key
}

/// A reserved word.
pub fn reserved(rng: &mut Rng) -> Entry {
    let words = words::all();
    Entry::new(words[rng.below(words.len())].as_bytes())
}

/// An entry with cause 6. Every fourth is made from a reserved word, which counts later.
pub fn bad_entry(rng: &mut Rng) -> Entry {
    let mut entry = if rng.one_in(4) {
        reserved(rng)
    } else {
        entry(rng)
    };
    let length = usize::from(entry.length);
    match rng.below(5) {
        0 => entry.length = 0,
        1 => entry.length = 33 + rng.below(223) as u8,
        2 => entry.bytes[0] = unlike(rng, |b| b.is_ascii_alphabetic() || b == b'_'),
        3 => {
            let place = rng.below(length);
            entry.bytes[place] = unlike(rng, |b| b.is_ascii_alphanumeric() || b == b'_');
        }
        _ => {
            entry.length = entry.length.min(31);
            let tail = usize::from(entry.length);
            let place = tail + rng.below(32 - tail);
            entry.bytes[place] = 1 + rng.below(255) as u8;
        }
    }
    entry
}

/// A write with the cause 10, 11 or 12. Those that count later are often there too.
pub fn bad_write(rng: &mut Rng, refusal: Refusal) -> StateWrite {
    let mut bad = write(rng);
    if refusal == Refusal::StateValue || rng.one_in(2) {
        bad.value = bad_value(rng, bad.state);
    }
    if refusal == Refusal::StateType || refusal == Refusal::StageNumber && rng.one_in(2) {
        let any = unlike(rng, |b| TYPES.contains(&b));
        bad.state = rng.pick(&[7, 8, 24, 25, 29, 32, any, any, any]);
    }
    if refusal == Refusal::StageNumber {
        let any = 8 + rng.below(248) as u8;
        bad.stage = rng.pick(&[8, 255, any]);
    }
    bad
}

/// A value that a type does not take: above 255, often so that its lowest byte alone would be taken, or none of those named.
fn bad_value(rng: &mut Rng, state: u8) -> u32 {
    let named: &[u8] = match state {
        TEXTURE_BOUND => &[0, 1],
        RESULT_ARG => &[1, 5],
        _ => &[1, 2, 4, 255],
    };
    let low = u32::from(rng.pick(named));
    let high = rng.pick(&[1 << 8, 1 << 16, 1 << 24, 1 << 31]);
    if matches!(state, TEXTURE_BOUND | RESULT_ARG) && rng.one_in(2) {
        loop {
            let value = rng.byte();
            if !named.contains(&value) {
                return value.into();
            }
        }
    }
    if rng.one_in(4) {
        rng.next_u64() as u32 | high
    } else {
        low | high
    }
}

/// A byte without the property, often one right beside those that have it.
fn unlike(rng: &mut Rng, property: fn(u8) -> bool) -> u8 {
    let beside = b"/09:@[^`{\x00\x7f\x80\xc3\xe1\xff";
    loop {
        let byte = if rng.one_in(2) {
            rng.pick(beside)
        } else {
            rng.byte()
        };
        if !property(byte) {
            return byte;
        }
    }
}

/// A record cut short, often one that has a bad body too, which counts later.
fn cut(rng: &mut Rng) -> Stream {
    let whole = if rng.one_in(2) {
        let bad = rng.pick(&[
            Refusal::StageFlag,
            Refusal::Specular,
            Refusal::VariantFlag,
            Refusal::Entry,
            Refusal::Word,
            Refusal::StageNumber,
            Refusal::StateType,
            Refusal::StateValue,
        ]);
        bad_record(rng, bad)
    } else {
        let kind = rng.pick(&SETTING);
        good_record(rng, kind)
    };
    let most = whole.len() - 1;
    let any = 1 + rng.below(most);
    let left = rng.weighted(&[(1, 1), (1, most), (4, any)]);
    let mut builder = front(rng);
    let at = builder.input.len();
    builder.input.extend(&whole[..left]);
    builder.stream(Some((Refusal::Cut, at)))
}

/// An emit record with one, two or all of a key, a variant and an entry missing. Writes may stand for the key.
fn nothing_held(rng: &mut Rng) -> Stream {
    let mut kinds = PARTS.to_vec();
    rng.shuffle(&mut kinds);
    kinds.truncate(rng.below(3));
    if let Some(key) = kinds.iter().position(|&kind| kind == Kind::Key) {
        match rng.below(4) {
            0 => kinds[key] = Kind::State,
            1 => kinds.push(Kind::State),
            2 => kinds[key] = Kind::WideKey,
            _ => {}
        }
    }
    let mut builder = Builder::default();
    if !kinds.is_empty() {
        builder.push_many(rng, &kinds);
    }
    let at = builder.input.len();
    builder.push(Kind::Emit, &[]);
    builder.push_many(rng, &SETTING);
    builder.stream(Some((Refusal::NothingHeld, at)))
}

/// A text buffer one byte, or far, shorter than the longest text.
fn long_text(rng: &mut Rng) -> Stream {
    let mut builder = Builder::default();
    let first = triple(rng);
    builder.push_triple(&first);
    let mut texts = Vec::new();
    for _ in 0..1 + rng.below(4) {
        builder.push_many(rng, &SETTING);
        let held = builder.held.triple().expect("all three");
        texts.push((builder.input.len(), emit(&held).text.len()));
        builder.push(Kind::Emit, &[]);
    }
    let longest = texts.iter().map(|&(_, length)| length).max();
    let longest = longest.expect("at least one");
    let text_cap = longest - 1 - rng.pick(&[0, 0, 1, longest / 2, longest - 1]);
    let first = texts.iter().find(|&&(_, length)| length > text_cap);
    let &(at, _) = first.expect("the longest");
    Stream {
        text_cap,
        ..builder.stream(Some((Refusal::LongText, at)))
    }
}

fn long_input(rng: &mut Rng) -> Stream {
    let mut builder = front(rng);
    let length = INPUT_CAP + 1 + rng.pick(&[0, 0, 1, 4000]);
    while builder.input.len() < length {
        builder.push_any(rng, &ANY);
    }
    builder.input.truncate(length);
    builder.stream(Some((Refusal::LongInput, INPUT_CAP)))
}

/// An accepted stream that fills the input buffer to its last byte.
pub fn full(rng: &mut Rng) -> Stream {
    let mut builder = Builder::default();
    let first = triple(rng);
    builder.push_triple(&first);
    while builder.input.len() + 1 + WIDE_KEY <= INPUT_CAP {
        builder.push_any(rng, &SETTING);
    }
    while builder.input.len() < INPUT_CAP {
        builder.push(Kind::Emit, &[]);
    }
    builder.stream(None)
}

/// An accepted stream with some bytes altered, taken out or put in; the outcome is open.
pub fn damaged(rng: &mut Rng) -> Vec<u8> {
    let mut input = front(rng).input;
    for _ in 0..=rng.below(3) {
        let at = rng.below(input.len() + 1);
        match (rng.below(4), input.get_mut(at)) {
            (0, _) => input.truncate(at),
            (1, _) => input.insert(at, rng.byte()),
            (2, Some(_)) => drop(input.remove(at)),
            (_, Some(byte)) => *byte ^= 1 << rng.below(8),
            (_, None) => {}
        }
    }
    input
}

/// A stream for the program, whose text buffer is large enough: accepted, refused or damaged.
pub fn any(rng: &mut Rng) -> Vec<u8> {
    match rng.below(10) {
        0..3 => accepted(rng).input,
        3..6 => damaged(rng),
        _ if rng.one_in(100) => full(rng).input,
        _ if rng.one_in(100) => long_input(rng).input,
        _ => {
            let refusal = rng.pick(Refusal::of_records());
            refused(rng, refusal).input
        }
    }
}
