//! What the list covers, counted from its inputs and outputs.

use std::{collections::BTreeSet, fmt::Write};

use super::Case;
use crate::{
    generate::{MODIFIERS, TEXT_OPS},
    program::{Held, Record},
    records::{
        CUBE, Combiner, DEPTH, DEPTH_FETCH, FETCH4, FETCH4_ALPHA, Kind, LOD_BIAS, RAW_DEPTH_RED,
        Refusal, STAGES, Stage, Triple, VOLUME, Variant,
    },
    rules::{self, THREE_OPERANDS},
    states::{RESULT_ARG, StateWrite, TEXTURE_BOUND},
};

/// An active stage, where it stands.
struct Place<'a> {
    triple: &'a Triple,
    number: usize,
    stage: Stage,
}

/// Lines of a Markdown table: what was counted, and how many there are.
#[must_use]
pub fn coverage(cases: &[Case]) -> String {
    let triples: Vec<Triple> = cases.iter().flat_map(emissions).collect();
    let places: Vec<Place> = triples.iter().flat_map(places).collect();
    let mut table = Table(String::from("| what | how many |\n|---|---|\n"));
    table.line("cases", cases.len());
    table.line("emits", triples.len());
    refusals(&mut table, cases);
    writes(&mut table, cases);
    operations(&mut table, &places);
    three_operands(&mut table, &places);
    lookups(&mut table, &places);
    settings(&mut table, &triples);
    table.0
}

struct Table(String);

impl Table {
    fn line(&mut self, what: &str, how_many: impl std::fmt::Display) {
        writeln!(self.0, "| {what} | {how_many} |").expect("a string takes all");
    }

    /// A line with the number of different items, of all that there are.
    fn seen<T: Ord>(&mut self, what: &str, all: usize, items: impl Iterator<Item = T>) {
        let different: BTreeSet<T> = items.collect();
        self.line(what, format_args!("{} of {all}", different.len()));
    }
}

/// The records of a case that are accepted, each with what is held before it.
fn accepted(case: &Case) -> Vec<(Held, Record)> {
    let mut held = Held::default();
    let mut records = Vec::new();
    let end = refusal(case).map_or(case.input.len(), |(_, at)| at);
    let mut at = 0;
    while at < end {
        let record = Record::read(&case.input[at..]).expect("an accepted record");
        at += 1 + record.kind().size();
        records.push((held, record));
        held.hold(record);
    }
    records
}

/// The emissions that a case prints.
pub(super) fn emissions(case: &Case) -> Vec<Triple> {
    let emits = accepted(case).into_iter();
    let emits = emits.filter(|(_, record)| record.kind() == Kind::Emit);
    emits
        .map(|(held, _)| held.triple().expect("all three"))
        .collect()
}

/// The number and the offset in a case's last line.
fn refusal(case: &Case) -> Option<(u8, usize)> {
    let output = std::str::from_utf8(&case.output).expect("ASCII");
    let line = output.lines().next_back()?.strip_prefix("refused ")?;
    let (number, at) = line.split_once(" at ")?;
    Some((number.parse().ok()?, at.parse().ok()?))
}

fn places(triple: &Triple) -> impl Iterator<Item = Place<'_>> {
    let stages = rules::active(&triple.key).iter().enumerate();
    stages.map(move |(number, &stage)| Place {
        triple,
        number,
        stage,
    })
}

fn refusals(table: &mut Table, cases: &[Case]) {
    for wanted in Refusal::of_records() {
        let found = cases.iter().filter_map(refusal);
        let offsets = found.filter(|(number, _)| *number == wanted.number());
        let offsets: Vec<usize> = offsets.map(|(_, at)| at).collect();
        let different: BTreeSet<&usize> = offsets.iter().collect();
        table.line(
            &format!("refused {}", wanted.number()),
            format_args!("{} at {} offsets", offsets.len(), different.len()),
        );
    }
}

fn writes(table: &mut Table, cases: &[Case]) {
    let all: Vec<(Held, StateWrite)> = cases
        .iter()
        .flat_map(accepted)
        .filter_map(|(held, record)| match record {
            Record::State(write) => Some((held, write)),
            _ => None,
        })
        .collect();
    let first = || all.iter().filter(|(held, _)| held.key.is_none());
    let state = |(_, write): &(Held, StateWrite)| (write.stage, write.state);
    table.line("accepted state writes", all.len());
    table.seen("state writes: stage, type", 80, all.iter().map(state));
    table.seen("first writes: stage, type", 80, first().map(state));
    table.seen(
        "state writes: flags held before, type 28 or 0, value",
        4 * 4,
        all.iter().filter_map(|(held, write)| {
            let flags = held.key?.stages[usize::from(write.stage)].flags;
            matches!(write.state, RESULT_ARG | TEXTURE_BOUND).then_some((
                flags,
                write.state,
                write.value,
            ))
        }),
    );
}

/// The combiners that have an expression: in colour, and in alpha.
fn combiners<'a>(
    places: &'a [Place],
    alpha: bool,
) -> impl Iterator<Item = (&'a Place<'a>, Combiner)> {
    places.iter().filter_map(move |place| {
        let (color_expression, alpha_expression) = place.stage.expressions();
        let combiner = if alpha {
            alpha_expression
        } else {
            color_expression
        };
        Some((place, combiner?))
    })
}

/// A selector of 01, or 7 for all above 6.
fn choice(argument: u8) -> u8 {
    rules::selector(argument).min(7)
}

/// Of keys of kind 6.
fn three_operands(table: &mut Table, places: &[Place]) {
    let wide = places.iter().filter(|p| p.triple.key.is_wide()).count();
    table.line("active stages of keys of kind 6", wide);
    for (role, alpha) in [("colour", false), ("alpha", true)] {
        let all = || {
            let combiners = combiners(places, alpha);
            combiners.filter_map(|(p, c)| {
                let third = c.arg0.filter(|_| THREE_OPERANDS.contains(&c.op))?;
                Some((p.stage.textured(), c, third))
            })
        };
        let arguments: [(&str, fn(Combiner, u8) -> u8); 3] = [
            ("0", |_, third| third),
            ("1", |c, _| c.arg1),
            ("2", |c, _| c.arg2),
        ];
        for (name, argument) in arguments {
            table.seen(
                &format!("{role}: op 25 or 26, texture, argument {name} selects 0 to 6 or above"),
                2 * 2 * 8,
                all().map(|(textured, c, third)| (c.op, textured, choice(argument(c, third)))),
            );
        }
        table.seen(
            &format!("{role}: argument 0 of op 25 or 26, modifier"),
            2 * MODIFIERS.len(),
            all()
                .map(|(_, c, third)| (c.op, third & 0xf0))
                .filter(|(_, modifier)| MODIFIERS.contains(modifier)),
        );
    }
}

fn operations(table: &mut Table, places: &[Place]) {
    let ops = |of: fn(Stage) -> u8| places.iter().map(move |p| of(p.stage));
    table.seen("colour ops but 1", 255, ops(|s| s.color.op));
    table.seen("alpha ops", 256, ops(|s| s.alpha.op));
    for (role, alpha) in [("colour", false), ("alpha", true)] {
        let all = || combiners(places, alpha);
        let with_text = || all().filter(|(_, c)| TEXT_OPS.contains(&c.op));
        table.seen(
            &format!("{role}: op with a text, stage number"),
            20 * 8,
            with_text().map(|(p, c)| (c.op, p.number)),
        );
        table.seen(
            &format!("{role}: op with a text, result"),
            20 * 2,
            with_text().map(|(p, c)| (c.op, p.stage.to_temp())),
        );
        for (n, argument) in [|c: Combiner| c.arg1, |c: Combiner| c.arg2]
            .into_iter()
            .enumerate()
        {
            let n = n + 1;
            table.seen(
                &format!("{role}: op with a text, texture, argument {n} selects 0 to 6 or above"),
                20 * 2 * 8,
                with_text().map(|(p, c)| (c.op, p.stage.textured(), choice(argument(c)))),
            );
            table.seen(
                &format!("{role}: argument {n} selects 0 to 15"),
                16,
                all().map(|(_, c)| rules::selector(argument(c))),
            );
            table.seen(
                &format!("{role}: argument {n} selects 0 to 6 or above, modifier"),
                8 * MODIFIERS.len(),
                all()
                    .map(|(_, c)| (choice(argument(c)), argument(c) & 0xf0))
                    .filter(|(_, modifier)| MODIFIERS.contains(modifier)),
            );
        }
        table.seen(
            &format!("{role}: both arguments' selectors, 0 to 6 or above"),
            8 * 8,
            with_text().map(|(_, c)| (choice(c.arg1), choice(c.arg2))),
        );
    }
}

fn has_bit(mask: u16, number: usize) -> bool {
    mask >> number & 1 != 0
}

/// Which of 01's lookup forms and texture types a stage's bits choose.
fn form(variant: &Variant, number: usize) -> &'static str {
    let bit = |mask: usize| has_bit(variant.masks[mask], number);
    if bit(FETCH4) {
        match (bit(DEPTH), bit(FETCH4_ALPHA)) {
            (true, _) => "fetch4 of depth",
            (false, true) => "fetch4 of alpha",
            (false, false) => "fetch4",
        }
    } else if bit(DEPTH_FETCH) {
        if bit(RAW_DEPTH_RED) {
            "depth fetch, red"
        } else {
            "depth fetch"
        }
    } else if bit(DEPTH) {
        "compare"
    } else if bit(VOLUME) {
        "volume"
    } else if bit(CUBE) {
        "cube"
    } else {
        "plain"
    }
}

fn coordinate(place: &Place) -> &'static str {
    let key = &place.triple.key;
    let before = place.number.checked_sub(1).map(|n| key.stages[n]);
    let displaced = before.is_some_and(|s| s.is_bump() && s.textured());
    match (displaced, has_bit(key.projected.into(), place.number)) {
        (false, false) => "own",
        (false, true) => "own, projected",
        (true, false) => "displaced",
        (true, true) => "displaced, projected",
    }
}

fn lookups(table: &mut Table, places: &[Place]) {
    let looked_up = places
        .iter()
        .filter(|p| has_bit(rules::marks(&p.triple.key), p.number));
    let looked_up: Vec<&Place> = looked_up.collect();
    let bits = |place: &&Place| place.triple.variant.masks.map(|m| has_bit(m, place.number));
    table.line("lookups", looked_up.len());
    table.seen(
        "combinations of a stage's mask bits",
        128,
        looked_up.iter().map(bits),
    );
    table.seen(
        "lookup forms, coordinate, LOD_BIAS",
        9 * 4 * 2,
        looked_up.iter().map(|p| {
            let variant = &p.triple.variant;
            let lod_bias = variant.flags & LOD_BIAS != 0;
            (form(variant, p.number), coordinate(p), lod_bias)
        }),
    );
    let bump = places.iter().filter(|p| p.stage.is_bump());
    table.seen(
        "bump stages: number, op, texture, looked up",
        8 * 2 * 3 - 2,
        bump.map(|p| {
            let marked = has_bit(rules::marks(&p.triple.key), p.number);
            (p.number, p.stage.color.op, p.stage.textured(), marked)
        }),
    );
}

fn settings(table: &mut Table, triples: &[Triple]) {
    let variants = || triples.iter().map(|t| &t.variant);
    table.seen(
        "bits of the seven masks",
        7 * 16,
        variants().flat_map(|v| {
            let bits = (0..7).flat_map(|mask| (0..16).map(move |bit| (mask, bit)));
            bits.filter(|&(mask, bit)| has_bit(v.masks[mask], bit))
                .collect::<Vec<_>>()
        }),
    );
    table.seen(
        "combinations of variant flags",
        64,
        variants().map(|v| v.flags),
    );
    table.seen(
        "fog mode and fog table mode of 0 to 4 and 255",
        6 * 6,
        variants()
            .map(|v| (v.fog_mode, v.fog_table_mode))
            .filter(|modes| [modes.0, modes.1].iter().all(|m| *m < 5 || *m == 255)),
    );
    table.seen(
        "alpha functions of 0 to 9 and 255",
        11,
        variants()
            .map(|v| v.alpha_func)
            .filter(|f| *f < 10 || *f == 255),
    );
    table.seen(
        "active stages",
        9,
        triples.iter().map(|t| rules::active(&t.key).len()),
    );
    table.seen("rows", 10, triples.iter().map(|t| rules::rows(&t.key)));
    table.seen("specular add", 2, triples.iter().map(|t| t.key.specular));
    warnings(table, triples);
    for length in [1, 32] {
        let entries = triples.iter().filter(|t| t.entry.length == length);
        table.line(&format!("entries of length {length}"), entries.count());
    }
}

fn warnings(table: &mut Table, triples: &[Triple]) {
    let all = || triples.iter().map(|t| rules::warnings(&t.key, &t.variant));
    table.seen(
        "warnings: which of the four causes",
        16,
        all().map(|w| w.numbers().map(|number| number != 0)),
    );
    table.seen(
        "warnings: cause with a mask, stage",
        3 * STAGES,
        all().flat_map(|w| {
            let bits = (0..3).flat_map(|cause| (0..STAGES).map(move |stage| (cause, stage)));
            bits.filter(move |&(cause, stage)| has_bit(w.numbers()[cause].into(), stage))
        }),
    );
    let alone = |mask: u8| mask.is_power_of_two().then_some(mask);
    table.seen(
        "warnings: cause with a mask, its only stage",
        3 * STAGES,
        all().flat_map(|w| {
            let masks = [w.op, w.selector, w.modifier].into_iter().enumerate();
            masks.filter_map(move |(cause, mask)| Some((cause, alone(mask)?)))
        }),
    );
}
