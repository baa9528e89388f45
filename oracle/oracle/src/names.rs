//! 01's rules of names and declarations in a text, demand 3: that names, rows and lookups of a text fit, and 02's request Six: that no local is idle.

use std::collections::BTreeSet;

use crate::{emission::Outcome, words};

const TYPES: [&str; 10] = [
    "Varyings",
    "sampler",
    "float",
    "float2",
    "float3",
    "float4",
    "texture2d<float>",
    "texture3d<float>",
    "texturecube<float>",
    "depth2d<float>",
];

/// What a text may not declare and leave idle, without the stage number.
const WATCHED: [&str; 6] = ["t", "temp", "pc", "bc", "proj", "bump_env"];

/// A listed name where it stands.
#[derive(Clone, Copy, Debug, PartialEq, Eq)]
pub struct Occurrence<'a> {
    pub name: &'a str,
    pub declared: bool,
    /// The decimal number in square brackets behind a use of `ps_c`.
    pub row: Option<usize>,
}

/// The listed names of a text, in their order.
pub fn occurrences(text: &str) -> impl Iterator<Item = Occurrence<'_>> {
    let start = counted_from(text);
    let listed = names(text, start).filter(|(_, name)| words::is_listed(name));
    listed.map(move |(at, name)| {
        let declared = declared(&text[start..at]);
        let is_row = name == "ps_c" && !declared;
        Occurrence {
            name,
            declared,
            row: row(&text[at + name.len()..]).filter(|_| is_row),
        }
    })
}

/// The stages whose `t` is declared in `text`, in the order of the declarations.
#[must_use]
pub fn declared_texels(text: &str) -> Vec<u8> {
    occurrences(text)
        .filter(|o| o.declared)
        .filter_map(|o| texel(o.name))
        .collect()
}

/// Whether an outcome obeys demand 3, with these stages marked for a lookup.
///
/// # Errors
/// What it does not obey.
pub fn demand_3(outcome: &Outcome, marks: u16) -> Result<(), String> {
    let mut declared = BTreeSet::new();
    for Occurrence {
        name,
        declared: declares,
        row,
    } in occurrences(&outcome.text)
    {
        if declares && !declared.insert(name) {
            return Err(format!("{name} is declared twice"));
        }
        if !declares && !declared.contains(name) {
            return Err(format!("{name} is used before a declaration"));
        }
        if row.is_some_and(|row| row >= outcome.rows.into()) {
            return Err(format!("row {row:?} of {}", outcome.rows));
        }
    }
    let texels = declared.iter().filter_map(|name| texel(name));
    let texels: Vec<u8> = texels.collect();
    let marked: Vec<u8> = (0..16).filter(|n| marks >> n & 1 != 0).collect();
    if texels != marked {
        return Err(format!("texels {texels:?} where {marked:?} are marked"));
    }
    if texels.len() != usize::from(outcome.lookups) {
        return Err(format!("{} lookups of {texels:?}", outcome.lookups));
    }
    if u32::from(outcome.lookups) > outcome.mask.count_ones() {
        return Err(format!("more lookups than in mask {}", outcome.mask));
    }
    Ok(())
}

/// Whether each `t`, `temp`, `pc`, `bc`, `proj` and `bump_env` that a text declares is used behind its declaration.
///
/// # Errors
/// One that is not.
pub fn no_idle(text: &str) -> Result<(), String> {
    let mut idle = BTreeSet::new();
    for Occurrence { name, declared, .. } in occurrences(text) {
        if !declared {
            idle.remove(name);
        } else if is_watched(name) {
            idle.insert(name);
        }
    }
    let first = idle.first();
    first.map_or(Ok(()), |name| Err(format!("{name} is idle")))
}

fn is_watched(name: &str) -> bool {
    WATCHED.contains(&name.trim_end_matches(|c: char| c.is_ascii_digit()))
}

/// The decimal number in square brackets at the front.
fn row(behind: &str) -> Option<usize> {
    let (number, _) = behind.strip_prefix('[')?.split_once(']')?;
    let digits = number.bytes().all(|b| b.is_ascii_digit());
    number.parse().ok().filter(|_| digits)
}

/// Where the `(` behind the entry stands, on the line that begins with `fragment`.
fn counted_from(text: &str) -> usize {
    let line = text.find("\nfragment").expect("an entry line") + 1;
    line + text[line..].find('(').expect("a bracket")
}

const fn in_name(b: u8) -> bool {
    b.is_ascii_alphanumeric() || b == b'_'
}

/// The names of `text` from `start` on, with their places.
fn names(text: &str, start: usize) -> impl Iterator<Item = (usize, &str)> {
    let bytes = text.as_bytes();
    let mut at = start;
    std::iter::from_fn(move || {
        at += bytes[at..].iter().position(|&b| in_name(b))?;
        let length = bytes[at..].iter().take_while(|&&b| in_name(b)).count();
        at += length;
        Some((at - length, &text[at - length..at]))
    })
    .filter(move |&(at, run)| !run.as_bytes()[0].is_ascii_digit() && bytes[at - 1] != b'.')
}

/// Whether a name behind `before` is declared there.
fn declared(before: &str) -> bool {
    ends_with_word(before, "float4 *")
        || ends_with_word(before, "float &")
        || before
            .strip_suffix(' ')
            .is_some_and(|front| TYPES.iter().any(|word| ends_with_word(front, word)))
}

/// Whether `text` ends with `word`, and `word` is no part of a longer name there.
fn ends_with_word(text: &str, word: &str) -> bool {
    text.strip_suffix(word).is_some_and(|front| {
        !front.ends_with(|c: char| c.is_ascii_alphanumeric() || "_.".contains(c))
    })
}

/// The stage of `t0` to `t7`.
fn texel(name: &str) -> Option<u8> {
    match name.as_bytes() {
        [b't', digit @ b'0'..=b'7'] => Some(digit - b'0'),
        _ => None,
    }
}
