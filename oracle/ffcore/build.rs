//! Finds the published sources and makes the module list that `lib.rs` includes: ff.rs and link.rs
//! where they stand, and a slice of emit.rs with the items that ff.rs uses, unaltered.

use std::{
    env, fs,
    path::{Path, PathBuf},
};

const DEFAULT_DIR: &str = "../../../shared/docs/src/windows/core/src/dxso";

/// The flags block of emit.rs, a macro call known by a line inside it.
const FLAGS: &str = "    pub struct VariantFlags: u8 {";

/// How the other items begin in emit.rs, each on exactly one line.
const ITEMS: &[&str] = &[
    "pub struct VariantKey {",
    "impl core::hash::Hash for VariantKey {",
    "pub(super) fn fetch4_sample(",
    "pub(super) fn bump_matrix_exprs(",
    "pub(super) fn bump_lum_exprs(",
    "pub const POS_FIXUP_MSL: &str",
    "pub const POS_FIXUP_DEPTH_BIAS_MSL: &str",
    "fn w(out: &mut String, s: &str) {",
    "pub fn emit_srgb_write_helper(",
    "pub fn write_point_sprite_prologue(",
    "pub const fn fog_blend_active(",
    "pub fn write_fog_blend(",
];

fn main() {
    let dir = source_dir();
    for file in ["ff.rs", "emit.rs", "link.rs"] {
        println!("cargo:rerun-if-changed={}", dir.join(file).display());
    }
    let out = PathBuf::from(env::var_os("OUT_DIR").expect("OUT_DIR"));
    let emit = fs::read_to_string(dir.join("emit.rs")).expect("emit.rs");
    fs::write(out.join("emit_slice.rs"), slice(&emit)).expect("emit_slice.rs");
    let modules = [
        module("ff", &dir.join("ff.rs")),
        module("link", &dir.join("link.rs")),
        module("emit", &out.join("emit_slice.rs")),
    ];
    fs::write(out.join("modules.rs"), modules.concat()).expect("modules.rs");
}

fn source_dir() -> PathBuf {
    println!("cargo:rerun-if-env-changed=FF_SRC_DIR");
    let dir = env::var_os("FF_SRC_DIR").map_or_else(|| DEFAULT_DIR.into(), PathBuf::from);
    fs::canonicalize(&dir).unwrap_or_else(|e| panic!("no sources at {}: {e}", dir.display()))
}

fn module(name: &str, path: &Path) -> String {
    format!("#[path = {path:?}]\npub mod {name};\n")
}

fn slice(emit: &str) -> String {
    let lines: Vec<&str> = emit.lines().collect();
    let mut out = String::from("use std::fmt::Write;\n");
    let mut copy = |first: usize, last: usize| {
        for line in &lines[first..=last] {
            out.push('\n');
            out.push_str(line);
        }
        out.push('\n');
    };
    let flags = flags_start(&lines);
    copy(flags, item_end(&lines, flags));
    for item in ITEMS {
        let at = only_line(&lines, item);
        copy(item_start(&lines, at), item_end(&lines, at));
    }
    out
}

fn only_line(lines: &[&str], front: &str) -> usize {
    let mut hits = (0..lines.len()).filter(|&n| lines[n].starts_with(front));
    match (hits.next(), hits.next()) {
        (Some(at), None) => at,
        _ => panic!("emit.rs: not exactly one line begins with `{front}`"),
    }
}

fn flags_start(lines: &[&str]) -> usize {
    let named = only_line(lines, FLAGS);
    lines[..named]
        .iter()
        .rposition(|line| *line == "bitflags::bitflags! {")
        .expect("the macro call around VariantFlags")
}

/// The item's comments and attributes belong to it.
fn item_start(lines: &[&str], at: usize) -> usize {
    let outside = |line: &&str| !line.starts_with("//") && !line.starts_with("#[");
    lines[..at].iter().rposition(outside).map_or(0, |n| n + 1)
}

/// An item ends on its own line, or at the first line that closes it in column 0.
fn item_end(lines: &[&str], at: usize) -> usize {
    if lines[at].ends_with(';') {
        return at;
    }
    (at + 1..lines.len())
        .find(|&n| matches!(lines[n], "}" | ");" | "};"))
        .expect("end of item")
}
