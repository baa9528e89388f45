//! The results as CSV and as tables in Markdown.

use std::fmt::Write;

use crate::measure::{Row, Time};

#[must_use]
pub fn csv(rows: &[Row]) -> String {
    let mut out = String::from(
        "group,name,calls,bytes,rust_median_ns,rust_best_ns,ours_median_ns,ours_best_ns,copy_median_ns,copy_best_ns\n",
    );
    let times = |t: Time| format!("{:.1},{:.1}", t.median, t.best);
    for row in rows {
        let rust = row.rust.map_or_else(|| ",".to_owned(), times);
        writeln!(
            out,
            "{},\"{}\",{},{:.0},{rust},{},{}",
            row.group,
            row.name,
            row.calls,
            row.bytes,
            times(row.ours),
            times(row.copy)
        )
        .expect("a string takes all");
    }
    out
}

/// The groups with their titles, in the order of the tables.
const GROUPS: [(&str, &str, &str); 8] = [
    ("emission", "emission", "bytes a text"),
    ("wide", "emission of keys of kind 6", "bytes a text"),
    ("parts", "parts of it, everyday keys", "bytes"),
    ("read", "reading a record", "bytes"),
    ("write", "writing a record", "bytes"),
    ("apply", "applying a record", "bytes"),
    ("input", "a whole input of the program", "bytes printed"),
    (
        "stages",
        "active stages, each with a lookup",
        "bytes a text",
    ),
];

/// A table for each group, but the growth with text, which is plotted.
#[must_use]
pub fn markdown(rows: &[Row]) -> String {
    let mut out = String::new();
    for (group, title, bytes) in GROUPS {
        let rows: Vec<&Row> = rows.iter().filter(|row| row.group == group).collect();
        if rows.is_empty() {
            continue;
        }
        writeln!(
            out,
            "\n| {title} | calls | {bytes} | Rust | ours | ours / Rust | plain copy | ours / copy |\n|---|---|---|---|---|---|---|---|"
        )
        .expect("a string takes all");
        for row in rows {
            writeln!(out, "{}", line(row)).expect("a string takes all");
        }
    }
    out
}

fn line(row: &Row) -> String {
    let (rust, ratio) = row.rust.map_or_else(
        || ("-".to_owned(), "-".to_owned()),
        |rust| {
            let best = row.ours.best / rust.best;
            let ratio = row.ours.median / rust.median;
            (time(rust), format!("{ratio:.2} (best pass {best:.2})"))
        },
    );
    format!(
        "| {} | {} | {} | {rust} | {} | {ratio} | {} | {:.1} |",
        row.name,
        thousands(row.calls as f64),
        thousands(row.bytes),
        time(row.ours),
        time(row.copy),
        row.ours.median / row.copy.median
    )
}

/// The median, in a unit that suits it.
fn time(t: Time) -> String {
    match t.median {
        n if n < 100.0 => format!("{n:.1} ns"),
        n if n < 10_000.0 => format!("{} ns", thousands(n)),
        n => format!("{} µs", thousands(n / 1000.0)),
    }
}

/// A whole number with commas.
fn thousands(n: f64) -> String {
    let digits = format!("{n:.0}");
    let mut out = String::new();
    for (place, digit) in digits.chars().enumerate() {
        if place > 0 && (digits.len() - place) % 3 == 0 {
            out.push(',');
        }
        out.push(digit);
    }
    out
}
