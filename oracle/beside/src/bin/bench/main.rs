//! `bench FOLDER [PASSES [SEED [COUNT]]]`: the time of the archive's functions and of the program, beside the Rust and beside a plain copy of the
//! same bytes. Writes performance.csv and performance.svg to FOLDER, and prints tables in Markdown.
//!
//! The Rust's types, and the records, are made before. The Rust's text is a `String` of its own; ours and the copy go into one buffer of 16,384
//! bytes, which is not cleared between calls. `FFPS` and `ORACLE` name the programs; without them whole inputs are measured in one process alone.

mod emissions;
mod measure;
mod plot;
mod report;
mod streams;

use std::path::{Path, PathBuf};

use oraclelib::generate::Rng;

const PASSES: usize = 20;
const SEED: u64 = 1;
const COUNT: usize = 20_000;

fn main() {
    let args: Vec<String> = std::env::args().skip(1).collect();
    let folder = args.first().expect("FOLDER");
    let number = |n: usize| {
        args.get(n).map(|arg| {
            arg.parse::<u64>()
                .expect("PASSES, SEED and COUNT are numbers")
        })
    };
    let passes = number(1).map_or(PASSES, |n| n as usize);
    let seed = number(2).unwrap_or(SEED);
    let count = number(3).map_or(COUNT, |n| n as usize);
    let programs = program("FFPS").zip(program("ORACLE"));
    let programs = programs.as_ref().map(|(a, b)| (a.as_path(), b.as_path()));
    let mut rng = Rng::new(seed);
    let mut rows = emissions::emissions(&mut rng, count, passes);
    rows.extend(emissions::by_stages(&mut rng, passes));
    rows.extend(streams::records(&mut rng, count, passes));
    rows.extend(streams::inputs(&mut rng, passes, programs));
    rows.extend(emissions::wide_emissions(&mut rng, count, passes));
    write(folder, "performance.csv", &report::csv(&rows));
    write(folder, "performance.svg", &plot::svg(&rows));
    println!("seed {seed}, {passes} passes, medians of them");
    print!("{}", report::markdown(&rows));
}

fn program(variable: &str) -> Option<PathBuf> {
    let path = PathBuf::from(std::env::var_os(variable)?);
    path.is_file().then_some(path)
}

fn write(folder: &str, name: &str, what: &str) {
    let path = Path::new(folder).join(name);
    std::fs::write(&path, what).unwrap_or_else(|e| panic!("{}: {e}", path.display()));
}
