//! `corpus`: writes what the generators make.
//!
//! `list SEED FILE`: a list of answers into FILE, and on standard output what it covers.
//! `systematic`, `random SEED COUNT`, `everyday SEED COUNT`: triples for `bulk`, on standard output.
//! `wide-systematic`, `wide-random SEED COUNT`: triples for `bulk --wide`.
//! `streams SEED COUNT`: inputs for `oracle --multi`, on standard output.

use std::io::Write;

use oraclelib::{
    blocks,
    generate::{self, Rng},
    list,
};

fn main() -> std::io::Result<()> {
    let args: Vec<String> = std::env::args().skip(1).collect();
    let args: Vec<&str> = args.iter().map(String::as_str).collect();
    let number = |arg: &str| arg.parse::<u64>().expect("a number");
    match args[..] {
        ["list", seed, file] => {
            let cases = list::cases(number(seed));
            std::fs::write(file, list::bytes(&cases))?;
            write(std::iter::once(list::coverage(&cases).into_bytes()))
        }
        ["systematic"] => write(generate::systematic().iter().map(|t| t.bodies())),
        ["random", seed, count] => made(number(seed), number(count), |rng| {
            generate::triple(rng).bodies()
        }),
        ["everyday", seed, count] => made(number(seed), number(count), |rng| {
            generate::everyday(rng).bodies()
        }),
        ["wide-systematic"] => write(generate::wide_systematic().iter().map(|t| t.bodies())),
        ["wide-random", seed, count] => made(number(seed), number(count), |rng| {
            generate::wide_triple(rng).bodies()
        }),
        ["streams", seed, count] => made(number(seed), number(count), |rng| {
            blocks::block(&generate::any(rng))
        }),
        _ => panic!("unknown arguments {args:?}"),
    }
}

fn made(seed: u64, count: u64, one: impl Fn(&mut Rng) -> Vec<u8>) -> std::io::Result<()> {
    let mut rng = Rng::new(seed);
    write((0..count).map(|_| one(&mut rng)))
}

fn write(pieces: impl Iterator<Item = Vec<u8>>) -> std::io::Result<()> {
    let mut out = std::io::BufWriter::with_capacity(1 << 20, std::io::stdout().lock());
    for piece in pieces {
        out.write_all(&piece)?;
    }
    out.flush()
}
