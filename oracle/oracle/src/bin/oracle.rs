//! `oracle`: prints what 01 says that `ffps` prints for standard input.
//!
//! `--multi`: many inputs, each a length in four bytes, low byte first, and its bytes; each output
//! likewise. `--text-cap N`: a text buffer of N bytes.

use std::io::{Read, Write};

use oraclelib::{TEXT_CAP, blocks, program};

fn main() -> std::io::Result<()> {
    let (multi, text_cap) = options();
    let mut input = Vec::new();
    std::io::stdin().lock().read_to_end(&mut input)?;
    let mut out = std::io::BufWriter::new(std::io::stdout().lock());
    if multi {
        for one in blocks::blocks(&input) {
            out.write_all(&blocks::block(&program(one, text_cap)))?;
        }
    } else {
        out.write_all(&program(&input, text_cap))?;
    }
    out.flush()
}

fn options() -> (bool, usize) {
    let (mut multi, mut text_cap) = (false, TEXT_CAP);
    let mut args = std::env::args().skip(1);
    while let Some(arg) = args.next() {
        match arg.as_str() {
            "--multi" => multi = true,
            "--text-cap" => {
                let given = args.next().and_then(|n| n.parse().ok());
                text_cap = given.expect("--text-cap wants a number");
            }
            _ => panic!("unknown argument {arg}"),
        }
    }
    (multi, text_cap)
}
