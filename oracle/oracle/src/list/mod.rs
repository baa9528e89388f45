//! The fixed list of answers: inputs chosen to cover much with few bytes, and what is printed.

mod coverage;
mod emissions;
mod refusals;

use crate::{TEXT_CAP, blocks::block, generate::Rng, program};

pub use coverage::coverage;

/// The seed that the list is made from.
pub const SEED: u64 = 437;

#[derive(Clone, Debug, PartialEq, Eq)]
pub struct Case {
    pub input: Vec<u8>,
    pub output: Vec<u8>,
}

impl Case {
    fn of(input: Vec<u8>) -> Self {
        let output = program(&input, TEXT_CAP);
        Self { input, output }
    }
}

/// The list's cases, with [`SEED`]; other seeds give other lists of the same kind.
#[must_use]
pub fn cases(seed: u64) -> Vec<Case> {
    let mut rng = Rng::new(seed);
    let mut inputs = vec![Vec::new()];
    inputs.extend(emissions::inputs(&mut rng));
    inputs.extend(refusals::inputs(&mut rng));
    inputs.into_iter().map(Case::of).collect()
}

/// The list's bytes: input and output of each case, each with its length.
#[must_use]
pub fn bytes(cases: &[Case]) -> Vec<u8> {
    let case = |c: &Case| [block(&c.input), block(&c.output)].concat();
    cases.iter().flat_map(case).collect()
}
