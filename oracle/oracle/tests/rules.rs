//! 01's rules, read on key and variant alone, against the Rust's text and figures.

use oraclelib::{
    emit,
    generate::{self, Rng},
    names::declared_texels,
    records::Triple,
    rules,
};

const RANDOM: usize = 60_000;

fn check(triple: &Triple) {
    let outcome = emit(triple);
    let Triple { key, variant, .. } = triple;
    let declared = declared_texels(&outcome.text);
    assert!(declared.is_sorted_by(|a, b| a < b), "{triple:?}");
    let marks = declared.iter().fold(0, |marks, stage| marks | 1 << stage);
    assert_eq!(rules::marks(key), marks, "marks of {triple:?}");
    assert_eq!(usize::from(outcome.lookups), declared.len(), "{triple:?}");
    assert_eq!(rules::mask(key), outcome.mask, "mask of {triple:?}");
    assert_eq!(rules::rows(key), outcome.rows, "rows of {triple:?}");
    let warnings = rules::warnings(key, variant);
    assert_eq!(warnings, outcome.warnings, "warnings of {triple:?}");
}

#[test]
fn hold_for_random_triples() {
    let mut rng = Rng::new(1);
    (0..RANDOM).for_each(|_| check(&generate::triple(&mut rng)));
}

#[test]
fn hold_for_everyday_triples() {
    let mut rng = Rng::new(2);
    (0..RANDOM / 4).for_each(|_| check(&generate::everyday(&mut rng)));
}

#[test]
fn hold_for_systematic_triples() {
    generate::systematic().iter().for_each(check);
}

/// The generators reach what they are biased to.
#[test]
fn random_triples_are_varied() {
    let mut rng = Rng::new(3);
    let triples: Vec<Triple> = (0..2_000).map(|_| generate::triple(&mut rng)).collect();
    let share = |of: &dyn Fn(&Triple) -> bool| triples.iter().filter(|t| of(t)).count();
    for active in 0..=8 {
        assert!(
            share(&|t| rules::active(&t.key).len() == active) > 50,
            "{active} stages"
        );
    }
    for lookups in 0..=3 {
        assert!(
            share(&|t| rules::marks(&t.key).count_ones() == lookups) > 100,
            "{lookups}"
        );
    }
    for rows in 0..=9 {
        assert!(share(&|t| rules::rows(&t.key) == rows) > 50, "{rows} rows");
    }
    let warnings = |t: &Triple| rules::warnings(&t.key, &t.variant);
    for cause in 0..3 {
        for stage in 0..8 {
            let warns = |t: &Triple| warnings(t).numbers()[cause] >> stage & 1 != 0;
            assert!(share(&warns) > 20, "cause {cause}, stage {stage}");
        }
    }
    assert!(share(&|t| warnings(t).alpha) > 20);
    assert!(share(&|t| emit(t).text.contains("float4 temp")) > 500);
    assert!(share(&|t| emit(t).text.contains("bump_env")) > 300);
    assert!(triples.iter().all(|t| t.cause().is_none()));
}
