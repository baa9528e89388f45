//! Which stages warn of what, and how the warnings are read.

use yuzuknoll::{
    Argument, Combiner, Comparison, Entry, Key, Op, STAGES, Stage, StageFlags, StageMask,
    TEXT_LENGTH, Variant, Warning, Warnings, emit,
};

const PLAIN: Stage = Stage {
    colour: Combiner::select(Argument::DIFFUSE),
    alpha: Combiner::select(Argument::DIFFUSE),
    flags: StageFlags::NONE,
};
/// An op without a formula, and arguments with all that there is to warn of.
const BAD: Combiner = Combiner::new(Op(17), Argument(0x4f), Argument(0x87));

fn warnings(stages: &[Stage]) -> Warnings {
    let mut key = Key::default();
    key.stages[..stages.len()].copy_from_slice(stages);
    warnings_with(&key, Variant::default())
}

fn warnings_with(key: &Key, variant: Variant) -> Warnings {
    let entry = Entry::new("shader").unwrap();
    let mut buffer = [0; TEXT_LENGTH];
    emit(key, &variant, &entry, &mut buffer).unwrap().warnings
}

/// Eight plain stages, with one of them replaced.
fn with_stage(at: usize, stage: Stage) -> [Stage; STAGES] {
    let mut stages = [PLAIN; STAGES];
    stages[at] = stage;
    stages
}

fn only(stage: usize) -> StageMask {
    StageMask::from_bits(1 << stage)
}

#[test]
fn each_stage_has_its_bit() {
    for stage in 0..STAGES {
        for to_temp in [StageFlags::NONE, StageFlags::TO_TEMP] {
            for (colour, alpha) in [(BAD, PLAIN.alpha), (PLAIN.colour, BAD), (BAD, BAD)] {
                let bad = Stage {
                    colour,
                    alpha,
                    flags: to_temp,
                };
                let expected = Warnings {
                    op: only(stage),
                    selector: only(stage),
                    modifier: only(stage),
                    alpha: false,
                };
                assert_eq!(warnings(&with_stage(stage, bad)), expected);
            }
        }
    }
}

#[test]
fn masks_are_those_of_their_causes() {
    let causes = [
        Combiner::new(Op(25), Argument::DIFFUSE, Argument::DIFFUSE),
        Combiner::select(Argument(7)),
        Combiner::new(Op::SELECTARG1, Argument::DIFFUSE, Argument(0x80)),
    ];
    for first in 0..STAGES {
        let places = [0, 2, 5].map(|shift| (first + shift) % STAGES);
        let mut stages = [PLAIN; STAGES];
        for (place, alpha) in places.into_iter().zip(causes) {
            stages[place].alpha = alpha;
        }
        let [op, selector, modifier] = places.map(only);
        let expected = Warnings {
            op,
            selector,
            modifier,
            alpha: false,
        };
        assert_eq!(warnings(&stages), expected);
        assert_eq!(expected.stages(), op | selector | modifier);
    }
}

#[test]
fn what_has_no_part_in_a_text_does_not_warn() {
    let bad_but = |op| Combiner::new(op, BAD.arg1, BAD.arg2);
    let unbound = Combiner::new(BAD.op, Argument(0x42), BAD.arg2);
    let silent = [
        (bad_but(Op::BUMPENVMAP), BAD),
        (bad_but(Op::BUMPENVMAPLUMINANCE), BAD),
        (unbound, PLAIN.alpha),
        (PLAIN.colour, unbound),
        (PLAIN.colour, bad_but(Op::DISABLE)),
        (PLAIN.colour, bad_but(Op::BUMPENVMAP)),
        (
            Combiner::new(Op::DOTPRODUCT3, Argument::DIFFUSE, Argument::DIFFUSE),
            BAD,
        ),
    ];
    for (colour, alpha) in silent {
        for stage in 0..STAGES {
            let silent = Stage {
                colour,
                alpha,
                flags: StageFlags::NONE,
            };
            assert_eq!(warnings(&with_stage(stage, silent)), Warnings::NONE);
        }
    }
    for end in 0..STAGES {
        let bad = Stage {
            colour: BAD,
            alpha: BAD,
            flags: StageFlags::NONE,
        };
        let mut stages = [bad; STAGES];
        stages[end].colour.op = Op::DISABLE;
        let front: Vec<usize> = warnings(&stages).stages().iter().collect();
        assert_eq!(front, (0..end).collect::<Vec<_>>());
    }
}

#[test]
fn only_the_alpha_function_is_the_variants() {
    for function in 0..=255 {
        let variant = Variant {
            alpha_function: Comparison(function),
            ..Variant::default()
        };
        let alpha = function > Comparison::ALWAYS.0;
        let expected = Warnings {
            alpha,
            ..Warnings::NONE
        };
        assert_eq!(warnings_with(&Key::default(), variant), expected);
        assert_eq!(expected.is_empty(), !alpha);
    }
}

#[test]
fn masks_are_sets_of_stages() {
    for bits in 0..=u8::MAX {
        let mask = StageMask::from_bits(bits);
        let stages: Vec<usize> = mask.iter().collect();
        assert!(stages.is_sorted_by(|a, b| a < b));
        assert_eq!(mask.bits(), bits);
        assert_eq!(mask.is_empty(), stages.is_empty());
        for stage in 0..100 {
            assert_eq!(mask.contains(stage), stages.contains(&stage));
        }
        let joined = stages.into_iter().map(only);
        assert_eq!(joined.fold(StageMask::NONE, |all, one| all | one), mask);
    }
    assert!(!StageMask::from_bits(u8::MAX).contains(usize::MAX));
}

#[test]
fn warnings_are_said_one_by_one() {
    let all = Warnings {
        op: StageMask::from_bits(0x81),
        selector: StageMask::from_bits(0x04),
        modifier: StageMask::from_bits(0x05),
        alpha: true,
    };
    let expected = [
        Warning::Op { stage: 0 },
        Warning::Modifier { stage: 0 },
        Warning::Selector { stage: 2 },
        Warning::Modifier { stage: 2 },
        Warning::Op { stage: 7 },
        Warning::AlphaFunction,
    ];
    assert_eq!(all.iter().collect::<Vec<_>>(), expected);
    assert_eq!(
        all.to_string(),
        "stage 0: unsupported op; stage 0: unsupported modifier; stage 2: unsupported argument; stage 2: unsupported modifier; stage 7: unsupported op; \
         unsupported alpha function"
    );
    assert_eq!(Warnings::default().to_string(), "no warnings");
    assert_eq!(Warnings::NONE.iter().count(), 0);
}
