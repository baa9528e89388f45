//! The stages that the Rust's log calls name: where a cause warns, and where it does not.

use oraclelib::{
    Warnings, emit,
    records::{Combiner, Key, STAGES, Stage, TEXTURED, TO_TEMP, Triple},
};

const SELECT: Combiner = Combiner::new(2, 0, 0);
const PLAIN: Stage = Stage {
    color: SELECT,
    alpha: SELECT,
    flags: 0,
};
/// An op without a text, and two arguments with all causes of theirs.
const BAD: Combiner = Combiner::new(17, 0x4f, 0x87);

fn warnings(stages: &[Stage]) -> Warnings {
    emit(&Triple::plain(Key::of(stages))).warnings
}

/// What eight plain stages with this one among them warn of, at each number; the masks moved to stage 0.
fn at_each_stage(stage: Stage) -> [u8; 3] {
    let all: Vec<[u8; 3]> = (0..STAGES)
        .map(|number| {
            let mut stages = [PLAIN; STAGES];
            stages[number] = stage;
            let Warnings {
                op,
                selector,
                modifier,
                alpha,
            } = warnings(&stages);
            assert!(!alpha);
            [op, selector, modifier].map(|mask| {
                assert!(mask == 0 || mask == 1 << number, "{stage:?} at {number}");
                mask >> number
            })
        })
        .collect();
    assert!(all.iter().all(|one| *one == all[0]), "{stage:?}: {all:?}");
    all[0]
}

fn both_roles(combiner: Combiner, flags: u8) -> [Stage; 2] {
    let color = Stage {
        color: combiner,
        flags,
        ..PLAIN
    };
    let alpha = Stage {
        alpha: combiner,
        flags,
        ..PLAIN
    };
    [color, alpha]
}

/// The cases W1 to W6 of crates/shader/specs/Worked.
#[test]
fn worked_cases() {
    let stage = |op, arg1, arg2, flags| Stage {
        color: Combiner::new(op, arg1, arg2),
        alpha: Combiner::new(1, 0, 0),
        flags,
    };
    let plain = stage(2, 0, 0, 0);
    let cases = [
        (vec![plain, stage(17, 0, 0, 0)], 0, [2, 0, 0, 0]),
        (vec![stage(2, 0, 0x4f, 0)], 0, [0, 1, 1, 0]),
        (vec![plain, stage(17, 0x47, 0, TO_TEMP)], 0, [2, 2, 2, 0]),
        (vec![stage(17, 2, 0x4f, 0)], 0, [0, 0, 0, 0]),
        (vec![stage(22, 0x4f, 0x4f, TEXTURED)], 0, [0, 0, 0, 0]),
        (vec![], 9, [0, 0, 0, 1]),
    ];
    for (stages, alpha_func, expected) in cases {
        let mut triple = Triple::plain(Key::of(&stages));
        triple.variant.alpha_func = alpha_func;
        assert_eq!(emit(&triple).warnings.numbers(), expected, "{stages:?}");
    }
}

#[test]
fn causes_name_their_stage() {
    let causes = [
        (SELECT, [0, 0, 0]),
        (Combiner::new(17, 0, 0), [1, 0, 0]),
        (Combiner::new(2, 7, 0), [0, 1, 0]),
        (Combiner::new(2, 0, 15), [0, 1, 0]),
        (Combiner::new(2, 0x40, 0), [0, 0, 1]),
        (Combiner::new(3, 0x80, 0), [0, 0, 1]),
        (BAD, [1, 1, 1]),
    ];
    for (combiner, expected) in causes {
        // A TEMP that nothing reads is dead, and its stage still warns.
        for flags in 0..=TEXTURED | TO_TEMP {
            for stage in both_roles(combiner, flags) {
                assert_eq!(at_each_stage(stage), expected, "{stage:?}");
            }
        }
    }
}

#[test]
fn colour_and_alpha_share_a_bit() {
    let stage = Stage {
        color: Combiner::new(17, 0, 0),
        alpha: Combiner::new(2, 7, 0x40),
        flags: 0,
    };
    assert_eq!(at_each_stage(stage), [1, 1, 1]);
}

#[test]
fn what_is_not_resolved_does_not_warn() {
    let fallback = Combiner::new(BAD.op, 0x42, BAD.arg2);
    let of_op = |op| Combiner::new(op, BAD.arg1, BAD.arg2);
    let from_color = |alpha| Stage {
        color: Combiner::new(24, 0, 0),
        alpha,
        flags: 0,
    };
    let bump = Stage {
        color: of_op(22),
        alpha: BAD,
        flags: TEXTURED,
    };
    let [_, kept] = both_roles(of_op(1), 0);
    let [_, kept_by_bump] = both_roles(of_op(23), 0);
    let [fallback, alpha_fallback] = both_roles(fallback, 0);
    let silent = [
        bump,
        kept,
        kept_by_bump,
        fallback,
        alpha_fallback,
        from_color(BAD),
    ];
    for stage in silent {
        assert_eq!(at_each_stage(stage), [0, 0, 0], "{stage:?}");
    }
    let textured = Stage {
        flags: TEXTURED,
        ..fallback
    };
    assert_eq!(at_each_stage(textured), [1, 1, 1]);
    let mut beside_fallback = from_color(BAD);
    beside_fallback.color.arg1 = 2;
    assert_eq!(at_each_stage(beside_fallback), [1, 1, 1]);
}

#[test]
fn stages_at_and_behind_the_end_do_not_warn() {
    let bad = Stage {
        color: BAD,
        alpha: BAD,
        flags: 0,
    };
    for end in 0..STAGES {
        let mut stages = [bad; STAGES];
        stages[end].color.op = 1;
        let front = u8::try_from((1_u16 << end) - 1).expect("eight stages");
        assert_eq!(warnings(&stages).numbers(), [front, front, front, 0]);
    }
}

#[test]
fn an_alpha_function_above_8_warns() {
    for function in 0..=255 {
        let mut triple = Triple::plain(Key::of(&[PLAIN]));
        triple.variant.alpha_func = function;
        let expected = [0, 0, 0, u8::from(function > 8)];
        assert_eq!(emit(&triple).warnings.numbers(), expected);
    }
}
