//! Keys of kind 6: worked examples from 02's words, and 02's rules against the Rust where it can be asked.

use oraclelib::{
    Outcome,
    emission::{by_the_rust, predicted},
    emit,
    generate::{self, Rng},
    names::{demand_3, no_idle},
    records::{Combiner, KEY, Key, Stage, TEXTURED, TO_TEMP, Triple, WIDE_KEY, WIDE_TRIPLE},
    rules,
};

const RANDOM: usize = 30_000;
const KEPT: Combiner = Combiner::new(1, 0, 0);

fn stage(color: Combiner, alpha: Combiner, flags: u8) -> Stage {
    Stage {
        color,
        alpha,
        flags,
    }
}

fn colour(combiner: Combiner, flags: u8) -> Stage {
    stage(combiner, KEPT, flags)
}

fn of(stages: &[Stage]) -> Outcome {
    emit(&Triple::plain(Key::of(stages).widened()))
}

/// The lines that set a register after its declaration.
fn lines(outcome: &Outcome) -> Vec<&str> {
    let lines = outcome.text.lines().map(str::trim_start);
    lines
        .filter(|l| l.starts_with("current = ") || l.starts_with("temp = "))
        .collect()
}

fn figures(o: &Outcome) -> (u16, u8, u8, [u8; 4]) {
    (o.mask, o.rows, o.lookups, o.warnings.numbers())
}

/// 'The texts are ..., Z being argument 0, A and B arguments 1 and 2.'
#[test]
fn texts() {
    let add = of(&[colour(Combiner::wide(25, 3, 2, 0), TEXTURED)]);
    assert_eq!(
        lines(&add),
        ["current = float4((saturate(ps_c[0] + t0 * in.color0)).rgb, (current).a);"]
    );
    assert_eq!(figures(&add), (1, 1, 1, [0; 4]));
    let lerp = of(&[colour(Combiner::wide(26, 4, 0, 1), 0)]);
    assert_eq!(
        lines(&lerp),
        [
            "current = float4(((in.color1 * in.color0 + (1.0 - in.color1) * current)).rgb, (current).a);"
        ]
    );
    assert_eq!(figures(&lerp), (0, 0, 0, [0; 4]));
}

/// An argument's text is put in as it stands, its modifiers too, and more than once.
#[test]
fn modifiers_of_each_argument() {
    let o = of(&[colour(Combiner::wide(26, 0x16, 0x20, 0x34), 0)]);
    assert_eq!(
        lines(&o),
        [
            "current = float4((((1.0 - ps_c[1]) * in.color0.aaaa + (1.0 - (1.0 - ps_c[1])) * (1.0 - in.color1.aaaa))).rgb, (current).a);"
        ]
    );
    assert_eq!(figures(&o), (0, 2, 0, [0; 4]));
}

/// Colour and alpha each have their own argument 0.
#[test]
fn both_roles() {
    let color = Combiner::wide(25, 1, 0, 4);
    let o = of(&[stage(color, Combiner::wide(26, 3, 1, 0), 0)]);
    assert_eq!(
        lines(&o),
        [
            "current = float4((saturate(current + in.color0 * in.color1)).rgb, ((ps_c[0] * current + (1.0 - ps_c[0]) * in.color0)).a);"
        ]
    );
    assert_eq!(o.rows, 1);
    // The alpha of op 4 ignores its own, and the colour of op 2.
    let o = of(&[stage(
        Combiner::wide(2, 3, 0, 0),
        Combiner::wide(4, 6, 1, 0),
        0,
    )]);
    assert_eq!(
        lines(&o),
        ["current = float4((in.color0).rgb, ((current * in.color0)).a);"]
    );
    assert_eq!(o.rows, 0);
}

/// 'All three arguments ... count for fallback'; 'other ops ignore Z'.
#[test]
fn fallback() {
    for op in [25, 26] {
        for (arg0, arg1, arg2) in [(2, 0, 0), (0, 2, 0), (0, 0, 2), (0x72, 0x4f, 0)] {
            let o = of(&[colour(Combiner::wide(op, arg0, arg1, arg2), 0)]);
            assert_eq!(
                lines(&o),
                ["current = float4((current).rgb, (current).a);"],
                "op {op}"
            );
            assert_eq!(figures(&o), (0, 0, 0, [0; 4]));
        }
    }
    let o = of(&[colour(Combiner::wide(4, 2, 0, 4), 0)]);
    assert_eq!(
        lines(&o),
        ["current = float4(((in.color0 * in.color1)).rgb, (current).a);"]
    );
    let alpha = of(&[stage(
        Combiner::new(2, 0, 0),
        Combiner::wide(26, 2, 0, 4),
        0,
    )]);
    assert_eq!(
        lines(&alpha),
        ["current = float4((in.color0).rgb, (current).a);"]
    );
}

/// 'All three arguments are kept': a texture or TEMP in any of them is read.
#[test]
fn liveness_and_lookups() {
    for (arg0, arg1, arg2) in [(2, 0, 5), (5, 2, 0), (0, 5, 2)] {
        let o = of(&[colour(Combiner::wide(25, arg0, arg1, arg2), TEXTURED)]);
        assert_eq!((o.mask, o.lookups), (1, 1));
        assert!(o.text.contains("float4 temp = float4(0.0);"));
    }
    // Op 4 ignores Z, and a TEMP that nothing reads gives no line.
    let dead = colour(Combiner::wide(4, 5, 0, 0), TO_TEMP);
    let o = of(&[dead]);
    assert_eq!(lines(&o), Vec::<&str>::new());
    let live = of(&[dead, colour(Combiner::wide(26, 5, 0, 0), 0)]);
    assert_eq!(
        lines(&live),
        [
            "temp = float4(((in.color0 * in.color0)).rgb, (temp).a);",
            "current = float4(((temp * in.color0 + (1.0 - temp) * in.color0)).rgb, (current).a);"
        ]
    );
    let o = of(&[colour(Combiner::wide(4, 2, 0, 0), TEXTURED)]);
    assert_eq!((o.mask, o.lookups), (1, 0));
    // A bump stage in front of a stage that samples for Z alone.
    let bump = colour(Combiner::new(22, 0, 0), TEXTURED);
    let o = of(&[bump, colour(Combiner::wide(25, 2, 0, 0), TEXTURED)]);
    assert_eq!((o.mask, o.lookups), (3, 2));
}

/// 'count for ... rows; other ops ignore Z, and so does the row count there.'
#[test]
fn rows() {
    let plain = colour(Combiner::new(2, 0, 0), 0);
    let select = Combiner::new(2, 0, 0);
    let z = |op, arg0| Combiner::wide(op, arg0, 0, 4);
    let dot = Combiner::new(24, 0, 0);
    let bump = Combiner::new(22, 0, 0);
    let cases = [
        // The constant of the stage, outside a fallback and not in an alpha that comes from colour.
        (colour(z(25, 6), 0), 4),
        (stage(select, z(26, 0x36), 0), 4),
        (colour(z(4, 6), 0), 0),
        (colour(Combiner::wide(25, 6, 2, 0), 0), 0),
        (stage(dot, z(25, 6), 0), 0),
        (stage(bump, z(25, 6), 0), 4),
        // The factor, wherever 01 counts the other arguments.
        (colour(z(26, 3), 0), 1),
        (stage(select, z(25, 3), 0), 1),
        (colour(z(4, 3), 0), 0),
        (stage(select, z(4, 3), 0), 0),
        (stage(select, z(1, 3), 0), 0),
        (colour(Combiner::wide(25, 3, 2, 0), 0), 1),
        (stage(dot, z(26, 3), 0), 1),
        (stage(bump, z(26, 3), 0), 1),
    ];
    for (stage, expected) in cases {
        assert_eq!(of(&[plain, plain, stage]).rows, expected, "{stage:?}");
    }
}

/// 'Argument 0 is resolved, for warnings too, exactly where the op is 25 or 26 and arguments 1 and 2 are resolved'.
#[test]
fn warnings() {
    let select = Combiner::new(2, 0, 0);
    let z = |op, arg0| Combiner::wide(op, arg0, 0, 4);
    let cases = [
        (colour(z(25, 0), 0), [0, 0, 0]),
        (colour(z(26, 7), 0), [0, 1, 0]),
        (colour(z(25, 0x40), 0), [0, 0, 1]),
        (colour(z(25, 0x8f), TO_TEMP), [0, 1, 1]),
        (stage(select, z(26, 0x4f), 0), [0, 1, 1]),
        (colour(z(4, 0x4f), 0), [0, 0, 0]),
        (colour(z(17, 0x4f), 0), [1, 0, 0]),
        (colour(z(27, 0x4f), 0), [1, 0, 0]),
        (colour(Combiner::wide(25, 0x4f, 2, 0), 0), [0, 0, 0]),
        (stage(select, Combiner::wide(26, 0x4f, 2, 0), 0), [0, 0, 0]),
        (stage(Combiner::new(24, 0, 0), z(25, 0x4f), 0), [0, 0, 0]),
        (stage(Combiner::new(23, 0, 0), z(25, 0x4f), 0), [0, 0, 0]),
    ];
    for (stage, expected) in cases {
        let [op, selector, modifier, alpha] = of(&[stage]).warnings.numbers();
        assert_eq!([op, selector, modifier], expected, "{stage:?}");
        assert_eq!(alpha, 0);
    }
}

/// 'Kind 1 keys keep the repository's text': argument 1, and a warning.
#[test]
fn kind_1_has_no_three_operands() {
    let key = Key::of(&[colour(Combiner::new(26, 0, 4), 0)]);
    assert!(!key.is_wide());
    let o = emit(&Triple::plain(key));
    assert_eq!(
        lines(&o),
        ["current = float4((in.color0).rgb, (current).a);"]
    );
    assert_eq!(o.warnings.numbers(), [1, 0, 0, 0]);
    // Turned to kind 6 it has them, with 1 as argument 0.
    let o = emit(&Triple::plain(key.widened()));
    assert_eq!(
        lines(&o),
        [
            "current = float4(((current * in.color0 + (1.0 - current) * in.color1)).rgb, (current).a);"
        ]
    );
    assert_eq!(o.warnings.numbers(), [0; 4]);
}

/// A stage's bytes: colour, alpha, argument 0 of each, flags.
#[test]
fn bodies() {
    let first = stage(
        Combiner::wide(25, 7, 2, 3),
        Combiner::wide(4, 8, 5, 6),
        TEXTURED | TO_TEMP,
    );
    let mut key = Key::of(&[first]).widened();
    key.specular = 1;
    key.projected = 0x5a;
    let body = key.body();
    assert_eq!(body.len(), WIDE_KEY);
    assert_eq!(body[..9], [25, 2, 3, 4, 5, 6, 7, 8, 3]);
    assert_eq!(body[9..18], [1, 0, 0, 0, 0, 0, 1, 1, 0]);
    assert_eq!(body[72..], [1, 0x5a]);
    assert_eq!(Key::from_body(&body), key);
    assert_eq!(key.narrowed().body().len(), KEY);
    let mut rng = Rng::new(5);
    for _ in 0..200 {
        let bytes: Vec<u8> = (0..WIDE_TRIPLE).map(|_| rng.byte()).collect();
        assert_eq!(Triple::from_bodies(&bytes).bodies(), bytes);
    }
}

/// Demand 3, by the rules' own marks, and that no local is idle.
fn check(triple: &Triple, o: &Outcome) {
    demand_3(o, rules::marks(&triple.key))
        .and_then(|()| no_idle(&o.text))
        .unwrap_or_else(|e| panic!("{e}: {triple:?}\n{}", o.text));
    assert!(o.text.len() <= 16_384);
}

/// The prediction's way is right where the Rust can be asked: texts made with stand-ins and lines of our own are the Rust's.
#[test]
fn predictions_of_kind_1_are_the_rusts() {
    let mut rng = Rng::new(6);
    let random = (0..RANDOM).map(|_| generate::triple(&mut rng));
    for triple in random.chain(generate::systematic()) {
        let o = by_the_rust(&triple);
        assert_eq!(predicted(&triple), o, "{triple:?}");
        check(&triple, &o);
    }
}

/// A key of kind 6 without 25 and 26 gives what its stages of seven bytes give.
#[test]
fn without_three_operands_the_kinds_agree() {
    let mut rng = Rng::new(7);
    for _ in 0..RANDOM {
        let mut triple = generate::wide_triple(&mut rng);
        for stage in &mut triple.key.stages {
            for combiner in [&mut stage.color, &mut stage.alpha] {
                if rules::THREE_OPERANDS.contains(&combiner.op) {
                    combiner.op = rng.pick(&generate::TEXT_OPS);
                }
            }
        }
        let mut narrow = triple;
        narrow.key = triple.key.narrowed();
        assert_eq!(predicted(&triple), emit(&narrow), "{triple:?}");
        assert_eq!(emit(&triple), emit(&narrow), "{triple:?}");
    }
}

#[test]
fn names_of_kind_6_fit() {
    let mut rng = Rng::new(8);
    let random = (0..RANDOM).map(|_| generate::wide_triple(&mut rng));
    for triple in random.chain(generate::wide_systematic()) {
        assert!(triple.key.is_wide());
        check(&triple, &emit(&triple));
    }
}

/// The generators reach what they are biased to.
#[test]
fn random_keys_are_varied() {
    let mut rng = Rng::new(9);
    let keys: Vec<Key> = (0..2_000).map(|_| generate::wide_key(&mut rng)).collect();
    let share = |of: &dyn Fn(&Key) -> bool| keys.iter().filter(|k| of(k)).count();
    assert!(share(&|k| !rules::has_three_operands(k)) > 200);
    for op in rules::THREE_OPERANDS {
        let active = |k: &Key| rules::active(k).to_vec();
        assert!(share(&|k| active(k).iter().any(|s| s.color.op == op)) > 500);
        assert!(share(&|k| active(k).iter().any(|s| s.alpha.op == op)) > 500);
    }
    for rows in 0..=9 {
        assert!(share(&|k| rules::rows(k) == rows) > 40, "{rows} rows");
    }
    assert!(keys.iter().all(|k| k.cause().is_none()));
}
