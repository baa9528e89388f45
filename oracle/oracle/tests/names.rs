//! The scanner of names: what it must find wrong in a text.

use oraclelib::{
    Outcome, Warnings,
    names::{Occurrence, demand_3, no_idle, occurrences},
};

fn outcome(function: &str, rows: u8, lookups: u8, mask: u16) -> Outcome {
    Outcome {
        text: format!("#include <metal_stdlib>\n\nfragment float4 t0(\n{function}"),
        mask,
        rows,
        lookups,
        warnings: Warnings::default(),
    }
}

const GOOD: &str = "    constant float4 *ps_c [[buffer(15)]],
    texture2d<float> s1 [[texture(1)]]
) {
    float4 t1 = s1.sample(t1x, in_x.t0, ps_c[1]);
    float4 current = t1 + float4(t1.a) + ps_c[0];
}
";

#[test]
fn occurrences_are_found() {
    let o = outcome(GOOD, 2, 1, 2);
    let found: Vec<Occurrence> = occurrences(&o.text).collect();
    let declared: Vec<&str> = found
        .iter()
        .filter(|o| o.declared)
        .map(|o| o.name)
        .collect();
    assert_eq!(declared, ["ps_c", "s1", "t1", "current"]);
    let used: Vec<&str> = found
        .iter()
        .filter(|o| !o.declared)
        .map(|o| o.name)
        .collect();
    assert_eq!(used, ["s1", "ps_c", "t1", "t1", "ps_c"]);
    let rows: Vec<usize> = found.iter().filter_map(|o| o.row).collect();
    assert_eq!(rows, [1, 0]);
}

#[test]
fn what_does_not_fit_is_told() {
    assert_eq!(demand_3(&outcome(GOOD, 2, 1, 2), 2), Ok(()));
    let told = |function: &str, rows, lookups, mask, marks, expected: &str| {
        let told = demand_3(&outcome(function, rows, lookups, mask), marks);
        assert!(
            told.as_ref().is_err_and(|e| e.contains(expected)),
            "{told:?} instead of {expected}"
        );
    };
    told(GOOD, 1, 1, 2, 2, "row Some(1) of 1");
    told(GOOD, 2, 2, 3, 2, "2 lookups");
    told(GOOD, 2, 1, 0, 2, "more lookups than in mask");
    told(GOOD, 2, 1, 2, 1, "marked");
    let twice = format!("{GOOD}float4 t1 = t1;\n");
    told(&twice, 2, 1, 2, 2, "t1 is declared twice");
    let undeclared = format!("{GOOD}current = temp;\n");
    told(&undeclared, 2, 1, 2, 2, "temp is used before");
    let late = format!("{GOOD}oC0 = current;\nfloat4 oC0 = current;\n");
    told(&late, 2, 1, 2, 2, "oC0 is used before");
    // A type inside a longer name declares nothing.
    let inside = format!("{GOOD}myfloat4 temp;\n");
    told(&inside, 2, 1, 2, 2, "temp is used before");
}

#[test]
fn idle_locals_are_told() {
    let told = |function: &str| no_idle(&outcome(function, 2, 1, 2).text);
    assert_eq!(told(GOOD), Ok(()));
    for name in ["t0", "temp", "pc1", "bc2", "proj7", "bump_env"] {
        let declared = format!("{GOOD}float4 {name} = current;\n");
        assert_eq!(told(&declared), Err(format!("{name} is idle")));
        assert_eq!(told(&format!("{declared}current = {name};\n")), Ok(()));
        assert_eq!(told(&format!("{declared}{name} *= 2.0;\n")), Ok(()));
        // A use before the declaration, a longer word and a field are none behind it.
        for other in [format!("current = {name};\n"), String::new()] {
            let early = format!("{GOOD}{other}float4 {name} = {name}x + current.{name};\n");
            assert_eq!(told(&early), Err(format!("{name} is idle")));
        }
    }
    let pointer = format!("    constant float4 *bump_env [[buffer(12)]],\n{GOOD}");
    assert_eq!(told(&pointer), Err("bump_env is idle".into()));
    // These may be idle.
    for name in ["s0", "samp1", "alpha_ref", "lod_bias", "current", "oC0"] {
        assert_eq!(told(&format!("{GOOD}float4 {name} = t1;\n")), Ok(()));
    }
}
