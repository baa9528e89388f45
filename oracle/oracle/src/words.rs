//! 02's reserved words, which no entry may be: 01's listed names and twenty more.

/// The listed names without a number.
const SINGLES: [&str; 15] = [
    "current",
    "temp",
    "oC0",
    "in",
    "in_stage",
    "point_coord",
    "ps_c",
    "alpha_ref",
    "fog_data",
    "bump_env",
    "lod_bias",
    "fog_c",
    "fog_f",
    "fog_dz",
    "fog_range",
];

/// The listed names that have a number from 0 to 7 behind them.
const NUMBERED: [&str; 6] = ["t", "s", "samp", "pc", "bc", "proj"];

const OTHERS: [&str; 20] = [
    "main",
    "metal",
    "Varyings",
    "FfPsOut",
    "mtld3d_linear_to_srgb",
    "fragment",
    "vertex",
    "kernel",
    "struct",
    "constant",
    "sampler",
    "static",
    "inline",
    "return",
    "if",
    "uint",
    "float",
    "float2",
    "float3",
    "float4",
];

/// All 83.
#[must_use]
pub fn all() -> Vec<String> {
    let numbered = NUMBERED
        .iter()
        .flat_map(|word| (0..8).map(move |number| format!("{word}{number}")));
    let plain = SINGLES.iter().chain(&OTHERS).map(ToString::to_string);
    plain.chain(numbered).collect()
}

#[must_use]
pub fn is_reserved(name: &str) -> bool {
    is_listed(name) || OTHERS.contains(&name)
}

/// Whether it is one of 01's listed names.
#[must_use]
pub fn is_listed(name: &str) -> bool {
    let numbered = |word: &&str| {
        let number = name.strip_prefix(word);
        number.is_some_and(|number| matches!(number.as_bytes(), [b'0'..=b'7']))
    };
    SINGLES.contains(&name) || NUMBERED.iter().any(numbered)
}
