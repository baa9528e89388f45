//! One emission: by the Rust, with 01's values in its types and 01's result from what it gives; of stages with three operands, which the Rust does not
//! have, by 02's rules.

use ffcore::dxso::{
    emit::{VariantFlags, VariantKey},
    ff::{FfPsKey, FfStage, FfStageFlags, emit_ps_ff_named},
};

use crate::{
    names,
    records::{
        CUBE, DEPTH, DEPTH_FETCH, FETCH4, FETCH4_ALPHA, FLAT_SHADE, FOG_SOURCE_W, Key, LOD_BIAS,
        POINT_SPRITE, RAW_DEPTH_RED, SAMPLE_MASK, SRGB_WRITE, Stage, Triple, VOLUME, Variant,
    },
    rules, stand_in,
    warnings::Warnings,
};

const FLAGS: [(u8, VariantFlags); 6] = [
    (FLAT_SHADE, VariantFlags::FLAT_SHADE),
    (SRGB_WRITE, VariantFlags::SRGB_WRITE),
    (SAMPLE_MASK, VariantFlags::SAMPLE_MASK),
    (POINT_SPRITE, VariantFlags::POINT_SPRITE),
    (LOD_BIAS, VariantFlags::LOD_BIAS),
    (FOG_SOURCE_W, VariantFlags::FOG_SOURCE_W),
];

/// An emission's text and result.
#[derive(Clone, Debug, PartialEq, Eq)]
pub struct Outcome {
    pub text: String,
    pub mask: u16,
    pub rows: u8,
    pub lookups: u8,
    pub warnings: Warnings,
}

/// Emits a triple that is free of causes. A key of kind 6 without three operands gives what the Rust makes of its stages of seven bytes.
///
/// # Panics
/// If the Rust warns of something that 01 does not number.
#[must_use]
pub fn emit(triple: &Triple) -> Outcome {
    if rules::has_three_operands(&triple.key) {
        predicted(triple)
    } else {
        by_the_rust(triple)
    }
}

/// The outcome by 01's and 02's rules on the key; around the lines of stages the text is the Rust's.
///
/// # Panics
/// If the Rust warns of something that 01 does not number.
#[must_use]
pub fn predicted(triple: &Triple) -> Outcome {
    let Triple { key, variant, .. } = triple;
    let text = stand_in::text(triple);
    let lookups = rules::marks(key).count_ones();
    Outcome {
        text,
        mask: rules::mask(key),
        rows: rules::rows(key),
        lookups: u8::try_from(lookups).expect("at most eight"),
        warnings: rules::warnings(key, variant),
    }
}

/// The outcome that the Rust gives, which knows no argument 0.
///
/// # Panics
/// If the Rust warns of something that 01 does not number.
#[must_use]
pub fn by_the_rust(triple: &Triple) -> Outcome {
    let key = rust_key(&triple.key);
    mtld3d_shared::take_logged();
    let text = emit_ps_ff_named(&key, rust_variant(&triple.variant), triple.entry.name());
    let logged = mtld3d_shared::take_logged();
    assert!(!logged.unnumbered, "unnumbered warning");
    let lookups = names::declared_texels(&text).len();
    Outcome {
        mask: key.sampled_stage_mask(),
        rows: key.constant_rows(),
        lookups: u8::try_from(lookups).expect("at most eight"),
        warnings: Warnings {
            op: logged.op,
            selector: logged.selector,
            modifier: logged.modifier,
            alpha: logged.alpha,
        },
        text,
    }
}

#[must_use]
pub fn rust_key(key: &Key) -> FfPsKey {
    FfPsKey {
        stages: key.stages.map(rust_stage),
        specular_add: key.specular != 0,
        tt_projected_mask: key.projected,
    }
}

fn rust_stage(stage: Stage) -> FfStage {
    let mut flags = FfStageFlags::empty();
    flags.set(FfStageFlags::HAS_TEXTURE, stage.textured());
    flags.set(FfStageFlags::RESULT_TEMP, stage.to_temp());
    FfStage {
        color_op: stage.color.op,
        color_arg1: stage.color.arg1,
        color_arg2: stage.color.arg2,
        alpha_op: stage.alpha.op,
        alpha_arg1: stage.alpha.arg1,
        alpha_arg2: stage.alpha.arg2,
        flags,
    }
}

#[must_use]
pub fn rust_variant(variant: &Variant) -> VariantKey {
    let mut flags = VariantFlags::empty();
    for (bit, flag) in FLAGS {
        flags.set(flag, variant.flags & bit != 0);
    }
    VariantKey {
        alpha_func: variant.alpha_func,
        fog_mode: variant.fog_mode,
        fog_table_mode: variant.fog_table_mode,
        depth_sampler_mask: variant.masks[DEPTH],
        depth_fetch_mask: variant.masks[DEPTH_FETCH],
        fetch4_mask: variant.masks[FETCH4],
        fetch4_alpha_mask: variant.masks[FETCH4_ALPHA],
        raw_depth_red_mask: variant.masks[RAW_DEPTH_RED],
        volume_sampler_mask: variant.masks[VOLUME],
        cube_sampler_mask: variant.masks[CUBE],
        sample_mask: variant.sample_mask,
        flags,
        ..VariantKey::default()
    }
}
