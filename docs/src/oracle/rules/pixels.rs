//! Calls on one pixel, and which formulas a setting has.

use super::luma::{luma_forward, luma_reverse};
use super::matrix::Matrix;
use super::numbers::{clip, within_depth, Numbers, Unrounded};
use super::refusals::{pixel_refusal, require_lossless, setting_refusal, Refusal};
use super::setting::{
    is_lossless, matrix_in, output_depths, source_depths, ycc_depths, Pixel, Setting, Way,
};
use super::ycgco::{
    lossless_ycgco_forward, lossless_ycgco_reverse, lossy_ycgco_forward, lossy_ycgco_reverse,
    solved_lossless_ycgco,
};

pub fn convert_pixel(s: &Setting, way: Way, pixel: Pixel) -> Result<Pixel, Refusal> {
    setting_refusal(s)?;
    pixel_refusal(pixel, source_depths(s, way))?;
    Ok(converted(s, way, pixel))
}

/// The formulas, for a setting that is accepted and a pixel within depth.
pub fn converted(s: &Setting, way: Way, pixel: Pixel) -> Pixel {
    let from = pixel.map(i128::from);
    let to = match unrounded(s, way, pixel) {
        Some(three) => finished(three, output_depths(s, way)),
        None => without_round(s, way, from),
    };
    to.map(|value| u16::try_from(value).expect("a converted sample is within its depth"))
}

fn finished(three: [Unrounded; 3], depths: [u8; 3]) -> Numbers {
    [
        clip(three[0].sum(), depths[0]),
        clip(three[1].sum(), depths[1]),
        clip(three[2].sum(), depths[2]),
    ]
}

/// What the formulas with a Round in them hand to it; none for the others.
pub fn unrounded(s: &Setting, way: Way, pixel: Pixel) -> Option<[Unrounded; 3]> {
    let from = pixel.map(i128::from);
    match (matrix_in(s), way) {
        (Matrix::Luma(..), Way::Forward) => Some(luma_forward(s, from)),
        (Matrix::Luma(..), Way::Reverse) => Some(luma_reverse(s, from)),
        (Matrix::YCgCo, Way::Forward) if !is_lossless(s) => Some(lossy_ycgco_forward(s, from)),
        _ => None,
    }
}

fn without_round(s: &Setting, way: Way, from: Numbers) -> Numbers {
    match (matrix_in(s), way) {
        (Matrix::Identity, Way::Forward) => identity_forward(from),
        (Matrix::Identity, Way::Reverse) => identity_reverse(from),
        (_, Way::Forward) => lossless_ycgco_forward(s, from),
        (_, Way::Reverse) if is_lossless(s) => lossless_ycgco_reverse(s, from),
        (_, Way::Reverse) => lossy_ycgco_reverse(s, from),
    }
}

/// 45 to 47.
fn identity_forward([r, g, b]: Numbers) -> Numbers {
    [g, b, r]
}

fn identity_reverse([y, cb, cr]: Numbers) -> Numbers {
    [cr, y, cb]
}

/// Whether some RGB pixel within depth converts forward to this YCbCr pixel.
pub fn pixel_has_source(s: &Setting, ycc: Pixel) -> Result<bool, Refusal> {
    setting_refusal(s)?;
    require_lossless(s)?;
    pixel_refusal(ycc, ycc_depths(s))?;
    Ok(has_source(s, ycc))
}

/// Over all whole numbers, 45 to 47 and 55 to 58 have one solution for each
/// right-hand side. So there is one RGB triple to try: it has to be within
/// depth, and the forward formulas themselves have to lead from it to `ycc`.
pub fn has_source(s: &Setting, ycc: Pixel) -> bool {
    let wanted = ycc.map(i128::from);
    let candidate = match matrix_in(s) {
        Matrix::Identity => identity_reverse(wanted),
        _ => solved_lossless_ycgco(s, wanted),
    };
    let inside = candidate.iter().all(|&v| within_depth(v, s.rgb_depth));
    inside && without_round(s, Way::Forward, candidate) == wanted
}
