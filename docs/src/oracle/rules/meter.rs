//! The spot meter.

use super::luma::{level_parts, Scale};
use super::refusals::{
    pixel_refusal, require_luma_matrix, sample_refusal, setting_refusal, Refusal,
};
use super::setting::{ycc_depths, Pixel, Setting};

/// The level of one sample of plane 0 (Y), 1 (Cb) or 2 (Cr).
pub fn meter_sample(s: &Setting, plane: usize, value: u16) -> Result<f32, Refusal> {
    setting_refusal(s)?;
    require_luma_matrix(s)?;
    sample_refusal(plane, value, ycc_depths(s)[plane])?;
    Ok(meter_level(s, plane, value))
}

pub fn meter_pixel(s: &Setting, ycc: Pixel) -> Result<[f32; 3], Refusal> {
    setting_refusal(s)?;
    require_luma_matrix(s)?;
    pixel_refusal(ycc, ycc_depths(s))?;
    Ok([
        meter_level(s, 0, ycc[0]),
        meter_level(s, 1, ycc[1]),
        meter_level(s, 2, ycc[2]),
    ])
}

/// Numerator and denominator are below 2^24 in size, hence exact as f32; the
/// division is the only rounding.
fn meter_level(s: &Setting, plane: usize, value: u16) -> f32 {
    let scale = if plane == 0 {
        Scale::Plain
    } else {
        Scale::Chroma
    };
    let depth = ycc_depths(s)[plane];
    let (numerator, denominator) = level_parts(scale, s.ycc_full, depth, i128::from(value));
    numerator as f32 / denominator as f32
}
