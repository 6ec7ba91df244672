//! The rows of the refusal table that need no picture: 12, 1 to 7, 11, and 10
//! for single pixels and samples. Those of colour records stand with their rules.

use super::edition::{edition_of, Edition};
use super::labels::{primaries_label, transfer_label, Label};
use super::matrix::{matrix_of, Matrix};
use super::numbers::within_depth;
use super::setting::{is_lossless, luma_weights, matrix_in, Pixel, Setting};

#[derive(Clone, Copy, Debug, PartialEq, Eq)]
pub struct Place {
    pub plane: usize,
    pub row: usize,
    pub column: usize,
}

#[derive(Clone, Copy, Debug, PartialEq, Eq)]
pub enum Refusal {
    /// Every number but 10.
    Number(u8),
    /// Number 10, with the first bad sample: where it is, and what it is.
    Sample(Place, u16),
}

/// Refusal 12, which comes before all others: what else is asked of a code
/// depends on the edition.
pub fn named_edition(number: u8) -> Result<Edition, Refusal> {
    edition_of(number).ok_or(Refusal::Number(12))
}

/// Refusals 12 and 1 to 7: the first row that holds decides.
pub fn setting_refusal(s: &Setting) -> Result<(), Refusal> {
    let matrix = matrix_of(named_edition(s.edition)?, s.matrix);
    let primaries = primaries_label(s.edition, s.primaries)?;
    let transfer = transfer_label(s.edition, s.transfer)?;
    let rows = [
        (1, matrix == Matrix::Reserved),
        (2, matrix == Matrix::Unspecified),
        (3, matrix == Matrix::NotServed),
        (4, primaries == Label::Reserved),
        (5, transfer == Label::Reserved),
        (6, depth_not_served(s)),
        (7, !depths_and_flags_agree(s)),
    ];
    match rows.iter().find(|row| row.1) {
        Some(row) => Err(Refusal::Number(row.0)),
        None => Ok(()),
    }
}

fn depth_not_served(s: &Setting) -> bool {
    let deepest = if luma_weights(s).is_some() { 12 } else { 16 };
    [s.rgb_depth, s.y_depth, s.c_depth]
        .iter()
        .any(|&depth| depth < 8 || depth > deepest)
}

fn depths_and_flags_agree(s: &Setting) -> bool {
    let rgb = i32::from(s.rgb_depth);
    let y = i32::from(s.y_depth);
    let c = i32::from(s.c_depth);
    let same_flags = s.rgb_full == s.ycc_full;
    match matrix_in(s) {
        Matrix::Identity => rgb == y && y == c && same_flags,
        Matrix::YCgCo => rgb == y && (c == y || c == y + 1) && same_flags,
        Matrix::YCgCoRe => y == c && y == rgb + 2 && same_flags,
        Matrix::YCgCoRo => y == c && y == rgb + 1 && same_flags,
        _ => c == y,
    }
}

pub fn require_lossless(s: &Setting) -> Result<(), Refusal> {
    if is_lossless(s) {
        Ok(())
    } else {
        Err(Refusal::Number(11))
    }
}

pub fn require_luma_matrix(s: &Setting) -> Result<(), Refusal> {
    match luma_weights(s) {
        Some(_) => Ok(()),
        None => Err(Refusal::Number(11)),
    }
}

/// Refusal 10 of calls without rows and columns.
pub fn sample_refusal(plane: usize, value: u16, depth: u8) -> Result<(), Refusal> {
    if within_depth(i128::from(value), depth) {
        return Ok(());
    }
    let place = Place {
        plane,
        row: 0,
        column: 0,
    };
    Err(Refusal::Sample(place, value))
}

pub fn pixel_refusal(pixel: Pixel, depths: [u8; 3]) -> Result<(), Refusal> {
    for plane in 0..3 {
        sample_refusal(plane, pixel[plane], depths[plane])?;
    }
    Ok(())
}
