//! A setting, and what its matrix and its depths say.

use super::edition::edition_of;
use super::matrix::{matrix_of, Matrix};

/// Three samples of one place: R, G, B on one side and Y, Cb, Cr on the other.
pub type Pixel = [u16; 3];

#[derive(Clone, Copy, Debug, PartialEq, Eq)]
pub struct Setting {
    /// The number of an edition, or any other.
    pub edition: u8,
    pub primaries: u8,
    pub transfer: u8,
    pub matrix: u8,
    pub rgb_depth: u8,
    pub y_depth: u8,
    pub c_depth: u8,
    pub rgb_full: bool,
    pub ycc_full: bool,
}

/// Forward is RGB to YCbCr.
#[derive(Clone, Copy, Debug, PartialEq, Eq)]
pub enum Way {
    Forward,
    Reverse,
}

/// What the matrix code means in the setting's edition. Asked only of settings
/// that have one.
pub fn matrix_in(s: &Setting) -> Matrix {
    let edition = edition_of(s.edition).expect("one of the three editions");
    matrix_of(edition, s.matrix)
}

/// KR and KB in ten-thousandths, for a luma matrix only.
pub fn luma_weights(s: &Setting) -> Option<(i128, i128)> {
    match matrix_in(s) {
        Matrix::Luma(kr, kb) => Some((kr, kb)),
        _ => None,
    }
}

/// Asked of accepted settings only.
pub fn is_lossless(s: &Setting) -> bool {
    match matrix_in(s) {
        Matrix::Identity | Matrix::YCgCoRe | Matrix::YCgCoRo => true,
        Matrix::YCgCo => i32::from(s.c_depth) == i32::from(s.y_depth) + 1,
        _ => false,
    }
}

fn rgb_depths(s: &Setting) -> [u8; 3] {
    [s.rgb_depth, s.rgb_depth, s.rgb_depth]
}

pub fn ycc_depths(s: &Setting) -> [u8; 3] {
    [s.y_depth, s.c_depth, s.c_depth]
}

/// The depths of the planes read, by plane number.
pub fn source_depths(s: &Setting, way: Way) -> [u8; 3] {
    match way {
        Way::Forward => rgb_depths(s),
        Way::Reverse => ycc_depths(s),
    }
}

/// The depths of the planes written, by plane number.
pub fn output_depths(s: &Setting, way: Way) -> [u8; 3] {
    match way {
        Way::Forward => ycc_depths(s),
        Way::Reverse => rgb_depths(s),
    }
}
