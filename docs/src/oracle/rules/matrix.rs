//! What each matrix code means in each edition. The codes' numbers stand in
//! these tables and nowhere else in the rules.

use super::edition::Edition;

#[derive(Clone, Copy, Debug, PartialEq, Eq)]
pub enum Matrix {
    /// The planes change places.
    Identity,
    /// By KR and KB in ten-thousandths.
    Luma(i128, i128),
    /// Lossy, or YCgCo-R where C has a bit more than Y.
    YCgCo,
    YCgCoRe,
    YCgCoRo,
    /// Known, and not served.
    NotServed,
    Unspecified,
    Reserved,
}

pub fn matrix_of(edition: Edition, code: u8) -> Matrix {
    match code {
        0 => Matrix::Identity,
        1 => Matrix::Luma(2126, 722),
        2 => Matrix::Unspecified,
        3 => Matrix::Reserved,
        4 => Matrix::Luma(3000, 1100),
        5 | 6 => Matrix::Luma(2990, 1140),
        7 => Matrix::Luma(2120, 870),
        8 => Matrix::YCgCo,
        9 => Matrix::Luma(2627, 593),
        10..=14 => Matrix::NotServed,
        15..=255 => match edition {
            Edition::Of2021 => Matrix::Reserved,
            Edition::Draft => draft_from_15(code),
            Edition::Published => published_from_15(code),
        },
    }
}

fn draft_from_15(code: u8) -> Matrix {
    match code {
        15 => Matrix::YCgCoRe,
        16 => Matrix::YCgCoRo,
        _ => Matrix::Reserved,
    }
}

/// The third edition put IPT-PQ-C2 before the draft's two.
fn published_from_15(code: u8) -> Matrix {
    match code {
        15 => Matrix::NotServed,
        16 => Matrix::YCgCoRe,
        17 => Matrix::YCgCoRo,
        _ => Matrix::Reserved,
    }
}
