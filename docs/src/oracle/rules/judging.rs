//! The judging of a claimed frame: a rival converter's samples, held against
//! the formulas pixel by pixel.

use super::frames::{length_refusal, picture_refusal, size_refusal, Side, Size};
use super::pixels::converted;
use super::refusals::{setting_refusal, Refusal};
use super::setting::{source_depths, Setting, Way};

/// The first wrong pixel, by its row and then by its column, and how many
/// pixels of the whole picture are wrong.
#[derive(Clone, Copy, Debug, PartialEq, Eq)]
pub struct Difference {
    pub row: u64,
    pub column: u64,
    pub wrong: u64,
}

/// Nothing if every claimed pixel is the converted one. A pixel is wrong where
/// any of its samples is; one above its depth is no more than wrong.
pub fn judge_frame(
    s: &Setting,
    way: Way,
    size: Size,
    source: &Side,
    claimed: &Side,
) -> Result<Option<Difference>, Refusal> {
    setting_refusal(s)?;
    size_refusal(size, &[source.stride, claimed.stride])?;
    length_refusal(size, source)?;
    length_refusal(size, claimed)?;
    picture_refusal(size, source, source_depths(s, way))?;
    let mut wrong = Vec::new();
    for row in 0..size.height {
        for column in 0..size.width {
            let right = converted(s, way, source.pixel(row, column));
            if claimed.pixel(row, column) != right {
                wrong.push((row, column));
            }
        }
    }
    Ok(wrong.first().map(|&(row, column)| Difference {
        row,
        column,
        wrong: wrong.len() as u64,
    }))
}
