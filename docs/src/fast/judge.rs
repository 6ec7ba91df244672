//! Judges a claimed frame: the source is converted, and the two are compared.

use crate::frame::{self, Output, Source};
use crate::setting::{Refusal, Setting, Way};

/// The first wrong pixel, by row and then by column, and how many pixels of the whole picture are wrong.
#[derive(Clone, Copy, Debug, PartialEq, Eq)]
pub struct Difference {
    pub row: usize,
    pub column: usize,
    pub wrong: u64,
}

pub type Judgement = Result<Option<Difference>, Refusal>;

/// Nothing where every claimed pixel is the converted one. It is refused where a conversion into planes of the claimed lengths would be.
pub fn judge(s: &Setting, way: Way, width: usize, height: usize, from: &Source, claimed: &Source) -> Judgement {
    let mut right = claimed.planes.map(|plane| vec![0; plane.len()]);
    let [x, y, z] = &mut right;
    frame::convert(s, way, width, height, from, &mut Output { planes: [x, y, z], stride: claimed.stride })?;
    let mut found: Option<Difference> = None;
    for row in 0..height {
        for column in 0..width {
            let index = row * claimed.stride + column;
            if (0..3).any(|plane| claimed.planes[plane][index] != right[plane][index]) {
                found.get_or_insert(Difference { row, column, wrong: 0 }).wrong += 1;
            }
        }
    }
    Ok(found)
}
