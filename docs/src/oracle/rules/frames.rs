//! Whole frames and the image check, with the rows of the refusal table that
//! need a picture: 8, 9 and 10.

use super::numbers::within_depth;
use super::pixels::{converted, has_source};
use super::refusals::{require_lossless, setting_refusal, Place, Refusal};
use super::setting::{source_depths, ycc_depths, Pixel, Setting, Way};

/// A picture's size as the caller gives it: any number may stand here.
#[derive(Clone, Copy, Debug, PartialEq, Eq)]
pub struct Size {
    pub width: u64,
    pub height: u64,
}

/// One side of a frame call: three planes of any length, and their stride.
#[derive(Clone, Debug, PartialEq, Eq)]
pub struct Side {
    pub stride: u64,
    pub planes: [Vec<u16>; 3],
}

impl Side {
    /// Where a picture element is in each of the three planes.
    fn index(&self, row: u64, column: u64) -> usize {
        (row * self.stride + column) as usize
    }

    pub(super) fn pixel(&self, row: u64, column: u64) -> Pixel {
        let index = self.index(row, column);
        [0, 1, 2].map(|plane: usize| self.planes[plane][index])
    }
}

/// Refusal 8, over the strides of all sides of the call.
pub(super) fn size_refusal(size: Size, strides: &[u64]) -> Result<(), Refusal> {
    let served = 1..=8192;
    let size_served = served.contains(&size.width) && served.contains(&size.height);
    let stride_served = |&stride: &u64| size.width <= stride && stride <= 16_384;
    if size_served && strides.iter().all(stride_served) {
        Ok(())
    } else {
        Err(Refusal::Number(8))
    }
}

/// Refusal 9 of one side; after 8, so that nothing here is large.
pub(super) fn length_refusal(size: Size, side: &Side) -> Result<(), Refusal> {
    let needed = (size.height - 1) * side.stride + size.width;
    if side
        .planes
        .iter()
        .any(|plane| (plane.len() as u64) < needed)
    {
        Err(Refusal::Number(9))
    } else {
        Ok(())
    }
}

/// Refusal 10: plane by plane, in it row by row, in it column by column.
pub(super) fn picture_refusal(size: Size, source: &Side, depths: [u8; 3]) -> Result<(), Refusal> {
    for plane in 0..3 {
        for row in 0..size.height {
            for column in 0..size.width {
                let value = source.pixel(row, column)[plane];
                if !within_depth(i128::from(value), depths[plane]) {
                    let place = Place {
                        plane,
                        row: row as usize,
                        column: column as usize,
                    };
                    return Err(Refusal::Sample(place, value));
                }
            }
        }
    }
    Ok(())
}

/// Every element of the output is 0 at first; only an accepted call goes on
/// and writes picture elements.
pub fn convert_frame(
    s: &Setting,
    way: Way,
    size: Size,
    source: &Side,
    output: &mut Side,
) -> Result<(), Refusal> {
    for plane in output.planes.iter_mut() {
        plane.fill(0);
    }
    setting_refusal(s)?;
    size_refusal(size, &[source.stride, output.stride])?;
    length_refusal(size, source)?;
    length_refusal(size, output)?;
    picture_refusal(size, source, source_depths(s, way))?;
    for row in 0..size.height {
        for column in 0..size.width {
            let to = converted(s, way, source.pixel(row, column));
            let index = output.index(row, column);
            for plane in 0..3 {
                output.planes[plane][index] = to[plane];
            }
        }
    }
    Ok(())
}

/// The image check: nothing if every pixel has a source, or else the row and
/// column of the first that has none.
pub fn first_without_source(
    s: &Setting,
    size: Size,
    ycc: &Side,
) -> Result<Option<(u64, u64)>, Refusal> {
    setting_refusal(s)?;
    require_lossless(s)?;
    size_refusal(size, &[ycc.stride])?;
    length_refusal(size, ycc)?;
    picture_refusal(size, ycc, ycc_depths(s))?;
    for row in 0..size.height {
        for column in 0..size.width {
            if !has_source(s, ycc.pixel(row, column)) {
                return Ok(Some((row, column)));
            }
        }
    }
    Ok(None)
}
