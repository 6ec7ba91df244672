//! The yardstick that speed is measured by: what a careful programmer writes for one setting alone, which is code 1 with 8 bits and
//! full range on both sides, forward.
//!
//! Why it is fair. It owes what the box owes: the same samples to the last bit, the same refusals with the first place, zeros in the
//! padding and after a refusal. `tools/measure-speed` holds it to the box's answers. It is as quick as plain Rust makes it: one setting,
//! so that every divisor is a literal and the compiler multiplies; numbers of 32 bits, which hold every sum; each row tested and
//! converted while it is at hand; slices of one length, so that no bound is tested within a row. It has nothing that only one processor
//! has: no intrinsics and no assembly, as the box has none.
//!
//! `convert` is the yardstick. `convert_biased` is another way to write the same pixel, which some processors like better; it is measured
//! beside it and nothing is compared with it.

use crate::frame::{Output, Source};
use crate::setting::Refusal;

const LARGEST: u16 = 255;
const MIDDLE: i32 = 128;

/// The yardstick.
pub fn convert(width: usize, height: usize, from: &Source, to: &mut Output) -> Result<(), Refusal> {
    convert_by(width, height, from, to, pixel)
}

/// The same with numbers that are never negative.
pub fn convert_biased(width: usize, height: usize, from: &Source, to: &mut Output) -> Result<(), Refusal> {
    convert_by(width, height, from, to, pixel_biased)
}

/// Y, Cb and Cr. The weights are KR, KG and KB in five-thousandths, so that each sum has half the size.
fn pixel([r, g, b]: [u16; 3]) -> [u16; 3] {
    let (r, g, b) = (i32::from(r), i32::from(g), i32::from(b));
    let light = 1063 * r + 3576 * g + 361 * b;
    let y = (light + 2500) / 5000;
    let cb = rounded::<9278>(5000 * b - light) + MIDDLE;
    let cr = rounded::<7874>(5000 * r - light) + MIDDLE;
    [y as u16, sample(cb), sample(cr)]
}

/// n / D to the nearest, halves away from zero, for an even D.
fn rounded<const D: i32>(n: i32) -> i32 {
    if n < 0 {
        (n - D / 2) / D
    } else {
        (n + D / 2) / D
    }
}

fn sample(v: i32) -> u16 {
    v.clamp(0, i32::from(LARGEST)) as u16
}

fn pixel_biased([r, g, b]: [u16; 3]) -> [u16; 3] {
    let (r, g, b) = (u32::from(r), u32::from(g), u32::from(b));
    let light = 1063 * r + 3576 * g + 361 * b;
    let y = (light + 2500) / 5000;
    [y as u16, chroma_biased::<9278>(5000 * b, light), chroma_biased::<7874>(5000 * r, light)]
}

/// The middle and the half of the rounding are added before anything is taken away, and the sum never falls below zero. A sum below
/// `cut` stands for a negative number, whose halves go the other way.
fn chroma_biased<const D: u32>(colour: u32, light: u32) -> u16 {
    let cut = MIDDLE as u32 * D + D / 2;
    let n = colour + cut - light;
    ((n - u32::from(n < cut)) / D).min(u32::from(LARGEST)) as u16
}

fn convert_by(
    width: usize,
    height: usize,
    from: &Source,
    to: &mut Output,
    pixel: impl Fn([u16; 3]) -> [u16; 3],
) -> Result<(), Refusal> {
    let outcome = admit_sizes(width, height, from, to).and_then(|()| convert_rows(width, height, from, to, pixel));
    if outcome.is_err() {
        to.planes.iter_mut().for_each(|plane| plane.fill(0));
    }
    outcome
}

fn admit_sizes(width: usize, height: usize, from: &Source, to: &Output) -> Result<(), Refusal> {
    let (sides, strides) = (1..=8192, width..=16_384);
    if !(sides.contains(&width) && sides.contains(&height) && strides.contains(&from.stride) && strides.contains(&to.stride)) {
        return Err(Refusal::Number(8));
    }
    let needed = |stride| (height - 1) * stride + width;
    let all_read = from.planes.iter().all(|plane| plane.len() >= needed(from.stride));
    let all_written = to.planes.iter().all(|plane| plane.len() >= needed(to.stride));
    if all_read && all_written {
        Ok(())
    } else {
        Err(Refusal::Number(9))
    }
}

/// Every row once: its samples are tested, then converted, and what follows them up to the next row is cleared.
fn convert_rows(
    width: usize,
    height: usize,
    from: &Source,
    to: &mut Output,
    pixel: impl Fn([u16; 3]) -> [u16; 3],
) -> Result<(), Refusal> {
    let stride = to.stride;
    for row in 0..height {
        let read = from.planes.map(|plane| row_of(plane, row, from.stride, width));
        if read.iter().any(|samples| has_too_large(samples)) {
            return Err(first_too_large(width, height, from));
        }
        let [y, cb, cr] = &mut to.planes;
        let (y, cb, cr) = (begun(y, row, stride, width), begun(cb, row, stride, width), begun(cr, row, stride, width));
        convert_row(read, y, cb, cr, &pixel);
    }
    for plane in &mut to.planes {
        let end = plane.len().min(height * stride);
        plane[end..].fill(0);
    }
    Ok(())
}

fn row_of(plane: &[u16], row: usize, stride: usize, width: usize) -> &[u16] {
    &plane[row * stride..][..width]
}

/// A row whose padding is cleared: the samples that are to be written.
fn begun(plane: &mut [u16], row: usize, stride: usize, width: usize) -> &mut [u16] {
    let end = plane.len().min((row + 1) * stride);
    let (samples, padding) = plane[row * stride..end].split_at_mut(width);
    padding.fill(0);
    samples
}

/// Whether some sample has a bit above the depth: the bits of the whole row together, which takes no branch.
fn has_too_large(samples: &[u16]) -> bool {
    samples.iter().fold(0, |bits, &sample| bits | sample) > LARGEST
}

/// The place of the first, plane by plane, where it is known that there is one.
#[cold]
fn first_too_large(width: usize, height: usize, from: &Source) -> Refusal {
    let places = (0..3).flat_map(|plane| (0..height).map(move |row| (plane, row)));
    let mut found = places.filter_map(|(plane, row)| {
        let samples = row_of(from.planes[plane], row, from.stride, width);
        let column = samples.iter().position(|&sample| sample > LARGEST)?;
        Some(Refusal::Sample(plane, row, column, samples[column]))
    });
    found.next().expect("a sample that is too large")
}

/// Its own function, so that the compiler knows that the six rows are apart.
fn convert_row([r, g, b]: [&[u16]; 3], y: &mut [u16], cb: &mut [u16], cr: &mut [u16], pixel: impl Fn([u16; 3]) -> [u16; 3]) {
    let from = r.iter().zip(g).zip(b);
    let to = y.iter_mut().zip(cb).zip(cr);
    for (((&r, &g), &b), ((y, cb), cr)) in from.zip(to) {
        [*y, *cb, *cr] = pixel([r, g, b]);
    }
}
