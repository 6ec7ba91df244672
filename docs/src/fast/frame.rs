//! Frames of three planes, both ways.

use crate::luma;
use crate::setting::{Formulas, Refusal, Setting, Way};

pub struct Source<'a> {
    pub planes: [&'a [u16]; 3],
    pub stride: usize,
}

pub struct Output<'a> {
    pub planes: [&'a mut [u16]; 3],
    pub stride: usize,
}

pub fn convert(s: &Setting, way: Way, width: usize, height: usize, from: &Source, to: &mut Output) -> Result<(), Refusal> {
    match admit(s, way, width, height, from, to) {
        Ok(formulas) => {
            run(s, way, formulas, width, height, from, to);
            Ok(())
        }
        Err(refusal) => {
            to.planes.iter_mut().for_each(|plane| plane.fill(0));
            Err(refusal)
        }
    }
}

/// Every refusal, in the order of the table.
fn admit(s: &Setting, way: Way, width: usize, height: usize, from: &Source, to: &Output) -> Result<Formulas, Refusal> {
    let formulas = s.formulas()?;
    let strides = width..=16_384;
    let sides = 1..=8192;
    if !sides.contains(&width) || !sides.contains(&height) || !strides.contains(&from.stride) || !strides.contains(&to.stride) {
        return Err(Refusal::Number(8));
    }
    let needed = |stride| (height - 1) * stride + width;
    let short = from.planes.iter().any(|p| p.len() < needed(from.stride)) || to.planes.iter().any(|p| p.len() < needed(to.stride));
    if short {
        return Err(Refusal::Number(9));
    }
    let depths = if way == Way::Forward { s.rgb_depths() } else { s.ycc_depths() };
    for (k, plane) in from.planes.iter().enumerate() {
        let largest = ((1u32 << depths[k]) - 1) as u16;
        for row in 0..height {
            let samples = &plane[row * from.stride..][..width];
            // a whole row first, which the compiler turns into vector instructions
            if samples.iter().fold(0, |most, &v| v.max(most)) > largest {
                let column = samples.iter().position(|&v| v > largest).unwrap_or(0);
                return Err(Refusal::Sample(k, row, column, samples[column]));
            }
        }
    }
    Ok(formulas)
}

fn run(s: &Setting, way: Way, formulas: Formulas, width: usize, height: usize, from: &Source, to: &mut Output) {
    let middle = 1i32 << (s.c_depth - 1);
    let rgb = move |v: i32| v.clamp(0, (1 << s.rgb_depth) - 1);
    let chroma = move |v: i32| v.clamp(0, (1 << s.c_depth) - 1);
    match (formulas, way) {
        (Formulas::Swap, Way::Forward) => rows(width, height, from, to, |[r, g, b]| [g, b, r]),
        (Formulas::Swap, Way::Reverse) => rows(width, height, from, to, |[y, cb, cr]| [cr, y, cb]),
        (Formulas::Lossy, Way::Forward) => rows(width, height, from, to, whole(|[r, g, b]| lossy_forward(r, g, b, middle, chroma))),
        (Formulas::Lossy, Way::Reverse) => {
            rows(width, height, from, to, whole(|[y, cb, cr]| lossy_reverse(y, cb - middle, cr - middle, rgb)))
        }
        (Formulas::Lossless, Way::Forward) => rows(width, height, from, to, whole(|[r, g, b]| lossless_forward(r, g, b, middle))),
        (Formulas::Lossless, Way::Reverse) => {
            rows(width, height, from, to, whole(|[y, cb, cr]| lossless_reverse(y, cb - middle, cr - middle, rgb)))
        }
        (Formulas::Luma { kr, kb }, _) => {
            let [a, b, c] = luma::lines(s, way, kr, kb);
            rows(width, height, from, to, |v| [a.of(v), b.of(v), c.of(v)])
        }
    }
}

/// A formula over whole numbers as one over samples.
fn whole(formula: impl Fn([i32; 3]) -> [i32; 3]) -> impl Fn([u16; 3]) -> [u16; 3] {
    move |v| formula(v.map(i32::from)).map(|w| w as u16)
}

fn lossy_forward(r: i32, g: i32, b: i32, middle: i32, clip: impl Fn(i32) -> i32) -> [i32; 3] {
    let y = (2 * g + r + b + 2) / 4;
    let cg = half_away(2 * g - r - b, 4);
    let co = half_away(r - b, 2);
    [y, clip(cg + middle), clip(co + middle)]
}

/// n / d to the nearest, halves away from zero, for an even d.
fn half_away(n: i32, d: i32) -> i32 {
    if n < 0 {
        (n - d / 2) / d
    } else {
        (n + d / 2) / d
    }
}

fn lossy_reverse(y: i32, cg: i32, co: i32, clip: impl Fn(i32) -> i32) -> [i32; 3] {
    let t = y - cg;
    [clip(t + co), clip(y + cg), clip(t - co)]
}

fn lossless_forward(r: i32, g: i32, b: i32, middle: i32) -> [i32; 3] {
    let co = r - b;
    let t = b + (co >> 1);
    let cg = g - t;
    [t + (cg >> 1), cg + middle, co + middle]
}

fn lossless_reverse(y: i32, cg: i32, co: i32, clip: impl Fn(i32) -> i32) -> [i32; 3] {
    let t = y - (cg >> 1);
    let b = clip(t - (co >> 1));
    [clip(b + co), clip(t + cg), b]
}

/// Every row: its pixels, then zeros up to the next; and zeros past the last.
fn rows(width: usize, height: usize, from: &Source, to: &mut Output, pixel: impl Fn([u16; 3]) -> [u16; 3]) {
    let stride = to.stride;
    for row in 0..height {
        let read = from.planes.map(|plane| &plane[row * from.stride..][..width]);
        let [x, y, z] = &mut to.planes;
        convert_row(read, part(x, row * stride, width), part(y, row * stride, width), part(z, row * stride, width), &pixel);
        for plane in &mut to.planes {
            let end = plane.len().min((row + 1) * stride);
            plane[row * stride + width..end].fill(0);
        }
    }
    for plane in &mut to.planes {
        let end = plane.len().min(height * stride);
        plane[end..].fill(0);
    }
}

fn part(plane: &mut [u16], start: usize, length: usize) -> &mut [u16] {
    &mut plane[start..start + length]
}

/// Its own function, so that the compiler knows that the six rows are apart, and can use vector instructions.
fn convert_row([a, b, c]: [&[u16]; 3], x: &mut [u16], y: &mut [u16], z: &mut [u16], pixel: impl Fn([u16; 3]) -> [u16; 3]) {
    let from = a.iter().zip(b).zip(c);
    let to = x.iter_mut().zip(y).zip(z);
    for (((&a, &b), &c), ((x, y), z)) in from.zip(to) {
        [*x, *y, *z] = pixel([a, b, c]);
    }
}
