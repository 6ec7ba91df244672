//! The luma matrices: levels, their weights, and how a level is written.

use super::numbers::{half_scale, max_value, Numbers, Unrounded};
use super::setting::{luma_weights, Setting};
use crate::fraction::Fraction;

/// Which of the two level scales a plane has.
#[derive(Clone, Copy, Debug, PartialEq, Eq)]
pub enum Scale {
    /// R, G, B and Y.
    Plain,
    /// Cb and Cr.
    Chroma,
}

/// A sample's level as numerator and denominator, not reduced.
pub fn level_parts(scale: Scale, full: bool, depth: u8, v: i128) -> (i128, i128) {
    let two_to_s = 1 << (depth - 8);
    match (scale, full) {
        (Scale::Plain, true) => (v, max_value(depth)),
        (Scale::Chroma, true) => (v - half_scale(depth), max_value(depth)),
        (Scale::Plain, false) => (v - 16 * two_to_s, 219 * two_to_s),
        (Scale::Chroma, false) => (v - 128 * two_to_s, 224 * two_to_s),
    }
}

fn level(scale: Scale, full: bool, depth: u8, v: i128) -> Fraction {
    let (numerator, denominator) = level_parts(scale, full, depth, v);
    Fraction::new(numerator, denominator)
}

/// 27 to 29 and 33 to 35. Narrow chroma has its offset inside Round, full
/// chroma outside it; that differs for halves below zero.
fn written(scale: Scale, full: bool, depth: u8, e: Fraction) -> Unrounded {
    let number = Fraction::whole;
    let two_to_s = number(1 << (depth - 8));
    let m = number(max_value(depth));
    let (argument, add) = match (scale, full) {
        (Scale::Plain, true) => (m * e, 0),
        (Scale::Chroma, true) => (m * e, half_scale(depth)),
        (Scale::Plain, false) => (two_to_s * (number(219) * e + number(16)), 0),
        (Scale::Chroma, false) => (two_to_s * (number(224) * e + number(128)), 0),
    };
    Unrounded { argument, add }
}

/// KR, KG, KB as fractions of one.
fn weights(s: &Setting) -> (Fraction, Fraction, Fraction) {
    let (kr, kb) = luma_weights(s).expect("a luma matrix");
    let of_ten_thousand = |k| Fraction::new(k, 10_000);
    (
        of_ten_thousand(kr),
        of_ten_thousand(10_000 - kr - kb),
        of_ten_thousand(kb),
    )
}

/// 42 to 44 over levels: ER, EG, EB to EY, EPB, EPR.
pub fn levels_forward(s: &Setting, [er, eg, eb]: [Fraction; 3]) -> [Fraction; 3] {
    let (kr, kg, kb) = weights(s);
    let one = Fraction::whole(1);
    let two = Fraction::whole(2);
    let ey = kr * er + kg * eg + kb * eb;
    let epb = (eb - ey) / (two * (one - kb));
    let epr = (er - ey) / (two * (one - kr));
    [ey, epb, epr]
}

/// 42 to 44 solved: EY, EPB, EPR to ER, EG, EB.
pub fn levels_reverse(s: &Setting, [ey, epb, epr]: [Fraction; 3]) -> [Fraction; 3] {
    let (kr, kg, kb) = weights(s);
    let one = Fraction::whole(1);
    let two = Fraction::whole(2);
    let er = ey + two * (one - kr) * epr;
    let eb = ey + two * (one - kb) * epb;
    let eg = (ey - kr * er - kb * eb) / kg;
    [er, eg, eb]
}

pub fn luma_forward(s: &Setting, rgb: Numbers) -> [Unrounded; 3] {
    let levels = rgb.map(|v| level(Scale::Plain, s.rgb_full, s.rgb_depth, v));
    let [ey, epb, epr] = levels_forward(s, levels);
    [
        written(Scale::Plain, s.ycc_full, s.y_depth, ey),
        written(Scale::Chroma, s.ycc_full, s.c_depth, epb),
        written(Scale::Chroma, s.ycc_full, s.c_depth, epr),
    ]
}

pub fn luma_reverse(s: &Setting, [y, cb, cr]: Numbers) -> [Unrounded; 3] {
    let levels = [
        level(Scale::Plain, s.ycc_full, s.y_depth, y),
        level(Scale::Chroma, s.ycc_full, s.c_depth, cb),
        level(Scale::Chroma, s.ycc_full, s.c_depth, cr),
    ];
    levels_reverse(s, levels).map(|e| written(Scale::Plain, s.rgb_full, s.rgb_depth, e))
}
