//! The YCgCo formulas, lossy and lossless.

use super::numbers::{clip, half_scale, halved_down, Numbers, Unrounded};
use super::setting::Setting;
use crate::fraction::Fraction;

/// 48 to 50. The rules clip chroma only; Y never reaches past its depth, so
/// that one Clip for all three changes nothing.
pub fn lossy_ycgco_forward(s: &Setting, [r, g, b]: Numbers) -> [Unrounded; 3] {
    let h = half_scale(s.c_depth);
    [
        Unrounded {
            argument: Fraction::new(2 * g + r + b, 4),
            add: 0,
        },
        Unrounded {
            argument: Fraction::new(2 * g - r - b, 4),
            add: h,
        },
        Unrounded {
            argument: Fraction::new(r - b, 2),
            add: h,
        },
    ]
}

/// 51 to 54.
pub fn lossy_ycgco_reverse(s: &Setting, [y, cb, cr]: Numbers) -> Numbers {
    let h = half_scale(s.c_depth);
    let t = y - (cb - h);
    let g = clip(y + cb - h, s.rgb_depth);
    let b = clip(t - (cr - h), s.rgb_depth);
    let r = clip(t + cr - h, s.rgb_depth);
    [r, g, b]
}

/// 55 to 58.
pub fn lossless_ycgco_forward(s: &Setting, [r, g, b]: Numbers) -> Numbers {
    let h = half_scale(s.c_depth);
    let cr = r - b + h;
    let t = b + halved_down(cr - h);
    let cb = g - t + h;
    let y = t + halved_down(cb - h);
    [y, cb, cr]
}

/// 59 to 62; red is taken from the clipped blue.
pub fn lossless_ycgco_reverse(s: &Setting, [y, cb, cr]: Numbers) -> Numbers {
    let h = half_scale(s.c_depth);
    let t = y - halved_down(cb - h);
    let g = clip(t + cb - h, s.rgb_depth);
    let b = clip(t - halved_down(cr - h), s.rgb_depth);
    let r = clip(b + cr - h, s.rgb_depth);
    [r, g, b]
}

/// 55 to 58 solved from the last one back; nothing is clipped.
pub fn solved_lossless_ycgco(s: &Setting, [y, cb, cr]: Numbers) -> Numbers {
    let h = half_scale(s.c_depth);
    let t = y - halved_down(cb - h);
    let g = cb - h + t;
    let b = t - halved_down(cr - h);
    let r = cr - h + b;
    [r, g, b]
}
