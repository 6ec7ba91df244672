//! A luma matrix as integers: each sample of the result is one weighted sum, one division and one clip.

use crate::setting::{Setting, Way};

/// What a sample stands for: (v - zero) / span.
#[derive(Clone, Copy)]
struct Scale {
    zero: i64,
    span: i64,
}

fn light(full: bool, depth: u8) -> Scale {
    let unit = 1 << (depth - 8);
    if full {
        Scale { zero: 0, span: (1 << depth) - 1 }
    } else {
        Scale { zero: 16 * unit, span: 219 * unit }
    }
}

fn chroma(full: bool, depth: u8) -> Scale {
    let unit = 1 << (depth - 8);
    if full {
        Scale { zero: 1 << (depth - 1), span: (1 << depth) - 1 }
    } else {
        Scale { zero: 128 * unit, span: 224 * unit }
    }
}

/// A sample of the result: Round((weights . samples + bias) / divisor) + add, clipped to 0 ..= max.
#[derive(Clone, Copy)]
pub struct Line {
    weights: [i64; 3],
    bias: i64,
    divisor: i64,
    add: i64,
    max: i64,
}

impl Line {
    /// The sum of levels `weights[k] / below` times the level of sample k, written on the scale `to`. Full chroma has its zero added
    /// after the rounding, everything else before.
    fn new(weights: [i64; 3], below: i64, from: [Scale; 3], to: Scale, add_after: bool, depth: u8) -> Line {
        // Y and chroma may have different spans on the side that is read; both go over their product.
        let common = from[0].span * from[1].span;
        let scaled = |k: usize| weights[k] * (common / from[k].span) * to.span;
        let weights = [scaled(0), scaled(1), scaled(2)];
        let divisor = below * common;
        let offset: i64 = (0..3).map(|k| weights[k] * from[k].zero).sum();
        let (inside, add) = if add_after { (0, to.zero) } else { (to.zero, 0) };
        Line { weights, bias: inside * divisor - offset, divisor, add, max: (1 << depth) - 1 }
    }

    #[inline]
    pub fn of(&self, v: [u16; 3]) -> u16 {
        let sum =
            self.bias + self.weights[0] * i64::from(v[0]) + self.weights[1] * i64::from(v[1]) + self.weights[2] * i64::from(v[2]);
        let half = self.divisor / 2;
        let rounded = if sum < 0 { (sum - half) / self.divisor } else { (sum + half) / self.divisor };
        (rounded + self.add).clamp(0, self.max) as u16
    }
}

/// The three lines of a setting and a way.
pub fn lines(s: &Setting, way: Way, kr: i64, kb: i64) -> [Line; 3] {
    let kg = 10_000 - kr - kb;
    let rgb = light(s.rgb_full, s.rgb_depth);
    let (y, c) = (light(s.ycc_full, s.y_depth), chroma(s.ycc_full, s.c_depth));
    match way {
        Way::Forward => [
            Line::new([kr, kg, kb], 10_000, [rgb; 3], y, false, s.y_depth),
            Line::new([-kr, -kg, 10_000 - kb], 2 * (10_000 - kb), [rgb; 3], c, s.ycc_full, s.c_depth),
            Line::new([10_000 - kr, -kg, -kb], 2 * (10_000 - kr), [rgb; 3], c, s.ycc_full, s.c_depth),
        ],
        Way::Reverse => {
            let line = |weights, below| Line::new(weights, below, [y, c, c], rgb, false, s.rgb_depth);
            let (blue, red) = (2 * (10_000 - kb), 2 * (10_000 - kr));
            [
                line([10_000, 0, red], 10_000),
                line([10_000 * kg, -kb * blue, -kr * red], 10_000 * kg),
                line([10_000, blue, 0], 10_000),
            ]
        }
    }
}
