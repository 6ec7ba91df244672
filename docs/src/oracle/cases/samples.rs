//! Samples at the ends of their depth and past it.

use super::Cases;
use crate::kinds::KINDS;
use crate::rules::{source_depths, Pixel, Setting, Way};
use crate::settings;

/// Samples at and around every border that a plane of this depth has.
pub fn edges(depth: u8) -> Vec<u16> {
    let end = 1u32 << depth;
    let middle = end / 2;
    let unit = end / 256;
    let all = [
        0,
        1,
        16 * unit - 1,
        16 * unit,
        middle - 1,
        middle,
        middle + 1,
        235 * unit,
        240 * unit,
        end - 1,
        end,
        65535,
    ];
    let fits = all.iter().filter(|&&v| v <= 65535);
    fits.map(|&v| v as u16).collect()
}

impl Cases {
    /// Each edge in each plane beside random samples, and pixels of nothing
    /// but edges.
    pub fn edge_samples(&mut self) {
        for kind in KINDS {
            for (letter, way) in [('f', Way::Forward), ('r', Way::Reverse)] {
                for plane in 0..3 {
                    for edge in 0..12 {
                        let s = settings::good(&mut self.random, kind);
                        let mut pixel = self.pixel(letter, &s);
                        let values = edges(source_depths(&s, way)[plane]);
                        pixel[plane] = values[edge % values.len()];
                        self.call(letter, &s, pixel);
                    }
                }
                for _ in 0..4 {
                    let s = settings::good(&mut self.random, kind);
                    let pixel = source_depths(&s, way).map(|d| self.random.pick(&edges(d)));
                    self.call(letter, &s, pixel);
                }
            }
        }
    }

    /// Each set of planes with a sample past its depth, in every call.
    pub fn bad_samples(&mut self) {
        for kind in KINDS {
            for letter in ['f', 'r', self.random.pick(&['s', 'm'])] {
                for set in 1..8 {
                    let s = settings::good(&mut self.random, kind);
                    let mut pixel = self.pixel(letter, &s);
                    let bad = self.past_depth(letter, &s);
                    for plane in 0..3 {
                        if set >> plane & 1 == 1 {
                            pixel[plane] = bad[plane];
                        }
                    }
                    self.call(letter, &s, pixel);
                }
            }
        }
    }

    /// 2^depth, the largest u16 or one between them; a plane of 16 bits has no
    /// bad samples and gets its largest good one.
    pub fn past_depth(&mut self, letter: char, s: &Setting) -> Pixel {
        let depths = match letter {
            'f' => source_depths(s, Way::Forward),
            _ => source_depths(s, Way::Reverse),
        };
        depths.map(|depth| {
            let least = (1u32 << depth).min(65535);
            self.random.from_on(least as u16)
        })
    }
}
