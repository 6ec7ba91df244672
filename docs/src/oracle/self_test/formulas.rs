//! Checks the formulas against brute force where the numbers are small, and
//! against their own promises.

use super::{Checked, Test};
use crate::fraction::Fraction;
use crate::kinds::{
    kinds_by_loss, Kind, IDENTITY, LUMA_KINDS, PUBLISHED, YCGCO_R, YCGCO_RE, YCGCO_RO,
};
use crate::random::Random;
use crate::rules::{
    converted, has_source, levels_forward, levels_reverse, output_depths, source_depths, Pixel,
    Setting, Way,
};
use crate::settings;

/// A lossless kind at an RGB depth, which need not be a served one.
fn lossless_form(edition: u8, kind: Kind, depth: u8) -> Setting {
    let forms = [
        (IDENTITY, 0, 0),
        (YCGCO_R, 0, 1),
        (YCGCO_RE, 2, 2),
        (YCGCO_RO, 1, 1),
    ];
    let form = forms.iter().find(|form| form.0 == kind);
    let (_, more_y, more_c) = form.expect("a lossless kind");
    Setting {
        edition,
        primaries: 1,
        transfer: 1,
        matrix: kind.code_in(edition).expect("an edition with the kind"),
        rgb_depth: depth,
        y_depth: depth + more_y,
        c_depth: depth + more_c,
        rgb_full: true,
        ycc_full: true,
    }
}

/// Every lossless kind in every edition that has it.
fn lossless_forms(depth: u8) -> Vec<Setting> {
    let mut forms = Vec::new();
    for kind in kinds_by_loss(true) {
        for edition in kind.editions() {
            forms.push(lossless_form(edition, kind, depth));
        }
    }
    forms
}

/// Calls `visit` with every pixel within the depths.
fn for_every_pixel(depths: [u8; 3], mut visit: impl FnMut(Pixel) -> Checked) -> Checked {
    let ends = depths.map(|depth| 1u32 << depth);
    for first in 0..ends[0] {
        for second in 0..ends[1] {
            for third in 0..ends[2] {
                visit([first as u16, second as u16, third as u16])?;
            }
        }
    }
    Ok(())
}

/// Which YCbCr pixels the forward formulas reach, found by trying every RGB
/// pixel.
struct Reached {
    depths: [u8; 3],
    bits: Vec<u64>,
}

impl Reached {
    fn by(s: &Setting) -> Reached {
        let depths = output_depths(s, Way::Forward);
        let size = 1usize << depths.iter().sum::<u8>();
        let mut reached = Reached {
            depths,
            bits: vec![0; size / 64 + 1],
        };
        for_every_pixel(source_depths(s, Way::Forward), |rgb| {
            let index = reached.index(converted(s, Way::Forward, rgb));
            reached.bits[index / 64] |= 1 << (index % 64);
            Ok(())
        })
        .expect("nothing here can fail");
        reached
    }

    fn index(&self, ycc: Pixel) -> usize {
        let [y, cb, cr] = ycc.map(usize::from);
        (((y << self.depths[1]) | cb) << self.depths[2]) | cr
    }

    fn contains(&self, ycc: Pixel) -> bool {
        let index = self.index(ycc);
        self.bits[index / 64] >> (index % 64) & 1 == 1
    }
}

impl Test {
    /// The source check of every YCbCr pixel against the pixels that the
    /// forward formulas reach.
    fn sources_of(&mut self, s: &Setting) -> Checked {
        let reached = Reached::by(s);
        for_every_pixel(reached.depths, |ycc| {
            let what = || format!("source of {:?} on {:?}", ycc, s);
            self.equal(&what, has_source(s, ycc), reached.contains(ycc))
        })
    }

    /// The lossless formulas hold at any depth, so that depths of a few bits
    /// can be gone through whole.
    pub fn tiny_sources(&mut self) -> Checked {
        for depth in 1..=4 {
            for s in lossless_forms(depth) {
                self.sources_of(&s)?;
            }
        }
        Ok(())
    }

    pub fn all_eight_bit_sources(&mut self) -> Checked {
        self.sources_of(&lossless_form(PUBLISHED, IDENTITY, 8))?;
        self.sources_of(&lossless_form(PUBLISHED, YCGCO_R, 8))
    }

    fn round_trip(&mut self, s: &Setting, rgb: Pixel) -> Checked {
        let what = || format!("{:?} there and back on {:?}", rgb, s);
        let ycc = converted(s, Way::Forward, rgb);
        for plane in 0..3 {
            let end = 1u32 << output_depths(s, Way::Forward)[plane];
            self.holds(&what, u32::from(ycc[plane]) < end)?;
        }
        self.equal(&what, converted(s, Way::Reverse, ycc), rgb)?;
        self.holds(&what, has_source(s, ycc))
    }

    /// Every RGB pixel at small depths, every fourth or so of each plane
    /// with both ends at 8 bits, random ones at all served depths.
    pub fn lossless_round_trips(&mut self) -> Checked {
        for depth in 1..=5 {
            for s in lossless_forms(depth) {
                for_every_pixel([depth; 3], |rgb| self.round_trip(&s, rgb))?;
            }
        }
        for s in lossless_forms(8) {
            for_every_pixel([6, 6, 6], |n| self.round_trip(&s, n.map(|v| v * 4 + v % 4)))?;
        }
        let mut random = Random::new(8);
        for kind in kinds_by_loss(true) {
            for mut s in settings::accepted(kind) {
                for _ in 0..2000 {
                    settings::vary(&mut random, &mut s);
                    let rgb = [0; 3].map(|_| random.sample(s.rgb_depth));
                    self.round_trip(&s, rgb)?;
                }
            }
        }
        Ok(())
    }

    /// The reverse levels solve 42 to 44: put in, they give back what they
    /// were solved from.
    pub fn solved_levels(&mut self) -> Checked {
        let mut random = Random::new(42);
        for kind in LUMA_KINDS {
            let s = settings::accepted(kind)[0];
            for _ in 0..500 {
                let bottom = 1 + random.below(4095) as i128;
                let levels =
                    [0; 3].map(|_| Fraction::new(random.below(8192) as i128 - 4096, bottom));
                let what = || format!("levels {:?} of matrix {}", levels, s.matrix);
                let solved = levels_reverse(&s, levels);
                self.equal(&what, levels_forward(&s, solved), levels)?;
                let there = levels_forward(&s, levels);
                self.equal(&what, levels_reverse(&s, there), levels)?;
            }
        }
        Ok(())
    }

    /// Equal R, G and B on equal depths and ranges are Y itself with chroma in
    /// the middle, both ways, since the three weights add up to one.
    pub fn greys(&mut self) -> Checked {
        for kind in LUMA_KINDS {
            for s in settings::accepted(kind) {
                if s.rgb_depth != s.y_depth || s.rgb_full != s.ycc_full {
                    continue;
                }
                let middle = 1 << (s.c_depth - 1);
                let largest = (1u32 << s.y_depth) - 1;
                for step in 0..=63 {
                    let v = (largest * step / 63) as u16;
                    let what = || format!("grey {} on {:?}", v, s);
                    let ycc = [v, middle, middle];
                    self.equal(&what, converted(&s, Way::Forward, [v; 3]), ycc)?;
                    self.equal(&what, converted(&s, Way::Reverse, ycc), [v; 3])?;
                }
            }
        }
        Ok(())
    }
}
