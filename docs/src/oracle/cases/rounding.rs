//! Pixels where Round is given an exact half, and where Clip begins.

use super::Cases;
use crate::halves::{self, Target, Wanted};
use crate::kinds::{LOSSY_YCGCO, LUMA_KINDS};
use crate::rules::{Pixel, Setting, Way};
use crate::settings;

/// Narrow chroma has halves only if RGB is narrow too and at least three bits
/// deeper, and they are rare even there: these settings, each four times, so
/// that each is searched as often.
fn narrow_from_deeper(among: &[Setting]) -> Vec<Setting> {
    let narrow = |s: &Setting| !s.rgb_full && !s.ycc_full && s.rgb_depth >= s.y_depth + 3;
    let once: Vec<Setting> = among.iter().copied().filter(narrow).collect();
    once.repeat(4)
}

impl Cases {
    /// For each luma code, way, plane and side of the middle: some pixels with
    /// a visible half there, and their two neighbours.
    pub fn halves_of_luma(&mut self) {
        for kind in LUMA_KINDS {
            let all = settings::accepted(kind);
            for plane in 0..3 {
                self.halves(&all, Way::Forward, plane, false, 40);
                self.halves(&all, Way::Reverse, plane, false, 40);
            }
            let rare = narrow_from_deeper(&all);
            for plane in 1..3 {
                self.halves(&all, Way::Forward, plane, true, 40);
                self.halves(&rare, Way::Forward, plane, false, 150);
                self.halves(&rare, Way::Forward, plane, true, 150);
            }
        }
    }

    fn halves(&mut self, among: &[Setting], way: Way, plane: usize, below: bool, walks: u32) {
        let mut tried = among.to_vec();
        self.random.shuffle(&mut tried);
        let wanted = Wanted {
            below_middle: below,
            walks,
        };
        let mut found = 0;
        for mut setting in tried {
            settings::vary(&mut self.random, &mut setting);
            let target = Target {
                setting,
                way,
                plane,
            };
            if let Some((pixel, along)) = halves::find(&mut self.random, &target, wanted) {
                self.with_neighbours(&target, pixel, along);
                found += 1;
            }
            if found == 7 {
                return;
            }
        }
    }

    fn with_neighbours(&mut self, target: &Target, pixel: Pixel, along: usize) {
        let letter = match target.way {
            Way::Forward => 'f',
            Way::Reverse => 'r',
        };
        self.call(letter, &target.setting, pixel);
        let value = u32::from(pixel[along]);
        for near in [value.wrapping_sub(1), value + 1] {
            if near < target.values(along) {
                let mut neighbour = pixel;
                neighbour[along] = near as u16;
                self.call(letter, &target.setting, neighbour);
            }
        }
    }

    /// Halves are common here; each plane and side gets some at each depth.
    pub fn halves_of_lossy_ycgco(&mut self) {
        for mut setting in settings::accepted(LOSSY_YCGCO) {
            settings::vary(&mut self.random, &mut setting);
            for (plane, below) in [(0, false), (1, false), (1, true), (2, false), (2, true)] {
                let target = Target {
                    setting,
                    way: Way::Forward,
                    plane,
                };
                let wanted = Wanted {
                    below_middle: below,
                    walks: 40,
                };
                for _ in 0..2 {
                    if let Some((pixel, _)) = halves::find(&mut self.random, &target, wanted) {
                        self.call('f', &target.setting, pixel);
                    }
                }
            }
        }
    }

    /// Both sides of 0 and of the largest sample, for each luma code, way and
    /// plane, where a random line of pixels crosses them.
    pub fn clip_edges(&mut self) {
        for kind in LUMA_KINDS {
            for way in [Way::Forward, Way::Reverse] {
                for plane in 0..3 {
                    for _ in 0..8 {
                        let setting = settings::good(&mut self.random, kind);
                        let target = Target {
                            setting,
                            way,
                            plane,
                        };
                        self.clip_edge(&target);
                    }
                }
            }
        }
    }

    fn clip_edge(&mut self, target: &Target) {
        let mut pixel = target.random_pixel(&mut self.random);
        let along = self.random.below(3) as usize;
        let largest = (1 << target.output_depth()) - 1;
        let border = self.random.pick(&[-1, largest]);
        if let Some(value) = halves::last_before(target, pixel, along, border) {
            let letter = match target.way {
                Way::Forward => 'f',
                Way::Reverse => 'r',
            };
            for side in [value, value + 1] {
                pixel[along] = side;
                self.call(letter, &target.setting, pixel);
            }
        }
    }
}
