//! What single calls are for: source checks, the lossy reverse, meters.

use super::samples::edges;
use super::Cases;
use crate::kinds::{kinds_by_loss, KINDS, LOSSY_YCGCO, LUMA_KINDS};
use crate::pixels;
use crate::rules::{converted, Setting, Way};
use crate::settings;

impl Cases {
    /// On each lossless setting: a pixel with a source at the edge of depth,
    /// pixels next to such ones, and one from anywhere.
    pub fn sources(&mut self) {
        let lossless = kinds_by_loss(true);
        for mut s in lossless.into_iter().flat_map(settings::accepted) {
            settings::vary(&mut self.random, &mut s);
            let rgb = pixels::extreme_rgb(&mut self.random, &s);
            let ycc = converted(&s, Way::Forward, rgb);
            self.call('f', &s, rgb);
            self.call('s', &s, ycc);
            self.call('r', &s, ycc);
            for _ in 0..2 {
                let rgb = pixels::extreme_rgb(&mut self.random, &s);
                let ycc = converted(&s, Way::Forward, rgb);
                let near = pixels::moved(&mut self.random, &s, ycc);
                self.call('s', &s, near);
                self.call('r', &s, near);
            }
            self.call_within_depth('s', &s);
        }
    }

    /// Lossy code 8 back, where the clip of the result does and doesn't act.
    pub fn lossy_reverse(&mut self) {
        for mut s in settings::accepted(LOSSY_YCGCO) {
            settings::vary(&mut self.random, &mut s);
            for _ in 0..4 {
                let rgb = pixels::extreme_rgb(&mut self.random, &s);
                let ycc = converted(&s, Way::Forward, rgb);
                let near = pixels::moved(&mut self.random, &s, ycc);
                self.call('r', &s, near);
            }
        }
    }

    /// Every edge of every depth and range through each meter call.
    pub fn meters(&mut self) {
        for depth in 8..=12 {
            for ycc_full in [false, true] {
                for edge in edges(depth) {
                    for letter in ['y', 'b', 'c'] {
                        let s = self.metered(depth, ycc_full);
                        self.call(letter, &s, [edge; 3]);
                    }
                }
                for _ in 0..10 {
                    let s = self.metered(depth, ycc_full);
                    self.call_within_depth('m', &s);
                }
            }
        }
    }

    fn metered(&mut self, depth: u8, ycc_full: bool) -> Setting {
        let kind = self.random.pick(&LUMA_KINDS);
        let mut s = settings::good(&mut self.random, kind);
        s.y_depth = depth;
        s.c_depth = depth;
        s.ycc_full = ycc_full;
        s
    }

    /// Meters without a luma matrix and source checks without a lossless
    /// setting, also with samples that would be refused next.
    pub fn calls_without_their_setting(&mut self) {
        for kind in KINDS {
            for letter in ['s', 'm', 'y', 'b', 'c'] {
                let s = settings::good(&mut self.random, kind);
                self.call_within_depth(letter, &s);
                let bad = self.past_depth(letter, &s);
                self.call(letter, &s, bad);
            }
        }
    }
}
