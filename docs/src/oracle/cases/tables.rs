//! Goes through the tables of the rules: labels, matrices, depths, flags.

use super::{Cases, CALLS, LABELS};
use crate::kinds::{EDITIONS, KINDS};
use crate::rules::Setting;
use crate::settings;

/// Every depth that a case tries in each of the three places.
const DEPTHS: [u8; 23] = [
    0, 1, 2, 3, 4, 5, 6, 7, 8, 9, 10, 11, 12, 13, 14, 15, 16, 17, 18, 19, 20, 99, 255,
];

impl Cases {
    pub fn labels(&mut self) {
        for letter in LABELS {
            for edition in EDITIONS {
                for code in 0..=255 {
                    self.label(letter, edition, code);
                }
            }
        }
    }

    /// Every code in every edition: below 20, where editions differ, by three
    /// calls in each; further on by one of the three in the first, by another
    /// in the second and by the last in the third.
    pub fn every_matrix(&mut self) {
        for code in 0..=255u8 {
            let letters = ['f', 'r', CALLS[2 + usize::from(code) % 5]];
            for edition in EDITIONS {
                let good = settings::good_but_for_matrix(&mut self.random, edition, code);
                let turn = (usize::from(code) + usize::from(edition)) % 3;
                let among = if code < 20 { 0..3 } else { turn..turn + 1 };
                for &letter in &letters[among] {
                    self.call_within_depth(letter, &good);
                }
            }
            let edition = self.random.pick(&EDITIONS);
            let mut bad = settings::good_but_for_matrix(&mut self.random, edition, code);
            let row = 4 + self.random.below(4) as u8;
            settings::break_row(&mut self.random, &mut bad, row);
            let letter = self.random.pick(&CALLS);
            self.call_within_depth(letter, &bad);
        }
    }

    pub fn every_label_in_a_setting(&mut self) {
        let codes = (0..=24).chain([50, 100, 127, 128, 200, 254, 255]);
        for code in codes {
            let kind = self.random.pick(&KINDS);
            let good = settings::good(&mut self.random, kind);
            let primaries = Setting {
                primaries: code,
                ..good
            };
            let transfer = Setting {
                transfer: code,
                ..good
            };
            self.call_within_depth('f', &primaries);
            self.call_within_depth('r', &transfer);
        }
    }

    /// Each depth in each place, and the three moved together so that they
    /// agree as long as the depth is served.
    pub fn every_depth(&mut self) {
        for kind in KINDS {
            for depth in DEPTHS {
                for place in 0..3 {
                    let mut s = settings::good(&mut self.random, kind);
                    settings::set_depth(&mut s, place, depth);
                    let letter = self.random.pick(&CALLS);
                    self.call_within_depth(letter, &s);
                }
                let mut s = settings::good(&mut self.random, kind);
                let base = s.rgb_depth;
                s.rgb_depth = depth;
                s.y_depth = depth.saturating_add(s.y_depth.saturating_sub(base));
                s.c_depth = depth.saturating_add(s.c_depth.saturating_sub(base));
                let letter = self.random.pick(&['f', 'r']);
                self.call_within_depth(letter, &s);
            }
        }
    }

    /// Each pair on each kind in each edition that has it.
    pub fn every_flag_pair(&mut self) {
        for kind in KINDS {
            for edition in kind.editions() {
                for pair in 0..4 {
                    let mut s = settings::good_in(&mut self.random, edition, kind);
                    s.rgb_full = pair / 2 == 1;
                    s.ycc_full = pair % 2 == 1;
                    let letter = self.random.pick(&['f', 'r']);
                    self.call_within_depth(letter, &s);
                }
            }
        }
    }

    /// Every set of broken rows out of 4, 5, 6, 7 and 10, under a matrix that
    /// is reserved, unspecified, not served and of each served kind, and under
    /// those that editions differ in.
    pub fn several_rows_broken(&mut self) {
        for matrix in [3, 2, 12, 0, 8, 15, 16, 17, 1] {
            for set in 0..32 {
                let edition = self.random.pick(&EDITIONS);
                let mut s = settings::good_but_for_matrix(&mut self.random, edition, matrix);
                for (bit, row) in [(8, 7), (4, 6), (2, 5), (1, 4)] {
                    if set & bit != 0 {
                        settings::break_row(&mut self.random, &mut s, row);
                    }
                }
                let third = CALLS[2 + self.random.below(5) as usize];
                for letter in ['f', 'r', third] {
                    let mut pixel = self.pixel(letter, &s);
                    if set & 16 != 0 {
                        pixel[self.random.below(3) as usize] = 65535;
                    }
                    self.call(letter, &s, pixel);
                }
            }
        }
    }
}
