//! Claimed frames with wrong pixels: one, several and all of them.

use super::{Judged, CONVERSIONS, PLANES};
use crate::frame_cases::Cases;
use crate::kinds::{Kind, IDENTITY, KINDS};
use crate::rules::{output_depths, Size};
use crate::settings;

/// Wrong samples of a picture of 3 by 3, by plane, row and column. The first
/// wrong pixel is never in the lowest plane of them, and often a later row has
/// one in a lower column.
const SCATTERED: [&[(usize, u64, u64)]; 8] = [
    &[(2, 0, 1), (0, 1, 0)],
    &[(1, 0, 2), (0, 2, 0)],
    &[(2, 0, 2), (1, 1, 1), (0, 2, 0)],
    &[(2, 1, 1), (0, 2, 0), (1, 2, 2)],
    &[(1, 1, 2), (0, 2, 1)],
    &[(2, 0, 0), (0, 0, 2)],
    &[(2, 1, 0), (1, 1, 1), (0, 1, 2)],
    &[(2, 2, 0), (0, 2, 1)],
];

const THREE_BY_TWO: Size = Size {
    width: 3,
    height: 2,
};

impl Cases {
    pub fn wrong_at_every_place(&mut self) {
        for letter in CONVERSIONS {
            for planes in PLANES {
                for place in 0..6 {
                    let mut judged = self.some_judged(letter, THREE_BY_TWO);
                    self.make_wrong(&mut judged, planes, place / 3, place % 3);
                    self.write_judged(&judged);
                }
            }
        }
    }

    pub fn several_wrong(&mut self) {
        let size = Size {
            width: 3,
            height: 3,
        };
        for letter in CONVERSIONS {
            for places in SCATTERED {
                let mut judged = self.some_judged(letter, size);
                for (plane, row, column) in places {
                    self.make_wrong(&mut judged, &[*plane], *row, *column);
                }
                self.write_judged(&judged);
            }
            for count in 2..=6 {
                let mut judged = self.some_judged(letter, THREE_BY_TWO);
                self.make_some_wrong(&mut judged, count);
                self.write_judged(&judged);
            }
        }
    }

    /// So many pixels, in any places, each in planes of its own.
    fn make_some_wrong(&mut self, judged: &mut Judged, count: usize) {
        let width = judged.frame.size.width;
        let mut places: Vec<u64> = (0..width * judged.frame.size.height).collect();
        self.random.shuffle(&mut places);
        for place in &places[..count] {
            let planes = self.random.pick(&PLANES);
            self.make_wrong(judged, planes, place / width, place % width);
        }
    }

    pub fn all_wrong(&mut self) {
        for kind in KINDS {
            for letter in CONVERSIONS {
                let mut judged = self.judged_of_kind(letter, kind);
                let Size { width, height } = judged.frame.size;
                self.make_some_wrong(&mut judged, (width * height) as usize);
                self.write_judged(&judged);
            }
        }
    }

    /// One sample in each plane of each kind: an even one is one too high, an
    /// odd one is one too low.
    pub fn off_by_one(&mut self) {
        for kind in KINDS {
            for letter in CONVERSIONS {
                for plane in 0..3 {
                    let mut judged = self.judged_of_kind(letter, kind);
                    let row = self.random.below(judged.frame.size.height);
                    let column = self.random.below(judged.frame.size.width);
                    *judged.sample(plane, row, column) ^= 1;
                    self.write_judged(&judged);
                }
            }
        }
    }

    fn judged_of_kind(&mut self, letter: char, kind: Kind) -> Judged {
        let s = settings::good(&mut self.random, kind);
        let size = self.smaller_size();
        self.judged(letter, s, size)
    }

    /// Claimed samples that are right but for a bit above their depth, or that
    /// a Clip would make right; and all of them as large as can be.
    pub fn claimed_past_depth(&mut self) {
        for letter in CONVERSIONS {
            for plane in 0..3 {
                for place in [0, 4] {
                    let mut judged = self.shallow_judged(letter, THREE_BY_TWO);
                    let s = judged.frame.setting;
                    let depth = output_depths(&s, judged.frame.way())[plane];
                    *judged.sample(plane, place / 3, place % 3) |= 1 << depth;
                    self.write_judged(&judged);
                }
                self.past_the_largest(letter, plane);
            }
            for _ in 0..4 {
                let mut judged = self.shallow_judged(letter, THREE_BY_TWO);
                judged.claim_largest();
                self.write_judged(&judged);
            }
        }
    }

    fn past_the_largest(&mut self, letter: char, plane: usize) {
        let s = self.shallow(IDENTITY);
        let size = self.smaller_size();
        let mut frame = self.frame(letter, s, size);
        let largest = (1 << s.rgb_depth) - 1;
        frame.put(size.height - 1, size.width - 1, [largest; 3]);
        let mut judged = self.claimed_right(frame);
        let past = self.random.from_on(largest + 1);
        *judged.sample(plane, size.height - 1, size.width - 1) = past;
        self.write_judged(&judged);
    }
}
