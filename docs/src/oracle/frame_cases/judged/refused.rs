//! Claimed frames that are not judged: every refusal, and several at once. What
//! is claimed is right, wrong or too large, and never the reason.

use super::{Judged, CONVERSIONS};
use crate::frame_cases::frame::needed;
use crate::frame_cases::sizes::{BAD_SIDES, LARGE_STRIDES};
use crate::frame_cases::Cases;
use crate::rules::Size;
use crate::settings;

impl Cases {
    fn tiny_judged(&mut self, letter: char) -> Judged {
        let size = self.tiny_size();
        self.shallow_judged(letter, size)
    }

    /// Leaves the claimed samples right, makes one pixel wrong, or makes all of
    /// them too large.
    fn make_wrong_perhaps(&mut self, judged: &mut Judged) {
        match self.random.below(3) {
            0 => self.make_wrong_somewhere(judged),
            1 => judged.claim_largest(),
            _ => {}
        }
    }

    /// Refusals 12 and 1 to 7.
    pub fn refused_settings_of_judged(&mut self) {
        for letter in CONVERSIONS {
            for row in [12, 1, 2, 3, 4, 5, 6, 7] {
                for _ in 0..3 {
                    let mut judged = self.tiny_judged(letter);
                    self.make_wrong_perhaps(&mut judged);
                    settings::break_row(&mut self.random, &mut judged.frame.setting, row);
                    self.write_judged(&judged);
                }
            }
        }
    }

    /// Refusal 8 for a side; and a side that is good and too large for the
    /// planes, which comes out as refusal 9.
    pub fn sizes_of_judged(&mut self) {
        for side in BAD_SIDES.iter().copied().chain([8192]) {
            for letter in CONVERSIONS {
                let mut wide = self.tiny_judged(letter);
                wide.frame.size.width = side;
                wide.frame.source.stride = side.max(1);
                wide.frame.output_stride = side.max(1);
                self.write_judged(&wide);
                let mut tall = self.tiny_judged(letter);
                tall.frame.size.height = side;
                self.write_judged(&tall);
            }
        }
    }

    /// Refusal 8 for either stride, also of one row, which never needs it. The
    /// largest one that is served agrees there, and gets 9 where a second row
    /// would have to be read.
    pub fn strides_of_judged(&mut self) {
        let small = [(0, 1), (1, 1), (0, 2), (1, 2), (16384, 1), (16384, 2)];
        let large = LARGE_STRIDES.map(|stride| (stride, 1));
        for letter in CONVERSIONS {
            for &(stride, height) in small.iter().chain(&large) {
                let judged = self.some_judged(letter, Size { width: 2, height });
                let mut of_source = judged.clone();
                of_source.frame.source.stride = stride;
                self.write_judged(&of_source);
                let mut of_claimed = judged;
                of_claimed.frame.output_stride = stride;
                self.write_judged(&of_claimed);
            }
        }
    }

    /// Each of the six planes one element short and just long enough, and all
    /// of them empty; some of the short ones with a bad sample in the source
    /// too, which then must not show.
    pub fn lengths_of_judged(&mut self) {
        for letter in CONVERSIONS {
            for plane in 0..6 {
                for short in [0, 1] {
                    let mut judged = self.tiny_judged(letter);
                    self.make_wrong_perhaps(&mut judged);
                    if short == 1 && self.random.flag() {
                        self.spoil_somewhere(&mut judged.frame);
                    }
                    let least = Cases::least_length(&judged.frame, plane);
                    self.set_length(&mut judged.frame, plane, least - short);
                    self.write_judged(&judged);
                }
            }
            let mut empty = self.tiny_judged(letter);
            for plane in 0..6 {
                self.set_length(&mut empty.frame, plane, 0);
            }
            self.write_judged(&empty);
        }
    }

    /// Refusal 10, at each place of each source plane, and in the very last
    /// element that it has.
    pub fn bad_sources_of_judged(&mut self) {
        let size = Size {
            width: 3,
            height: 2,
        };
        for letter in CONVERSIONS {
            for plane in 0..3 {
                for place in 0..6 {
                    let mut judged = self.shallow_judged(letter, size);
                    self.make_wrong_perhaps(&mut judged);
                    self.spoil(&mut judged.frame, plane, place / 3, place % 3);
                    if place == 5 {
                        let least = needed(size, judged.frame.source.stride);
                        self.set_length(&mut judged.frame, plane, least);
                    }
                    self.write_judged(&judged);
                }
            }
        }
    }

    /// Every set of broken rows out of 1 to 7 (as one), 8, 9 and 10, in an
    /// edition and without one.
    pub fn several_rows_of_judged_broken(&mut self) {
        for letter in CONVERSIONS {
            for set in (0..32).filter(|set| set & 2 == 0) {
                for in_edition in [true, true, false] {
                    let mut judged = self.tiny_judged(letter);
                    self.make_wrong_perhaps(&mut judged);
                    self.break_rows(&mut judged.frame, set);
                    if !in_edition {
                        settings::break_row(&mut self.random, &mut judged.frame.setting, 12);
                    }
                    self.write_judged(&judged);
                }
            }
        }
    }
}
