//! Refusals 12, 1 to 7 and 11, and every set of rows broken at once.

use super::frame::Frame;
use super::{Cases, CALLS};
use crate::kinds::kinds_by_loss;
use crate::settings;

impl Cases {
    /// Refusals 12 and 1 to 7 of every call, and 11 of the image check.
    pub fn refused_settings(&mut self) {
        for letter in CALLS {
            for row in [12, 1, 2, 3, 4, 5, 6, 7] {
                for _ in 0..10 {
                    let size = self.small_size();
                    let mut frame = self.some_frame(letter, size.height);
                    settings::break_row(&mut self.random, &mut frame.setting, row);
                    self.write(&frame);
                }
            }
        }
        for kind in kinds_by_loss(false) {
            for _ in 0..6 {
                let s = settings::good(&mut self.random, kind);
                let size = self.small_size();
                let mut frame = self.frame('R', s, size);
                frame.letter = 'I';
                self.write(&frame);
            }
        }
    }

    /// Every set of broken rows out of 1 to 7 (as one), 11, 8, 9 and 10, in an
    /// edition and without one.
    pub fn several_rows_broken(&mut self) {
        for letter in CALLS {
            for set in 0..32 {
                let not_lossless = set & 2 != 0;
                if not_lossless && letter != 'I' {
                    continue;
                }
                for _ in 0..4 {
                    let frame = self.broken(letter, not_lossless, set);
                    self.write(&frame);
                }
                let mut frame = self.broken(letter, not_lossless, set);
                settings::break_row(&mut self.random, &mut frame.setting, 12);
                self.write(&frame);
            }
        }
    }

    fn broken(&mut self, letter: char, not_lossless: bool, set: u32) -> Frame {
        let kind = if not_lossless {
            self.random.pick(&kinds_by_loss(false))
        } else {
            self.kind_for(letter)
        };
        let s = self.shallow(kind);
        let size = self.small_size();
        let made_as = if not_lossless { 'R' } else { letter };
        let mut frame = self.frame(made_as, s, size);
        frame.letter = letter;
        self.break_rows(&mut frame, set);
        frame
    }

    /// Breaks the rows of a set in a good frame: 16 for row 10, 8 for 9, 4 for
    /// 8, and 1 for one of 1 to 7.
    pub fn break_rows(&mut self, frame: &mut Frame, set: u32) {
        if set & 16 != 0 {
            self.spoil_somewhere(frame);
        }
        if set & 8 != 0 {
            let plane = self.random.below(Cases::planes_of(frame.letter) as u64) as usize;
            let least = Cases::least_length(frame, plane) as u64;
            let length = self.random.below(least) as usize;
            self.set_length(frame, plane, length);
        }
        if set & 4 != 0 {
            self.break_size(frame);
        }
        if set & 1 != 0 {
            // Often 7, the last row before those of sizes and samples.
            let row = self.random.pick(&[1, 2, 3, 4, 5, 6, 7, 7, 7, 7]);
            settings::break_row(&mut self.random, &mut frame.setting, row);
        }
    }
}
