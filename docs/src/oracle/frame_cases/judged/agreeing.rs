//! Claimed frames that agree, with noise or a wrong sample beside the picture,
//! and the same ones with a wrong pixel, in all three editions and in none.

use super::{Judged, CONVERSIONS};
use crate::frame_cases::Cases;
use crate::kinds::{Kind, EDITIONS, KINDS};
use crate::rules::Size;
use crate::settings;

impl Cases {
    /// Each kind by each of its numbers.
    pub fn judged_in_each_edition(&mut self) {
        for kind in KINDS {
            for letter in CONVERSIONS {
                let mut numbers = kind.editions();
                numbers.dedup_by_key(|edition| kind.code_in(*edition));
                for edition in numbers {
                    self.right_and_wrong(kind, letter, edition);
                }
            }
        }
    }

    fn right_and_wrong(&mut self, kind: Kind, letter: char, edition: u8) {
        let s = settings::good_in(&mut self.random, edition, kind);
        let size = self.tiny_size();
        let right = self.judged(letter, s, size);
        let mut wrong = right.clone();
        self.make_wrong_somewhere(&mut wrong);
        for edition in EDITIONS {
            self.write_judged_in(&right, edition);
            self.write_judged_in(&wrong, edition);
        }
        for edition in [0, 4, 255] {
            let case = if self.random.flag() { &right } else { &wrong };
            self.write_judged_in(case, edition);
        }
    }

    fn write_judged_in(&mut self, judged: &Judged, edition: u8) {
        let mut judged = judged.clone();
        judged.frame.setting.edition = edition;
        self.write_judged(&judged);
    }

    /// Both sides with padding and a tail. The source is within its depth there
    /// too and the claimed samples are right, all but one.
    pub fn wrong_beside_the_picture(&mut self) {
        let size = Size {
            width: 2,
            height: 2,
        };
        let whole = Size {
            width: 4,
            height: 3,
        };
        for letter in CONVERSIONS {
            for (plane, row, column) in [(0, 0, 2), (1, 0, 3), (2, 1, 2), (0, 1, 3), (2, 2, 0)] {
                let kind = self.kind_for(letter);
                let s = settings::good(&mut self.random, kind);
                let frame = self.frame_with_strides(letter, s, whole, [4, 4]);
                let mut judged = self.claimed_right(frame);
                judged.frame.size = size;
                self.make_wrong(&mut judged, &[plane], row, column);
                self.write_judged(&judged);
            }
        }
    }
}
