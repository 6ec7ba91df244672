//! The same frame in all three editions, and without one.

use super::frame::Frame;
use super::{Cases, CALLS};
use crate::kinds::{EDITIONS, KINDS};
use crate::rules::Size;
use crate::settings::{self, NO_EDITIONS};

impl Cases {
    /// Small, since every frame stands here more than once.
    pub fn smaller_size(&mut self) -> Size {
        Size {
            width: 1 + self.random.below(3),
            height: 1 + self.random.below(2),
        }
    }

    fn write_in_edition(&mut self, frame: &mut Frame, edition: u8) {
        frame.setting.edition = edition;
        self.write(frame);
    }

    /// A frame of each kind by each of its numbers, in all three editions. One
    /// that has the number for something else, or for nothing, refuses it.
    pub fn every_kind_in_each_edition(&mut self) {
        for kind in KINDS {
            let calls: &[char] = if kind.lossless { &CALLS } else { &['F', 'R'] };
            for letter in calls {
                let mut numbers = kind.editions();
                numbers.dedup_by_key(|edition| kind.code_in(*edition));
                for edition in numbers {
                    let s = settings::good_in(&mut self.random, edition, kind);
                    let size = self.smaller_size();
                    let mut frame = self.frame(*letter, s, size);
                    for edition in EDITIONS {
                        self.write_in_edition(&mut frame, edition);
                    }
                }
            }
        }
    }

    /// Numbers that stand for no edition where nothing else is at fault, and
    /// where each row of a setting is. The output is zeroed all the same.
    pub fn refused_for_edition(&mut self) {
        for letter in CALLS {
            let size = self.smaller_size();
            let kind = self.kind_for(letter);
            let s = settings::good(&mut self.random, kind);
            let mut frame = self.frame(letter, s, size);
            for edition in NO_EDITIONS {
                self.write_in_edition(&mut frame, edition);
            }
            for row in 1..=7 {
                let mut broken = frame.clone();
                broken.setting = s;
                settings::break_row(&mut self.random, &mut broken.setting, row);
                let edition = self.random.pick(&NO_EDITIONS);
                self.write_in_edition(&mut broken, edition);
            }
        }
    }
}
