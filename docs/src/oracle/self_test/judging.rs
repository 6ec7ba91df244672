//! Checks the judging of claimed frames against differences that were planted.

use super::{Checked, Test};
use crate::kinds::KINDS;
use crate::pixels;
use crate::random::Random;
use crate::rules::{convert_frame, judge_frame, Difference, Setting, Side, Size, Way};
use crate::settings;
use std::collections::BTreeSet;

const SIZE: Size = Size {
    width: 5,
    height: 4,
};

/// Three planes for a picture of `SIZE` with the number in every element.
fn planes_of(stride: u64, number: u16) -> Side {
    let length = (SIZE.height * stride + 3) as usize;
    Side {
        stride,
        planes: [0; 3].map(|_| vec![number; length]),
    }
}

impl Test {
    /// Frames that the converter made, with wrong samples planted in known
    /// pixels: none, a few and many, some of them twice in one pixel.
    pub fn planted_differences(&mut self) -> Checked {
        let mut random = Random::new(12);
        for kind in KINDS {
            for way in [Way::Forward, Way::Reverse] {
                for samples in [0, 1, 1, 1, 2, 2, 3, 5, 9, 40] {
                    let s = settings::good(&mut random, kind);
                    self.planted(&mut random, &s, way, samples)?;
                }
            }
        }
        Ok(())
    }

    fn planted(&mut self, random: &mut Random, s: &Setting, way: Way, samples: u32) -> Checked {
        let mut source = planes_of(7, 65535);
        for place in 0..SIZE.width * SIZE.height {
            let index = (place / SIZE.width * source.stride + place % SIZE.width) as usize;
            let pixel = pixels::within_depth(random, s, way);
            (0..3).for_each(|plane| source.planes[plane][index] = pixel[plane]);
        }
        let mut right = planes_of(6, 0);
        convert_frame(s, way, SIZE, &source, &mut right).map_err(|no| format!("{:?}", no))?;
        let mut claimed = right.clone();
        let mut wrong = BTreeSet::new();
        for _ in 0..samples {
            let (row, column) = (random.below(SIZE.height), random.below(SIZE.width));
            let plane = random.below(3) as usize;
            let index = (row * claimed.stride + column) as usize;
            claimed.planes[plane][index] = right.planes[plane][index] ^ (1 << random.below(16));
            wrong.insert((row, column));
        }
        let first = wrong.iter().next().map(|&(row, column)| Difference {
            row,
            column,
            wrong: wrong.len() as u64,
        });
        let what = || format!("{:?} wrong on {:?} {:?}", wrong, s, way);
        self.equal(
            &what,
            judge_frame(s, way, SIZE, &source, &claimed),
            Ok(first),
        )
    }
}
