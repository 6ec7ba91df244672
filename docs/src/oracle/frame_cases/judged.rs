//! Claimed frames that are judged: right ones, ones with wrong pixels, and ones
//! that are refused.

mod agreeing;
mod large;
mod refused;
mod wrong;

use super::frame::{needed, plane_words, Frame};
use super::Cases;
use crate::rules::{converted, Pixel, Setting, Size, Way};
use crate::settings;

/// The two conversions that are judged, by the letters of their frames.
const CONVERSIONS: [char; 2] = ['F', 'R'];

/// The planes in which a pixel can be wrong: one, two, or all three.
const PLANES: [&[usize]; 7] = [&[0], &[1], &[2], &[0, 1], &[0, 2], &[1, 2], &[0, 1, 2]];

/// One case: a frame to be converted, and what is claimed to come of it. The
/// claimed planes have the frame's output stride and its output lengths.
#[derive(Clone)]
struct Judged {
    frame: Frame,
    claimed: [Vec<u16>; 3],
}

impl Judged {
    /// A claimed sample.
    fn sample(&mut self, plane: usize, row: u64, column: u64) -> &mut u16 {
        let index = row * self.frame.output_stride + column;
        &mut self.claimed[plane][index as usize]
    }

    fn put(&mut self, row: u64, column: u64, pixel: Pixel) {
        for (plane, sample) in pixel.into_iter().enumerate() {
            *self.sample(plane, row, column) = sample;
        }
    }

    /// Claims the right pixel at every place.
    fn put_right(&mut self) {
        let frame = self.frame.clone();
        for row in 0..frame.size.height {
            for column in 0..frame.size.width {
                let index = (row * frame.source.stride + column) as usize;
                let from = [0, 1, 2].map(|plane: usize| frame.source.planes[plane][index]);
                self.put(row, column, converted(&frame.setting, frame.way(), from));
            }
        }
    }

    /// Claims 65535 everywhere.
    fn claim_largest(&mut self) {
        for plane in self.claimed.iter_mut() {
            plane.fill(65535);
        }
    }

    fn words(&self) -> String {
        let letter = match self.frame.way() {
            Way::Forward => 'J',
            Way::Reverse => 'K',
        };
        let mut words = self.frame.words_of_source(letter);
        for (plane, length) in self.claimed.iter().zip(self.frame.output_lengths) {
            words.extend(plane_words(&plane[..length]));
        }
        words.join(" ")
    }
}

impl Cases {
    pub fn judged_frames(&mut self) {
        self.judged_in_each_edition();
        self.wrong_beside_the_picture();
        self.wrong_at_every_place();
        self.several_wrong();
        self.all_wrong();
        self.off_by_one();
        self.claimed_past_depth();
        self.refused_settings_of_judged();
        self.sizes_of_judged();
        self.strides_of_judged();
        self.lengths_of_judged();
        self.bad_sources_of_judged();
        self.several_rows_of_judged_broken();
        self.wide();
        self.tall();
    }

    fn write_judged(&mut self, judged: &Judged) {
        self.text.push_str(&judged.words());
        self.text.push('\n');
    }

    /// A case that agrees, of an accepted frame.
    fn claimed_right(&mut self, frame: Frame) -> Judged {
        let claimed = frame.output_lengths.map(|length| self.noise(length));
        let mut judged = Judged { frame, claimed };
        judged.put_right();
        judged
    }

    /// The same at a setting, with little noise, since there are six planes.
    fn judged(&mut self, letter: char, s: Setting, size: Size) -> Judged {
        let more = [0; 2].map(|_| self.random.pick(&[0, 0, 1, 2]));
        let strides = more.map(|more| size.width + more);
        let mut frame = self.frame_with_strides(letter, s, size, strides);
        for plane in 0..3 {
            frame.source.planes[plane].truncate(needed(size, strides[0]) + 1);
            let length = &mut frame.output_lengths[plane];
            *length = (*length).min(needed(size, strides[1]) + 1);
        }
        self.claimed_right(frame)
    }

    fn tiny_size(&mut self) -> Size {
        Size {
            width: 1 + self.random.below(2),
            height: 1 + self.random.below(2),
        }
    }

    fn some_judged(&mut self, letter: char, size: Size) -> Judged {
        let kind = self.kind_for(letter);
        let s = settings::good(&mut self.random, kind);
        self.judged(letter, s, size)
    }

    /// With no 16-bit plane, so that every sample can be too large.
    fn shallow_judged(&mut self, letter: char, size: Size) -> Judged {
        let kind = self.kind_for(letter);
        let s = self.shallow(kind);
        self.judged(letter, s, size)
    }

    /// Makes a right pixel wrong in some planes: by the same bit in each, or by
    /// as much up in one as down in the next, which no sum of samples shows.
    fn make_wrong(&mut self, judged: &mut Judged, planes: &[usize], row: u64, column: u64) {
        let bit = 1 << self.random.below(16);
        let step = self.random.pick(&[1, 1, 2, 256, 32767]);
        let by_bit = self.random.flag();
        for (count, &plane) in planes.iter().enumerate() {
            let sample = judged.sample(plane, row, column);
            *sample = match count % 2 {
                _ if by_bit => *sample ^ bit,
                0 => sample.wrapping_add(step),
                _ => sample.wrapping_sub(step),
            };
        }
    }

    fn make_wrong_somewhere(&mut self, judged: &mut Judged) {
        let planes = self.random.pick(&PLANES);
        let row = self.random.below(judged.frame.size.height);
        let column = self.random.below(judged.frame.size.width);
        self.make_wrong(judged, planes, row, column);
    }
}
