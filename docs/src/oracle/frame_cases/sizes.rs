//! Refusals 8 and 9: sides, strides and lengths at their ends.

use super::frame::{needed, Frame};
use super::{Cases, CALLS};
use crate::rules::Size;
use crate::settings;

/// Sides of a picture that are not served. Cut down to 16 or 32 bits, some of
/// them would be.
pub const BAD_SIDES: [u64; 7] = [
    0,
    8193,
    16384,
    65537,
    (1 << 32) + 1,
    (1 << 63) + 1,
    u64::MAX,
];

/// Strides that are refused for being large, likewise.
pub const LARGE_STRIDES: [u64; 5] = [16385, 65536 + 8, (1 << 32) + 8, 1 << 63, u64::MAX];

impl Cases {
    /// Gives one plane of the case a length; planes 3 to 5 are the output's.
    pub fn set_length(&mut self, frame: &mut Frame, plane: usize, length: usize) {
        if plane >= 3 {
            frame.output_lengths[plane - 3] = length;
            return;
        }
        let noise = self.noise(length);
        let held = frame.source.planes[plane].len();
        frame.source.planes[plane].truncate(length);
        if held < length {
            frame.source.planes[plane].extend(&noise[held..]);
        }
    }

    pub fn planes_of(letter: char) -> usize {
        match letter {
            'I' => 3,
            _ => 6,
        }
    }

    pub fn least_length(frame: &Frame, plane: usize) -> usize {
        let stride = if plane < 3 {
            frame.source.stride
        } else {
            frame.output_stride
        };
        needed(frame.size, stride)
    }

    /// Each plane empty, one short, just long enough, one more, much longer;
    /// some of the short ones with a bad sample too, which then must not show.
    pub fn lengths(&mut self) {
        for letter in CALLS {
            for plane in 0..Cases::planes_of(letter) {
                for change in 0..5 {
                    for repeat in 0..3 {
                        let kind = self.kind_for(letter);
                        let s = self.shallow(kind);
                        let size = self.small_size();
                        let mut frame = self.frame(letter, s, size);
                        if repeat == 2 {
                            self.spoil_somewhere(&mut frame);
                        }
                        let least = Cases::least_length(&frame, plane);
                        let length = [0, least - 1, least, least + 1, least + 60][change];
                        self.set_length(&mut frame, plane, length);
                        self.write(&frame);
                    }
                }
            }
            self.all_empty(letter);
        }
    }

    fn all_empty(&mut self, letter: char) {
        let kind = self.kind_for(letter);
        let s = settings::good(&mut self.random, kind);
        let size = self.small_size();
        let mut frame = self.frame(letter, s, size);
        for plane in 0..6 {
            self.set_length(&mut frame, plane, 0);
        }
        self.write(&frame);
    }

    /// Sides at and past their ends, with the strides left and with strides
    /// that would fit the width. A good side that is too large for the planes
    /// has to come out as refusal 9.
    pub fn sizes(&mut self) {
        let sides = BAD_SIDES.iter().copied().chain([8191, 8192]);
        for side in sides {
            for letter in CALLS {
                let mut wide = self.some_frame(letter, 1);
                wide.size.width = side;
                self.write(&wide);
                wide.source.stride = side.max(1);
                wide.output_stride = side.max(1);
                self.write(&wide);
                let mut tall = self.some_frame(letter, 2);
                tall.size.height = side;
                self.write(&tall);
                tall.size.width = side;
                tall.source.stride = 16384;
                tall.output_stride = 16384;
                self.write(&tall);
            }
        }
    }

    /// Strides below the width and above their end on either side. One row
    /// alone never needs its stride, and is refused for it all the same.
    pub fn strides(&mut self) {
        for letter in CALLS {
            for height in [1, 2] {
                for stride in [0, 3, 4, 16383, 16384].iter().chain(&LARGE_STRIDES) {
                    let kind = self.kind_for(letter);
                    let s = settings::good(&mut self.random, kind);
                    let frame = self.frame(letter, s, Size { width: 4, height });
                    let mut of_source = frame.clone();
                    of_source.source.stride = *stride;
                    self.write(&of_source);
                    if letter != 'I' {
                        let mut of_output = frame;
                        of_output.output_stride = *stride;
                        self.write(&of_output);
                    }
                }
            }
        }
    }

    pub fn break_size(&mut self, frame: &mut Frame) {
        let side = self.random.pick(&BAD_SIDES);
        let large = self.random.pick(&LARGE_STRIDES);
        let small = frame.size.width - 1;
        match self.random.below(6) {
            0 => frame.size.width = side,
            1 => frame.size.height = side,
            2 => frame.source.stride = large,
            3 => frame.source.stride = small,
            4 if frame.letter != 'I' => frame.output_stride = large,
            _ => {
                frame.source.stride = small;
                frame.output_stride = small;
            }
        }
    }
}
