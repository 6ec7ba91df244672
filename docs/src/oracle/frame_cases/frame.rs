//! One frame case, and its line of words.

use crate::cases::setting_words;
use crate::rules::{Pixel, Setting, Side, Size, Way};

/// How many elements a plane has to have; only asked of small sizes.
pub fn needed(size: Size, stride: u64) -> usize {
    ((size.height - 1) * stride + size.width) as usize
}

/// One case. An image check has no output and leaves those fields unused.
#[derive(Clone)]
pub struct Frame {
    pub letter: char,
    pub setting: Setting,
    pub size: Size,
    pub source: Side,
    pub output_stride: u64,
    pub output_lengths: [usize; 3],
}

impl Frame {
    pub fn way(&self) -> Way {
        way_of(self.letter)
    }

    pub fn put(&mut self, row: u64, column: u64, pixel: Pixel) {
        let index = (row * self.source.stride + column) as usize;
        for (plane, sample) in self.source.planes.iter_mut().zip(pixel) {
            plane[index] = sample;
        }
    }

    pub fn words(&self, fill: u16) -> String {
        let mut words = self.words_of_source(self.letter);
        if self.letter != 'I' {
            words.extend(self.output_lengths.iter().map(usize::to_string));
            words.push(fill.to_string());
        }
        words.join(" ")
    }

    /// The words up to the source planes, these included, of a call.
    pub fn words_of_source(&self, letter: char) -> Vec<String> {
        let mut words = vec![
            letter.to_string(),
            setting_words(&self.setting),
            self.size.width.to_string(),
            self.size.height.to_string(),
            self.source.stride.to_string(),
        ];
        if letter != 'I' {
            words.push(self.output_stride.to_string());
        }
        for plane in &self.source.planes {
            words.extend(plane_words(plane));
        }
        words
    }
}

/// A plane's length, and then its elements.
pub fn plane_words(plane: &[u16]) -> Vec<String> {
    let mut words = vec![plane.len().to_string()];
    words.extend(plane.iter().map(u16::to_string));
    words
}

/// An image check reads the planes that a reverse conversion reads.
pub fn way_of(letter: char) -> Way {
    match letter {
        'F' => Way::Forward,
        _ => Way::Reverse,
    }
}
