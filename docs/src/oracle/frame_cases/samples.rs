//! Refusal 10: samples past their depth.

use super::frame::needed;
use super::{Cases, CALLS};
use crate::rules::Size;

impl Cases {
    pub fn bad_sample_at_every_place(&mut self) {
        for letter in CALLS {
            for plane in 0..3 {
                for place in 0..6 {
                    for _ in 0..2 {
                        let kind = self.kind_for(letter);
                        let s = self.shallow(kind);
                        let size = Size {
                            width: 3,
                            height: 2,
                        };
                        let mut frame = self.frame(letter, s, size);
                        self.spoil(&mut frame, plane, place / 3, place % 3);
                        self.write(&frame);
                    }
                }
            }
        }
    }

    /// Up to four bad samples anywhere, and bad ones in the very last element
    /// that the planes have.
    pub fn several_bad_samples(&mut self) {
        for letter in CALLS {
            for count in 0..60 {
                let kind = self.kind_for(letter);
                let s = self.shallow(kind);
                let size = self.small_size();
                let mut frame = self.frame(letter, s, size);
                for _ in 0..=count % 4 {
                    self.spoil_somewhere(&mut frame);
                }
                self.write(&frame);
            }
            for plane in [0, 1, 2, 2, 2, 2] {
                let kind = self.kind_for(letter);
                let s = self.shallow(kind);
                let size = self.small_size();
                let mut frame = self.frame(letter, s, size);
                let length = needed(size, frame.source.stride);
                for plane in frame.source.planes.iter_mut() {
                    plane.truncate(length);
                }
                self.spoil(&mut frame, plane, size.height - 1, size.width - 1);
                self.write(&frame);
            }
        }
    }
}
