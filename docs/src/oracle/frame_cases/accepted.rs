//! Frames that are converted and pictures that are checked, small and large.

use super::Cases;
use crate::kinds::{kinds_by_loss, Kind, EDITIONS, IDENTITY, KINDS};
use crate::pixels;
use crate::rules::{Setting, Size};
use crate::settings;

impl Cases {
    pub fn accepted(&mut self) {
        for kind in KINDS {
            for letter in ['F', 'R'] {
                for _ in 0..36 {
                    let s = settings::good(&mut self.random, kind);
                    let size = self.small_size();
                    let frame = self.frame(letter, s, size);
                    self.write(&frame);
                }
            }
        }
    }

    /// Image checks: all pixels with a source, one pixel without at each place
    /// of a small picture, and several without.
    pub fn images(&mut self) {
        for kind in kinds_by_loss(true) {
            for _ in 0..24 {
                let size = self.small_size();
                self.image(kind, size, &[]);
            }
            if kind == IDENTITY {
                continue;
            }
            let size = Size {
                width: 3,
                height: 2,
            };
            for place in 0..6 {
                self.image(kind, size, &[place]);
            }
            for _ in 0..30 {
                let size = self.small_size();
                let places = size.width * size.height;
                let none = [0; 3].map(|_| self.random.below(places));
                self.image(kind, size, &none);
            }
        }
    }

    /// `without` counts places row by row.
    fn image(&mut self, kind: Kind, size: Size, without: &[u64]) {
        let s = settings::good(&mut self.random, kind);
        let mut frame = self.frame('I', s, size);
        for place in without {
            let pixel = pixels::without_source(&mut self.random, &s);
            frame.put(place / size.width, place % size.width, pixel);
        }
        self.write(&frame);
    }

    /// The largest width, the largest height, many rows with padding, and the
    /// largest stride. Eight bits keep their lines short.
    pub fn large(&mut self) {
        let edition = self.random.pick(&EDITIONS);
        let eight = |matrix, c_depth| Setting {
            edition,
            primaries: 1,
            transfer: 13,
            matrix,
            rgb_depth: 8,
            y_depth: 8,
            c_depth,
            rgb_full: true,
            ycc_full: true,
        };
        let size = |width, height| Size { width, height };
        let frames = [
            ('F', eight(8, 9), size(8192, 1), [8192, 8192]),
            ('R', eight(0, 8), size(1, 8192), [1, 1]),
            ('F', eight(1, 8), size(1, 200), [3, 3]),
            ('R', eight(9, 8), size(1, 200), [3, 2]),
            ('I', eight(8, 9), size(1, 200), [3, 3]),
            ('F', eight(8, 8), size(2, 2), [2, 16384]),
        ];
        for (letter, setting, size, strides) in frames {
            let frame = self.frame_with_strides(letter, setting, size, strides);
            self.write(&frame);
        }
    }
}
