//! Wide and tall pictures with wrong pixels far apart. Samples of one digit, as
//! far as the matrix leaves them so, keep their lines short.

use super::{Judged, PLANES};
use crate::frame_cases::Cases;
use crate::kinds::PUBLISHED;
use crate::rules::{Setting, Size};

/// Columns of a row of 1100 at its ends and on both sides of powers of two, and
/// rows of a column of 300 likewise.
const COLUMNS: [u64; 8] = [0, 255, 256, 511, 512, 1023, 1024, 1099];
const ROWS: [u64; 4] = [0, 255, 256, 299];

/// Eight bits and full range on both sides.
fn of_matrix(matrix: u8) -> Setting {
    Setting {
        edition: PUBLISHED,
        primaries: 1,
        transfer: 13,
        matrix,
        rgb_depth: 8,
        y_depth: 8,
        c_depth: 8,
        rgb_full: true,
        ycc_full: true,
    }
}

impl Cases {
    /// One row, with wrong pixels in all columns from one on.
    pub fn wide(&mut self) {
        let size = Size {
            width: 1100,
            height: 1,
        };
        let cases = [
            ('F', 0, [1100, 1100], &COLUMNS[..]),
            ('F', 1, [1100, 1100], &COLUMNS[2..]),
            ('F', 0, [1103, 1107], &COLUMNS[6..]),
            ('R', 0, [1100, 1100], &COLUMNS[1..]),
            ('R', 0, [1100, 1100], &COLUMNS[4..]),
            ('R', 0, [1100, 1100], &COLUMNS[7..]),
        ];
        for (letter, matrix, strides, columns) in cases {
            let mut judged = self.judged_digits(letter, matrix, size, strides);
            for column in columns {
                let planes = self.random.pick(&PLANES);
                self.make_wrong(&mut judged, planes, 0, *column);
            }
            self.write_judged(&judged);
        }
    }

    /// One column, likewise.
    pub fn tall(&mut self) {
        let size = Size {
            width: 1,
            height: 300,
        };
        let cases = [
            ('F', [1, 1], &ROWS[1..]),
            ('R', [1, 1], &ROWS[..]),
            ('F', [2, 3], &ROWS[2..]),
        ];
        for (letter, strides, rows) in cases {
            let mut judged = self.judged_digits(letter, 0, size, strides);
            for row in rows {
                let planes = self.random.pick(&PLANES);
                self.make_wrong(&mut judged, planes, *row, 0);
            }
            self.write_judged(&judged);
        }
    }

    /// A case that agrees, with one digit in each sample of the source and in
    /// each element beside the picture. Its planes end with the last row's
    /// padding.
    fn judged_digits(&mut self, letter: char, matrix: u8, size: Size, strides: [u64; 2]) -> Judged {
        let mut frame = self.frame_with_strides(letter, of_matrix(matrix), size, strides);
        let lengths = strides.map(|stride| (size.height * stride) as usize);
        frame.source.planes = [0; 3].map(|_| self.digits(lengths[0]));
        frame.output_lengths = [lengths[1]; 3];
        let claimed = [0; 3].map(|_| self.digits(lengths[1]));
        let mut judged = Judged { frame, claimed };
        judged.put_right();
        judged
    }

    fn digits(&mut self, length: usize) -> Vec<u16> {
        (0..length).map(|_| self.random.below(10) as u16).collect()
    }
}
