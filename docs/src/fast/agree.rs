//! Holds the yardstick to the box's answers: converted frames, padding and refusals.

use crate::converters::{by_biased_yardstick, by_box, by_yardstick};
use crate::pictures::{self, Planes, Shape};
use crate::setting::{Setting, Way};

const PADDED: Shape = Shape { width: 33, height: 5, source_stride: 40, output_stride: 57 };

/// Panics where one of the two answers a case otherwise than the box.
pub fn yardstick_agrees(s: &Setting, large: Shape) {
    assert_same(s, &large, &source(&large), large.output_length());
    assert_same(s, &PADDED, &source(&PADDED), PADDED.output_length() + 21);
    assert_same(s, &PADDED, &source(&PADDED), PADDED.output_length() - PADDED.output_stride + PADDED.width);
    assert_same(s, &PADDED, &source(&PADDED), PADDED.output_length() - PADDED.output_stride + PADDED.width - 1);
    for bad in [&[(2, 0, 1)][..], &[(1, 4, 32)], &[(2, 0, 0), (1, 3, 30), (1, 3, 31)], &[(0, 0, 33)]] {
        let mut planes = source(&PADDED);
        for &(plane, row, column) in bad {
            planes[plane][row * PADDED.source_stride + column] = 256 + column as u16;
        }
        assert_same(s, &PADDED, &planes, PADDED.output_length());
    }
    let sizes = [(0, 1, 1, 1), (1, 0, 1, 1), (8193, 1, 8193, 8193), (1, 8193, 1, 1), (2, 2, 1, 2), (2, 2, 2, 16_385), (3, 2, 9, 9)];
    for (width, height, source_stride, output_stride) in sizes {
        assert_same(s, &Shape { width, height, source_stride, output_stride }, &pictures::random(11, [8; 3]), 11);
    }
}

fn source(shape: &Shape) -> Planes {
    pictures::random(shape.source_length(), [8; 3])
}

fn assert_same(s: &Setting, shape: &Shape, source: &Planes, output_length: usize) {
    let [mut ours, mut plain, mut biased] = [(); 3].map(|_| pictures::filled(output_length));
    let from = pictures::to_read(source);
    let answer = by_box(s, Way::Forward, shape, from, pictures::to_write(&mut ours));
    assert_eq!(answer, by_yardstick(shape, from, pictures::to_write(&mut plain)), "the yardstick's answer");
    assert_eq!(answer, by_biased_yardstick(shape, from, pictures::to_write(&mut biased)), "the biased yardstick's answer");
    assert!(ours == plain, "the yardstick's planes");
    assert!(ours == biased, "the biased yardstick's planes");
}
