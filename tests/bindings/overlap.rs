//! Must not compile: one buffer as two planes of an output (E0499), and a source that the same call writes over (E0502).

use corkplover::*;

pub fn one_buffer_twice(s: &Setting, source: Source, plane: &mut [u16], other: &mut [u16]) {
    let mut output = Output { planes: [plane, plane, other], stride: 1 };
    let _ = forward_frame(s, 1, 1, source, &mut output);
}

pub fn in_place(s: &Setting, planes: &mut [Vec<u16>; 3]) {
    let source = Source { planes: [&planes[0], &planes[1], &planes[2]], stride: 1 };
    let [a, b, c] = planes;
    let _ = forward_frame(s, 1, 1, source, &mut Output { planes: [a, b, c], stride: 1 });
}
