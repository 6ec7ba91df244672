//! Claimed frames that are judged, with their judgements worked out by hand.

use super::Line;

/// Claimed frames of 2 by 2 at code 0, which shows what is right at a glance:
/// Y is G, Cb is B and Cr is R. Then smaller ones, some of them the other way.
pub const JUDGED: [Line; 13] = [
    (
        "J 3 1 1 0 8 8 8 1 1 2 2 2 2 4 1 2 3 4 4 5 6 7 8 4 9 8 7 6 4 5 6 7 8 4 9 8 7 6 4 1 2 3 4",
        "agrees",
    ),
    // Cr of the second pixel and Y of the third: neither the lowest plane nor
    // the lowest column comes first.
    (
        "J 3 1 1 0 8 8 8 1 1 2 2 2 2 4 1 2 3 4 4 5 6 7 8 4 9 8 7 6 4 5 6 0 8 4 9 8 7 6 4 1 0 3 4",
        "differs row 0 column 1 wrong 2",
    ),
    // Three pixels, each in one plane.
    (
        "J 3 1 1 0 8 8 8 1 1 2 2 2 2 4 1 2 3 4 4 5 6 7 8 4 9 8 7 6 4 5 6 7 0 4 9 8 0 6 4 1 0 3 4",
        "differs row 0 column 1 wrong 3",
    ),
    // One pixel, in all three planes.
    (
        "J 3 1 1 0 8 8 8 1 1 2 2 2 2 4 1 2 3 4 4 5 6 7 8 4 9 8 7 6 4 5 6 7 0 4 9 8 7 0 4 1 2 3 0",
        "differs row 1 column 1 wrong 1",
    ),
    (
        "J 3 1 1 0 8 8 8 1 1 2 2 2 2 4 1 2 3 4 4 5 6 7 8 4 9 8 7 6 4 0 0 0 0 4 9 8 7 6 4 1 2 3 4",
        "differs row 0 column 0 wrong 4",
    ),
    // Padding on both sides, and an element past the last row.
    (
        "J 3 1 1 0 8 8 8 1 1 1 2 2 3 3 1 999 2 4 3 999 4 9 3 5 0 6 4 3 0 0 4 4 5 1 1 6 5 1 0 0 2 9",
        "agrees",
    ),
    // Above its depth, and right but for that.
    (
        "J 3 1 1 0 8 8 8 1 1 1 1 1 1 1 1 1 2 1 3 1 2 1 259 1 1",
        "differs row 0 column 0 wrong 1",
    ),
    (
        "K 3 1 1 0 8 8 8 1 1 1 3 1 1 3 1 2 3 3 4 5 6 3 7 8 9 3 7 8 9 3 1 2 3 3 4 5 6",
        "agrees",
    ),
    (
        "K 3 1 1 0 8 8 8 1 1 1 3 1 1 3 1 2 3 3 4 5 6 3 7 8 9 3 7 8 0 3 1 0 3 3 4 5 6",
        "differs row 1 column 0 wrong 2",
    ),
    // Two samples of a pixel in each other's place.
    (
        "K 3 1 1 0 8 8 8 1 1 1 3 1 1 3 1 2 3 3 4 5 6 3 7 8 9 3 1 8 9 3 7 2 3 3 4 5 6",
        "differs row 0 column 0 wrong 1",
    ),
    // The worked frame; then lossy, where 0, 255, 0 comes back as 1, 255, 1.
    (
        "J 3 1 1 8 8 8 9 1 1 2 1 3 3 3 255 0 7 3 0 255 7 3 0 0 7 2 63 127 2 129 511 2 511 256",
        "agrees",
    ),
    (
        "K 3 1 1 8 8 8 8 1 1 1 1 1 1 1 128 1 255 1 128 1 0 1 255 1 0",
        "differs row 0 column 0 wrong 1",
    ),
    (
        "K 3 1 1 8 8 8 8 1 1 1 1 1 1 1 128 1 255 1 128 1 1 1 255 1 1",
        "agrees",
    ),
];

/// A judgement mended row after row, until it agrees.
pub const JUDGED_ORDER: [Line; 16] = [
    (
        "K 0 0 0 18 99 8 9 0 1 1 1 1 0 1 65535 1 256 1 256 1 9 1 9 0",
        "refused 12",
    ),
    (
        "K 3 0 0 18 99 8 9 0 1 1 1 1 0 1 65535 1 256 1 256 1 9 1 9 0",
        "refused 1",
    ),
    (
        "K 3 0 0 2 99 8 9 0 1 1 1 1 0 1 65535 1 256 1 256 1 9 1 9 0",
        "refused 2",
    ),
    (
        "K 3 0 0 12 99 8 9 0 1 1 1 1 0 1 65535 1 256 1 256 1 9 1 9 0",
        "refused 3",
    ),
    (
        "K 3 0 0 8 99 8 9 0 1 1 1 1 0 1 65535 1 256 1 256 1 9 1 9 0",
        "refused 4",
    ),
    (
        "K 3 1 0 8 99 8 9 0 1 1 1 1 0 1 65535 1 256 1 256 1 9 1 9 0",
        "refused 5",
    ),
    (
        "K 3 1 1 8 99 8 9 0 1 1 1 1 0 1 65535 1 256 1 256 1 9 1 9 0",
        "refused 6",
    ),
    (
        "K 3 1 1 8 8 8 9 0 1 1 1 1 0 1 65535 1 256 1 256 1 9 1 9 0",
        "refused 7",
    ),
    (
        "K 3 1 1 8 8 8 9 1 1 1 1 1 0 1 65535 1 256 1 256 1 9 1 9 0",
        "refused 8",
    ),
    (
        "K 3 1 1 8 8 8 9 1 1 1 1 0 1 1 65535 1 256 1 256 1 9 1 9 0",
        "refused 8",
    ),
    (
        "K 3 1 1 8 8 8 9 1 1 1 1 1 1 1 65535 1 256 1 256 1 9 1 9 0",
        "refused 9",
    ),
    (
        "K 3 1 1 8 8 8 9 1 1 1 1 1 1 1 65535 1 256 0 1 9 1 9 1 9",
        "refused 9",
    ),
    (
        "K 3 1 1 8 8 8 9 1 1 1 1 1 1 1 65535 1 256 1 256 1 9 1 9 1 9",
        "refused 10 plane 0 row 0 column 0 sample 65535",
    ),
    (
        "K 3 1 1 8 8 8 9 1 1 1 1 1 1 1 0 1 256 1 256 1 999 1 9 1 9",
        "differs row 0 column 0 wrong 1",
    ),
    (
        "K 3 1 1 8 8 8 9 1 1 1 1 1 1 1 0 1 256 1 256 1 0 1 0 1 9",
        "differs row 0 column 0 wrong 1",
    ),
    (
        "K 3 1 1 8 8 8 9 1 1 1 1 1 1 1 0 1 256 1 256 1 0 1 0 1 0",
        "agrees",
    ),
];
