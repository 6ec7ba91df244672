//! The rules' worked examples, typed in as cases with their answers, and lines
//! of ours for what docs/RULES.md says in words.

mod judged;
mod records;

pub use judged::{JUDGED, JUDGED_ORDER};
pub use records::{PICKS, RECORDS, RECORD_ORDER};

/// A case line and its answer; a frame answer has its lines in one text.
pub type Line = (&'static str, &'static str);

/// The worked pixels. Where an example leaves the flags open, both pairs of
/// equal flags are here.
pub const PIXELS: [Line; 22] = [
    ("f 3 1 1 8 8 8 9 0 0 255 0 0", "samples 63 129 511"),
    ("f 3 1 1 8 8 8 9 1 1 255 0 0", "samples 63 129 511"),
    ("f 3 1 1 8 8 8 9 0 0 0 255 0", "samples 127 511 256"),
    ("f 3 1 1 8 8 8 9 1 1 0 255 0", "samples 127 511 256"),
    ("f 3 1 1 8 8 8 9 0 0 0 0 255", "samples 63 129 1"),
    ("f 3 1 1 8 8 8 9 1 1 0 0 255", "samples 63 129 1"),
    ("r 3 1 1 8 8 8 9 0 0 63 129 511", "samples 255 0 0"),
    ("r 3 1 1 8 8 8 9 1 1 63 129 511", "samples 255 0 0"),
    ("f 3 1 1 16 8 10 10 0 0 255 0 0", "samples 63 385 767"),
    ("f 3 1 1 16 8 10 10 1 1 255 0 0", "samples 63 385 767"),
    ("f 3 1 1 8 8 8 8 0 0 0 255 0", "samples 128 255 128"),
    ("f 3 1 1 8 8 8 8 1 1 0 255 0", "samples 128 255 128"),
    ("r 3 1 1 8 8 8 8 1 1 128 255 128", "samples 1 255 1"),
    ("f 3 1 1 1 8 8 8 1 1 0 0 255", "samples 18 255 116"),
    ("r 3 1 1 1 8 8 8 1 1 18 255 116", "samples 0 0 254"),
    ("f 3 1 1 1 8 8 8 1 0 0 0 255", "samples 32 240 118"),
    ("f 3 1 1 1 10 8 8 0 0 1023 1023 1023", "samples 255 128 128"),
    ("f 3 1 1 9 8 8 8 1 1 128 128 128", "samples 128 128 128"),
    ("f 3 1 1 17 8 9 9 0 0 255 0 0", "samples 63 129 511"),
    ("f 3 1 1 17 8 9 9 1 1 255 0 0", "samples 63 129 511"),
    ("s 3 1 1 8 8 8 9 1 1 63 129 511", "yes"),
    ("s 3 1 1 8 8 8 9 1 1 0 256 511", "none"),
];

/// The edges, and the meter values.
pub const EDGES: [Line; 18] = [
    ("f 3 1 1 8 8 8 8 1 1 0 0 0", "samples 0 128 128"),
    ("f 3 1 1 8 7 7 7 1 1 0 0 0", "refused 6"),
    ("f 3 1 1 1 12 12 12 1 1 0 0 0", "samples 0 2048 2048"),
    ("f 3 1 1 1 13 12 12 1 1 0 0 0", "refused 6"),
    ("f 3 1 1 1 12 13 12 1 1 0 0 0", "refused 6"),
    ("f 3 1 1 1 12 12 13 1 1 0 0 0", "refused 6"),
    ("f 3 1 1 8 15 15 16 1 1 0 0 0", "samples 0 32768 32768"),
    ("f 3 1 1 8 16 16 17 1 1 0 0 0", "refused 6"),
    ("f 3 1 1 17 16 16 16 1 1 0 0 0", "refused 7"),
    ("f 3 1 1 17 15 16 16 1 1 0 0 0", "samples 0 32768 32768"),
    ("f 3 1 1 18 15 16 16 1 1 0 0 0", "refused 1"),
    // The draft's numbers of YCgCo-Re and YCgCo-Ro, each with its depths.
    ("f 3 1 1 15 8 10 10 1 1 255 0 0", "refused 3"),
    ("f 3 1 1 16 8 9 9 1 1 255 0 0", "refused 7"),
    ("f 3 1 1 3 99 99 99 1 1 0 0 0", "refused 1"),
    ("y 3 1 1 1 8 8 8 0 0 235", "level 3f800000"),
    ("y 3 1 1 1 8 8 8 0 0 16", "level 00000000"),
    ("b 3 1 1 1 8 8 8 0 0 240", "level 3f000000"),
    (
        "m 3 1 1 1 8 8 8 0 0 235 240 16",
        "levels 3f800000 3f000000 bf000000",
    ),
];

/// Each refusal that a pixel call can give, and a few neighbours of theirs.
pub const REFUSALS: [Line; 14] = [
    ("f 3 1 1 2 8 8 8 1 1 0 0 0", "refused 2"),
    ("f 3 1 1 10 8 8 8 1 1 0 0 0", "refused 3"),
    ("f 3 1 1 15 8 8 8 1 1 0 0 0", "refused 3"),
    ("f 3 3 1 1 8 8 8 1 1 0 0 0", "refused 4"),
    ("f 3 1 3 1 8 8 8 1 1 0 0 0", "refused 5"),
    ("f 3 1 1 1 8 8 9 1 1 0 0 0", "refused 7"),
    ("s 3 1 1 8 8 8 8 1 1 999 0 0", "refused 11"),
    ("m 3 1 1 0 8 8 8 1 1 999 0 0", "refused 11"),
    (
        "f 3 1 1 0 8 8 8 1 1 0 300 301",
        "refused 10 plane 1 row 0 column 0 sample 300",
    ),
    (
        "s 3 1 1 8 8 8 9 1 1 0 511 512",
        "refused 10 plane 2 row 0 column 0 sample 512",
    ),
    (
        "c 3 1 1 1 8 8 8 1 1 256",
        "refused 10 plane 2 row 0 column 0 sample 256",
    ),
    (
        "m 3 1 1 1 8 8 8 1 1 255 257 256",
        "refused 10 plane 1 row 0 column 0 sample 257",
    ),
    // A half below zero: (0 - 1) / 2 goes to -1, not to 0.
    ("f 3 1 1 8 8 8 8 1 1 0 0 1", "samples 0 128 127"),
    // White narrow in, full out: past the end, and clipped only there.
    ("f 3 1 1 1 8 8 8 0 1 255 255 255", "samples 255 128 128"),
];

/// A source check that breaks every row is mended one row after the other:
/// the answers go down the table.
pub const PIXEL_ORDER: [Line; 11] = [
    ("s 0 0 0 18 99 8 9 0 1 65535 0 0", "refused 12"),
    ("s 3 0 0 18 99 8 9 0 1 65535 0 0", "refused 1"),
    ("s 3 0 0 2 99 8 9 0 1 65535 0 0", "refused 2"),
    ("s 3 0 0 12 99 8 9 0 1 65535 0 0", "refused 3"),
    ("s 3 0 0 8 99 8 9 0 1 65535 0 0", "refused 4"),
    ("s 3 1 0 8 99 8 9 0 1 65535 0 0", "refused 5"),
    ("s 3 1 1 8 99 8 9 0 1 65535 0 0", "refused 6"),
    ("s 3 1 1 8 8 8 9 0 1 65535 0 0", "refused 7"),
    ("s 3 1 1 8 8 8 8 1 1 65535 0 0", "refused 11"),
    (
        "s 3 1 1 8 8 8 9 1 1 65535 0 0",
        "refused 10 plane 0 row 0 column 0 sample 65535",
    ),
    ("s 3 1 1 8 8 8 9 1 1 0 256 256", "yes"),
];

/// The codes that editions number differently, each with its depths in the
/// draft, and numbers that stand for no edition, which nothing comes before.
pub const BY_EDITION: [Line; 39] = [
    ("f 2 1 1 15 8 10 10 1 1 255 0 0", "samples 63 385 767"),
    ("f 2 1 1 15 8 10 10 0 0 255 0 0", "samples 63 385 767"),
    ("r 2 1 1 15 8 10 10 1 1 63 385 767", "samples 255 0 0"),
    ("f 2 1 1 16 8 9 9 1 1 255 0 0", "samples 63 129 511"),
    ("f 2 1 1 16 8 9 9 0 0 255 0 0", "samples 63 129 511"),
    ("s 2 1 1 16 8 9 9 1 1 63 129 511", "yes"),
    ("s 2 1 1 16 8 9 9 1 1 0 256 511", "none"),
    ("f 1 1 1 15 8 10 10 1 1 255 0 0", "refused 1"),
    ("f 1 1 1 16 8 9 9 1 1 255 0 0", "refused 1"),
    ("f 1 1 1 17 8 9 9 1 1 255 0 0", "refused 1"),
    // The published depths of 16 and 17.
    ("f 2 1 1 16 8 10 10 1 1 255 0 0", "refused 7"),
    ("f 2 1 1 17 8 9 9 1 1 255 0 0", "refused 1"),
    ("f 1 1 1 14 8 8 8 1 1 0 0 0", "refused 3"),
    ("f 2 1 1 14 8 8 8 1 1 0 0 0", "refused 3"),
    ("f 1 1 1 8 8 8 9 1 1 255 0 0", "samples 63 129 511"),
    ("f 2 1 1 1 8 8 8 1 1 0 0 255", "samples 18 255 116"),
    ("y 1 1 1 1 8 8 8 0 0 235", "level 3f800000"),
    ("x 1 14", "assigned"),
    ("x 1 15", "reserved"),
    ("x 2 16", "assigned"),
    ("x 2 17", "reserved"),
    ("x 3 17", "assigned"),
    ("x 3 18", "reserved"),
    ("p 0 1", "refused 12"),
    ("t 4 2", "refused 12"),
    ("x 255 3", "refused 12"),
    ("f 0 1 1 1 8 8 8 1 1 0 0 255", "refused 12"),
    ("f 4 1 1 1 8 8 8 1 1 0 0 256", "refused 12"),
    ("r 255 1 1 1 8 8 8 1 1 18 255 116", "refused 12"),
    ("f 0 0 0 3 99 99 99 0 1 65535 0 0", "refused 12"),
    ("s 4 1 1 8 8 8 8 1 1 999 0 0", "refused 12"),
    ("m 4 1 1 0 8 8 8 1 1 999 0 0", "refused 12"),
    ("b 0 1 1 1 8 8 8 0 0 256", "refused 12"),
    ("c 0 1 1 1 8 8 8 0 0 240", "refused 12"),
    (
        "F 0 1 1 8 8 8 9 1 1 2 1 3 3 3 255 0 7 3 0 255 7 3 0 0 7 4 4 4 9",
        "refused 12\n0 0 0 0\n0 0 0 0\n0 0 0 0",
    ),
    (
        "R 4 1 1 1 8 8 8 1 1 0 1 1 1 1 0 1 0 1 999 1 0 2 9",
        "refused 12\n0\n\n0 0",
    ),
    (
        "R 4 1 1 1 8 8 8 1 1 1 1 1 1 1 0 1 0 1 999 1 0 2 9",
        "refused 12\n0\n\n0 0",
    ),
    (
        "R 4 1 1 1 8 8 8 1 1 1 1 1 1 1 0 1 0 1 999 1 1 2 9",
        "refused 12\n0\n0\n0 0",
    ),
    ("I 255 1 1 8 8 8 8 0 1 0 1 1 0 0 1 999", "refused 12"),
];

/// The worked frame, then the same frame back with a padding of noise, then
/// one with a bad sample in the last element of two planes, and image checks.
pub const FRAMES: [Line; 9] = [
    (
        "F 3 1 1 8 8 8 9 1 1 2 1 3 3 3 255 0 7 3 0 255 7 3 0 0 7 4 4 4 9",
        "done\n63 127 0 0\n129 511 0 0\n511 256 0 0",
    ),
    (
        "R 3 1 1 8 8 8 9 1 1 1 2 2 3 3 63 65535 127 3 129 65535 511 4 511 65535 256 65535 4 5 6 9",
        "done\n255 0 0 0\n0 0 0 255 0\n0 0 0 0 0 0",
    ),
    (
        "R 3 1 1 8 8 8 9 1 1 1 2 2 3 3 63 65535 127 3 129 65535 513 3 511 65535 514 4 5 6 9",
        "refused 10 plane 1 row 1 column 0 sample 513\n0 0 0 0\n0 0 0 0 0\n0 0 0 0 0 0",
    ),
    (
        "F 3 1 1 0 8 8 8 1 1 1 1 1 1 1 0 1 0 1 0 1 0 2 9",
        "refused 9\n0\n\n0 0",
    ),
    ("I 3 1 1 8 8 8 9 1 1 1 1 1 1 63 1 129 1 511", "yes"),
    (
        "I 3 1 1 8 8 8 9 1 1 1 1 1 1 0 1 256 1 511",
        "none row 0 column 0",
    ),
    (
        "I 3 1 1 8 8 8 9 1 1 2 2 2 4 63 0 0 63 4 129 256 256 129 4 511 511 511 511",
        "none row 0 column 1",
    ),
    (
        "I 3 1 1 8 8 8 9 1 1 2 2 2 4 63 63 0 63 4 129 129 256 129 4 511 511 511 511",
        "none row 1 column 0",
    ),
    ("I 3 1 1 0 8 8 8 1 1 1 1 16384 1 255 1 255 1 255", "yes"),
];

/// An image check mended row after row, and the ends of sizes and strides.
pub const FRAME_ORDER: [Line; 16] = [
    ("I 0 1 1 8 8 8 8 0 1 0 1 1 0 0 1 999", "refused 12"),
    ("I 3 1 1 8 8 8 8 0 1 0 1 1 0 0 1 999", "refused 7"),
    ("I 3 1 1 8 8 8 8 1 1 0 1 1 0 0 1 999", "refused 11"),
    ("I 3 1 1 8 8 8 9 1 1 0 1 1 0 0 1 999", "refused 8"),
    ("I 3 1 1 8 8 8 9 1 1 1 1 1 0 0 1 999", "refused 9"),
    (
        "I 3 1 1 8 8 8 9 1 1 1 1 1 1 0 1 0 1 999",
        "refused 10 plane 2 row 0 column 0 sample 999",
    ),
    (
        "I 3 1 1 8 8 8 9 1 1 1 1 1 1 0 1 0 1 0",
        "none row 0 column 0",
    ),
    ("I 3 1 1 8 8 8 9 1 1 8193 1 8193 0 0 0", "refused 8"),
    ("I 3 1 1 8 8 8 9 1 1 8192 1 8192 0 0 0", "refused 9"),
    ("I 3 1 1 8 8 8 9 1 1 1 8193 1 0 0 0", "refused 8"),
    ("I 3 1 1 8 8 8 9 1 1 1 8192 1 0 0 0", "refused 9"),
    ("I 3 1 1 8 8 8 9 1 1 2 1 1 0 0 0", "refused 8"),
    ("I 3 1 1 8 8 8 9 1 1 1 1 16385 0 0 0", "refused 8"),
    ("I 3 1 1 8 8 8 9 1 1 1 0 1 0 0 0", "refused 8"),
    (
        "I 3 1 1 8 8 8 9 1 1 18446744073709551615 1 18446744073709551615 0 0 0",
        "refused 8",
    ),
    (
        "F 3 1 1 8 8 8 9 1 1 1 1 1 16385 0 0 0 1 1 1 9",
        "refused 8\n0\n0\n0",
    ),
];
