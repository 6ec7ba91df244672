//! Colour records, labels and picks, with their answers worked out by hand. The
//! letters are 110 99 108 120.

use super::Line;

/// Records that are read, and labels that are written.
pub const RECORDS: [Line; 24] = [
    ("N 11 110 99 108 120 0 9 0 16 0 9 0", "label 9 16 9 0"),
    ("N 11 110 99 108 120 0 9 0 16 0 9 128", "label 9 16 9 1"),
    ("N 11 110 99 108 120 0 0 0 1 0 255 0", "label 0 1 255 0"),
    (
        "N 11 110 99 108 120 0 255 0 254 0 0 128",
        "label 255 254 0 1",
    ),
    ("N 11 110 99 108 120 0 2 0 2 0 2 0", "label 2 2 2 0"),
    ("N 0", "refused 20"),
    ("N 4 110 99 108 120", "refused 20"),
    ("N 10 110 99 108 120 0 9 0 16 0 9", "refused 20"),
    ("N 12 110 99 108 120 0 9 0 16 0 9 0 0", "refused 20"),
    // nclc, NCLX, and a first letter that is a zero.
    ("N 11 110 99 108 99 0 9 0 16 0 9 0", "refused 21"),
    ("N 11 78 67 76 88 0 9 0 16 0 9 0", "refused 21"),
    ("N 11 0 99 108 120 0 9 0 16 0 9 0", "refused 21"),
    // Codes 256, 4096 and 2304, which is 9 with its bytes exchanged.
    ("N 11 110 99 108 120 1 0 0 16 0 9 0", "refused 22"),
    ("N 11 110 99 108 120 0 9 16 0 0 9 0", "refused 22"),
    ("N 11 110 99 108 120 0 9 0 16 9 0 0", "refused 22"),
    (
        "N 11 110 99 108 120 255 255 255 255 255 255 128",
        "refused 22",
    ),
    ("N 11 110 99 108 120 0 9 0 16 0 9 1", "refused 23"),
    ("N 11 110 99 108 120 0 9 0 16 0 9 64", "refused 23"),
    ("N 11 110 99 108 120 0 9 0 16 0 9 127", "refused 23"),
    ("N 11 110 99 108 120 0 9 0 16 0 9 192", "refused 23"),
    ("W 9 16 9 0", "record 110 99 108 120 0 9 0 16 0 9 0"),
    ("W 1 13 6 1", "record 110 99 108 120 0 1 0 13 0 6 128"),
    ("W 2 255 0 1", "record 110 99 108 120 0 2 0 255 0 0 128"),
    ("W 0 0 0 0", "record 110 99 108 120 0 0 0 0 0 0 0"),
];

/// A record that breaks every rule is mended one rule after the other.
pub const RECORD_ORDER: [Line; 8] = [
    ("N 12 110 99 108 99 1 9 0 16 0 9 1 0", "refused 20"),
    ("N 11 110 99 108 99 1 9 0 16 0 9 1", "refused 21"),
    ("N 11 110 99 108 120 1 9 0 16 0 9 1", "refused 22"),
    ("N 11 110 99 108 120 0 9 0 16 0 9 1", "refused 23"),
    ("N 11 110 99 108 120 0 9 0 16 0 9 0", "label 9 16 9 0"),
    // Two rules at a time that are not next to each other.
    ("N 10 110 99 108 120 0 9 0 16 1 9", "refused 20"),
    ("N 11 110 99 108 88 0 9 0 16 0 9 129", "refused 21"),
    ("N 11 110 99 108 120 0 9 0 16 1 0 127", "refused 22"),
];

/// The container's 1 13 6 narrow beside the stream's 9 16 9 full.
pub const PICKS: [Line; 16] = [
    (
        "P 11 110 99 108 120 0 1 0 13 0 6 0 11 110 99 108 120 0 9 0 16 0 9 128",
        "container 0 1 0 13 0 6 0",
    ),
    (
        "P 11 110 99 108 120 0 1 0 13 0 6 0 0",
        "container 0 1 0 13 0 6 0",
    ),
    // Code 2 in each place of the container's.
    (
        "P 11 110 99 108 120 0 2 0 13 0 6 0 11 110 99 108 120 0 9 0 16 0 9 128",
        "stream 0 9 0 16 0 9 128",
    ),
    (
        "P 11 110 99 108 120 0 1 0 2 0 6 0 11 110 99 108 120 0 9 0 16 0 9 128",
        "stream 0 9 0 16 0 9 128",
    ),
    (
        "P 11 110 99 108 120 0 1 0 13 0 2 0 11 110 99 108 120 0 9 0 16 0 9 128",
        "stream 0 9 0 16 0 9 128",
    ),
    // Code 2 in the stream's, beside a container's that wins, one that is refused
    // and one with code 2.
    (
        "P 11 110 99 108 120 0 1 0 13 0 6 0 11 110 99 108 120 0 2 0 16 0 9 128",
        "container 0 1 0 13 0 6 0",
    ),
    (
        "P 0 11 110 99 108 120 0 2 0 2 0 2 0",
        "stream 0 2 0 2 0 2 0",
    ),
    (
        "P 11 110 99 108 120 0 1 0 2 0 6 0 11 110 99 108 120 0 2 0 16 0 9 128",
        "stream 0 2 0 16 0 9 128",
    ),
    // A container's record that is refused gives way too.
    (
        "P 11 110 99 108 99 0 1 0 13 0 6 0 11 110 99 108 120 0 9 0 16 0 9 128",
        "stream 0 9 0 16 0 9 128",
    ),
    ("P 0 0", "refused 20"),
    (
        "P 11 110 99 108 99 0 1 0 13 0 6 0 11 110 99 108 120 0 9 0 16 0 9 1",
        "refused 21",
    ),
    (
        "P 11 110 99 108 120 0 1 0 13 1 6 0 11 110 99 108 99 0 9 0 16 0 9 0",
        "refused 22",
    ),
    (
        "P 11 110 99 108 120 0 1 0 13 0 6 4 10 110 99 108 120 0 9 0 16 0 9",
        "refused 23",
    ),
    // With a code 2 as well: its own refusal.
    ("P 11 110 99 108 120 0 2 0 13 0 6 4 0", "refused 23"),
    ("P 11 110 99 108 120 0 2 0 13 0 6 128 0", "refused 24"),
    (
        "P 11 110 99 108 120 0 1 0 13 0 2 0 11 110 99 108 120 0 9 0 16 1 9 0",
        "refused 24",
    ),
];
