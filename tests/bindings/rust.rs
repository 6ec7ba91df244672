//! The Rust binding as a caller meets it: answers become values, refusals become errors with their place.

use corkplover::*;

const LOSSLESS: Setting = Setting {
    primaries: 1,
    transfer: 1,
    matrix: 8,
    rgb_depth: 8,
    y_depth: 8,
    c_depth: 9,
    rgb_full: true,
    ycc_full: true,
    edition: EDITION_PUBLISHED,
};

const NARROW: Setting = Setting { matrix: 1, c_depth: 8, rgb_full: false, ycc_full: false, ..LOSSLESS };

/// YCgCo-Re and YCgCo-Ro, by their published numbers.
const RE: Setting = Setting { matrix: 16, y_depth: 10, c_depth: 10, ..LOSSLESS };
const RO: Setting = Setting { matrix: 17, y_depth: 9, c_depth: 9, ..LOSSLESS };

const EDITIONS: [u8; 3] = [EDITION_2021, EDITION_DRAFT, EDITION_PUBLISHED];

fn refused(number: u8) -> Refusal {
    Refusal { number, plane: 0, row: 0, column: 0, sample: 0 }
}

#[test]
fn pixels() {
    assert_eq!(forward_pixel(&LOSSLESS, [255, 0, 0]), Ok([63, 129, 511]));
    assert_eq!(reverse_pixel(&LOSSLESS, [63, 129, 511]), Ok([255, 0, 0]));
    assert_eq!(forward_pixel(&Setting { matrix: 2, ..LOSSLESS }, [0, 0, 0]), Err(refused(2)));
    assert_eq!(forward_pixel(&LOSSLESS, [0, 0, 300]), Err(Refusal { plane: 2, sample: 300, ..refused(10) }));
}

#[test]
fn every_edition_has_the_codes_below_15() {
    assert_eq!(EDITIONS, [1, 2, 3]);
    for edition in EDITIONS {
        assert_eq!(forward_pixel(&Setting { edition, ..LOSSLESS }, [255, 0, 0]), Ok([63, 129, 511]));
        assert_eq!(meter_y(&Setting { edition, ..NARROW }, 235), Ok(1.0));
    }
}

/// The draft has the two matrices at the number before; under another edition its numbers are refused.
#[test]
fn draft_and_published_numbers() {
    for (published, ycc, by_newer) in [(RE, [63, 385, 767], 3), (RO, [63, 129, 511], 7)] {
        let draft = Setting { matrix: published.matrix - 1, edition: EDITION_DRAFT, ..published };
        for s in [draft, published] {
            assert_eq!(forward_pixel(&s, [255, 0, 0]), Ok(ycc));
            assert_eq!(reverse_pixel(&s, ycc), Ok([255, 0, 0]));
            assert_eq!(forward_pixel(&Setting { edition: EDITION_2021, ..s }, [255, 0, 0]), Err(refused(1)));
        }
        let newer = Setting { edition: EDITION_PUBLISHED, ..draft };
        assert_eq!(forward_pixel(&newer, [255, 0, 0]), Err(refused(by_newer)));
    }
}

/// With a matrix and a sample that are refused too: an edition that is none goes before them.
#[test]
fn editions_that_are_none() {
    for edition in [0, 4, 255] {
        let s = Setting { edition, matrix: 2, ..LOSSLESS };
        let source = Source { planes: [&[300], &[0], &[0]], stride: 1 };
        let (mut y, mut cb, mut cr) = ([9u16], [9u16], [9u16]);
        let mut output = Output { planes: [&mut y, &mut cb, &mut cr], stride: 1 };
        assert_eq!(forward_frame(&s, 1, 1, source, &mut output), Err(refused(12)));
        assert_eq!((y, cb, cr), ([0], [0], [0]));
        assert_eq!(forward_pixel(&s, [300, 0, 0]), Err(refused(12)));
        assert_eq!(reverse_pixel(&s, [300, 0, 0]), Err(refused(12)));
        assert_eq!(image_check(&s, 0, 0, source), Err(refused(12)));
        assert_eq!(judge_forward(&s, 0, 0, source, source), Err(refused(12)));
        assert_eq!(judge_reverse(&s, 0, 0, source, source), Err(refused(12)));
        assert_eq!(meter_pixel(&s, [300, 0, 0]), Err(refused(12)));
        assert_eq!(meter_cb(&s, 300), Err(refused(12)));
        for label in [primaries_label, transfer_label, matrix_label] {
            assert_eq!(label(edition, 1), Err(refused(12)));
        }
    }
    assert_eq!(refusal_text(12), "the edition is none of 1 (2021), 2 (draft) and 3 (published)");
}

/// The frame that the rules print, both ways, with old contents in the output and noise in the padding.
#[test]
fn frames() {
    let source = Source { planes: [&[255, 0, 999], &[0, 255, 999], &[0, 0, 999]], stride: 3 };
    let (mut y, mut cb, mut cr) = ([9u16; 4], [9u16; 4], [9u16; 4]);
    let mut output = Output { planes: [&mut y, &mut cb, &mut cr], stride: 3 };
    assert_eq!(forward_frame(&LOSSLESS, 2, 1, source, &mut output), Ok(()));
    assert_eq!((y, cb, cr), ([63, 127, 0, 0], [129, 511, 0, 0], [511, 256, 0, 0]));

    let ycc = Source { planes: [&y, &cb, &cr], stride: 4 };
    let (mut r, mut g, mut b) = (vec![9u16; 2], vec![9u16; 3], vec![9u16; 2]);
    let mut output = Output { planes: [&mut r, &mut g, &mut b], stride: 2 };
    assert_eq!(reverse_frame(&LOSSLESS, 2, 1, ycc, &mut output), Ok(()));
    assert_eq!((r, g, b), (vec![255, 0], vec![0, 255, 0], vec![0, 0]));
}

#[test]
fn refused_frames_are_cleared() {
    let empty = Source { planes: [&[], &[], &[]], stride: 1 };
    let (mut y, mut cb) = ([9u16; 2], [9u16; 1]);
    let mut output = Output { planes: [&mut y, &mut cb, &mut []], stride: 1 };
    assert_eq!(forward_frame(&LOSSLESS, 1, 1, empty, &mut output), Err(refused(9)));
    assert_eq!((y, cb), ([0, 0], [0]));
}

#[test]
fn image_checks() {
    let yes = Source { planes: [&[63], &[129], &[511]], stride: 1 };
    let none = Source { planes: [&[63, 0], &[129, 256], &[511, 511]], stride: 2 };
    assert_eq!(image_check(&LOSSLESS, 1, 1, yes), Ok(None));
    assert_eq!(image_check(&LOSSLESS, 2, 1, none), Ok(Some((0, 1))));
    assert_eq!(image_check(&NARROW, 1, 1, yes), Err(refused(11)));
    assert_eq!(image_check(&LOSSLESS, usize::MAX, 1, yes), Err(refused(8)));
}

/// Red, green and blue, and what the box makes of them.
const RGB: Source = Source { planes: [&[255, 0, 0, 999], &[0, 255, 0, 999], &[0, 0, 255, 999]], stride: 4 };
const YCC: Source = Source { planes: [&[63, 127, 63], &[129, 511, 129], &[511, 256, 1]], stride: 3 };

#[test]
fn frames_that_agree() {
    assert_eq!(judge_forward(&LOSSLESS, 3, 1, RGB, YCC), Ok(None));
    assert_eq!(judge_reverse(&LOSSLESS, 3, 1, YCC, RGB), Ok(None));
    let grey = Source { planes: [&[7, 9]; 3], stride: 1 };
    let moved = Setting { matrix: 0, c_depth: 8, ..LOSSLESS };
    assert_eq!(judge_forward(&moved, 1, 2, grey, grey), Ok(None));
}

/// A claim with green wrong in two planes, once beyond its depth, and blue in one: pixels are counted, and none is refused.
#[test]
fn frames_that_differ() {
    let claimed = Source { planes: [&[63, 127, 62], &[129, 512, 129], &[511, 257, 1]], stride: 3 };
    assert_eq!(judge_forward(&LOSSLESS, 3, 1, RGB, claimed), Ok(Some(Difference { row: 0, column: 1, wrong: 2 })));
    let (rgb, claimed) = (Source { stride: 1, ..RGB }, Source { stride: 1, ..claimed });
    assert_eq!(judge_forward(&LOSSLESS, 1, 3, rgb, claimed), Ok(Some(Difference { row: 1, column: 0, wrong: 2 })));
    let claimed = Source { planes: [&[255, 0, 0], &[0, 255, 0], &[0, 0, 65535]], stride: 1 };
    assert_eq!(judge_reverse(&LOSSLESS, 1, 3, Source { stride: 1, ..YCC }, claimed), Ok(Some(Difference { row: 2, column: 0, wrong: 1 })));
}

#[test]
fn refused_judgements() {
    let short = Source { planes: [&[63], &[129], &[]], stride: 1 };
    assert_eq!(judge_forward(&Setting { matrix: 2, ..LOSSLESS }, 3, 1, RGB, YCC), Err(refused(2)));
    assert_eq!(judge_forward(&LOSSLESS, usize::MAX, 1, RGB, YCC), Err(refused(8)));
    assert_eq!(judge_forward(&LOSSLESS, 3, 1, RGB, Source { stride: 2, ..YCC }), Err(refused(8)));
    assert_eq!(judge_forward(&LOSSLESS, 1, 1, RGB, short), Err(refused(9)));
    assert_eq!(judge_reverse(&LOSSLESS, 1, 1, short, RGB), Err(refused(9)));
    let beyond = Refusal { plane: 0, column: 3, sample: 999, ..refused(10) };
    assert_eq!(judge_forward(&LOSSLESS, 4, 1, RGB, RGB), Err(beyond));
}

#[test]
fn meters() {
    assert_eq!(meter_y(&NARROW, 235), Ok(1.0));
    assert_eq!(meter_cb(&NARROW, 240), Ok(0.5));
    assert_eq!(meter_cr(&NARROW, 256), Err(Refusal { plane: 2, sample: 256, ..refused(10) }));
    assert_eq!(meter_pixel(&NARROW, [235, 240, 16]), Ok(Levels { y: 1.0, cb: 0.5, cr: -0.5 }));
    assert_eq!(meter_pixel(&LOSSLESS, [0, 0, 0]), Err(refused(11)));
}

#[test]
fn labels_and_texts() {
    for edition in EDITIONS {
        assert_eq!(primaries_label(edition, 22), Ok(Label::Assigned));
        assert_eq!(transfer_label(edition, 2), Ok(Label::Unspecified));
        assert_eq!(matrix_label(edition, 18), Ok(Label::Reserved));
    }
    let of_matrix = |code| EDITIONS.map(|edition| matrix_label(edition, code).unwrap());
    assert_eq!(of_matrix(15), [Label::Reserved, Label::Assigned, Label::Assigned]);
    assert_eq!(of_matrix(16), [Label::Reserved, Label::Assigned, Label::Assigned]);
    assert_eq!(of_matrix(17), [Label::Reserved, Label::Reserved, Label::Assigned]);
    assert_eq!(refusal_text(9), "a plane is too short for the picture");
    assert_eq!(refusal_text(13), "not a refusal number");
}

/// The record of a picture by Rec. 2100 PQ, narrow, and that of one by sRGB, full.
const HDR: [u8; 11] = *b"nclx\x00\x09\x00\x10\x00\x09\x00";
const SRGB: [u8; 11] = *b"nclx\x00\x01\x00\x0d\x00\x06\x80";

fn with_byte(mut record: [u8; 11], place: usize, byte: u8) -> [u8; 11] {
    record[place] = byte;
    record
}

#[test]
fn colour_labels() {
    let hdr = ColourLabel { primaries: 9, transfer: 16, matrix: 9, full: false };
    let srgb = ColourLabel { primaries: 1, transfer: 13, matrix: 6, full: true };
    for (label, record) in [(hdr, HDR), (srgb, SRGB)] {
        assert_eq!(read_label(&record), Ok(label));
        assert_eq!(write_label(label), record);
    }
    let any = ColourLabel { primaries: 255, transfer: 2, matrix: 0, full: true };
    assert_eq!(read_label(&write_label(any)), Ok(any));
    assert_eq!((RECORD_BYTES, LABEL_PART_BYTES), (11, 7));
}

#[test]
fn records_that_are_refused() {
    for (record, number) in [
        (&b""[..], 20),
        (&HDR[..10], 20),
        (&[HDR, SRGB].concat(), 20),
        (&with_byte(HDR, 3, b'c'), 21),
        (&with_byte(HDR, 6, 1), 22),
        (&with_byte(SRGB, 10, 0x81), 23),
        (&with_byte(with_byte(HDR, 4, 9), 10, 1), 22),
    ] {
        assert_eq!(read_label(record), Err(refused(number)), "{:?}", record);
    }
    assert_eq!(refusal_text(21), "the colour record does not begin with the letters nclx");
    assert_eq!([19, 25].map(refusal_text), ["not a refusal number"; 2]);
}

#[test]
fn picks() {
    let (open, broken) = (with_byte(HDR, 7, 2), with_byte(HDR, 10, 4));
    let container = |record: &[u8; 11]| (Winner::Container, record[4..].to_vec());
    let stream = |record: &[u8; 11]| (Winner::Stream, record[4..].to_vec());
    for (first, second, won) in [
        (&HDR[..], &SRGB[..], Ok(container(&HDR))),
        (&HDR, b"", Ok(container(&HDR))),
        (&open, &SRGB, Ok(stream(&SRGB))),
        (&broken, &SRGB, Ok(stream(&SRGB))),
        (b"", &open, Ok(stream(&open))),
        (&open, &open, Ok(stream(&open))),
        (b"", b"", Err(refused(20))),
        (&broken, b"", Err(refused(23))),
        (&open, &broken, Err(refused(24))),
    ] {
        assert_eq!(pick_label(first, second).map(|picked| (picked.winner, picked.part.to_vec())), won, "{:?} {:?}", first, second);
    }
    let record = SRGB;
    assert_eq!(pick_label(&open, &record).unwrap().part.as_ptr(), record[4..].as_ptr());
}
