//! Picks settings for the cases: good ones of every kind, and ones that break
//! a wanted row of the refusal table.

use crate::kinds::{Kind, IDENTITY, KINDS, PUBLISHED};
use crate::random::Random;
use crate::rules::{is_lossless, luma_weights, setting_refusal, Refusal, Setting};

const FLAG_PAIRS: [(bool, bool); 4] = [(false, false), (false, true), (true, false), (true, true)];

/// Numbers that stand for no edition, at the borders and further away.
pub const NO_EDITIONS: [u8; 7] = [0, 4, 5, 127, 128, 131, 255];

/// Codes at the borders of the matrix tables; which of them are refused, and
/// how, is different in each edition.
const EDGE_MATRICES: [u8; 14] = [2, 3, 10, 11, 12, 13, 14, 15, 16, 17, 18, 19, 128, 255];

/// Codes on both sides of every border of the label tables.
const GOOD_PRIMARIES: [u8; 7] = [1, 2, 4, 8, 11, 12, 22];
const BAD_PRIMARIES: [u8; 7] = [0, 3, 13, 21, 23, 128, 255];
const GOOD_TRANSFERS: [u8; 7] = [1, 2, 4, 11, 14, 16, 18];
const BAD_TRANSFERS: [u8; 6] = [0, 3, 19, 22, 128, 255];

const BAD_DEPTHS: [u8; 7] = [0, 1, 7, 17, 18, 99, 255];
const BAD_LUMA_DEPTHS: [u8; 9] = [0, 1, 7, 13, 14, 16, 17, 99, 255];

/// Every accepted setting of a code in an edition, with primaries and transfer
/// 1. All depths are tried; the refusal table alone decides.
pub fn accepted_with(edition: u8, matrix: u8) -> Vec<Setting> {
    let mut found = Vec::new();
    for depths in 0..9 * 9 * 9 {
        for (rgb_full, ycc_full) in FLAG_PAIRS {
            let s = Setting {
                edition,
                primaries: 1,
                transfer: 1,
                matrix,
                rgb_depth: 8 + (depths / 81) as u8,
                y_depth: 8 + (depths / 9 % 9) as u8,
                c_depth: 8 + (depths % 9) as u8,
                rgb_full,
                ycc_full,
            };
            if setting_refusal(&s).is_ok() {
                found.push(s);
            }
        }
    }
    found
}

/// Every accepted setting of a kind in an edition that has it.
pub fn accepted_in(edition: u8, kind: Kind) -> Vec<Setting> {
    let matrix = kind.code_in(edition).expect("an edition with the kind");
    let of_kind = |s: &Setting| is_lossless(s) == kind.lossless;
    let all = accepted_with(edition, matrix).into_iter();
    all.filter(of_kind).collect()
}

/// The same by the numbers of the published edition.
pub fn accepted(kind: Kind) -> Vec<Setting> {
    accepted_in(PUBLISHED, kind)
}

/// Every setting of a kind that some edition accepts. Two that differ in their
/// edition alone count as one.
pub fn accepted_somewhere(kind: Kind) -> Vec<Setting> {
    let mut found: Vec<Setting> = Vec::new();
    for edition in kind.editions() {
        for s in accepted_in(edition, kind) {
            let is_same = |other: &Setting| Setting { edition, ..*other } == s;
            if !found.iter().any(is_same) {
                found.push(s);
            }
        }
    }
    found
}

/// Some accepted setting of the kind, with random good labels.
pub fn good_in(random: &mut Random, edition: u8, kind: Kind) -> Setting {
    let mut s = random.pick(&accepted_in(edition, kind));
    relabel(random, &mut s);
    s
}

/// The same in a random edition that has the kind.
pub fn good(random: &mut Random, kind: Kind) -> Setting {
    let edition = random.pick(&kind.editions());
    good_in(random, edition, kind)
}

/// Takes an accepted setting to a random edition that has its kind, and gives
/// it random good labels.
pub fn vary(random: &mut Random, s: &mut Setting) {
    let kind = Kind::of(s);
    s.edition = random.pick(&kind.editions());
    s.matrix = kind.code_in(s.edition).expect("an edition with the kind");
    relabel(random, s);
}

pub fn relabel(random: &mut Random, s: &mut Setting) {
    s.primaries = random.pick(&GOOD_PRIMARIES);
    s.transfer = random.pick(&GOOD_TRANSFERS);
}

/// An accepted setting if the edition serves the code; otherwise one where the
/// matrix code alone is at fault.
pub fn good_but_for_matrix(random: &mut Random, edition: u8, matrix: u8) -> Setting {
    let has_code = |kind: &Kind| kind.code_in(edition) == Some(matrix);
    let of_code: Vec<Kind> = KINDS.iter().copied().filter(has_code).collect();
    if !of_code.is_empty() {
        let kind = random.pick(&of_code);
        return good_in(random, edition, kind);
    }
    let mut s = good_in(random, edition, IDENTITY);
    s.matrix = matrix;
    s
}

/// Makes one of the rows 12 and 1 to 7 apply. Where both 6 and 7 are wanted, 7
/// comes first, since it sets all depths. 12 comes last, since a code means
/// nothing without an edition.
pub fn break_row(random: &mut Random, s: &mut Setting, row: u8) {
    match row {
        1..=3 => break_matrix(random, s, row),
        4 => s.primaries = random.pick(&BAD_PRIMARIES),
        5 => s.transfer = random.pick(&BAD_TRANSFERS),
        6 => break_depth(random, s),
        7 => break_agreement(random, s),
        12 => s.edition = random.pick(&NO_EDITIONS),
        _ => panic!("row {} is not about settings", row),
    }
}

fn break_matrix(random: &mut Random, s: &mut Setting, row: u8) {
    let is_refused = |matrix: &u8| {
        let with_code = Setting {
            matrix: *matrix,
            ..*s
        };
        setting_refusal(&with_code) == Err(Refusal::Number(row))
    };
    let codes: Vec<u8> = EDGE_MATRICES.iter().copied().filter(is_refused).collect();
    s.matrix = random.pick(&codes);
}

fn break_depth(random: &mut Random, s: &mut Setting) {
    let depth = if luma_weights(s).is_some() {
        random.pick(&BAD_LUMA_DEPTHS)
    } else {
        random.pick(&BAD_DEPTHS)
    };
    set_depth(s, random.below(3) as usize, depth);
}

/// Random depths and flags until they don't agree. A matrix that is not
/// served gets some depths and flags, as nothing could agree with it.
fn break_agreement(random: &mut Random, s: &mut Setting) {
    loop {
        for place in 0..3 {
            set_depth(s, place, 8 + random.below(5) as u8);
        }
        s.rgb_full = random.flag();
        s.ycc_full = random.flag();
        let labelled_well = Setting {
            primaries: 1,
            transfer: 1,
            ..*s
        };
        if let Err(Refusal::Number(1..=3 | 7)) = setting_refusal(&labelled_well) {
            return;
        }
    }
}

/// Place 0 is the RGB depth, 1 the Y depth, 2 the C depth.
pub fn set_depth(s: &mut Setting, place: usize, depth: u8) {
    match place {
        0 => s.rgb_depth = depth,
        1 => s.y_depth = depth,
        _ => s.c_depth = depth,
    }
}
