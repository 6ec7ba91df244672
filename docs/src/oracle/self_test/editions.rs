//! Checks what the editions make of the codes, and that their cases are in the
//! texts.

use super::{Checked, Test};
use crate::answers::answer_text;
use crate::kinds::{EDITIONS, KINDS};
use crate::pixels;
use crate::random::Random;
use crate::rules::{
    convert_pixel, is_lossless, meter_pixel, pixel_has_source, setting_refusal, Refusal, Setting,
    Way,
};
use crate::settings;
use crate::words::Words;
use std::collections::{BTreeMap, BTreeSet};

/// For each edition the lossless codes, with the bits that Y and C have more
/// than RGB.
const LOSSLESS: [(u8, &[(u8, u8, u8)]); 3] = [
    (1, &[(0, 0, 0), (8, 0, 1)]),
    (2, &[(0, 0, 0), (8, 0, 1), (15, 2, 2), (16, 1, 1)]),
    (3, &[(0, 0, 0), (8, 0, 1), (16, 2, 2), (17, 1, 1)]),
];

/// An older edition, and one that is newer.
const OLDER_AND_NEWER: [(u8, u8); 3] = [(1, 2), (1, 3), (2, 3)];

/// Every kind of case.
const LETTERS: [char; 15] = [
    'f', 'r', 's', 'm', 'y', 'b', 'c', 'p', 't', 'x', 'F', 'R', 'I', 'J', 'K',
];

/// What follows the edition in a case where all else is at fault too.
fn all_at_fault(letter: char) -> String {
    let rest = match letter {
        'p' | 't' | 'x' => return String::from("3"),
        'y' | 'b' | 'c' => "65535",
        'F' | 'R' => "0 9999 0 0 0 0 1 65535 2 1 0 9",
        'I' => "0 9999 0 0 0 1 65535",
        'J' | 'K' => "0 9999 0 0 0 0 1 65535 0 1 65535 0",
        _ => "65535 65535 65535",
    };
    format!("0 0 3 99 0 7 0 1 {}", rest)
}

/// Every accepted setting of an edition: all codes, depths and flags are tried.
fn all_accepted(edition: u8) -> Vec<Setting> {
    let of_code = |code| settings::accepted_with(edition, code);
    (0..=255).flat_map(of_code).collect()
}

impl Test {
    pub fn editions(&mut self) -> Checked {
        self.lossless_lists()?;
        self.kinds_by_number()?;
        self.newer_editions()?;
        self.edition_comes_first()
    }

    /// What is accepted is of a kind, and lossless just as the rules list it.
    fn lossless_lists(&mut self) -> Checked {
        for (edition, wanted) in LOSSLESS {
            let accepted = all_accepted(edition);
            let lossless = accepted.iter().filter(|s| is_lossless(s));
            let more = |depth: u8, s: &Setting| depth.wrapping_sub(s.rgb_depth);
            let found: BTreeSet<(u8, u8, u8)> = lossless
                .map(|s| (s.matrix, more(s.y_depth, s), more(s.c_depth, s)))
                .collect();
            let what = || format!("lossless codes of edition {}", edition);
            self.equal(&what, found, wanted.iter().copied().collect())?;
            let kinds = KINDS.iter().filter(|kind| kind.code_in(edition).is_some());
            let of_kinds = kinds.map(|kind| settings::accepted_in(edition, *kind).len());
            let what = || format!("accepted settings of edition {}", edition);
            self.equal(&what, of_kinds.sum(), accepted.len())?;
        }
        Ok(())
    }

    /// A kind is the same under each of its numbers: depths, flags and samples.
    fn kinds_by_number(&mut self) -> Checked {
        let mut random = Random::new(273);
        for kind in KINDS {
            let published = settings::accepted(kind);
            for edition in kind.editions() {
                let accepted = settings::accepted_in(edition, kind);
                let what = || format!("how many {:?} edition {} accepts", kind, edition);
                self.equal(&what, accepted.len(), published.len())?;
                for (s, t) in accepted.iter().zip(&published) {
                    let renumbered = Setting {
                        edition: t.edition,
                        matrix: t.matrix,
                        ..*s
                    };
                    let what = || format!("{:?} beside {:?}", s, t);
                    self.equal(&what, renumbered, *t)?;
                    self.same_answers(&mut random, s, t)?;
                }
            }
        }
        Ok(())
    }

    /// What an older edition accepts has the same samples in a newer one, or
    /// is refused there: that is so with the draft's own codes alone.
    fn newer_editions(&mut self) -> Checked {
        let mut random = Random::new(11);
        for (older, newer) in OLDER_AND_NEWER {
            for s in all_accepted(older) {
                let later = Setting {
                    edition: newer,
                    ..s
                };
                let refusal = match (older, newer, s.matrix) {
                    (2, 3, 15) => Err(Refusal::Number(3)),
                    (2, 3, 16) => Err(Refusal::Number(7)),
                    _ => Ok(()),
                };
                let what = || format!("{:?} in edition {}", s, newer);
                self.equal(&what, setting_refusal(&later), refusal)?;
                if refusal.is_ok() {
                    self.same_answers(&mut random, &s, &later)?;
                }
            }
        }
        Ok(())
    }

    fn same_answers(&mut self, random: &mut Random, s: &Setting, t: &Setting) -> Checked {
        let what = || format!("the same samples on {:?} and {:?}", s, t);
        for _ in 0..5 {
            for way in [Way::Forward, Way::Reverse] {
                let pixel = pixels::within_depth(random, s, way);
                let (here, there) = (convert_pixel(s, way, pixel), convert_pixel(t, way, pixel));
                self.holds(&what, here.is_ok())?;
                self.equal(&what, there, here)?;
            }
            let ycc = pixels::within_depth(random, s, Way::Reverse);
            self.equal(&what, pixel_has_source(t, ycc), pixel_has_source(s, ycc))?;
            self.equal(&what, meter_pixel(t, ycc), meter_pixel(s, ycc))?;
        }
        Ok(())
    }

    /// A number that stands for no edition gets 12, whatever else is at fault;
    /// one that does never gets it.
    fn edition_comes_first(&mut self) -> Checked {
        for number in 0..=255 {
            let none = !EDITIONS.contains(&number);
            for letter in LETTERS {
                let case = format!("{} {} {}", letter, number, all_at_fault(letter));
                match letter {
                    'F' | 'R' if none => self.line(&case, "refused 12\n0 0\n0\n")?,
                    _ if none => self.line(&case, "refused 12")?,
                    _ => {
                        let answer = answer_text(&case)?;
                        self.holds(&|| case.clone(), !answer.starts_with("refused 12"))?;
                    }
                }
            }
            let good = format!("f {} 1 1 1 8 8 8 1 1 0 0 255", number);
            let wanted = ["samples 18 255 116", "refused 12"][usize::from(none)];
            self.line(&good, wanted)?;
        }
        Ok(())
    }

    /// Each call is served in each edition, and refused without one.
    pub fn editions_of_text(&mut self, seed: u64, cases: &str) -> Checked {
        let mut served: BTreeMap<(&str, u8), u32> = BTreeMap::new();
        let mut refused: BTreeMap<&str, BTreeSet<u8>> = BTreeMap::new();
        for line in cases.lines() {
            let mut words = Words::of(line);
            let letter = words.word()?;
            let edition = words.number()?;
            let answer = answer_text(line)?;
            if !answer.starts_with("refused ") {
                *served.entry((letter, edition)).or_default() += 1;
            } else if answer.starts_with("refused 12\n") {
                refused.entry(letter).or_default().insert(edition);
            }
        }
        let what = || format!("editions of seed {}: {:?}, {:?}", seed, served, refused);
        self.equal(&what, served.len(), LETTERS.len() * EDITIONS.len())?;
        self.holds(&what, served.values().all(|&count| count >= 20))?;
        self.equal(&what, refused.len(), LETTERS.len())?;
        let has_borders = |numbers: &BTreeSet<u8>| [0, 4, 255].iter().all(|n| numbers.contains(n));
        self.holds(&what, refused.values().all(has_borders))
    }
}
