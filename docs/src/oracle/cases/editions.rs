//! Every accepted setting in all three editions, and numbers that stand for no
//! edition.

use super::{Cases, CALLS, LABELS};
use crate::kinds::{Kind, EDITIONS, KINDS};
use crate::rules::Setting;
use crate::settings::{self, NO_EDITIONS};

/// Every number that stands for no edition.
fn no_editions() -> impl Iterator<Item = u8> {
    (0..=255).filter(|number| !EDITIONS.contains(number))
}

/// The rows of the refusal table that can apply to a call beside 12.
fn other_rows(letter: char) -> &'static [u8] {
    match letter {
        'f' | 'r' => &[1, 2, 3, 4, 5, 6, 7, 10],
        _ => &[1, 2, 3, 4, 5, 6, 7, 11, 10],
    }
}

/// The kinds on which a call is not refused, or those on which it gets 11.
fn kinds_for(letter: char, served: bool) -> Vec<Kind> {
    let fits = |kind: &Kind| match letter {
        'f' | 'r' => true,
        's' => kind.lossless == served,
        _ => kind.is_luma() == served,
    };
    KINDS.iter().copied().filter(fits).collect()
}

impl Cases {
    /// Each setting that some edition accepts, in all three with the same
    /// samples. Luma matrices, which are many, go one way in all three and the
    /// other way in one of them.
    pub fn every_accepted_setting(&mut self) {
        for kind in KINDS {
            for mut s in settings::accepted_somewhere(kind) {
                settings::relabel(&mut self.random, &mut s);
                if kind.is_luma() {
                    let mut letters = ['f', 'r'];
                    self.random.shuffle(&mut letters);
                    self.call_in_each_edition(letters[0], &s);
                    s.edition = self.random.pick(&EDITIONS);
                    self.call_within_depth(letters[1], &s);
                } else {
                    for letter in ['f', 'r', 's'] {
                        self.call_in_each_edition(letter, &s);
                    }
                }
            }
        }
    }

    fn call_in_each_edition(&mut self, letter: char, s: &Setting) {
        let pixel = self.pixel(letter, s);
        for edition in EDITIONS {
            self.call(letter, &Setting { edition, ..*s }, pixel);
        }
    }

    pub fn labels_without_edition(&mut self) {
        for edition in no_editions() {
            for letter in LABELS {
                let any = self.random.below(256) as u8;
                let code = self.random.pick(&[0, 1, 2, 3, 15, 16, 17, any]);
                self.label(letter, edition, code);
            }
        }
    }

    /// Each number that stands for no edition where nothing else is at fault;
    /// then some of them where one other row applies, and where all do.
    pub fn calls_without_edition(&mut self) {
        for edition in no_editions() {
            let letter = CALLS[usize::from(edition) % CALLS.len()];
            self.call_with_rows(letter, edition, &[]);
        }
        for letter in CALLS {
            for &row in other_rows(letter) {
                let further = self.random.pick(&NO_EDITIONS);
                for edition in [0, 4, 255, further] {
                    self.call_with_rows(letter, edition, &[row]);
                }
            }
            for edition in NO_EDITIONS {
                self.call_with_rows(letter, edition, &[4, 5, 7, 6, 3, 11, 10]);
            }
        }
    }

    /// A call in which these rows would apply if the edition were one, in the
    /// order in which `settings::break_row` breaks them.
    fn call_with_rows(&mut self, letter: char, edition: u8, rows: &[u8]) {
        let kind = self.random.pick(&kinds_for(letter, !rows.contains(&11)));
        let mut s = settings::good(&mut self.random, kind);
        let pixel = if rows.contains(&10) {
            self.past_depth(letter, &s)
        } else {
            self.pixel(letter, &s)
        };
        for &row in rows.iter().filter(|row| **row < 10) {
            settings::break_row(&mut self.random, &mut s, row);
        }
        s.edition = edition;
        self.call(letter, &s, pixel);
    }
}
