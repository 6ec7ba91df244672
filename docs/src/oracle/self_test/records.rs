//! Checks the rules of colour records against each other, and the record cases.

use super::{Checked, Test};
use crate::answers::answer_text;
use crate::record_cases::record_cases;
use crate::rules::{pick_record, read_record, written_record, ColourLabel, Origin, Refusal};
use std::collections::BTreeSet;

/// How long a text of record cases may be.
const MOST_BYTES: usize = 90_000;

/// The first words of answers, by the letters of their cases.
const ANSWERS: [(char, &str); 13] = [
    ('N', "label"),
    ('N', "refused 20"),
    ('N', "refused 21"),
    ('N', "refused 22"),
    ('N', "refused 23"),
    ('W', "record"),
    ('P', "container"),
    ('P', "stream"),
    ('P', "refused 20"),
    ('P', "refused 21"),
    ('P', "refused 22"),
    ('P', "refused 23"),
    ('P', "refused 24"),
];

fn label_of(codes: [u8; 3], full: bool) -> ColourLabel {
    ColourLabel {
        primaries: codes[0],
        transfer: codes[1],
        matrix: codes[2],
        full,
    }
}

impl Test {
    pub fn records(&mut self) -> Checked {
        self.labels_come_back()?;
        self.one_byte_changed()?;
        self.picks_by_kind()?;
        for seed in [0, 1, 2] {
            self.record_text(seed, &record_cases(seed))?;
        }
        Ok(())
    }

    fn labels_come_back(&mut self) -> Checked {
        for first in 0..=255 {
            for second in 0..=255u8 {
                let label = label_of([first, second, first ^ second], second % 3 == 0);
                let record = written_record(label);
                let what = || format!("{:?} written and read", label);
                self.equal(&what, read_record(&record), Ok(label))?;
            }
        }
        Ok(())
    }

    /// A record with one other byte is refused, or is the record of what is read.
    fn one_byte_changed(&mut self) -> Checked {
        let whole = written_record(label_of([9, 16, 9], false));
        for place in 0..whole.len() {
            let (mut read, mut refused) = (0, BTreeSet::new());
            for byte in 0..=255 {
                let mut record = whole;
                record[place] = byte;
                let what = || format!("{:?}", record);
                match read_record(&record) {
                    Ok(label) => {
                        read += 1;
                        self.equal(&what, written_record(label), record)?;
                    }
                    Err(Refusal::Number(number)) => _ = refused.insert(number),
                    Err(other) => return Err(format!("{:?}: {:?}", record, other)),
                }
            }
            let wanted = match place {
                0..=3 => (1, BTreeSet::from([21])),
                4 | 6 | 8 => (1, BTreeSet::from([22])),
                10 => (2, BTreeSet::from([23])),
                _ => (256, BTreeSet::new()),
            };
            let what = || format!("byte {} of a record", place);
            self.equal(&what, (read, refused), wanted)?;
        }
        Ok(())
    }

    /// Each kind of record beside each, by a table: what wins or the refusal.
    fn picks_by_kind(&mut self) -> Checked {
        let good = written_record(label_of([1, 13, 6], true));
        let open = written_record(label_of([1, 2, 6], false));
        let with = |place: usize, byte: u8| {
            let mut record = good;
            record[place] = byte;
            record
        };
        let (letters, code, reserved) = (with(0, 78), with(8, 1), with(10, 129));
        // What the container's is refused with if the stream's is refused too.
        let kinds: [(&[u8], u8); 6] = [
            (&good, 0),
            (&open, 24),
            (&good[1..], 20),
            (&letters, 21),
            (&code, 22),
            (&reserved, 23),
        ];
        for (container, number) in kinds {
            for (index, (stream, _)) in kinds.iter().enumerate() {
                let wanted = match (number, index) {
                    (0, _) => Ok((Origin::Container, &container[4..])),
                    (_, 0 | 1) => Ok((Origin::Stream, &stream[4..])),
                    _ => Err(Refusal::Number(number)),
                };
                let what = || format!("{:?} beside {:?}", container, stream);
                self.equal(&what, pick_record(container, stream), wanted)?;
            }
        }
        Ok(())
    }

    /// The text is short enough, every answer is among those to its letter, and
    /// every code is read and written in every place.
    fn record_text(&mut self, seed: u64, cases: &str) -> Checked {
        let what = || format!("the record cases of seed {}", seed);
        self.holds(&what, cases.len() <= MOST_BYTES)?;
        let answers = answer_text(cases)?;
        let pairs: Vec<(&str, &str)> = cases.lines().zip(answers.lines()).collect();
        self.equal(&what, pairs.len(), answers.lines().count())?;
        for (letter, start) in ANSWERS {
            let fits = |pair: &&(&str, &str)| {
                pair.0.starts_with(letter)
                    && format!("{} ", pair.1).starts_with(&(start.to_owned() + " "))
            };
            let found = pairs.iter().filter(fits).count();
            let what = || format!("{} '{}' to {} of seed {}", found, start, letter, seed);
            self.holds(&what, found >= 5)?;
        }
        let read = answers
            .lines()
            .filter_map(|line| line.strip_prefix("label "));
        let written = cases.lines().filter_map(|line| line.strip_prefix("W "));
        self.equal(&what, codes_by_place(read), 3 * 256)?;
        self.equal(&what, codes_by_place(written), 3 * 256)
    }
}

/// How many codes the lines have in their first three words, each place counted
/// by itself.
fn codes_by_place<'a>(lines: impl Iterator<Item = &'a str>) -> usize {
    let words = lines.flat_map(|line| line.split(' ').enumerate());
    let codes: BTreeSet<(usize, &str)> = words.filter(|(place, _)| *place < 3).collect();
    codes.len()
}
