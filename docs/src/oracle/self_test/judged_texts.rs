//! Checks that every sort of judged case is in the texts, both ways.

use super::{Checked, Test};
use crate::answers::answer_text;
use crate::cases::setting_words;
use crate::kinds::{Kind, KINDS};
use crate::words::Words;
use std::collections::BTreeSet;

/// How answers to judged cases start.
const ANSWERS: [&str; 20] = [
    "agrees",
    "differs row 0 column 0",
    "differs row 0 column 1",
    "differs row 0 column 2",
    "differs row 1 column 0",
    "differs row 1 column 2",
    "refused 12",
    "refused 1",
    "refused 2",
    "refused 3",
    "refused 4",
    "refused 5",
    "refused 6",
    "refused 7",
    "refused 8",
    "refused 9",
    "refused 10 plane 0 row 0",
    "refused 10 plane 0 row 1",
    "refused 10 plane 1",
    "refused 10 plane 2",
];

/// The answers to wide and tall pictures.
const FAR: [(char, &str); 9] = [
    ('J', "differs row 0 column 0 wrong 8\n"),
    ('J', "differs row 0 column 256 wrong 6\n"),
    ('J', "differs row 0 column 1024 wrong 2\n"),
    ('J', "differs row 255 column 0 wrong 3\n"),
    ('J', "differs row 256 column 0 wrong 2\n"),
    ('K', "differs row 0 column 255 wrong 7\n"),
    ('K', "differs row 0 column 512 wrong 4\n"),
    ('K', "differs row 0 column 1099 wrong 1\n"),
    ('K', "differs row 0 column 0 wrong 4\n"),
];

impl Test {
    /// Every answer is among those to the judged cases of a text, both ways,
    /// and what stands beside the pictures does not matter.
    pub fn judged_text(&mut self, seed: u64, cases: &str) -> Checked {
        for letter in ['J', 'K'] {
            let mut answers = Vec::new();
            let mut seen = Seen::default();
            for case in cases.lines().filter(|line| line.starts_with(letter)) {
                let answer = answer_text(case)?;
                self.beside(case, &answer)?;
                seen.take(case, &answer)?;
                answers.push(answer);
            }
            let of_seed = format!("{} of seed {}", letter, seed);
            self.answers_among(&of_seed, &answers)?;
            self.seen_enough(&of_seed, &seen)?;
            for (_, far) in FAR.iter().filter(|(of, _)| *of == letter) {
                let what = || format!("'{}' to {}", far.trim_end(), of_seed);
                self.holds(&what, answers.iter().any(|answer| answer == far))?;
            }
        }
        Ok(())
    }

    fn answers_among(&mut self, of_seed: &str, answers: &[String]) -> Checked {
        for start in ANSWERS {
            let what = || format!("'{}' to {}", start, of_seed);
            let longer = format!("{} ", start);
            let fits = |answer: &&String| answer.trim_end() == start || answer.starts_with(&longer);
            self.holds(&what, answers.iter().filter(fits).count() >= 3)?;
        }
        Ok(())
    }

    fn seen_enough(&mut self, of_seed: &str, seen: &Seen) -> Checked {
        let what = || format!("{}: {:?}", of_seed, seen);
        let each: usize = KINDS.iter().map(|kind| kind.editions().len()).sum();
        self.equal(&what, seen.kinds.len(), 2 * each)?;
        let enough = seen.one >= 50 && seen.several >= 10 && seen.all >= 10;
        self.holds(&what, enough)
    }

    /// Other numbers in padding and tails of both sides lead to the same answer.
    fn beside(&mut self, case: &str, answer: &str) -> Checked {
        let judged = ["agrees", "differs", "refused 10 "];
        if !judged.iter().any(|start| answer.starts_with(start)) {
            return Ok(());
        }
        for number in [0, 65535] {
            let other = with_beside(case, number)?;
            self.equal(
                &|| other.clone(),
                answer_text(&other)?,
                String::from(answer),
            )?;
        }
        Ok(())
    }
}

/// What the accepted cases of a text are like.
#[derive(Debug, Default)]
struct Seen {
    /// Edition, matrix code and losslessness, with whether it agreed.
    kinds: BTreeSet<(u8, u8, bool, bool)>,
    /// One wrong pixel of several, several of more, and all of several.
    one: u32,
    several: u32,
    all: u32,
}

impl Seen {
    fn take(&mut self, case: &str, answer: &str) -> Checked {
        if answer.starts_with("refused") {
            return Ok(());
        }
        let mut words = Words::of(case);
        words.word()?;
        let s = words.setting()?;
        let size = words.size()?;
        let lossless = Kind::of(&s).lossless;
        let wrong = match answer.trim_end().rsplit_once("wrong ") {
            Some((_, count)) => count.parse().map_err(|_| String::from(answer))?,
            None => 0,
        };
        let agrees = wrong == 0;
        self.kinds.insert((s.edition, s.matrix, lossless, agrees));
        match (wrong, size.width * size.height) {
            (0, _) | (_, 1) => {}
            (1, _) => self.one += 1,
            (wrong, pixels) if wrong == pixels => self.all += 1,
            _ => self.several += 1,
        }
        Ok(())
    }
}

/// The case with the number in every element beside its pictures.
fn with_beside(case: &str, number: u16) -> Result<String, String> {
    let mut words = Words::of(case);
    let letter = words.word()?;
    let setting = words.setting()?;
    let size = words.size()?;
    let strides: [u64; 2] = [words.number()?, words.number()?];
    let mut text = format!(
        "{} {} {} {} {} {}",
        letter,
        setting_words(&setting),
        size.width,
        size.height,
        strides[0],
        strides[1]
    );
    for stride in strides {
        for plane in words.planes()? {
            text.push_str(&format!(" {}", plane.len()));
            for (index, sample) in plane.iter().enumerate() {
                let (row, column) = (index as u64 / stride, index as u64 % stride);
                let inside = row < size.height && column < size.width;
                text.push_str(&format!(" {}", if inside { *sample } else { number }));
            }
        }
    }
    Ok(text)
}
