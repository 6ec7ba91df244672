//! Checks the oracle: against the worked examples of the rules, against
//! brute force where the numbers are small, and against the formulas' own
//! promises. Also checks that the case texts hold what they are made for.

mod editions;
mod formulas;
mod judged_texts;
mod judging;
mod records;
mod texts;

use crate::answers::answer_text;
use crate::fraction::Fraction;
use crate::worked::{
    BY_EDITION, EDGES, FRAMES, FRAME_ORDER, JUDGED, JUDGED_ORDER, PICKS, PIXELS, PIXEL_ORDER,
    RECORDS, RECORD_ORDER, REFUSALS,
};
use std::fmt::Debug;

/// What every part of the test gives: nothing, or the first mismatch in words.
type Checked = Result<(), String>;

pub fn run() -> Result<String, String> {
    let mut test = Test { checks: 0 };
    test.rounding()?;
    test.labels()?;
    for lines in [
        &PIXELS[..],
        &EDGES,
        &REFUSALS,
        &PIXEL_ORDER,
        &BY_EDITION,
        &FRAMES,
        &FRAME_ORDER,
        &JUDGED,
        &JUDGED_ORDER,
        &RECORDS,
        &RECORD_ORDER,
        &PICKS,
    ] {
        test.lines(lines)?;
    }
    test.editions()?;
    test.tiny_sources()?;
    test.all_eight_bit_sources()?;
    test.lossless_round_trips()?;
    test.solved_levels()?;
    test.greys()?;
    test.planted_differences()?;
    test.records()?;
    test.texts()?;
    Ok(format!("oracle: {} checks\n", test.checks))
}

struct Test {
    checks: u64,
}

impl Test {
    fn equal<T: PartialEq + Debug>(
        &mut self,
        what: &dyn Fn() -> String,
        got: T,
        wanted: T,
    ) -> Checked {
        self.checks += 1;
        if got == wanted {
            return Ok(());
        }
        Err(format!("{}: {:?}, but should be {:?}", what(), got, wanted))
    }

    fn holds(&mut self, what: &dyn Fn() -> String, truth: bool) -> Checked {
        self.equal(what, truth, true)
    }

    /// Nearest means at most half away, and exactly half away only outward.
    fn rounding(&mut self) -> Checked {
        for (top, wanted) in [(5, 3), (-5, -3), (1, 1), (-1, -1), (4, 2), (-4, -2), (0, 0)] {
            let what = || format!("Round({}/2)", top);
            self.equal(&what, Fraction::new(top, 2).round(), wanted)?;
        }
        for bottom in 1..=12 {
            for top in -60..=60 {
                let rounded = Fraction::new(top, bottom).round();
                let off = 2 * (top - rounded * bottom).abs();
                let outward = (rounded * bottom).abs() > i128::abs(top);
                let what = || format!("Round({}/{}) = {}", top, bottom, rounded);
                self.holds(&what, off < bottom || (off == bottom && outward))?;
            }
        }
        Ok(())
    }

    fn labels(&mut self) -> Checked {
        let primaries = |n: u32| n == 1 || (4..=12).contains(&n) || n == 22;
        let transfer = |n: u32| n == 1 || (4..=18).contains(&n);
        for (edition, last) in [(1, 14), (2, 16), (3, 17)] {
            let matrix = |n: u32| n == 0 || n == 1 || (4..=last).contains(&n);
            for code in 0..256 {
                for (letter, assigned) in [
                    ('p', primaries(code)),
                    ('t', transfer(code)),
                    ('x', matrix(code)),
                ] {
                    let wanted = match code {
                        2 => "unspecified",
                        _ if assigned => "assigned",
                        _ => "reserved",
                    };
                    self.line(&format!("{} {} {}", letter, edition, code), wanted)?;
                }
            }
        }
        Ok(())
    }

    fn line(&mut self, case: &str, wanted: &str) -> Checked {
        let answer = answer_text(&format!("{}\n", case))?;
        self.equal(&|| String::from(case), answer, format!("{}\n", wanted))
    }

    fn lines(&mut self, lines: &[(&str, &str)]) -> Checked {
        for (case, wanted) in lines {
            self.line(case, wanted)?;
        }
        Ok(())
    }
}
