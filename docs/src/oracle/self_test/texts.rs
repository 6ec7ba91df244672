//! Checks that the case texts hold what they are made for.

use super::{Checked, Test};
use crate::answers::answer_text;
use crate::cases::pixel_cases;
use crate::frame_cases::frame_cases;
use crate::halves::Target;
use crate::rules::{convert_pixel, unrounded, Way};
use crate::words::Words;

/// How many bytes of cases the proved programs take: `room` in
/// crates/case_lines/src/lib.rt. They would not see what goes beyond.
const ROOM: usize = 1_400_000;

/// How the first lines of frame answers start; the place of 10 by its plane.
const FRAME_ANSWERS: [&str; 20] = [
    "done",
    "yes",
    "none row 0",
    "none row 1",
    "agrees",
    "differs row 0",
    "differs row 1",
    "refused 1",
    "refused 2",
    "refused 3",
    "refused 4",
    "refused 5",
    "refused 6",
    "refused 7",
    "refused 8",
    "refused 9",
    "refused 10 plane 0",
    "refused 10 plane 2",
    "refused 11",
    "refused 12",
];

impl Test {
    pub fn texts(&mut self) -> Checked {
        for seed in [0, 1, 2] {
            let pixels = pixel_cases(seed);
            let frames = frame_cases(seed);
            self.pixel_text(seed, &pixels)?;
            self.frame_text(seed, &frames)?;
            self.judged_text(seed, &frames)?;
            self.editions_of_text(seed, &(pixels + &frames))?;
        }
        Ok(())
    }

    /// The pixel cases are about as many as wanted, and hold enough exact
    /// halves of every sort.
    fn pixel_text(&mut self, seed: u64, cases: &str) -> Checked {
        let mut found = Halves::default();
        for line in cases.lines() {
            found.count(line)?;
        }
        let what = || format!("exact halves of seed {}: {:?}", seed, found);
        self.holds(&what, found.ycgco_above >= 50 && found.ycgco_below >= 50)?;
        self.holds(&what, found.luma_above >= 50 && found.luma_below >= 50)?;
        self.holds(&what, found.narrow_below >= 4)?;
        let lines = cases.lines().count();
        let what = || format!("pixel cases of seed {}: {} lines", seed, lines);
        self.holds(
            &what,
            (12_000..=15_000).contains(&lines) && cases.len() < 450_000,
        )
    }

    /// The frame cases are as many and as short as wanted, every answer is
    /// among theirs, and old contents of the output don't matter.
    fn frame_text(&mut self, seed: u64, cases: &str) -> Checked {
        let answers = answer_text(cases)?;
        let what = || format!("size of the frame cases of seed {}", seed);
        self.holds(&what, cases.lines().count() >= 2000)?;
        self.holds(&what, cases.len() <= ROOM)?;
        self.holds(&what, cases.len() + answers.len() < 2 * ROOM)?;
        self.holds(&what, cases.lines().all(|line| line.len() < 200_000))?;
        for start in FRAME_ANSWERS {
            let what = || format!("'{}' among the answers of seed {}", start, seed);
            let longer = format!("{} ", start);
            let fits = |line: &&str| *line == start || line.starts_with(&longer);
            self.holds(&what, answers.lines().filter(fits).count() >= 20)?;
        }
        let refilled: String = cases.lines().map(refilled).collect();
        let what = || format!("old contents in the frame cases of seed {}", seed);
        self.equal(&what, answer_text(&refilled)?, answers)
    }
}

/// A frame case with other old contents of its output planes, if it has any.
fn refilled(case: &str) -> String {
    match case.rsplit_once(' ') {
        Some((before, _)) if case.starts_with(['F', 'R']) => format!("{} 4711\n", before),
        _ => format!("{}\n", case),
    }
}

/// How many exact halves the accepted conversions of a text round.
#[derive(Debug, Default)]
struct Halves {
    /// Lossy code 8, by the sign of what is rounded.
    ycgco_above: u32,
    ycgco_below: u32,
    /// Luma matrices, likewise.
    luma_above: u32,
    luma_below: u32,
    /// Narrow chroma below its middle: positive, though its level is not.
    narrow_below: u32,
}

impl Halves {
    fn count(&mut self, line: &str) -> Checked {
        let mut words = Words::of(line);
        let way = match words.word()? {
            "f" => Way::Forward,
            "r" => Way::Reverse,
            _ => return Ok(()),
        };
        let setting = words.setting()?;
        let pixel = words.pixel()?;
        if convert_pixel(&setting, way, pixel).is_err() {
            return Ok(());
        }
        for (plane, sample) in unrounded(&setting, way, pixel).iter().flatten().enumerate() {
            if !sample.argument.is_half() {
                continue;
            }
            match (setting.matrix, sample.argument.top() < 0) {
                (8, false) => self.ycgco_above += 1,
                (8, true) => self.ycgco_below += 1,
                (_, false) => self.luma_above += 1,
                (_, true) => self.luma_below += 1,
            }
            let target = Target {
                setting,
                way,
                plane,
            };
            if !setting.ycc_full && setting.matrix != 8 && target.is_below_middle(pixel) {
                self.narrow_below += 1;
            }
        }
        Ok(())
    }
}
