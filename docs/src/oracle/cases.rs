//! Makes the pixel cases. A seed picks the random ones among them; the
//! systematic ones are in every text.

mod calls;
mod editions;
mod rounding;
mod samples;
mod tables;

use crate::pixels;
use crate::random::Random;
use crate::rules::{Pixel, Setting, Way};

/// All calls on a pixel or sample, as their case letters.
const CALLS: [char; 7] = ['f', 'r', 's', 'm', 'y', 'b', 'c'];

/// The label calls: primaries, transfer, matrix.
const LABELS: [char; 3] = ['p', 't', 'x'];

/// The pixel cases of a seed.
pub fn pixel_cases(seed: u64) -> String {
    let mut cases = Cases {
        text: String::new(),
        random: Random::new(seed),
    };
    cases.labels();
    cases.labels_without_edition();
    cases.every_matrix();
    cases.every_label_in_a_setting();
    cases.every_depth();
    cases.every_flag_pair();
    cases.several_rows_broken();
    cases.every_accepted_setting();
    cases.edge_samples();
    cases.bad_samples();
    cases.halves_of_luma();
    cases.halves_of_lossy_ycgco();
    cases.clip_edges();
    cases.sources();
    cases.lossy_reverse();
    cases.meters();
    cases.calls_without_their_setting();
    cases.calls_without_edition();
    cases.text
}

/// The setting's nine words.
pub fn setting_words(s: &Setting) -> String {
    format!(
        "{} {} {} {} {} {} {} {} {}",
        s.edition,
        s.primaries,
        s.transfer,
        s.matrix,
        s.rgb_depth,
        s.y_depth,
        s.c_depth,
        u8::from(s.rgb_full),
        u8::from(s.ycc_full)
    )
}

struct Cases {
    text: String,
    random: Random,
}

impl Cases {
    /// Writes one case; a one-sample meter takes its own plane's sample.
    fn call(&mut self, letter: char, s: &Setting, pixel: Pixel) {
        let samples = match letter {
            'y' => pixel[0].to_string(),
            'b' => pixel[1].to_string(),
            'c' => pixel[2].to_string(),
            _ => format!("{} {} {}", pixel[0], pixel[1], pixel[2]),
        };
        self.text
            .push_str(&format!("{} {} {}\n", letter, setting_words(s), samples));
    }

    fn label(&mut self, letter: char, edition: u8, code: u8) {
        self.text
            .push_str(&format!("{} {} {}\n", letter, edition, code));
    }

    /// A pixel for the call, within the setting's depths where they are ones.
    fn pixel(&mut self, letter: char, s: &Setting) -> Pixel {
        let way = if letter == 'f' {
            Way::Forward
        } else {
            Way::Reverse
        };
        pixels::within_depth(&mut self.random, s, way)
    }

    fn call_within_depth(&mut self, letter: char, s: &Setting) {
        let pixel = self.pixel(letter, s);
        self.call(letter, s, pixel);
    }
}
