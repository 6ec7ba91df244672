//! Makes the frame cases: small frames, nearly all of them, each with noise in
//! its padding and past its end, which no answer may depend on.

mod accepted;
mod editions;
mod frame;
mod judged;
mod making;
mod rows;
mod samples;
mod sizes;

use crate::random::Random;

/// The three frame calls by their case letters.
const CALLS: [char; 3] = ['F', 'R', 'I'];

struct Cases {
    text: String,
    random: Random,
}

/// The frame cases of a seed.
pub fn frame_cases(seed: u64) -> String {
    let mut cases = Cases {
        text: String::new(),
        random: Random::new(seed),
    };
    cases.accepted();
    cases.images();
    cases.bad_sample_at_every_place();
    cases.several_bad_samples();
    cases.lengths();
    cases.sizes();
    cases.strides();
    cases.refused_settings();
    cases.several_rows_broken();
    cases.every_kind_in_each_edition();
    cases.refused_for_edition();
    cases.large();
    cases.judged_frames();
    cases.text
}
