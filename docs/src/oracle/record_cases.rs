//! Makes the record cases: colour records that are read, labels that are
//! written, and pairs of records of which one is picked. A seed picks the random
//! ones among them; the systematic ones are in every text.

mod making;
mod picks;
mod reads;

use crate::random::Random;

struct Cases {
    text: String,
    random: Random,
}

/// The record cases of a seed.
pub fn record_cases(seed: u64) -> String {
    let mut cases = Cases {
        text: String::new(),
        random: Random::new(seed),
    };
    cases.lengths();
    cases.letters();
    cases.every_code();
    cases.codes_of_two_bytes();
    cases.last_bytes();
    cases.unspecified_codes();
    cases.several_rules_broken();
    cases.noisy_records();
    cases.written_labels();
    cases.every_kind_beside_every_kind();
    cases.every_code_of_a_container();
    cases.every_part_of_a_winner();
    cases.random_picks();
    cases.text
}

impl Cases {
    /// Every code in every field, with both flags.
    fn written_labels(&mut self) {
        for code in 0..=255 {
            for full in [false, true] {
                self.written(making::three_of(code), full);
            }
        }
        for _ in 0..20 {
            let codes = making::any_codes(&mut self.random);
            let full = self.random.flag();
            self.written(codes, full);
        }
    }
}
