//! Two records, of which the container's or the stream's wins, or none.

use super::making::BYTES;
use super::making::{any_codes, break_rule, flag_byte, record, settled, three_of, unspecify};
use super::Cases;

/// What a record is like where one of two is picked.
#[derive(Clone, Copy)]
enum Kind {
    Settled,
    /// Code 2 in each place of a set, a bit for each.
    Unspecified(u8),
    /// Refused by this number.
    Broken(u8),
    /// Refused by 20, with another number of bytes.
    Length(usize),
}

const KINDS: [Kind; 12] = [
    Kind::Settled,
    Kind::Unspecified(1),
    Kind::Unspecified(2),
    Kind::Unspecified(4),
    Kind::Unspecified(5),
    Kind::Unspecified(7),
    Kind::Length(0),
    Kind::Length(BYTES - 1),
    Kind::Length(BYTES + 1),
    Kind::Broken(21),
    Kind::Broken(22),
    Kind::Broken(23),
];

impl Cases {
    fn of_kind(&mut self, kind: Kind) -> Vec<u8> {
        let mut bytes = settled(&mut self.random);
        match kind {
            Kind::Settled => {}
            Kind::Unspecified(set) => unspecify(&mut bytes, set),
            Kind::Broken(rule) => break_rule(&mut self.random, &mut bytes, rule),
            Kind::Length(length) => bytes.resize(length, 0),
        }
        bytes
    }

    pub fn every_kind_beside_every_kind(&mut self) {
        for first in KINDS {
            for second in KINDS {
                let container = self.of_kind(first);
                let stream = self.of_kind(second);
                self.pick(&container, &stream);
            }
        }
    }

    /// Every code somewhere in the container's record, the lowest in every place,
    /// with no stream: it wins unless one of them is 2.
    pub fn every_code_of_a_container(&mut self) {
        for code in (0..=110).chain(171..=195) {
            let codes = three_of(code).map(u16::from);
            self.pick(&record(codes, flag_byte(code % 2 == 1)), &[]);
        }
    }

    /// Both records are whole, and differ in every byte that can; and the same
    /// record on both sides.
    pub fn every_part_of_a_winner(&mut self) {
        let (one, other) = (record([1, 13, 6], 0), record([9, 16, 10], 128));
        for (container, stream) in [(&one, &other), (&other, &one), (&one, &one)] {
            self.pick(container, stream);
            let mut open = container.clone();
            unspecify(&mut open, 2);
            self.pick(&open, stream);
            self.pick(&open, &open);
        }
    }

    /// Any codes, of which every third is 2, and often a broken rule or several.
    pub fn random_picks(&mut self) {
        for _ in 0..60 {
            let container = self.any_record();
            let stream = self.any_record();
            self.pick(&container, &stream);
        }
    }

    fn any_record(&mut self) -> Vec<u8> {
        let codes = any_codes(&mut self.random);
        let full = self.random.flag();
        let mut bytes = record(codes.map(u16::from), flag_byte(full));
        let set = self.random.pick(&[0, 0, 0, 1, 2, 4, 6]);
        unspecify(&mut bytes, set);
        let broken = self.random.pick(&[0, 0, 0, 1, 2, 4, 8, 6, 12]);
        self.break_set(&mut bytes, broken);
        bytes
    }
}
