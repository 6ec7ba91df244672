//! Records that are read: whole ones, and ones that break each rule and each set
//! of rules.

use super::making::{any_codes, break_rule, flag_byte, record, settled, three_of, unspecify};
use super::making::{BYTES, PLACES, RULES};
use super::Cases;

const GOOD: [u16; 3] = [9, 16, 9];

impl Cases {
    /// Whole records cut short and made longer: by zeros, by bytes that are no
    /// zeros, and by a second record. Then what no record begins like.
    pub fn lengths(&mut self) {
        let whole = record(GOOD, 128);
        let longer = [&whole[..], &whole, &whole].concat();
        for length in 0..=24 {
            self.read(&longer[..length]);
        }
        for length in (BYTES + 1)..=16 {
            let mut bytes = whole.clone();
            bytes.resize(length, 0);
            self.read(&bytes);
        }
        for length in [1, 4, 7, 10, 11, 12, 22] {
            self.read(&vec![0; length]);
        }
        // Lengths that are 11 in their lowest bits.
        for length in [27, 43, 75, 139, 267] {
            let mut bytes = whole.clone();
            bytes.resize(length, 0);
            self.read(&bytes);
        }
    }

    /// Each letter wrong in each bit, and letters of records that are others.
    pub fn letters(&mut self) {
        for place in 0..4 {
            for bit in 0..8 {
                let mut bytes = record(GOOD, flag_byte(bit % 2 == 1));
                bytes[place] ^= 1 << bit;
                self.read(&bytes);
            }
        }
        for letters in [
            b"nclc", b"NCLX", b"Nclx", b"prof", b"rICC", b"xlcn", b"colr",
        ] {
            let mut bytes = record(GOOD, 0);
            bytes[..4].copy_from_slice(letters);
            self.read(&bytes);
        }
        // A record from its second byte on.
        let whole = record(GOOD, 0);
        self.read(&[&whole[1..], &[0]].concat());
    }

    /// Every code in every place.
    pub fn every_code(&mut self) {
        for code in 0..=255 {
            let full = self.random.flag();
            self.read(&record(three_of(code).map(u16::from), flag_byte(full)));
        }
    }

    /// Codes above 255 in each place: next to it, with a code's bytes exchanged,
    /// with each bit of the high byte, and the largest; in all places too.
    pub fn codes_of_two_bytes(&mut self) {
        let bits = (8..16).map(|bit| 1 << bit);
        let codes: Vec<u16> = bits.chain([257, 0x0900, 0x0909, 65535]).collect();
        for &code in &codes {
            for place in 0..3 {
                let mut three = GOOD;
                three[place] = code;
                let full = self.random.flag();
                self.read(&record(three, flag_byte(full)));
            }
        }
        self.read(&record([256; 3], 0));
        self.read(&record([65535; 3], 128));
        self.read(&record([256, 2, 2], 0));
    }

    /// Each reserved bit, all, and some, with the flag and without.
    pub fn last_bytes(&mut self) {
        let bits = (0..7).map(|bit| 1 << bit);
        let reserved: Vec<u8> = bits.chain([0, 127, 3, 96]).collect();
        for flag in [0, 128] {
            for byte in &reserved {
                self.read(&record(GOOD, flag + byte));
            }
        }
    }

    /// A record with code 2 is as whole as any.
    pub fn unspecified_codes(&mut self) {
        for set in 1..8 {
            for last in [0, 128] {
                let mut bytes = record(GOOD, last);
                unspecify(&mut bytes, set);
                self.read(&bytes);
            }
        }
    }

    /// Every set of broken rules, in several ways each.
    pub fn several_rules_broken(&mut self) {
        for set in 1..16 {
            for _ in 0..3 {
                let mut bytes = settled(&mut self.random);
                self.break_set(&mut bytes, set);
                self.read(&bytes);
            }
        }
    }

    pub fn break_set(&mut self, bytes: &mut Vec<u8>, set: u8) {
        for (bit, rule) in RULES.iter().enumerate().rev() {
            if set >> bit & 1 == 1 {
                break_rule(&mut self.random, bytes, *rule);
            }
        }
    }

    /// Any codes, with one byte of the record any other; and bytes that are
    /// nothing but noise.
    pub fn noisy_records(&mut self) {
        for _ in 0..50 {
            let codes = any_codes(&mut self.random).map(u16::from);
            let mut bytes = record(codes, 128);
            let place = self.random.below(BYTES as u64) as usize;
            bytes[place] = self.random.below(256) as u8;
            self.read(&bytes);
        }
        for _ in 0..12 {
            let length = self.random.pick(&[3, BYTES, BYTES, 15]);
            let mut bytes: Vec<u8> = vec![0; length];
            bytes.fill_with(|| self.random.below(256) as u8);
            self.read(&bytes);
        }
        // Each code's place with each of its bytes alone.
        for place in PLACES {
            for byte in [place, place + 1] {
                let mut bytes = record([0; 3], 0);
                bytes[byte] = 1;
                self.read(&bytes);
            }
        }
    }
}
