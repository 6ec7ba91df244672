//! Records as bytes, whole and with rules broken, and the case lines with them.

use super::Cases;
use crate::random::Random;

/// How many bytes a record has, and where its three codes start.
pub const BYTES: usize = 11;
pub const PLACES: [usize; 3] = [4, 6, 8];

/// The rules of a record, by the refusals of those who break them.
pub const RULES: [u8; 4] = [20, 21, 22, 23];

/// Codes that files have, the ends of a byte, and codes next to 2 or with its
/// bit.
const COMMON: [u8; 12] = [0, 1, 3, 5, 6, 9, 12, 16, 18, 127, 130, 255];

pub fn record(codes: [u16; 3], last: u8) -> Vec<u8> {
    let mut bytes = b"nclx".to_vec();
    for code in codes {
        bytes.extend(code.to_be_bytes());
    }
    bytes.push(last);
    bytes
}

pub fn flag_byte(full: bool) -> u8 {
    128 * u8::from(full)
}

/// Three different codes; from 0 to 255 every code comes to every place.
pub fn three_of(code: u8) -> [u8; 3] {
    [code, code.wrapping_add(85), code.wrapping_add(170)]
}

pub fn any_codes(random: &mut Random) -> [u8; 3] {
    [0; 3].map(|_| random.below(256) as u8)
}

/// A whole record in which no code is 2.
pub fn settled(random: &mut Random) -> Vec<u8> {
    let codes = [0; 3].map(|_| u16::from(random.pick(&COMMON)));
    let full = random.flag();
    record(codes, flag_byte(full))
}

/// Puts code 2 into each place of a set, a bit for each.
pub fn unspecify(record: &mut [u8], set: u8) {
    for (bit, place) in PLACES.iter().enumerate() {
        if set >> bit & 1 == 1 {
            record[place + 1] = 2;
        }
    }
}

/// Breaks one rule of a record. Its length is to be broken last.
pub fn break_rule(random: &mut Random, record: &mut Vec<u8>, rule: u8) {
    match rule {
        20 => {
            let length = random.pick(&[0, 4, 7, 10, 12, 18, 22]);
            record.resize(length, 0);
        }
        21 => record[random.below(4) as usize] ^= 1 << random.below(8),
        22 => record[random.pick(&PLACES)] = 1 + random.below(255) as u8,
        _ => record[BYTES - 1] ^= 1 + random.below(127) as u8,
    }
}

fn words_of(bytes: &[u8]) -> String {
    let words: Vec<String> = bytes.iter().map(|byte| format!(" {}", byte)).collect();
    format!("{}{}", bytes.len(), words.concat())
}

impl Cases {
    pub fn read(&mut self, record: &[u8]) {
        self.text.push_str(&format!("N {}\n", words_of(record)));
    }

    pub fn written(&mut self, codes: [u8; 3], full: bool) {
        let [primaries, transfer, matrix] = codes;
        let flag = u8::from(full);
        self.text.push_str(&format!(
            "W {} {} {} {}\n",
            primaries, transfer, matrix, flag
        ));
    }

    pub fn pick(&mut self, container: &[u8], stream: &[u8]) {
        let (first, second) = (words_of(container), words_of(stream));
        self.text.push_str(&format!("P {} {}\n", first, second));
    }
}
