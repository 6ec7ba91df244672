//! Converts one frame of random samples, and judges a claim on it where one is named, for a program that counts instructions:
//! `tools/count-instructions` builds it and runs it.

#![allow(dead_code)] // the modules have more than is used here

mod claims;
mod converters;
mod frame;
mod judge;
mod luma;
mod measured;
mod pictures;
mod setting;
mod yardstick;

use claims::Claim;
use converters::{by_box, by_yardstick, check_by_box, judge_by_box};
use measured::{CODE_1, LOSSLESS};
use pictures::{Planes, Shape};
use setting::{Setting, Way};

/// Under a name of its own, by which it is found.
#[no_mangle]
#[inline(never)]
pub fn yardstick_frame(shape: &Shape, from: &Planes, to: &mut Planes) {
    by_yardstick(shape, pictures::to_read(from), pictures::to_write(to)).expect("an accepted frame");
}

fn conversion(word: &str) -> (Setting, Way) {
    match word {
        "luma-forward" => (CODE_1, Way::Forward),
        "luma-reverse" => (CODE_1, Way::Reverse),
        "lossless-forward" | "image-check" => (LOSSLESS, Way::Forward),
        "lossless-reverse" => (LOSSLESS, Way::Reverse),
        other => panic!("{} is not counted", other),
    }
}

fn claim_of(word: &str) -> Claim {
    match word {
        "right" => Claim::Right,
        "all-wrong" => Claim::AllWrong,
        "last-wrong" => Claim::LastWrong,
        other => panic!("{} is not claimed", other),
    }
}

fn main() {
    let words: Vec<String> = std::env::args().skip(1).collect();
    let size = |word: &String| word.parse().expect("a width or a height");
    let shape = Shape::packed(size(&words[1]), size(&words[2]));
    let source = pictures::random(shape.source_length(), [8; 3]);
    let mut output = pictures::filled(shape.output_length());
    if words[0] == "yardstick" {
        return yardstick_frame(&shape, &source, &mut output);
    }
    let (s, way) = conversion(&words[0]);
    let from = pictures::to_read(&source);
    by_box(&s, way, &shape, from, pictures::to_write(&mut output)).expect("an accepted frame");
    if words[0] == "image-check" {
        assert!(check_by_box(&s, &shape, pictures::to_read(&output)), "every pixel has a source");
    }
    if let Some(word) = words.get(3) {
        let claim = claim_of(word);
        let claimed = claim.of(output, &shape);
        let judged = judge_by_box(&s, way, &shape, from, pictures::to_read(&claimed)).expect("an accepted frame");
        assert!(judged.is_none() == (claim == Claim::Right), "a wrong judgement");
    }
}
