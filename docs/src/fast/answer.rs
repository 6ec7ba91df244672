//! Answers the oracle's cases on frames, F and R, and on claimed frames, J and K, by the plain converter, in the oracle's words.
//!
//! Build: rustc -O --edition 2021 docs/src/fast/answer.rs

mod frame;
mod judge;
mod luma;
mod setting;

use judge::Difference;
use setting::{Refusal, Setting, Way};
use std::io::Read;

struct Numbers<'a>(std::str::SplitAsciiWhitespace<'a>);

impl Numbers<'_> {
    fn next<N: std::str::FromStr>(&mut self) -> N {
        let word = self.0.next().expect("a word is missing");
        word.parse().unwrap_or_else(|_| panic!("'{}' is no number here", word))
    }

    fn flag(&mut self) -> bool {
        self.next::<u8>() != 0
    }

    fn setting(&mut self) -> Setting {
        Setting {
            edition: self.next(),
            primaries: self.next(),
            transfer: self.next(),
            matrix: self.next(),
            rgb_depth: self.next(),
            y_depth: self.next(),
            c_depth: self.next(),
            rgb_full: self.flag(),
            ycc_full: self.flag(),
        }
    }

    fn plane(&mut self) -> Vec<u16> {
        let length: usize = self.next();
        (0..length).map(|_| self.next()).collect()
    }
}

fn refused(refusal: Refusal) -> String {
    match refusal {
        Refusal::Number(number) => format!("refused {}", number),
        Refusal::Sample(plane, row, column, sample) => {
            format!("refused 10 plane {} row {} column {} sample {}", plane, row, column, sample)
        }
    }
}

fn converted(way: Way, mut n: Numbers) -> String {
    let s = n.setting();
    let (width, height, stride, output_stride) = (n.next(), n.next(), n.next(), n.next());
    let (a, b, c) = (n.plane(), n.plane(), n.plane());
    let mut planes = [(); 3].map(|_| vec![0xa5a5u16; n.next()]);
    let [x, y, z] = &mut planes;
    let source = frame::Source { planes: [&a, &b, &c], stride };
    let mut output = frame::Output { planes: [x, y, z], stride: output_stride };
    let outcome = frame::convert(&s, way, width, height, &source, &mut output);
    let mut lines = outcome.map_or_else(refused, |()| String::from("done"));
    for plane in &planes {
        let words: Vec<String> = plane.iter().map(u16::to_string).collect();
        lines = lines + "\n" + &words.join(" ");
    }
    lines
}

fn judged(way: Way, mut n: Numbers) -> String {
    let s = n.setting();
    let (width, height, stride, claimed_stride) = (n.next(), n.next(), n.next(), n.next());
    let (a, b, c) = (n.plane(), n.plane(), n.plane());
    let (x, y, z) = (n.plane(), n.plane(), n.plane());
    let source = frame::Source { planes: [&a, &b, &c], stride };
    let claimed = frame::Source { planes: [&x, &y, &z], stride: claimed_stride };
    match judge::judge(&s, way, width, height, &source, &claimed) {
        Ok(None) => String::from("agrees"),
        Ok(Some(Difference { row, column, wrong })) => format!("differs row {} column {} wrong {}", row, column, wrong),
        Err(refusal) => refused(refusal),
    }
}

fn main() {
    let mut cases = String::new();
    std::io::stdin().read_to_string(&mut cases).expect("the cases");
    for line in cases.lines() {
        let mut numbers = Numbers(line.split_ascii_whitespace());
        match numbers.0.next() {
            Some("F") => println!("{}", converted(Way::Forward, numbers)),
            Some("R") => println!("{}", converted(Way::Reverse, numbers)),
            Some("J") => println!("{}", judged(Way::Forward, numbers)),
            Some("K") => println!("{}", judged(Way::Reverse, numbers)),
            other => panic!("{:?} is not a frame case", other),
        }
    }
}
