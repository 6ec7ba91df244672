//! Answers the oracle's cases by the library, through the Rust binding, in the oracle's words.

use corkplover::*;
use std::io::Read;
use std::str::SplitAsciiWhitespace;

struct Words<'a>(SplitAsciiWhitespace<'a>);

impl Words<'_> {
    fn number<N: std::str::FromStr>(&mut self) -> N {
        let word = self.0.next().expect("a word is missing");
        word.parse().unwrap_or_else(|_| panic!("'{}' is no number here", word))
    }

    fn flag(&mut self) -> bool {
        self.number::<u8>() != 0
    }

    /// The fields are read in the order in which they stand here.
    fn setting(&mut self) -> Setting {
        Setting {
            edition: self.number(),
            primaries: self.number(),
            transfer: self.number(),
            matrix: self.number(),
            rgb_depth: self.number(),
            y_depth: self.number(),
            c_depth: self.number(),
            rgb_full: self.flag(),
            ycc_full: self.flag(),
        }
    }

    fn pixel(&mut self) -> [u16; 3] {
        [self.number(), self.number(), self.number()]
    }

    fn counted<N: std::str::FromStr>(&mut self) -> Vec<N> {
        let length: usize = self.number();
        (0..length).map(|_| self.number()).collect()
    }

    fn planes(&mut self) -> [Vec<u16>; 3] {
        [(); 3].map(|_| self.counted())
    }

    /// The fields are read in the order in which they stand here.
    fn colour_label(&mut self) -> ColourLabel {
        ColourLabel { primaries: self.number(), transfer: self.number(), matrix: self.number(), full: self.flag() }
    }
}

fn refused(r: Refusal) -> String {
    if r.number == 10 {
        return format!("refused 10 plane {} row {} column {} sample {}", r.plane, r.row, r.column, r.sample);
    }
    format!("refused {}", r.number)
}

fn said<T>(answer: Result<T, Refusal>, words: impl Fn(T) -> String) -> String {
    answer.map_or_else(refused, words)
}

fn samples(p: [u16; 3]) -> String {
    format!("samples {} {} {}", p[0], p[1], p[2])
}

fn level(l: f32) -> String {
    format!("level {:08x}", l.to_bits())
}

fn levels(l: Levels) -> String {
    format!("levels {:08x} {:08x} {:08x}", l.y.to_bits(), l.cb.to_bits(), l.cr.to_bits())
}

fn label(l: Label) -> String {
    format!("{:?}", l).to_lowercase()
}

fn spaced<N: ToString>(row: &[N]) -> String {
    row.iter().map(N::to_string).collect::<Vec<String>>().join(" ")
}

fn borrowed(planes: &[Vec<u16>; 3], stride: usize) -> Source<'_> {
    Source { planes: [&planes[0], &planes[1], &planes[2]], stride }
}

/// The library's check of a picture of one pixel stands for the oracle's check of a pixel.
fn source_check(s: &Setting, p: [u16; 3]) -> String {
    let planes = p.map(|v| vec![v]);
    said(image_check(s, 1, 1, borrowed(&planes, 1)), |place| String::from(if place.is_none() { "yes" } else { "none" }))
}

fn image(w: &mut Words) -> String {
    let (s, width, height, stride) = (w.setting(), w.number(), w.number(), w.number());
    let planes = w.planes();
    said(image_check(&s, width, height, borrowed(&planes, stride)), |place| match place {
        None => String::from("yes"),
        Some((row, column)) => format!("none row {} column {}", row, column),
    })
}

fn frame(w: &mut Words, forward: bool) -> String {
    let (s, width, height, stride, output_stride) = (w.setting(), w.number(), w.number(), w.number(), w.number());
    let source = w.planes();
    let mut planes = [(); 3].map(|_| vec![0xa5a5u16; w.number()]);
    w.number::<u16>();
    let [a, b, c] = &mut planes;
    let mut output = Output { planes: [a, b, c], stride: output_stride };
    let convert = if forward { forward_frame } else { reverse_frame };
    let mut lines = said(convert(&s, width, height, borrowed(&source, stride), &mut output), |()| String::from("done"));
    for plane in planes {
        lines = lines + "\n" + &spaced(&plane);
    }
    lines
}

fn judgement(w: &mut Words, forward: bool) -> String {
    let (s, width, height, stride, claimed_stride) = (w.setting(), w.number(), w.number(), w.number(), w.number());
    let (source, claimed) = (w.planes(), w.planes());
    let judge = if forward { judge_forward } else { judge_reverse };
    said(judge(&s, width, height, borrowed(&source, stride), borrowed(&claimed, claimed_stride)), |found| match found {
        None => String::from("agrees"),
        Some(d) => format!("differs row {} column {} wrong {}", d.row, d.column, d.wrong),
    })
}

fn colour_label(l: ColourLabel) -> String {
    format!("label {} {} {} {}", l.primaries, l.transfer, l.matrix, u8::from(l.full))
}

fn pick(w: &mut Words) -> String {
    let (container, stream) = (w.counted(), w.counted());
    said(pick_label(&container, &stream), |picked| format!("{:?} {}", picked.winner, spaced(picked.part)).to_lowercase())
}

fn answer(line: &str) -> String {
    let mut words = Words(line.split_ascii_whitespace());
    let w = &mut words;
    match w.0.next().expect("a case") {
        "p" => said(primaries_label(w.number(), w.number()), label),
        "t" => said(transfer_label(w.number(), w.number()), label),
        "x" => said(matrix_label(w.number(), w.number()), label),
        "f" => said(forward_pixel(&w.setting(), w.pixel()), samples),
        "r" => said(reverse_pixel(&w.setting(), w.pixel()), samples),
        "s" => source_check(&w.setting(), w.pixel()),
        "y" => said(meter_y(&w.setting(), w.number()), level),
        "b" => said(meter_cb(&w.setting(), w.number()), level),
        "c" => said(meter_cr(&w.setting(), w.number()), level),
        "m" => said(meter_pixel(&w.setting(), w.pixel()), levels),
        "F" => frame(w, true),
        "R" => frame(w, false),
        "I" => image(w),
        "J" => judgement(w, true),
        "K" => judgement(w, false),
        "N" => said(read_label(&w.counted::<u8>()), colour_label),
        "W" => format!("record {}", spaced(&write_label(w.colour_label()))),
        "P" => pick(w),
        other => panic!("'{}' is not a case", other),
    }
}

fn main() {
    let mut cases = String::new();
    std::io::stdin().read_to_string(&mut cases).expect("the cases");
    let answers: String = cases.lines().map(|line| answer(line) + "\n").collect();
    print!("{}", answers);
}
