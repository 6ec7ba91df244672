//! Times the box and others on frames of 1,920 by 1,080 and of other shapes, everything in turns with the yardstick, and prints one table
//! in Markdown. `tools/measure-speed` builds and runs it.

#![allow(unknown_lints, unexpected_cfgs)] // the script sets cfg(zimg) where zimg is installed

mod agree;
mod bench;
mod claims;
mod clock;
mod converters;
mod frame;
mod jobs;
mod judge;
mod judging;
mod literal;
mod luma;
mod measured;
mod pictures;
mod rivals;
mod setting;
mod table;
mod yardstick;

use bench::{at_most, at_most_of, Bench, LARGE, SHAPES};
use converters::{by_biased_yardstick, by_yardstick, check_by_box};
use jobs::{Jobs, Ticket};
use measured::{CODE_1, LOSSLESS};
use pictures::{Read, Shape, Write};
use setting::{Setting, Way};
use std::rc::Rc;

const WAYS: [(Way, &str); 2] = [(Way::Forward, "forward"), (Way::Reverse, "reverse")];

/// The yardstick, which is the first job, and what else is measured for information.
fn references(bench: &mut Bench) {
    let source = bench.random(LARGE, [8; 3]);
    let yardstick = bench.job_at(CODE_1, Way::Forward, LARGE, source.clone(), |shape: &Shape, from: Read, to: Write| {
        by_yardstick(shape, from, to).expect("an accepted frame")
    });
    bench.row("the yardstick", yardstick, None);
    let biased = bench.job_at(CODE_1, Way::Forward, LARGE, source.clone(), |shape: &Shape, from: Read, to: Write| {
        by_biased_yardstick(shape, from, to).expect("an accepted frame")
    });
    bench.row("the yardstick, biased", biased, None);
    let copied = bench.job(LARGE, source.clone(), |_: &Shape, from: Read, to: Write| {
        from.iter().zip(to).for_each(|(from, to)| to.copy_from_slice(from))
    });
    bench.row("three planes copied", copied, None);
    for (way, name) in WAYS {
        let plain = bench.plain_job(CODE_1, way, LARGE, source.clone());
        bench.row(&format!("plain Rust for every setting, code 1, {}", name), plain, None);
        let convert = if way == Way::Forward { literal::forward } else { literal::reverse };
        let literal = bench.job_at(CODE_1, way, LARGE, source.clone(), move |_: &Shape, from: Read, to: Write| {
            let [x, y, z] = to;
            convert(from, x, y, z)
        });
        bench.row(&format!("literal divisors in 64 bits, nothing tested, {}", name), literal, None);
    }
}

/// The luma matrices at each depth, both ways, with each pair of ranges. It gives the large frame that the shapes are compared with.
fn luma_matrices(bench: &mut Bench) -> Ticket {
    let mut frames = Vec::new();
    for depth in [8, 10, 12] {
        for way in WAYS {
            for (rgb_full, ycc_full) in [(true, true), (true, false), (false, true), (false, false)] {
                let s = Setting { rgb_depth: depth, y_depth: depth, c_depth: depth, rgb_full, ycc_full, ..CODE_1 };
                frames.push(luma_row(bench, s, way));
            }
        }
    }
    frames[0]
}

/// A row that shows code 1, with a goal that is held against the slowest of the six codes.
fn luma_row(bench: &mut Bench, s: Setting, (way, way_name): (Way, &str)) -> Ticket {
    let goal = match (s.rgb_depth, way, s.rgb_full && s.ycc_full) {
        (8, Way::Forward, true) => 0.6,
        (8, Way::Forward, false) => 1.2,
        _ => 2.8,
    };
    let range = |full: bool| if full { "full" } else { "narrow" };
    let (rgb, ycc) = (range(s.rgb_full), range(s.ycc_full));
    let jobs = six_codes(bench, s, way);
    let code_1 = jobs[0].1;
    bench.row_of_many(&format!("code 1, {} bits, {}, RGB {}, YCbCr {}", s.rgb_depth, way_name, rgb, ycc), jobs, at_most(goal));
    code_1
}

fn six_codes(bench: &mut Bench, s: Setting, way: Way) -> Vec<(String, Ticket)> {
    let source = bench.random(LARGE, [s.rgb_depth; 3]);
    let mut one = |matrix| (format!("code {}", matrix), bench.box_job(Setting { matrix, ..s }, way, LARGE, source.clone()));
    [1, 4, 5, 6, 7, 9].map(&mut one).to_vec()
}

/// Code 0 and YCgCo. It gives the lossless forward frame.
fn other_matrices(bench: &mut Bench) -> Ticket {
    let source = bench.random(LARGE, [8; 3]);
    for (matrix, called) in [(0, "code 0"), (8, "lossy code 8")] {
        for (way, way_name) in WAYS {
            let ticket = bench.box_job(Setting { matrix, ..CODE_1 }, way, LARGE, source.clone());
            bench.row(&format!("{}, 8 bits, {}", called, way_name), ticket, None);
        }
    }
    let ycc = Rc::new(bench.answer(&LOSSLESS, Way::Forward, LARGE, &source));
    let forward = bench.box_job(LOSSLESS, Way::Forward, LARGE, source);
    bench.row("lossless code 8, Y 8, C 9, forward", forward, None);
    let reverse = bench.box_job(LOSSLESS, Way::Reverse, LARGE, ycc.clone());
    bench.row("lossless code 8, Y 8, C 9, reverse", reverse, at_most_of(1.5, forward, "forward"));
    let check = bench.job(LARGE.only_read(), ycc, |shape: &Shape, from: Read, _: Write| {
        assert!(check_by_box(&LOSSLESS, shape, from), "every pixel has a source")
    });
    bench.row("lossless code 8, Y 8, C 9, image check", check, at_most_of(4.0, forward, "forward"));
    forward
}

/// Frames of other shapes, each held against the large one at its setting.
fn shapes(bench: &mut Bench, called: &str, s: Setting, large: Ticket) {
    for (name, shape) in SHAPES {
        let source = bench.random(shape, [8; 3]);
        let ticket = bench.box_job(s, Way::Forward, shape, source);
        bench.row(&format!("{}, {}", called, name), ticket, at_most_of(2.0, large, "the frame"));
    }
}

fn main() {
    let turns = std::env::args().nth(1).map_or(41, |word| word.parse().expect("a number of turns"));
    agree::yardstick_agrees(&CODE_1, LARGE);
    let mut bench = Bench::default();
    references(&mut bench);
    let remarks = rivals::add(&mut bench, &CODE_1);
    let code_1 = luma_matrices(&mut bench);
    let lossless = other_matrices(&mut bench);
    shapes(&mut bench, "code 1, forward", CODE_1, code_1);
    shapes(&mut bench, "lossless, forward", LOSSLESS, lossless);
    judging::add(&mut bench);
    bench.run(turns);
    println!("1,920 by 1,080 where the row says nothing else; {}.\n", Jobs::rule(turns));
    bench.print();
    println!();
    remarks.iter().for_each(|line| println!("{}", line));
}
