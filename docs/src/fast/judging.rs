//! The rows on judging: claimed frames, each held against the conversion of the same source.

use crate::bench::{at_most_of, Bench, LARGE, SHAPES};
use crate::claims::CLAIMS;
use crate::jobs::Ticket;
use crate::measured::{CODE_1, LOSSLESS};
use crate::pictures::Shape;
use crate::setting::{Setting, Way};
use crate::table::Goal;

pub fn add(bench: &mut Bench) {
    large(bench, "code 1, 8 bits, both full, judged forward", CODE_1, Way::Forward);
    large(bench, "code 1, 8 bits, both full, judged in reverse", CODE_1, Way::Reverse);
    large(bench, "lossless code 8, Y 8, C 9, judged forward", LOSSLESS, Way::Forward);
    large(bench, "lossless code 8, Y 8, C 9, judged in reverse", LOSSLESS, Way::Reverse);
    shapes(bench, "code 1, judged forward", CODE_1);
    shapes(bench, "lossless, judged forward", LOSSLESS);
}

fn goal(way: Way, frame: Ticket) -> Option<Goal> {
    at_most_of(1.3, frame, if way == Way::Forward { "forward" } else { "reverse" })
}

/// A row for each claim.
fn large(bench: &mut Bench, called: &str, s: Setting, way: Way) {
    let (frame, jobs) = claims(bench, s, way, LARGE);
    for (name, ticket) in jobs {
        bench.row(&format!("{}, {}", called, name), ticket, goal(way, frame));
    }
}

/// A row for each of the first shapes. It shows the claim that agrees, with a goal that is held against the slowest.
fn shapes(bench: &mut Bench, called: &str, s: Setting) {
    for &(name, shape) in &SHAPES[..3] {
        let (frame, jobs) = claims(bench, s, Way::Forward, shape);
        bench.row_of_many(&format!("{}, {}", called, name), jobs, goal(Way::Forward, frame));
    }
}

/// The job of a frame that the box converts, and one for each claim on its source.
fn claims(bench: &mut Bench, s: Setting, way: Way, shape: Shape) -> (Ticket, Vec<(String, Ticket)>) {
    let frame = bench.converted(s, way, shape);
    let jobs = CLAIMS.map(|(claim, name)| (String::from(name), bench.judge_job(&frame, claim)));
    (frame.ticket, jobs.to_vec())
}
