//! The table: a row for each thing that was timed, with its goal where it has one.

use crate::jobs::{Jobs, Ticket, YARDSTICK};

/// At most so many times what another job takes for a pixel.
#[derive(Clone, Copy)]
pub struct Goal {
    pub most: f64,
    pub of: Ticket,
    /// The other job in a word or two; nothing for the yardstick.
    pub called: &'static str,
}

/// The first job's figures are shown. The goal is held against the slowest, whose label is shown where there are several.
pub struct Row {
    pub name: String,
    pub jobs: Vec<(String, Ticket)>,
    pub goal: Option<Goal>,
}

pub fn print(jobs: &Jobs, rows: &[Row]) {
    println!("| | ms | ns a pixel | of the yardstick | written a pixel | the goal's figure | at most | met |");
    println!("|---|---|---|---|---|---|---|---|");
    for row in rows {
        let shown = row.jobs[0].1;
        println!(
            "| {} | {} | {} | {} | {} | {} |",
            row.name,
            three_digits(jobs.seconds(shown) * 1e3),
            three_digits(jobs.seconds_per_pixel(shown) * 1e9),
            three_digits(ratio(jobs, shown, YARDSTICK)),
            three_digits(jobs.shape(shown).written_per_pixel()),
            row.goal.map_or(String::from("| |"), |goal| verdict(jobs, row, goal))
        );
    }
}

fn verdict(jobs: &Jobs, row: &Row, goal: Goal) -> String {
    let figures = row.jobs.iter().map(|(label, ticket)| (ratio(jobs, *ticket, goal.of), label));
    let (figure, label) = figures.max_by(|a, b| a.0.total_cmp(&b.0)).expect("a job");
    let mut words = three_digits(figure);
    if !goal.called.is_empty() {
        words = words + " of " + goal.called;
    }
    if row.jobs.len() > 1 {
        words = words + ", " + label;
    }
    format!("{} | {} | {}", words, goal.most, if figure <= goal.most { "yes" } else { "no" })
}

fn ratio(jobs: &Jobs, ticket: Ticket, of: Ticket) -> f64 {
    jobs.seconds_per_pixel(ticket) / jobs.seconds_per_pixel(of)
}

/// Three digits that count.
fn three_digits(number: f64) -> String {
    if number == 0.0 {
        return String::from("0");
    }
    let digits_before = number.log10().floor() as i32 + 1;
    format!("{:.*}", (3 - digits_before).max(0) as usize, number)
}
