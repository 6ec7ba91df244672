//! The oracle: a second, plain writing of the colour converter's rules, made
//! to be compared with the converter that has the proofs. It writes case
//! texts, answers them, and checks itself.
//!
//! Build: rustc -O --edition 2021 docs/src/oracle/main.rs -o target/oracle

mod answers;
mod cases;
mod fraction;
mod frame_cases;
mod halves;
mod kinds;
mod pixels;
mod random;
mod record_cases;
mod rules;
mod self_test;
mod settings;
mod words;
mod worked;

use std::io::{self, Read, Write};
use std::process::exit;

const USAGE: &str = "usage: oracle pixel-cases SEED   writes pixel cases
       oracle frame-cases SEED   writes frame cases
       oracle record-cases SEED  writes record cases
       oracle answer             reads cases, writes their answers
       oracle self-test          checks the oracle itself";

fn main() {
    let words: Vec<String> = std::env::args().skip(1).collect();
    let words: Vec<&str> = words.iter().map(String::as_str).collect();
    let outcome = match words[..] {
        ["pixel-cases", seed] => parsed_seed(seed).map(cases::pixel_cases),
        ["frame-cases", seed] => parsed_seed(seed).map(frame_cases::frame_cases),
        ["record-cases", seed] => parsed_seed(seed).map(record_cases::record_cases),
        ["answer"] => standard_input().and_then(|cases| answers::answer_text(&cases)),
        ["self-test"] => self_test::run(),
        _ => Err(String::from(USAGE)),
    };
    if let Err(why) = outcome.and_then(|text| print(&text)) {
        eprintln!("oracle: {}", why);
        exit(1);
    }
}

fn parsed_seed(word: &str) -> Result<u64, String> {
    word.parse()
        .map_err(|_| format!("'{}' is not a seed, a number below 2^64", word))
}

fn standard_input() -> Result<String, String> {
    let mut text = String::new();
    let read = io::stdin().read_to_string(&mut text);
    read.map_err(|why| format!("can't read the cases: {}", why))?;
    Ok(text)
}

fn print(text: &str) -> Result<(), String> {
    let mut out = io::stdout();
    let written = out.write_all(text.as_bytes()).and_then(|()| out.flush());
    written.map_err(|why| format!("can't write: {}", why))
}
