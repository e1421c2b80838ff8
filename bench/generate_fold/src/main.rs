//! What `gts_switch generate N` does, as a plain fold over hash maps: no journal, no proof. It prints the same summary. With the
//! words `sealed N` it also computes the seals of the records that a journal would have, and with `capture N` it prints the
//! capture of the day.

mod day;
mod sha256;
mod switch;

use std::env;
use std::io::{self, Write};
use std::process::ExitCode;

/// The most messages of a day.
const MOST_MESSAGES: u32 = 100_000;

fn count_of(word: &str) -> Option<u32> {
    let count = word.parse().ok()?;
    (1..=MOST_MESSAGES).contains(&count).then_some(count)
}

fn main() -> ExitCode {
    let words: Vec<String> = env::args().skip(1).collect();
    let texts: Vec<&str> = words.iter().map(String::as_str).collect();
    let output = match texts[..] {
        [count] => count_of(count).map(|count| switch::summary(count, false).into_bytes()),
        ["sealed", count] => count_of(count).map(|count| switch::summary(count, true).into_bytes()),
        ["capture", count] => count_of(count).map(day::capture),
        _ => None,
    };
    let Some(output) = output else {
        eprintln!("usage: generate_fold [capture | sealed] N");
        return ExitCode::from(2);
    };
    match io::stdout().write_all(&output) {
        Ok(()) => ExitCode::SUCCESS,
        Err(_) => ExitCode::FAILURE,
    }
}
