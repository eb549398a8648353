//! Random comparison: circuits of both kinds with rules, compact states with full ones, texts
//! with programs, simulators with equations, netlists as cells with netlists as
//! bytes, parts with their sequence, peers with each other, all of it under random tables.
//! `random [--seed S] [--count C]`
//!
//! A disagreement is printed with a minimised program and ends the run with
//! a code that isn't zero.

mod against_bytes;
mod against_equations;
mod against_full;
mod against_functional;
mod against_parts;
mod against_peer;
mod against_rules;
mod against_slow;
mod against_tables;
mod against_text;
mod damage;
mod due;
mod equations;
#[cfg(test)]
mod faulty;
mod flight;
mod formats;
mod generate;
mod job;
mod lend;
mod list;
mod listing;
mod minimise;
mod netlists;
mod run;
mod tables;
mod tally;
mod texts;
mod typing;
mod xorshift;

use std::process::ExitCode;

const DEFAULT_SEED: u64 = 1;
const DEFAULT_COUNT: u64 = 2_000;

fn main() -> ExitCode {
    let arguments: Vec<String> = std::env::args().skip(1).collect();
    let Some((seed, count)) = options(&arguments) else {
        eprintln!("usage: random [--seed S] [--count C]");
        return ExitCode::from(2);
    };
    match run::run(seed, count) {
        Ok(tally) => {
            println!("seed {seed}: {tally}");
            ExitCode::SUCCESS
        }
        Err(report) => {
            println!("seed {seed}: {report}");
            ExitCode::FAILURE
        }
    }
}

/// The seed and the count that the arguments tell.
fn options(arguments: &[String]) -> Option<(u64, u64)> {
    let (mut seed, mut count) = (DEFAULT_SEED, DEFAULT_COUNT);
    for pair in arguments.chunks(2) {
        let [name, value] = pair else { return None };
        let value = value.parse().ok()?;
        match name.as_str() {
            "--seed" => seed = value,
            "--count" => count = value,
            _ => return None,
        }
    }
    Some((seed, count))
}

#[cfg(test)]
mod tests {
    use super::*;

    #[test]
    fn options_are_read_in_any_order() {
        let read = |text: &str| {
            let words: Vec<String> = text.split_whitespace().map(str::to_string).collect();
            options(&words)
        };
        assert_eq!(read(""), Some((DEFAULT_SEED, DEFAULT_COUNT)));
        assert_eq!(read("--count 3 --seed 9"), Some((9, 3)));
        assert_eq!(read("--count"), None);
        assert_eq!(read("--many 3"), None);
    }
}
