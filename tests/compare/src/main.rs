//! Compares any number of random trees by hand: `compare SEED COUNT` holds the
//! model to the Rust, `compare ours SEED COUNT` our code to both.

use compare::ours::compare_ours_random;
use compare::{compare_random, Tally};
use std::process::ExitCode;

fn compare(words: &[&str]) -> Option<Result<Tally, String>> {
    let (ours, numbers) = match words {
        ["ours", numbers @ ..] => (true, numbers),
        numbers => (false, numbers),
    };
    let [seed, count] = numbers else {
        return None;
    };
    let (seed, count) = (seed.parse().ok()?, count.parse().ok()?);
    Some(if ours {
        compare_ours_random(seed, count)
    } else {
        compare_random(seed, count, true)
    })
}

fn main() -> ExitCode {
    let words: Vec<String> = std::env::args().skip(1).collect();
    let words: Vec<&str> = words.iter().map(String::as_str).collect();
    let with_rust = oracle::ready("compare");
    match compare(&words) {
        None => {
            eprintln!("usage: compare [ours] SEED COUNT");
            ExitCode::FAILURE
        }
        Some(Ok(tally)) => {
            println!("with the Rust: {with_rust}");
            println!("{tally:?}");
            ExitCode::SUCCESS
        }
        Some(Err(message)) => {
            println!("{message}");
            ExitCode::FAILURE
        }
    }
}
